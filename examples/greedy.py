#!/usr/bin/env python3
"""A router to begin with: each net breadth first, past all that earlier nets have taken.

usage: pathfinder graph ARCH NX NY WIDTH | greedy.py NET ARCH PLACE >ROUTE
"""
import collections
import sys

import vpr430

design, graph = vpr430.read_design(*sys.argv[1:]), vpr430.graph_of(sys.stdin.read())
room, routes = list(graph.capacities), []


def way_from(tree, wanted):
    """The nodes of a shortest way from a tree to a node that is wanted, or none."""
    came_from, queue = dict.fromkeys(tree), collections.deque(tree)
    while queue and queue[0] not in wanted:
        node = queue.popleft()
        for other in graph.successors[node]:
            is_fit = other in wanted or graph.successors[other]  # no sink of another net
            if is_fit and room[other] and other not in came_from:
                came_from[other] = node
                queue.append(other)
    way = [queue[0]] if queue else []
    while way and came_from[way[0]] is not None:
        way.insert(0, came_from[way[0]])
    return way


for net in design.netlist.nets:
    source, wanted = design.ends(net, graph) if net.is_routed else (None, [])
    tree, route = [], []
    while wanted:
        way = way_from(tree[1:] or [source], wanted)  # one step leaves the source
        if not way:
            sys.exit(f"net {net.name} is stuck")
        for node in way:
            if node not in tree:
                room[node] -= 1
                tree.append(node)
        route += way
        wanted.remove(way[-1])
    routes.append(route)
print(vpr430.routing_text(design, graph, routes), end="")
