"""What a picture of a routing shows: where each thing is drawn, which nets use what, and colours.

Coordinates are whole units, from the lower left corner of the array to the right and upward. The
tracks of a channel are `PITCH` units apart. tools/draw.js draws by the same rules, and
tests/check-pictures compares the two.
"""
from __future__ import annotations

import argparse
import collections
import dataclasses
import functools
import os
import re
import typing

import command
import vpr430
from vpr430 import Kind, Node

PITCH = 6
# The depth of a pad, seen from its channel.
PAD_DEPTH = 56
# The greatest and the least distance between pins of a logic block, and the usual length of a side.
MOST_SPACING, LEAST_SPACING, USUAL_SIDE = 9, 3, 96
# Colours of nets: colour-blind people can distinguish them, and none is close to that of overuse.
NET_COLOURS = ("#0072b2", "#e69f00", "#009e73", "#aa4499", "#56b4e9", "#332288", "#999933")
OVERUSED_COLOUR = "#d00000"
HISTORY_COLOUR = "#b39ddb"
# Colours of channels, from empty to full.
HEAT_COLOURS = ("#ffffff", "#edf6e4", "#d0e9cf", "#a6d6c9", "#7cbcc8", "#5a9cc2", "#3f78b0")

# What no page and no picture may have: control characters, surrogates and noncharacters.
BAD_CHARACTER = re.compile("[\x00-\x1f\x7f-\x9f\ud800-\udfff\ufffe\uffff]")


def legible(name):
    """A name as it is shown, with U+FFFD instead of each such character or invalid byte."""
    text = name.encode(**vpr430.TEXT).decode("utf-8", "replace")
    return BAD_CHARACTER.sub("\ufffd", text)


class Box(typing.NamedTuple):
    """A rectangle, or a line or a point if sides coincide."""

    left: int
    low: int
    right: int
    high: int


@dataclasses.dataclass(frozen=True)
class Layout:
    """Where the blocks, channels, wires and pins of an array are drawn."""

    nx: int
    ny: int
    # Tracks of a channel, pads at a place, pins of a logic block.
    tracks: int
    pads: int
    pins: int

    @functools.cached_property
    def channel(self):
        """How wide a channel is."""
        return PITCH * (self.tracks + 1)

    @functools.cached_property
    def spacing(self):
        """How far apart the pins of a logic block are."""
        return min(max(USUAL_SIDE // (self.pins + 1), LEAST_SPACING), MOST_SPACING)

    @functools.cached_property
    def side(self):
        """How long the side of a logic block is."""
        return self.spacing * (self.pins + 1)

    @property
    def width(self):
        return self.channel_start(self.nx) + self.channel + PAD_DEPTH

    @property
    def height(self):
        return self.channel_start(self.ny) + self.channel + PAD_DEPTH

    def channel_start(self, at):
        """Where the channel after a column or a row begins."""
        return PAD_DEPTH + at * (self.side + self.channel)

    def block_start(self, at):
        """Where a column or a row begins. The first and the last one have pads."""
        return self.channel_start(at - 1) + self.channel if at else 0

    def block_end(self, at, most):
        return self.block_start(at) + (self.side if 1 <= at <= most else PAD_DEPTH)

    def place(self, x, y):
        """The box of a place with all its blocks."""
        return Box(
            self.block_start(x), self.block_start(y),
            self.block_end(x, self.nx), self.block_end(y, self.ny),
        )

    def block(self, x, y, position):
        """The box of a logic block or of a pad."""
        box = self.place(x, y)
        low, high = (self.side * end // self.pads for end in (position, position + 1))
        if x in (0, self.nx + 1):
            return box._replace(low=box.low + low, high=box.low + high)
        if y in (0, self.ny + 1):
            return box._replace(left=box.left + low, right=box.left + high)
        return box

    def channel_place(self, kind, x, y):
        """The box of a place of a channel."""
        box = self.place(x, y)
        if kind == "CHANX":
            low = self.channel_start(y)
            return box._replace(low=low, high=low + self.channel)
        left = self.channel_start(x)
        return box._replace(left=left, right=left + self.channel)

    def wire(self, node, offset):
        """The line of a wire at this offset from where its channel begins."""
        first, last = (self.channel_place(node.kind, *end) for end in (node[1:3], node[3:5]))
        if node.kind == "CHANX":
            return Box(first.left, first.low + offset, last.right, first.low + offset)
        return Box(first.left + offset, first.low, first.left + offset, last.high)

    def pin(self, node, wire):
        """The point where a pin is, or a source or a sink, seen from a wire."""
        box = self.place(node.x, node.y)
        along = self.spacing * (node.number + 1)
        if node.label == "Pad":
            along = self.side * (2 * node.number + 1) // (2 * self.pads)
        if wire.kind == "CHANX":
            edge = box.low if wire.y < node.y else box.high
            return Box(box.left + along, edge, box.left + along, edge)
        edge = box.left if wire.x < node.x else box.right
        return Box(edge, box.low + along, edge, box.low + along)


def nearest(low, high, other_low, other_high):
    """Where two intervals are nearest to each other."""
    if high < other_low:
        return high, other_low
    if other_high < low:
        return low, other_high
    middle = (max(low, other_low) + min(high, other_high)) // 2
    return middle, middle


def join(box, other):
    """The shortest line from one box to another: its first and its last point."""
    x, other_x = nearest(box.left, box.right, other.left, other.right)
    y, other_y = nearest(box.low, box.high, other.low, other.high)
    return x, y, other_x, other_y


# ---- What is used --------------------------------------------------------------------------------


def source_of(netlist, architecture, placement, net):
    """The source node of a net."""
    driver = net.driver
    site = placement.sites[driver.block]
    if netlist.blocks[driver.block].kind is Kind.CLB:
        label, number = "Class", architecture.pins[driver.pin].pin_class
    else:
        label, number = "Pad", site.position
    return Node("SOURCE", site.x, site.y, site.x, site.y, label, number)


@dataclasses.dataclass
class Design:
    """The files of a design, and the graph of its device."""

    options: argparse.Namespace
    architecture: vpr430.Architecture
    netlist: vpr430.Netlist
    placement: vpr430.Placement
    graph: vpr430.Graph
    layout: Layout

    def source(self, net):
        """The source node of a net."""
        nets = self.netlist.nets
        return source_of(self.netlist, self.architecture, self.placement, nets[net])

    def sections(self, path):
        """The sections of a routing."""
        return vpr430.read_routing(path, self.netlist, self.placement, self.graph)

    @property
    def to_route(self):
        """The number of nets to route."""
        return sum(net.is_routed for net in self.netlist.nets)

    @functools.cached_property
    def chosen(self):
        """The numbers of the nets that the command line names."""
        numbers = {net.name: number for number, net in enumerate(self.netlist.nets)}
        for name in self.options.nets:
            if name not in numbers:
                raise command.WrongWords(f"{self.options.net} has no net `{name}`")
        return [numbers[name] for name in self.options.nets]

    def free_sites(self):
        """The sites without a block."""
        taken = {(site.x, site.y, site.position) for site in self.placement.sites}
        logic = [
            (x, y, 0) for x in range(1, self.layout.nx + 1) for y in range(1, self.layout.ny + 1)
        ]
        pads = [
            (x, y, position)
            for x, y in vpr430.pad_places(self.layout.nx, self.layout.ny)
            for position in range(self.layout.pads)
        ]
        return [site for site in logic + pads if site not in taken]

    @property
    def title(self):
        """A line that describes what is drawn."""
        mode = ", global routing" if self.options.is_global else ""
        layout, name = self.layout, legible(os.path.basename(self.options.net))
        return f"{name}: {layout.nx} x {layout.ny} blocks, width {layout.tracks}{mode}"


@dataclasses.dataclass
class Tree:
    """What a net uses: nodes by their numbers, and the steps from one to the next."""

    net: int
    nodes: list
    steps: list


class Routing:
    """The trees of a routing, legal or not, and which nets use each node.

    A net uses its source and each node that a step leads to, as `pathfinder report` counts.
    """

    def __init__(self, design, graph, sections):
        self.graph = graph
        self.trees = []
        self.nets_at = collections.defaultdict(list)
        for number, section in enumerate(sections):
            if section and section.nodes:
                self._add(number, design.source(number), section.steps(graph))
        self.overused = sorted(
            node for node, nets in self.nets_at.items() if len(nets) > graph.capacities[node]
        )

    def _add(self, number, source, steps):
        steps = list(dict.fromkeys(steps))
        nodes = list(dict.fromkeys([self.graph.numbers[source], *(end for _, end in steps)]))
        self.trees.append(Tree(number, nodes, steps))
        for node in nodes:
            self.nets_at[node].append(number)

    @functools.cached_property
    def wires(self):
        """The wires that nets use."""
        return [node for node in self.nets_at if self.graph.nodes[node].is_wire]

    def occupancy(self, is_global):
        """How many tracks are used at each place of a channel; in a global one each net uses one.

        A place is the kind of its channel, its column and its row.
        """
        taken = collections.Counter()
        for number in self.wires:
            node = self.graph.nodes[number]
            many = len(self.nets_at[number]) if is_global else 1
            for x in range(node.x, node.end_x + 1):
                for y in range(node.y, node.end_y + 1):
                    taken[node.kind, x, y] += many
        return taken

    def in_words(self, number):
        """A node and its use, as `report` prints an overused one."""
        used = len(self.nets_at.get(number, ()))
        text = f"node {number} {self.graph.nodes[number]}"
        return f"{text} used {used} of {self.graph.capacities[number]}"


def colours_of(nets, routing):
    """A colour for each net, by its number: one that few nets next to its wires have."""
    beside = collections.defaultdict(lambda: [0] * len(NET_COLOURS))
    colours, given = [number % len(NET_COLOURS) for number in range(nets)], [0] * len(NET_COLOURS)
    for tree in routing.trees:
        wires = (routing.graph.nodes[node] for node in tree.nodes)
        places = {(wire.kind, wire.x, wire.y) for wire in wires if wire.is_wire}
        if not places:
            continue
        near = [sum(counts) for counts in zip(*(beside[place] for place in places))]
        colour = min(range(len(NET_COLOURS)), key=lambda at: (near[at], given[at]))
        colours[tree.net] = colour
        given[colour] += 1
        for place in places:
            beside[place][colour] += 1
    return colours


def offsets_in(layout, routing, is_global):
    """A function of a node and a net: the offset of the wire from where its channel begins.

    A global channel has one node at each place, and its nets are drawn side by side.
    """
    if not is_global:
        return lambda number, net: PITCH * (routing.graph.nodes[number].number + 1)

    def offset(number, net):
        nets = routing.nets_at[number]
        rank = nets.index(net) if net in nets else len(nets)
        return layout.channel * (rank + 1) // (max(len(nets), layout.tracks) + 1)

    return offset


def step_line(layout, graph, step, lines):
    """The line of a step, or None if it stays within a block. `lines` are those of wires."""
    start, end = (graph.nodes[number] for number in step)
    if not start.is_wire and not end.is_wire:
        return None
    boxes = [
        lines[number] if node.is_wire else layout.pin(node, other)
        for number, node, other in ((step[0], start, end), (step[1], end, start))
    ]
    return join(*boxes)
