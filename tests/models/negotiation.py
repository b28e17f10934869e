"""The search of a net's tree, the negotiation between nets by one worker, and the search of widths, from their rules."""
import functools
import heapq
from dataclasses import dataclass

from device import IPIN, KINDS, SINK, Device
from judge import covered, overuse


# The base costs of the kinds of nodes for which it isn't 20.
BASE_COSTS = {SINK: 0, IPIN: 19}


@dataclass(frozen=True)
class Settings:
    iterations: int = 30
    first: int = 8
    init: int = 8
    mult: int = 32
    acc: int = 20
    bb: int = 3
    steady: bool = False

    def present(self, iteration):
        """The present-congestion factor of an iteration, counted from 1."""
        if iteration <= 2:
            return self.first if iteration == 1 else self.init
        factor = self.init
        for _ in range(iteration - 2):
            factor = min(2**20, factor * self.mult // 16)
        return factor

    def words(self):
        return [
            *("--iterations", str(self.iterations), "--first-pres", str(self.first), "--init-pres", str(self.init)),
            *("--mult", str(self.mult), "--acc", str(self.acc), "--bb", str(self.bb)),
            *(["--steady"] if self.steady else []),
        ]


class Box:
    """The box around a net's terminals, widened on each side."""

    def __init__(self, device, terminals, margin):
        nodes = [device.nodes[node] for node in terminals]
        self.left, self.right = min(it.x for it in nodes) - margin, max(it.x for it in nodes) + margin
        self.bottom, self.top = min(it.y for it in nodes) - margin, max(it.y for it in nodes) + margin

    def has(self, span):
        """Whether one of the places is inside."""
        x1, y1, x2, y2 = span
        return x1 <= self.right and self.left <= x2 and y1 <= self.top and self.bottom <= y2


def cost(device, node, others, history, present):
    base = BASE_COSTS.get(device.nodes[node].kind, 20)
    return (base + history) * (16 + present * max(0, others + 1 - device.capacities[node]))


def search(device, net, others, histories, present, margin, kept=None):
    """The pairs of a net's tree; or None if a sink isn't reached. The net keeps to the tree of the pairs `kept`, if there is one."""
    pairs, open_sinks = grow(device, net, others, histories, present, margin, kept)
    return None if open_sinks else pairs


def grow(device, net, others, histories, present, margin, kept=None):
    """The pairs of a net's tree as far as it grows, and the sinks that it doesn't reach."""
    source, sinks = net
    box, pairs, open_sinks = Box(device, [source, *sinks], margin), [], set(sinks)
    cost_of = functools.cache(lambda node: cost(device, node, others[node], histories[node], present))
    tree = {source}
    while open_sinks:
        starts = tree - {source} or {source}
        if kept is None:
            path = way(device, tree, starts, open_sinks, box, cost_of)
        else:
            path = kept_way(device, tree, starts, open_sinks, box, cost_of, {after: node for node, after in kept})
        if path is None:
            break
        pairs += zip(path, path[1:])
        tree.update(path)
        open_sinks.discard(path[-1])
    return pairs, open_sinks


def way(device, tree, starts, open_sinks, box, cost_of):
    """The nodes from a start to the sink that is taken first: nodes are taken in the order of their cost and then their number."""
    least, before, taken = {start: 0 for start in starts}, {}, set()
    waiting = [(0, start) for start in starts]
    heapq.heapify(waiting)
    while waiting:
        total, node = heapq.heappop(waiting)
        if node in taken:
            continue
        taken.add(node)
        if node in open_sinks:
            return back(before, node)
        for after in device.successors[node]:
            if after in tree or (after in device.sinks and after not in open_sinks) or not box.has(device.places_of[after]):
                continue
            # No cost is below 0, so a node that was reached for less is never reached for even less.
            if after in least and least[after] <= total:
                continue
            reached = total + cost_of(after)
            if after not in least or reached < least[after]:
                least[after], before[after] = reached, node
                heapq.heappush(waiting, (reached, after))
    return None


def kept_way(device, tree, starts, open_sinks, box, cost_of, kept):
    """A way of least cost from a start to an open sink. A node is entered from the one before it on the tree that is kept, if a way of
    least cost leads over that, else from the least-numbered. Of sinks at the least cost those that cost something are first, by their
    numbers, then the others, by the nodes before them."""
    least, before, waiting = {start: 0 for start in starts}, {}, [(0, start) for start in starts]
    heapq.heapify(waiting)
    while waiting:
        total, node = heapq.heappop(waiting)
        if total > least[node] or node in open_sinks:
            continue
        for after in device.successors[node]:
            if after in tree or (after in device.sinks and after not in open_sinks) or not box.has(device.places_of[after]):
                continue
            reached = total + cost_of(after)
            if after not in least or reached < least[after]:
                least[after], before[after] = reached, node
                heapq.heappush(waiting, (reached, after))
            elif reached == least[after] and before[after] != kept.get(after) and (node == kept.get(after) or node < before[after]):
                before[after] = node
    nearest = [sink for sink in open_sinks if sink in least]
    if not nearest:
        return None
    return back(before, min(nearest, key=lambda sink: (least[sink], *((0, sink) if cost_of(sink) else (1, before[sink])))))


def back(before, node):
    path = [node]
    while node in before:
        node = before[node]
        path.append(node)
    return path[::-1]


def negotiate(device, problem, settings):
    """The lists of pairs at the end, whether they are a routing, and how many iterations were made."""
    lists, rows = [None] * len(problem), []
    for iteration in range(1, settings.iterations + 1):
        histories = [0] * len(device.nodes)
        for node, by in (it for row in rows for it in row):
            histories[node] += settings.acc * by
        for number, net in enumerate(problem):
            others = uses_of_others(device, problem, lists, number)
            kept = lists[number] if settings.steady else None
            lists[number] = search(device, net, others, histories, settings.present(iteration), settings.bb, kept)
        rows.append(overuse(device, problem, lists))
        if None in lists:
            return lists, False, iteration
        if not rows[-1]:
            return lists, True, iteration
    return lists, False, settings.iterations


def uses_of_others(device, problem, lists, net):
    """How many other nets use each node."""
    uses = [0] * len(device.nodes)
    for number, ((source, _), pairs) in enumerate(zip(problem, lists)):
        if number != net and pairs is not None:
            for node in covered(source, pairs):
                uses[node] += 1
    return uses


def route(design, width, is_global, settings):
    """What `route` prints, and the routing that it writes, None if it finds none."""
    device = Device(design.arch, design.nx, design.ny, width, is_global)
    problem = list(design.problem(device))
    lists, is_routed, iterations = negotiate(device, problem, settings)
    if is_routed:
        return f"routed, iterations {iterations}\n", routing_text(device, design, lists)
    unrouted, overused = lists.count(None), len(overuse(device, problem, lists))
    return f"not routed: unrouted {unrouted}, overused {overused}, iterations {iterations}\n", None


def next_width(trials, start):
    """The width to try after these trials, None if the search is over."""
    routed = [width for width, is_routed in trials if is_routed]
    if not trials:
        return start
    if not routed:
        last = trials[-1][0]
        return None if last == 256 else min(2 * last, 256)
    least, greatest = min(routed), max([width for width, is_routed in trials if not is_routed], default=0)
    return (least + greatest) // 2 if least - greatest > 1 else None


def least_width(design, start, is_global, settings):
    """What `width` prints, and the routing that it writes, None if it finds none."""
    trials, found = [], {}
    while (width := next_width(trials, start)) is not None:
        _, found[width] = route(design, width, is_global, settings)
        trials.append((width, found[width] is not None))
    text = "".join(f"width {width}: {'routed' if is_routed else 'not routed'}\n" for width, is_routed in trials)
    routed = [width for width, is_routed in trials if is_routed]
    if not routed:
        return f"{text}no routed width\n", None
    return f"{text}least routed width: {min(routed)}\n", found[min(routed)]


def node_line(device, node):
    where = device.nodes[node]
    return f"{KINDS[where.kind]:>6} {device.place_text(where)}  {device.label(where)}: {where.number}"


def section(device, pairs):
    """The nodes of a net's lines: each pair's end, and its begin too if it doesn't go on from the pair before."""
    nodes = []
    for place, (begin, end) in enumerate(pairs):
        goes_on = place and begin == pairs[place - 1][1] and device.nodes[begin].kind != SINK
        nodes += [end] if goes_on else [begin, end]
    return nodes


def block_line(design, terminal):
    number, group = terminal
    block = design.blocks[number]
    return f"Block {block.name} (#{number}) at ({block.x},{block.y}), pinclass {-1 if group is None else group}."


def routing_text(device, design, lists):
    """The text of a routing, a list of pairs for each routed net."""
    return sections_text(device, design, [section(device, pairs) for pairs in lists])


def sections_text(device, design, sections):
    """The text of a routing whose nets have these nodes in their lines; a net with None has no section."""
    lines = [f"Array size: {design.nx} x {design.ny} logic blocks.", "", "Routing:"]
    numbers = {net.number: nodes for net, nodes in zip(design.routed(), sections)}
    for net in design.nets():
        if net.is_global:
            blocks = [block_line(design, terminal) for terminal in (net.driver, *net.sinks)]
            lines += ["", f"Net {net.number} ({net.name}): global net connecting:", "", *blocks]
        elif numbers.get(net.number) is not None:
            lines += ["", f"Net {net.number} ({net.name})", "", *(node_line(device, node) for node in numbers[net.number])]
    return "\n".join([*lines, ""])
