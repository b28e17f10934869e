"""What `report` prints, and `check --explain` says, about a routing, counted plainly from the definitions."""
import functools

from device import CHANX, CHANY
from judge import covered, tree_fault


def places_of(device, node):
    """The places of a wire."""
    x1, y1, x2, y2 = device.spans[node]
    return [(x, y) for x in range(x1, x2 + 1) for y in range(y1, y2 + 1)]


def hundredths(number, count):
    """A mean with two decimals, rounded down."""
    whole, left = divmod(number, max(count, 1))
    return f"{whole}.{left * 100 // max(count, 1):02}"


class Routing:
    """A routing of a design: for each routed net a list of pairs of nodes, or None."""

    def __init__(self, device, design, lists):
        self.device, self.design = device, design
        self.nets = design.routed()
        self.lists = lists
        self.covered = [
            {device.nodes[node] for node in covered(source, pairs)} if pairs is not None else set()
            for (source, _), pairs in zip(design.problem(device), lists)
        ]
        self.used = set().union(*self.covered)
        self.occupied = self.occupancy()

    def is_used_of(self, wires):
        """How many of these wires are used, of how many, and the same for their places."""
        used = [wire for wire in wires if wire in self.used]
        lengths = [sum(len(places_of(self.device, wire)) for wire in some) for some in (used, wires)]
        return f"{len(used)} of {len(wires)}", f"{lengths[0]} of {lengths[1]}"

    def occupancy(self):
        """How many tracks are occupied at each place of each kind of channel; in a global one how many nets are there."""
        found = {}
        for wire in self.device.spans:
            nets = sum(wire in nodes for nodes in self.covered)
            for place in places_of(self.device, wire):
                key = wire.kind, *place
                found[key] = found.get(key, 0) + (nets if self.device.is_global else min(nets, 1))
        return found

    # ---- lines

    def whole(self, bound):
        lengths = [sum(len(places_of(self.device, node)) for node in nodes if node in self.device.spans) for nodes in self.covered]
        listed = sum(pairs is not None for pairs in self.lists)
        every = self.design.nets()
        wires, places = self.is_used_of(list(self.device.spans))
        longest = max(lengths, default=0)
        names = [f" {net.name}" for net, length in zip(self.nets, lengths) if length == longest]
        yield f"array {self.device.nx} x {self.device.ny}"
        yield f"width {self.device.width}"
        yield f"bound {bound}"
        yield f"nets {len(every)}"
        yield f"global {sum(net.is_global for net in every)}"
        yield f"trees {listed} of {len(self.nets)}"
        yield f"wires {wires}"
        yield f"places {places}"
        yield f"wirelength {sum(lengths)}"
        yield f"mean {hundredths(sum(lengths), listed)}"
        yield f"greatest {longest}{names[0] if names else ''}"

    def types(self):
        segments = self.device.arch.segments
        width = 1 if self.device.is_global else self.device.width
        tracks = [self.device.type_number(track) for track in range(width)]
        for kind in range(len(segments)):
            wires, places = self.is_used_of([wire for wire in self.device.spans if tracks[wire.number] == kind])
            yield f"type {kind} tracks {tracks.count(kind)} wires {wires} places {places}"

    def channels(self):
        nx, ny = self.device.nx, self.device.ny
        rows = [("x", y, [(CHANX, x, y) for x in range(1, nx + 1)]) for y in range(ny + 1)]
        columns = [("y", x, [(CHANY, x, y) for y in range(1, ny + 1)]) for x in range(nx + 1)]
        for axis, number, places in rows + columns:
            occupied = [self.occupied[place] for place in places]
            yield f"channel {axis} {number} most {max(occupied)} mean {hundredths(sum(occupied), len(occupied))}"

    def overuses(self):
        """Each overused node by its number, with the names of its nets and its room."""
        for number, node in enumerate(self.device.nodes):
            names = [net.name for net, nodes in zip(self.nets, self.covered) if node in nodes]
            room = self.device.capacity(node)
            if len(names) > room:
                yield number, names, room

    def overused(self):
        found = list(self.overuses())
        yield f"overused {len(found)}"
        for number, names, room in found:
            node = self.device.text(self.device.nodes[number])
            yield f"node {number} {node} used {len(names)} of {room} nets {' '.join(names)}"

    def named(self, text):
        """The lines of the file that name an overused node; no two nodes have the same text."""
        over = {self.device.text(self.device.nodes[number]): number for number, _, _ in self.overuses()}
        for line, words in enumerate(text.split("\n"), 1):
            node = over.get(" ".join(words.split()))
            if node is not None:
                yield f"line {line} node {node}"

    def uses(self, text, name):
        """The lines of the file of this name that name an overused node, with the net of their section.

        A net uses a node that it covers; it only names another one, with which its section begins.
        """
        over = {self.device.text(self.device.nodes[number]): (number, names) for number, names, _ in self.overuses()}
        net = None
        for line, words in enumerate(text.split("\n"), 1):
            node = " ".join(words.split())
            if words.startswith("Net "):
                net = words.split("(", 1)[1].split(")")[0]
            elif node in over:
                number, names = over[node]
                yield f"{name}:{line}: net {net} {'uses' if net in names else 'names'} node {number} {node}"

    def each_net(self):
        """The bends, wires and places of the nets: the sum, the mean over those with a tree, and the most, with the first net."""
        wires = [[node for node in nodes if node in self.device.spans] for nodes in self.covered]
        numbers = {
            "bends": [len(self.bends(pairs or ())) for pairs in self.lists],
            "wires": [len(nodes) for nodes in wires],
            "places": [sum(len(places_of(self.device, node)) for node in nodes) for nodes in wires],
        }
        listed = sum(pairs is not None for pairs in self.lists)
        for name, counts in numbers.items():
            most = max(counts, default=0)
            first = [f" {net.name}" for net, count in zip(self.nets, counts) if count == most][:1]
            yield f"net {name} {sum(counts)} mean {hundredths(sum(counts), listed)} most {most}{''.join(first)}"

    def bends(self, pairs):
        """The wires to which a pair leads from a wire of the other direction."""
        kinds = [{self.device.nodes[node].kind for node in pair} for pair in pairs]
        return {end for (_, end), both in zip(pairs, kinds) if both == {CHANX, CHANY}}

    def mark(self, place):
        """The character for a place: how much is occupied, or `!` if an overused wire runs through it."""
        if place in self.overused_places():
            return "!"
        count = self.occupied[place]
        return "0123456789abcdefghijklmnopqrstuvwxyz"[count] if count < 36 else "*"

    @functools.lru_cache(maxsize=1)
    def overused_places(self):
        wires = [self.device.nodes[number] for number, _, _ in self.overuses()]
        return {(wire.kind, *place) for wire in wires if wire in self.device.spans for place in places_of(self.device, wire)}

    def map(self):
        """The array from its top row, one character for each place, between the numbers of rows and above those of columns."""
        nx, ny = self.device.nx, self.device.ny
        yield "map" if nx <= 35 else f"map, {2 * nx + 9} characters wide"
        for row in range(2 * ny, -1, -1):
            y = row // 2
            cells = []
            for column in range(2 * nx + 1):
                x = column // 2
                if row % 2 and column % 2:
                    cells.append(".")
                elif column % 2:
                    cells.append(self.mark((CHANX, x + 1, y)))
                elif row % 2:
                    cells.append(self.mark((CHANY, x, y + 1)))
                else:
                    cells.append("+")
            line = "".join(cells)
            yield f"{y + 1:3} {line} {y + 1:3}" if row % 2 else f"    {line}"
        for unit in (100, 10, 1):
            if unit <= nx:
                yield "    " + "".join(f" {x // unit % 10}" if x >= unit else "  " for x in range(1, nx + 1))


def faults(device, design, lists):
    """The name and the first fault of each net that isn't routed."""
    for net, (source, sinks), pairs in zip(design.routed(), design.problem(device), lists):
        fault = "Unrouted" if pairs is None else tree_fault(device, source, sinks, pairs)
        if fault:
            yield net.name, fault


def overuse_in_words(device, design, lists, text, name):
    """What `check --explain` says about the overused nodes of a routing whose file has this name and text."""
    routing = Routing(device, design, lists)
    return [*routing.overused(), *routing.uses(text, name)]


def report(device, design, lists, bound, text, options):
    """What `report` prints with these options for the routing whose file has this text, with the bound of its netlist."""
    routing = Routing(device, design, lists)
    lines = [*routing.whole(bound), *routing.types(), *routing.channels(), *routing.overused(), *routing.named(text)]
    lines += routing.each_net() if "--full-stats" in options else []
    lines += routing.map() if "--map" in options else []
    return "".join(f"{line}\n" for line in lines)
