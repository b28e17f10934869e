"""A device, plain and slow, from the definitions: a list of its nodes in order, and the edges between any two of them."""
from collections import defaultdict
from dataclasses import dataclass
from typing import NamedTuple, Optional

SOURCE, SINK, OPIN, IPIN, CHANX, CHANY = range(6)
KINDS = ("SOURCE", "SINK", "OPIN", "IPIN", "CHANX", "CHANY")
SIDES = ("top", "bottom", "left", "right")
# The unit of fixed-point numbers.
ONE = 10**9


@dataclass(frozen=True)
class Pin:
    """A pin of a logic block; one that is global leads to no wire."""

    group: int
    is_input: bool
    is_global: bool
    sides: frozenset


@dataclass(frozen=True)
class Segment:
    """A type of wire: its frequency in units of 10^-9, its length in places (None is a longline), and what drives it."""

    frequency: int
    length: Optional[int]
    # The switches by which a wire and an output pin drive it.
    wire_switch: int = 0
    opin_switch: int = 0


@dataclass(frozen=True)
class Architecture:
    """The architecture of a device; the three Fc are in units of 10^-9, of tracks or of the width."""

    pads: int
    pins: tuple
    is_absolute: bool
    fc_output: int
    fc_input: int
    fc_pad: int
    segments: tuple

    def groups(self, is_input):
        """The classes of one direction, ascending."""
        return sorted({pin.group for pin in self.pins if pin.is_input == is_input})

    def group_size(self, group):
        return sum(pin.group == group for pin in self.pins)


class Node(NamedTuple):
    """A node; the numbers of nodes follow this order."""

    kind: int
    x: int
    y: int
    number: int


class Device:
    """An array of logic blocks with pads around it, and channels of `width` tracks between them."""

    def __init__(self, arch, nx, ny, width, is_global=False):
        self.arch, self.nx, self.ny, self.width, self.is_global = arch, nx, ny, width, is_global
        # The number of each track's type, the wires, and the wire at each place.
        self.types = [self.type_number(track) for track in range(width)]
        self.spans = dict(self.wires())
        self.wires_at = dict(self.wire_places())
        self.nodes = sorted([*self.terminals(), *self.spans])
        self.ids = {node: number for number, node in enumerate(self.nodes)}
        self.sinks = {number for number, node in enumerate(self.nodes) if node.kind == SINK}
        # The first place, the last place and the capacity of each node, by its number.
        self.places_of = [self.span(node) for node in self.nodes]
        self.capacities = [self.capacity(node) for node in self.nodes]
        self.successors = [[] for _ in self.nodes]
        for begin, end in {*self.terminal_edges(), *self.tap_edges(), *self.wire_edges()}:
            self.successors[self.ids[begin]].append(self.ids[end])
        for ends in self.successors:
            ends.sort()

    def is_logic(self, x, y):
        return 1 <= x <= self.nx and 1 <= y <= self.ny

    def is_pad(self, x, y):
        return (x in (0, self.nx + 1) and 1 <= y <= self.ny) or (y in (0, self.ny + 1) and 1 <= x <= self.nx)

    def places(self):
        """The places of logic blocks and of pads."""
        every = [(x, y) for x in range(self.nx + 2) for y in range(self.ny + 2)]
        return [at for at in every if self.is_logic(*at)], [at for at in every if self.is_pad(*at)]

    def terminals(self):
        """The nodes of the blocks: for a logic block one for each class and each pin, for a pad's position one of each kind."""
        logic, pads = self.places()
        for x, y in logic:
            for is_input, kind in ((False, SOURCE), (True, SINK)):
                yield from (Node(kind, x, y, group) for group in self.arch.groups(is_input))
            for number, pin in enumerate(self.arch.pins):
                yield Node(IPIN if pin.is_input else OPIN, x, y, number)
        for x, y in pads:
            yield from (Node(kind, x, y, at) for kind in (SOURCE, SINK, OPIN, IPIN) for at in range(self.arch.pads))

    def type_number(self, track):
        """The place of a track's type among those of the architecture."""
        often = [segment.frequency for segment in self.arch.segments]
        if not any(often):
            often = [1] * len(often)
        return next(s for s in range(len(often)) if (2 * track + 1) * sum(often) < 2 * self.width * sum(often[: s + 1]))

    def track_type(self, track):
        """The type of a track, and how many tracks of that type are before it."""
        kind = self.types[track]
        return self.arch.segments[kind], self.types[:track].count(kind)

    def runs(self, track, length):
        """The wires of a track in a channel of this many places: the first and the last place of each."""
        if self.is_global:
            return [(at, at) for at in range(1, length + 1)]
        segment, rank = self.track_type(track)
        step = segment.length or length
        begins = [at for at in range(1, length + 1) if at == 1 or (at - 1 + rank) % step == 0]
        return list(zip(begins, [at - 1 for at in begins[1:]] + [length]))

    def wires(self):
        """The wires, each with its first and its last place."""
        for track in range(1 if self.is_global else self.width):
            for first, last in self.runs(track, self.nx):
                yield from ((Node(CHANX, first, y, track), (first, y, last, y)) for y in range(self.ny + 1))
            for first, last in self.runs(track, self.ny):
                yield from ((Node(CHANY, x, first, track), (x, first, x, last)) for x in range(self.nx + 1))

    def span(self, node):
        """The first and the last place of a node."""
        return self.spans.get(node, (node.x, node.y, node.x, node.y))

    def capacity(self, node):
        if node.kind in (SOURCE, SINK) and self.is_logic(node.x, node.y):
            return self.arch.group_size(node.number)
        return self.width if self.is_global and node.kind in (CHANX, CHANY) else 1

    def terminal_edges(self):
        """From sources to output pins, and from input pins to sinks, of one class or position."""
        logic, pads = self.places()
        for x, y in logic:
            for number, pin in enumerate(self.arch.pins):
                if pin.is_input:
                    yield Node(IPIN, x, y, number), Node(SINK, x, y, pin.group)
                else:
                    yield Node(SOURCE, x, y, pin.group), Node(OPIN, x, y, number)
        for x, y in pads:
            for at in range(self.arch.pads):
                yield Node(SOURCE, x, y, at), Node(OPIN, x, y, at)
                yield Node(IPIN, x, y, at), Node(SINK, x, y, at)

    def tracks(self, fc, pin):
        """The tracks that a pin taps."""
        if self.is_global:
            return {0}
        exact = fc if self.arch.is_absolute else fc * self.width
        count = min(max((2 * exact + ONE) // (2 * ONE), 1), self.width)
        return {(pin + i * self.width // count) % self.width for i in range(count)}

    def wire_places(self):
        """Each place of a channel and each track, and the wire of that track through that place."""
        for wire, (x1, y1, x2, y2) in self.spans.items():
            yield from (((wire.kind, x, y, wire.number), wire) for x in range(x1, x2 + 1) for y in range(y1, y2 + 1))

    def channels_beside(self, x, y, sides):
        """The channel places beside a logic block's sides, or beside a pad."""
        if self.is_logic(x, y):
            beside = {"top": (CHANX, x, y), "bottom": (CHANX, x, y - 1), "right": (CHANY, x, y), "left": (CHANY, x - 1, y)}
            return [beside[side] for side in sides]
        if x in (0, self.nx + 1):
            return [(CHANY, min(x, self.nx), y)]
        return [(CHANX, x, min(y, self.ny))]

    def tap_edges(self):
        """Between pins and the wires that they tap."""
        logic, pads = self.places()
        for x, y in logic:
            for number, pin in enumerate(self.arch.pins):
                if not pin.is_global:
                    fc = self.arch.fc_input if pin.is_input else self.arch.fc_output
                    node = Node(IPIN if pin.is_input else OPIN, x, y, number)
                    yield from self.taps_of(node, self.channels_beside(x, y, pin.sides), self.tracks(fc, number))
        for x, y in pads:
            for at in range(self.arch.pads):
                for kind in (OPIN, IPIN):
                    tracks = self.tracks(self.arch.fc_pad, at)
                    yield from self.taps_of(Node(kind, x, y, at), self.channels_beside(x, y, ()), tracks)

    def taps_of(self, node, channels, tracks):
        for channel in channels:
            for track in tracks:
                wire = self.wires_at[(*channel, track)]
                yield (node, wire) if node.kind == OPIN else (wire, node)

    def corners(self, wire):
        """The corners that a wire touches: each of its places joins the corner before it and the one after it."""
        x1, y1, x2, y2 = self.spans[wire]
        if wire.kind == CHANX:
            return [(x, y1) for x in range(x1 - 1, x2 + 1)]
        return [(x1, y) for y in range(y1 - 1, y2 + 1)]

    def wire_edges(self):
        """Between wires of one track that touch one corner."""
        meeting = defaultdict(list)
        for wire in self.spans:
            for corner in self.corners(wire):
                meeting[corner, wire.number].append(wire)
        for wires in meeting.values():
            yield from ((begin, end) for begin in wires for end in wires if begin != end)

    def label(self, node):
        """What a node's number counts."""
        if node.kind in (CHANX, CHANY):
            return "Track"
        if not self.is_logic(node.x, node.y):
            return "Pad"
        return "Class" if node.kind in (SOURCE, SINK) else "Pin"

    def place_text(self, node):
        x1, y1, x2, y2 = self.span(node)
        return f"({x1},{y1})" if (x1, y1) == (x2, y2) else f"({x1},{y1}) to ({x2},{y2})"

    def text(self, node):
        """A node as `graph` and `check` print it."""
        return f"{KINDS[node.kind]} {self.place_text(node)} {self.label(node)}: {node.number}"

    def type_text(self, node):
        """The part of a node's line about its type."""
        return f" type {self.type_number(node.number)}" if node.kind in (CHANX, CHANY) else ""

    def switch_text(self, begin, end):
        """The part of an edge's line about its switch."""
        if end.kind not in (CHANX, CHANY):
            return ""
        segment = self.arch.segments[self.type_number(end.number)]
        return f" switch {segment.opin_switch if begin.kind == OPIN else segment.wire_switch}"

    def listing(self, is_typed=False):
        """What `graph` prints, or `graph --types`."""
        edges, nodes = [], []
        for number, (node, ends) in enumerate(zip(self.nodes, self.successors)):
            kind = self.type_text(node) if is_typed else ""
            nodes.append(f"{number} {self.text(node)} cap {self.capacity(node)}{kind}\n")
            for end in ends:
                switch = self.switch_text(node, self.nodes[end]) if is_typed else ""
                edges.append(f"{number} -> {end}{switch}\n")
        return f"{len(nodes)} nodes, {len(edges)} edges\n" + "".join(nodes) + "".join(edges)
