"""Reads the text files of VPR 4.30: architectures, netlists, placements and routings.

    import vpr430

    design = vpr430.read_design("uart.net", "k4n1.arch", "uart.place")
    graph = vpr430.graph_of(listing)  # what `pathfinder graph k4n1.arch 11 11 6` prints
    nets = vpr430.read_nets("nets")  # what `pathfinder nets .. --width 6` prints, in a file
    sections = vpr430.read_routing("uart.route", design.netlist, design.placement, graph)
    log = vpr430.read_log("run.log")  # what `pathfinder route .. --log run.log` writes

It also writes netlists, placements and routings. docs/FORMATS.md describes the files and their
limits, and has a table of the calls of this module ("In Python"). A refused file raises `Fault`,
whose text is `FILE:LINE: what is wrong`; one that can't be read raises `Unread`. Of an architecture
it keeps only what packing, placing, routing and drawing need, and skips the other lines. The texts
that `netlist_text`, `placement_text` and `routing_text` return give the same blocks, nets, sites
and nodes when they are read again.

Names keep bytes that aren't UTF-8 (`surrogateescape`). This module needs only Python 3.8 or later
and its standard library.
"""
from __future__ import annotations

import dataclasses
import enum
import functools
import re
import typing

MOST_BYTES = 2**24
MOST_NUMBER = 2**32 - 1
# Pads at a place, pins of a block, classes, blocks, nets, logic blocks in a row or a column.
MOST_PADS, MOST_PINS, MOST_CLASSES = 16, 64, 64
MOST_BLOCKS, MOST_NETS, MOST_SIDE = 20_000, 65_535, 100
# No net: the word for an unused pin in a pinlist or a subblock.
OPEN = "open"
TEXT = {"encoding": "utf-8", "errors": "surrogateescape"}
BAD_BYTE = re.compile(rb"[\x00-\x08\x0e-\x1f\x7f]")
# The most columns of a written line, if its words allow.
WIDEST = 79


# ---- Texts ---------------------------------------------------------------------------------------


class Fault(Exception):
    """A file is malformed, or has what it may not have."""


class Unread(Exception):
    """A file can't be read, or can't be written."""


@dataclasses.dataclass(frozen=True)
class Line:
    """A line of a file by its words. A continued line has the number of its first line."""

    path: str
    number: int
    words: tuple

    def fault(self, what):
        """A fault of this line."""
        return Fault(f"{self.path}:{self.number}: {what}")

    def number_of(self, word, least=0, most=MOST_NUMBER):
        """The number that a word of this line is."""
        digits = word.lstrip("0") or word[-1:]
        is_number = re.fullmatch("[0-9]+", word) and len(digits) <= len(str(most))
        if not is_number or not least <= int(digits) <= most:
            raise self.fault(f"`{word}` is not a number from {least} to {most}")
        return int(digits)

    def expect(self, form):
        """Refuses a line without the words of a form; those in capitals match any word."""
        wanted = form.split()
        fits = len(self.words) == len(wanted) and all(
            want.isupper() or word == want for word, want in zip(self.words, wanted)
        )
        if not fits:
            raise self.fault(f"the line must have the form `{form}`")


def read_source(path):
    """The bytes of a file."""
    try:
        with open(path, "rb") as file:
            source = file.read(MOST_BYTES + 1)
    except (OSError, ValueError) as fault:  # a name with a zero byte is no OSError
        raise Unread(f"{path}: {getattr(fault, 'strerror', fault)}") from fault
    if len(source) > MOST_BYTES:
        raise Fault(f"{path}: it has more than {MOST_BYTES} bytes")
    return source


def _lines_of(rows, path):
    """The lines of rows of bytes that have words.

    Comments are removed first; then a backslash at the end of a line continues it on the next one.
    """
    held, first = [], None
    for number, row in enumerate(rows, 1):
        if BAD_BYTE.search(row):
            raise Line(path, number, ()).fault("the line has a control character")
        words = row.split(b"#", 1)[0].split()
        first = first or number
        goes_on = bool(words) and words[-1].endswith(b"\\")
        if goes_on:
            words[-1] = words[-1][:-1]
        held += [word.decode(**TEXT) for word in words if word]
        if not goes_on:
            if held:
                yield Line(path, first, tuple(held))
            held, first = [], None
    if held:
        yield Line(path, first, tuple(held))


def read_lines(path):
    """The lines of a file that have words, and one without words for the end of the file."""
    rows = read_source(path).split(b"\n")
    return list(_lines_of(rows, path)), Line(path, len(rows), ())


def folded(words, indent="   "):
    """Words as a line, which is continued by backslashes if it would be too wide."""
    rows, row = [], ""
    for word in words:
        if row.strip() and len(row) + 1 + len(word) > WIDEST - 2:
            rows.append(row)
            row = indent + word
        else:
            row = f"{row} {word}" if row else word
    return " \\\n".join([*rows, row]) + "\n"


# ---- Architectures -------------------------------------------------------------------------------


class Side(enum.Enum):
    """A side of a logic block."""

    TOP = "top"
    BOTTOM = "bottom"
    LEFT = "left"
    RIGHT = "right"


@dataclasses.dataclass(frozen=True)
class Pin:
    """A pin of a logic block. Pins of one class are equivalent."""

    number: int
    pin_class: int
    is_input: bool
    is_global: bool
    sides: frozenset


@dataclasses.dataclass(frozen=True)
class Architecture:
    """A device: how many pads fit at each place of its border, and what a logic block is like."""

    pads: int
    pins: tuple
    # How many subblocks a logic block has, and how many inputs their look-up tables have; None if
    # the file doesn't say.
    subblocks: int | None
    lut_size: int | None

    def input_pins(self):
        """The pins that take the signals of ordinary nets."""
        return [pin for pin in self.pins if pin.is_input and not pin.is_global]

    def output_pins(self):
        return [pin for pin in self.pins if not pin.is_input]

    def clock_pins(self):
        """The pins that take global nets."""
        return [pin for pin in self.pins if pin.is_global]


# The keywords of an architecture that aren't used here.
SKIPPED = (
    "chan_width_io chan_width_x chan_width_y switch_block_type Fc_type Fc_output Fc_input Fc_pad"
    " segment switch"
).split()
# The keywords that have one number, with its least and its greatest value.
COUNTS = {
    "io_rat": (1, MOST_PADS),
    "subblocks_per_clb": (0, MOST_NUMBER),
    "subblock_lut_size": (0, MOST_NUMBER),
}


def _pin_of(line, number):
    """The pin of a line such as `inpin class: 0 top left`."""
    key, *words = line.words
    if len(words) < 2 or words[0] != "class:":
        raise line.fault(f"the line must have the form `{key} class: N SIDES`")
    pin_class = line.number_of(words[1], most=MOST_CLASSES - 1)
    is_global = key == "inpin" and words[2:3] == ["global"]
    names = words[3:] if is_global else words[2:]
    for name in names:
        if name not in [side.value for side in Side]:
            raise line.fault(f"`{name}` is not a side of a block")
    if not names and not is_global:
        raise line.fault("the pin has no side")
    return Pin(number, pin_class, key == "inpin", is_global, frozenset(map(Side, names)))


def read_architecture(path):
    """The architecture of a file."""
    lines, end = read_lines(path)
    counts, pins, directions = {}, [], {}
    for line in lines:
        key = line.words[0]
        if key in COUNTS:
            if key in counts:
                raise line.fault(f"duplicate `{key}`")
            line.expect(f"{key} N")
            counts[key] = line.number_of(line.words[1], *COUNTS[key])
        elif key in ("inpin", "outpin"):
            pin = _pin_of(line, len(pins))
            if directions.setdefault(pin.pin_class, pin.is_input) != pin.is_input:
                raise line.fault(f"class {pin.pin_class} has inputs and outputs")
            pins.append(pin)
            if len(pins) > MOST_PINS:
                raise line.fault(f"there are more than {MOST_PINS} pins")
        elif key not in SKIPPED and not key.startswith(("T_", "C_", "R_")):
            raise line.fault(f"`{key}` is not a keyword of an architecture")
    if "io_rat" not in counts or not pins:
        lacking = "a pin" if pins == [] and "io_rat" in counts else "`io_rat`"
        raise end.fault(f"the file ends without {lacking}")
    if sorted(directions) != list(range(len(directions))):
        raise end.fault("classes must run from 0 without gaps")
    sizes = (counts.get(key) for key in ("subblocks_per_clb", "subblock_lut_size"))
    return Architecture(counts["io_rat"], tuple(pins), *sizes)


# ---- Netlists ------------------------------------------------------------------------------------


class Kind(enum.Enum):
    """The kind of a block: a pad that drives a net, a pad that takes one, or a logic block."""

    INPUT = "input"
    OUTPUT = "output"
    CLB = "clb"


@dataclasses.dataclass(frozen=True)
class Subblock:
    """A look-up table and a flip-flop of a logic block, by the connections of its inputs, output
    and clock.

    Each is the number of a pin of the block, `open`, or for an input `ble_N`, the output of the
    block's subblock N.
    """

    name: str
    inputs: tuple
    output: str
    clock: str


@dataclasses.dataclass
class Block:
    """A block with the net of each of its pins, or None for an open pin."""

    name: str
    kind: Kind
    nets: list
    subblocks: list = dataclasses.field(default_factory=list)
    # The text of a comment on the block in a written netlist.
    note: str = ""

    @property
    def is_pad(self):
        return self.kind is not Kind.CLB


@dataclasses.dataclass(frozen=True)
class Terminal:
    """A pin of a block, by the block's number and the pin's position in its pinlist."""

    block: int
    pin: int


@dataclasses.dataclass
class Net:
    """A net with the pin that drives it and those that take its signal."""

    name: str
    driver: Terminal | None
    sinks: list
    is_global: bool

    @property
    def is_routed(self):
        """Whether it needs wires."""
        return bool(self.sinks) and not self.is_global

    def terminals(self):
        return [self.driver, *self.sinks]


@dataclasses.dataclass
class Netlist:
    """Blocks and nets, numbered from 0 as FORMATS.md explains."""

    blocks: list
    nets: list
    global_names: list


def drives(architecture, block, pin):
    """Whether this pin of the block drives its net."""
    if block.is_pad:
        return block.kind is Kind.INPUT
    return not architecture.pins[pin].is_input


def join_nets(architecture, blocks, global_names):
    """The nets at the pins of blocks, and for each net with several drivers the second one."""
    nets, too_many = {}, {}
    for number, block in enumerate(blocks):
        for pin, name in enumerate(block.nets):
            if name is None:
                continue
            net = nets.setdefault(name, Net(name, None, [], name in global_names))
            if not drives(architecture, block, pin):
                net.sinks.append(Terminal(number, pin))
            elif net.driver is None:
                net.driver = Terminal(number, pin)
            else:
                too_many.setdefault(name, Terminal(number, pin))
    return list(nets.values()), too_many


def _block_of(architecture, element, line):
    """The block that an element's line and its pinlist's line describe."""
    if line.words[0] != "pinlist:":
        raise line.fault("a pinlist must follow an element")
    kind = Kind(element.words[0][1:])
    nets = [None if word == OPEN else word for word in line.words[1:]]
    many = len(architecture.pins) if kind is Kind.CLB else 1
    if len(nets) != many:
        raise line.fault(f"the pinlist has {len(nets)} names instead of {many}")
    return Block(element.words[1], kind, nets)


def _subblock_of(architecture, line):
    """The subblock of a line, or None if it has another form: `pathfinder` doesn't read it."""
    many = architecture.lut_size
    if many is None or len(line.words) != many + 4:
        return None
    return Subblock(line.words[1], line.words[2 : 2 + many], *line.words[-2:])


def read_netlist(path, architecture):
    """The netlist of a file, for an architecture."""
    lines, end = read_lines(path)
    blocks, pinlists, names, global_names, element = [], [], set(), [], None
    for line in lines:
        key = line.words[0]
        if element:
            blocks.append(_block_of(architecture, element, line))
            pinlists.append(line)
            if blocks[-1].name in names:
                raise element.fault(f"two blocks have the name `{blocks[-1].name}`")
            names.add(blocks[-1].name)
            element = None
        elif key in (".input", ".output", ".clb"):
            line.expect(f"{key} NAME")
            element = line
            if len(blocks) == MOST_BLOCKS:
                raise line.fault(f"there are more than {MOST_BLOCKS} blocks")
        elif key == ".global" and len(line.words) > 1:
            global_names += line.words[1:]
        elif key == "subblock:" and blocks and not blocks[-1].is_pad:
            subblock = _subblock_of(architecture, line)
            blocks[-1].subblocks += [subblock] if subblock else []
        else:
            raise line.fault(f"unexpected `{key}`")
    if element:
        raise end.fault("the file ends after an element without its pinlist")
    nets, too_many = join_nets(architecture, blocks, set(global_names))
    if len(nets) > MOST_NETS:
        raise end.fault(f"there are more than {MOST_NETS} nets")
    netlist = Netlist(blocks, nets, global_names)
    for net in nets:
        _check_net(architecture, netlist, net, too_many, pinlists)
    return netlist


def _check_net(architecture, netlist, net, too_many, pinlists):
    """Refuses a net that isn't driven exactly once, or that can't be routed to one of its pins."""
    ends = [end.block for end in (net.driver, *net.sinks) if end]
    line = pinlists[min(ends)]
    if net.driver is None:
        raise line.fault(f"nothing drives the net `{net.name}`")
    if net.name in too_many:
        raise line.fault(f"more than one pin drives the net `{net.name}`")
    met = set()
    for end in net.sinks:
        if net.is_global or netlist.blocks[end.block].is_pad:
            continue
        pin = architecture.pins[end.pin]
        if pin.is_global:
            raise line.fault(f"the net `{net.name}` isn't global, but is on a global pin")
        if (end.block, pin.pin_class) in met:
            name = netlist.blocks[end.block].name
            raise line.fault(f"the net `{net.name}` is on two pins of one class of `{name}`")
        met.add((end.block, pin.pin_class))


def netlist_text(blocks, global_names, heads=()):
    """The text of a netlist, with comment lines at its head."""
    parts = ["".join(f"# {head}\n" for head in heads)]
    if global_names:
        parts.append(folded([".global", *global_names]))
    for block in blocks:
        note = f" # {block.note}" if block.note else ""
        nets = [OPEN if name is None else name for name in block.nets]
        text = f".{block.kind.value} {block.name}{note}\n" + folded(["pinlist:", *nets])
        for subblock in block.subblocks:
            words = [subblock.name, *subblock.inputs, subblock.output, subblock.clock]
            text += folded(["subblock:", *words])
        parts.append(text)
    return "\n".join(part for part in parts if part)


# ---- Placements ----------------------------------------------------------------------------------


@dataclasses.dataclass(frozen=True)
class Site:
    """A place of the array and, at its border, the pad's number at the place."""

    x: int
    y: int
    position: int = 0


@dataclasses.dataclass
class Placement:
    """The size of an array, and the site of each block by its number."""

    nx: int
    ny: int
    sites: list


def pad_places(nx, ny):
    """The places of pads, around the array from the lower left corner upward."""
    left = [(0, y) for y in range(1, ny + 1)]
    top = [(x, ny + 1) for x in range(1, nx + 1)]
    right = [(nx + 1, y) for y in range(ny, 0, -1)]
    bottom = [(x, 0) for x in range(nx, 0, -1)]
    return left + top + right + bottom


def is_site(architecture, nx, ny, block, site):
    """Whether a block may be placed there."""
    is_column, is_row = 1 <= site.x <= nx, 1 <= site.y <= ny
    if not block.is_pad:
        return is_column and is_row and site.position == 0
    is_beside = (site.x in (0, nx + 1) and is_row) or (site.y in (0, ny + 1) and is_column)
    return is_beside and site.position < architecture.pads


def read_placement(path, architecture, netlist):
    """The placement of a file, for a netlist."""
    lines, end = read_lines(path)
    heads = ("Netlist file: NET Architecture file: ARCH", "Array size: NX x NY logic blocks")
    for at, form in enumerate(heads):
        if at == len(lines):
            raise end.fault(f"the file has no line `{form}`")
        lines[at].expect(form)
    nx, ny = (lines[1].number_of(lines[1].words[at], 1, MOST_SIDE) for at in (2, 4))
    numbers = {block.name: number for number, block in enumerate(netlist.blocks)}
    sites, taken = {}, set()
    for line in lines[2:]:
        line.expect("BLOCK X Y SUBBLK")
        name = line.words[0]
        site = Site(*(line.number_of(word) for word in line.words[1:]))
        if name not in numbers:
            raise line.fault(f"the netlist has no block `{name}`")
        if numbers[name] in sites:
            raise line.fault(f"an earlier row places the block `{name}`")
        if not is_site(architecture, nx, ny, netlist.blocks[numbers[name]], site):
            raise line.fault(f"the block `{name}` can't be placed there")
        if site in taken:
            raise line.fault("an earlier row has the same site")
        sites[numbers[name]] = site
        taken.add(site)
    for name, number in numbers.items():
        if number not in sites:
            raise end.fault(f"the file has no row for the block `{name}`")
    return Placement(nx, ny, [sites[number] for number in range(len(netlist.blocks))])


def placement_text(placement, netlist, net_name, arch_name):
    """The text of a placement. The names are those of its files, for the head.

    Each is one word there: `_` replaces characters that would end it or begin a comment.
    """
    names = [re.sub(r"[\s#\\\x00-\x1f\x7f]", "_", name) for name in (net_name, arch_name)]
    rows = [
        f"Netlist file: {names[0]}   Architecture file: {names[1]}",
        f"Array size: {placement.nx} x {placement.ny} logic blocks",
        "",
        "#block name\tx\ty\tsubblk\tblock number",
        "#----------\t--\t--\t------\t------------",
    ]
    for number, (block, site) in enumerate(zip(netlist.blocks, placement.sites)):
        rows.append(f"{block.name}\t{site.x}\t{site.y}\t{site.position}\t#{number}")
    return "\n".join(rows) + "\n"


# ---- Placed netlists -----------------------------------------------------------------------------


@dataclasses.dataclass
class Design:
    """A netlist that is placed on an array of an architecture."""

    architecture: Architecture
    netlist: Netlist
    placement: Placement

    def end(self, terminal):
        """The node of a terminal: a SOURCE if it drives its net, else a SINK."""
        block = self.netlist.blocks[terminal.block]
        site = self.placement.sites[terminal.block]
        kind = "SOURCE" if drives(self.architecture, block, terminal.pin) else "SINK"
        if block.is_pad:
            label = ("Pad", site.position)
        else:
            label = ("Class", self.architecture.pins[terminal.pin].pin_class)
        return Node(kind, site.x, site.y, site.x, site.y, *label)

    def ends(self, net, graph):
        """The number of the source of a net, and those of its sinks."""
        source, *sinks = (graph.numbers[self.end(terminal)] for terminal in net.terminals())
        return source, sinks

    def block_text(self, terminal):
        """The line of a terminal of a global net in a routing."""
        block, site = self.netlist.blocks[terminal.block], self.placement.sites[terminal.block]
        number = -1 if block.is_pad else self.architecture.pins[terminal.pin].pin_class
        return f"Block {block.name} (#{terminal.block}) at ({site.x},{site.y}), pinclass {number}."


def read_design(net_path, arch_path, place_path):
    """The placed netlist of three files, in the order in which `pathfinder` takes them."""
    architecture = read_architecture(arch_path)
    netlist = read_netlist(net_path, architecture)
    return Design(architecture, netlist, read_placement(place_path, architecture, netlist))


# ---- Devices -------------------------------------------------------------------------------------


class Node(typing.NamedTuple):
    """A node of a device: its kind, its first and its last place, and its label and number."""

    kind: str
    x: int
    y: int
    end_x: int
    end_y: int
    label: str
    number: int

    def __str__(self):
        end = "" if self[1:3] == self[3:5] else f" to ({self.end_x},{self.end_y})"
        return f"{self.kind} ({self.x},{self.y}){end} {self.label}: {self.number}"

    def routing_text(self):
        """The node's line in a routing."""
        place, label, number = str(self).split(" ", 1)[1].rsplit(" ", 2)
        return f"{self.kind:>6} {place}  {label} {number}"

    @property
    def is_wire(self):
        return self.kind in WIRES

    @property
    def places(self):
        """The number of places that it passes, which is the length of a wire."""
        return 1 + self.end_x - self.x + self.end_y - self.y


WIRES = ("CHANX", "CHANY")
LISTED_NODE = re.compile(
    r"(\d+) (\w+) \((\d+),(\d+)\)(?: to \((\d+),(\d+)\))? (\w+): (\d+) cap (\d+)"
    r"(?: type (\d+))?"
)


@dataclasses.dataclass
class Graph:
    """The nodes of a device by their numbers, the number of nets that each has room for, and edges.

    An edge is a line of the listing, such as `84 -> 64`. In the listing of `graph --types` a wire
    has a type, and an edge into a wire has a switch.
    """

    nodes: list
    capacities: list
    edges: list
    # The type of each node; None if it isn't a wire, or if the listing has no types.
    types: list = dataclasses.field(default_factory=list)

    @functools.cached_property
    def numbers(self):
        """The number of each node."""
        return {node: number for number, node in enumerate(self.nodes)}

    @functools.cached_property
    def successors(self):
        """For each node the numbers of the nodes to which it leads."""
        return [[end for end, _ in ends] for ends in self.steps]

    @functools.cached_property
    def steps(self):
        """For each node the numbers of the nodes to which it leads, each with a switch or None."""
        steps, many = [[] for _ in self.nodes], len(self.nodes)
        for edge in self.edges:
            start, _, rest = edge.partition(" -> ")
            end, has_switch, switch = rest.partition(" switch ")
            are_numbers = all(map(str.isdecimal, (start, end, switch if has_switch else "0")))
            if not are_numbers or max(int(start), int(end)) >= many:
                raise Fault(f"graph: `{edge}` is not an edge between two of its nodes")
            steps[int(start)].append((int(end), int(switch) if has_switch else None))
        return steps


def graph_of(listing, name="graph"):
    """The graph of the listing that `pathfinder graph` prints, with types or without.

    Faults use the name for the listing.
    """
    head, *lines = listing.splitlines() or [""]
    counts = re.fullmatch(r"(\d+) nodes, (\d+) edges", head)
    if not counts or int(counts[1]) + int(counts[2]) != len(lines):
        raise Fault(f"{name}:1: it is not a listing of `pathfinder graph`")
    many = int(counts[1])
    nodes, capacities, types = [], [], []
    for number, line in enumerate(lines[:many]):
        found = LISTED_NODE.fullmatch(line)
        if not found or int(found[1]) != number:
            raise Fault(f"{name}:{number + 2}: it is not the line of node {number}")
        _, kind, x, y, end_x, end_y, label, at, capacity, wire_type = found.groups()
        nodes.append(Node(kind, int(x), int(y), int(end_x or x), int(end_y or y), label, int(at)))
        capacities.append(int(capacity))
        types.append(None if wire_type is None else int(wire_type))
    return Graph(nodes, capacities, lines[many:], types)


class RoutedNet(typing.NamedTuple):
    """A net to route, by its number: the numbers of its source and of its sinks."""

    number: int
    name: str
    source: int
    sinks: tuple


def _routed_net_of(line):
    """The net of a line such as `net 0 rx source 96 sinks 341 375`."""
    words = line.words
    if len(words) < 7 or (words[0], words[3], words[5]) != ("net", "source", "sinks"):
        raise line.fault("the line must have the form `net N NAME source N sinks N ..`")
    number, source, *sinks = (line.number_of(word) for word in (words[1], words[4], *words[6:]))
    return RoutedNet(number, words[2], source, tuple(sinks))


def nets_of(listing, name="nets"):
    """The nets of the listing that `pathfinder nets` prints, in order. Faults use the name."""
    nets = []
    for at, row in enumerate(listing.splitlines(), 1):
        line = Line(name, at, tuple(row.split()))
        net = _routed_net_of(line)
        if nets and nets[-1].number >= net.number:
            raise line.fault("the net's number isn't greater than that of the net before")
        nets.append(net)
    return nets


def read_nets(path):
    """The nets of a file with the output of `pathfinder nets`."""
    return nets_of(read_source(path).decode(**TEXT), path)


# ---- Routings ------------------------------------------------------------------------------------


@dataclasses.dataclass
class Section:
    """The section of a net in a routing: nodes by number, each with the number of its line."""

    line: int
    nodes: list = dataclasses.field(default_factory=list)
    lines: list = dataclasses.field(default_factory=list)

    def steps(self, graph):
        """The pairs of successive nodes: the second is reached from the first."""
        return [
            (before, node)
            for before, node in zip(self.nodes, self.nodes[1:])
            if graph.nodes[before].kind != "SINK"
        ]


NODE_LABELS = {
    "SOURCE": ("Class:", "Pad:"),
    "SINK": ("Class:", "Pad:"),
    "OPIN": ("Pin:", "Pad:"),
    "IPIN": ("Pin:", "Pad:"),
    "CHANX": ("Track:",),
    "CHANY": ("Track:",),
}
BRACKETS = str.maketrans("(,)", "   ")


def _named_node(line):
    """The node that a line of a routing names, whether the device has it or not."""
    words = " ".join(line.words).translate(BRACKETS).split()
    has_ends = len(words) == 8 and words[0] in WIRES and words[3] == "to"
    if len(words) != 5 and not has_ends or words[-2] not in NODE_LABELS.get(words[0], ()):
        raise line.fault("the line must have the form `KIND (X,Y) LABEL: NUMBER`")
    kind, label = words[0], words[-2]
    x, y, *end = (line.number_of(word) for word in (*words[1:3], *words[4:-2][: 2 * has_ends]))
    first, last = sorted([(x, y), tuple(end) or (x, y)])
    return Node(kind, *first, *last, label[:-1], line.number_of(words[-1]))


def _node_of(line, graph):
    """The number of the node that a line of a routing names."""
    node = _named_node(line)
    if node not in graph.numbers:
        raise line.fault(f"the device has no node {node}")
    return graph.numbers[node]


def _net_of(line, nets):
    """The number of the net whose section a line begins."""
    words, is_global = line.words, len(line.words) == 6
    name = words[2] if len(words) > 2 else ""
    if is_global:
        has_form = words[3:] == ("global", "net", "connecting:") and name.endswith("):")
        name = name[:-1]
    else:
        has_form = len(words) == 3
    if not has_form or not (name.startswith("(") and name.endswith(")") and len(name) > 1):
        raise line.fault("the line must have the form `Net N (NAME)`")
    line.number_of(words[1])
    if (name[1:-1], is_global) not in nets:
        what = "global net" if is_global else "net that isn't global"
        raise line.fault(f"the netlist has no {what} `{name[1:-1]}`")
    return nets[name[1:-1], is_global]


def _check_routing_head(lines, end, placement):
    """Refuses a routing that doesn't begin like one for this array."""
    if len(lines) < 2:
        raise end.fault("the file has fewer than two lines")
    size = lines[0]
    last = "blocks." if size.words[-1] == "blocks." else "blocks"
    size.expect(f"Array size: NX x NY logic {last}")
    if [size.number_of(size.words[at]) for at in (2, 4)] != [placement.nx, placement.ny]:
        raise size.fault(f"the array of the placement is {placement.nx} x {placement.ny}")
    lines[1].expect("Routing:")


def read_routing(path, netlist, placement, graph):
    """For each net of a netlist its section in a routing, or None if it has none.

    Global nets have None here. It doesn't check whether the routing is legal.
    """
    lines, end = read_lines(path)
    _check_routing_head(lines, end, placement)
    numbers = {(net.name, net.is_global): number for number, net in enumerate(netlist.nets)}
    sections, began, net, section = [None] * len(netlist.nets), set(), None, None
    for line in lines[2:]:
        if line.words[0] == "Net":
            number = _net_of(line, numbers)
            if number in began:
                raise line.fault("an earlier line begins a section of the same net")
            began.add(number)
            net, section = netlist.nets[number], Section(line.number)
            sections[number] = None if net.is_global else section
            met, before = set(), None
        elif net and net.is_global and line.words[0] == "Block":
            continue
        elif net is None or not net.is_routed:
            raise line.fault("unexpected node")
        else:
            node = _node_of(line, graph)
            if before is not None and graph.nodes[before].kind == "SINK" and node not in met:
                raise line.fault("a path begins at a node that no earlier line of the net has")
            section.nodes.append(node)
            section.lines.append(line.number)
            met.add(node)
            before = node
    return sections


def nodes_in(path):
    """Each node that a routing names, after the name of its net, in the order of the file.

    It needs no device, and the file may have any length.
    """
    name, is_global = None, False
    try:
        with open(path, "rb") as file:
            for line in _lines_of(file, path):
                if line.words[0] == "Net" and len(line.words) > 2:
                    name, is_global = line.words[2].rstrip(":")[1:-1], len(line.words) > 3
                elif name is not None and not is_global:
                    yield name, _named_node(line)
    except (OSError, ValueError) as fault:
        raise Unread(f"{path}: {getattr(fault, 'strerror', fault)}") from fault


def routing_text(design, graph, routes):
    """The text of a routing, as `pathfinder` writes it.

    The routes are those of the nets, by their numbers: None, or the numbers of nodes, path by path,
    each from the source or an earlier node to a sink, like the nodes of a section.
    """
    netlist, placement = design.netlist, design.placement
    rows = [f"Array size: {placement.nx} x {placement.ny} logic blocks.", "", "Routing:"]
    for number, (net, nodes) in enumerate(zip(netlist.nets, routes)):
        if net.is_global:
            ends = map(design.block_text, [net.driver, *net.sinks])
            rows += ["", f"Net {number} ({net.name}): global net connecting:", "", *ends]
        elif nodes:
            lines = (graph.nodes[node].routing_text() for node in nodes)
            rows += ["", f"Net {number} ({net.name})", "", *lines]
    return "\n".join(rows) + "\n"


# ---- Logs ----------------------------------------------------------------------------------------


class Iteration(typing.NamedTuple):
    """The state after an iteration: a row of a log, by its columns."""

    width: int
    iteration: int
    present: float
    overused: int
    excess: int
    unrouted: int
    wirelength: int
    seconds: float


@dataclasses.dataclass
class Log:
    """The log of a run.

    The head has the lines before the titles, by their first words: `head["acc"]` is `20 twentieths
    of a wire`. A negotiation is the list of its iterations; a log of `width` has one for each width
    that was tried.
    """

    head: dict
    negotiations: list


TITLES = Iteration._fields
DECIMALS = ("present", "seconds")


def _iteration_of(line):
    """The iteration of a row."""
    if len(line.words) != len(TITLES):
        raise line.fault(f"the row doesn't have the {len(TITLES)} columns of a log")
    values = []
    for title, word in zip(TITLES, line.words):
        if title not in DECIMALS:
            least = 1 if title in ("width", "iteration") else 0
            values.append(line.number_of(word, least, 2**64 - 1))
        elif re.fullmatch(r"[0-9]{1,12}\.[0-9]{1,9}", word):
            values.append(float(word))
        else:
            raise line.fault(f"`{word}` is not a decimal number such as 0.5000")
    return Iteration(*values)


def log_of(source, name="log"):
    """The log of a file, given by its bytes and its name."""
    log, has_titles = Log({}, []), False
    rows = source.decode(**TEXT).split("\n")
    for number, row in enumerate(rows, 1):
        line = Line(name, number, tuple(row.split()))
        if row.startswith("#"):
            key, _, rest = row[1:].strip().partition(" ")
            if not has_titles:
                log.head[key] = rest
        elif line.words == TITLES:
            has_titles = True
        elif line.words and not has_titles:
            raise line.fault("it is not a log of `pathfinder`")
        elif line.words:
            new, last = _iteration_of(line), log.negotiations[-1][-1] if log.negotiations else None
            if new.iteration == 1:
                log.negotiations.append([])
            elif last is None or new[:2] != (last.width, last.iteration + 1):
                raise line.fault("it is not the row of the next iteration")
            log.negotiations[-1].append(new)
    if not has_titles:
        raise Line(name, len(rows), ()).fault("the file has no line with the titles of a log")
    return log


def read_log(path):
    """The log of a file."""
    return log_of(read_source(path), path)
