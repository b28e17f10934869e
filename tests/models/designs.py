"""Random architectures and placed netlists, as texts and as values."""
from collections import namedtuple
from dataclasses import dataclass, field

from device import ONE, SIDES, SINK, SOURCE, Architecture, Node, Pin, Segment

# A block's kind, name, place, and the nets of its pins, None for an open pin. A pad's place has a position.
Block = namedtuple("Block", "kind name x y position nets")
# A net by its number in the netlist: its name, whether it is global, and its terminals, each a block and a class (None: a pad).
Net = namedtuple("Net", "number name is_global driver sinks")


def fixed(value):
    """A number in units of 10^-9 as a text."""
    return f"{value // ONE}.{value % ONE:09}".rstrip("0")


def arch_text(arch):
    """The architecture as a file has it."""
    lines = [f"io_rat {arch.pads}", "chan_width_io 1", "chan_width_x uniform 1", "chan_width_y uniform 1"]
    for pin in arch.pins:
        words = ["inpin" if pin.is_input else "outpin", "class:", str(pin.group), *(["global"] if pin.is_global else [])]
        lines.append(" ".join([*words, *(side for side in SIDES if side in pin.sides)]))
    lines += ["switch_block_type subset", f"Fc_type {'absolute' if arch.is_absolute else 'fractional'}"]
    lines += [f"Fc_output {fixed(arch.fc_output)}", f"Fc_input {fixed(arch.fc_input)}", f"Fc_pad {fixed(arch.fc_pad)}"]
    for segment in arch.segments:
        length = segment.length or "longline"
        lines.append(
            f"segment frequency: {fixed(segment.frequency)} length: {length} wire_switch: {segment.wire_switch}"
            f" opin_switch: {segment.opin_switch} Frac_cb: 1 Frac_sb: 1 Rmetal: 0 Cmetal: 0"
        )
    switches = {switch for segment in arch.segments for switch in (segment.wire_switch, segment.opin_switch)}
    lines += [f"switch {number} buffered: yes R: 0 Cin: 0 Cout: 0 Tdel: 0" for number in sorted(switches)]
    return "\n".join([*lines, ""])


def draw_pins(random):
    """Pins of classes that run from 0 without gaps, each of one direction; most have one side."""
    inputs = [True, False] + [random.random() < 0.6 for _ in range(random.randint(0, 2))]
    random.shuffle(inputs)
    groups = list(range(len(inputs))) + [random.randrange(len(inputs)) for _ in range(random.randint(0, 4))]
    random.shuffle(groups)
    return tuple(draw_pin(random, group, inputs[group]) for group in groups)


def draw_pin(random, group, is_input):
    is_global = is_input and random.random() < 0.1
    sides = random.sample(SIDES, random.choice((1, 1, 1, 2, 4)))
    return Pin(group, is_input, is_global, frozenset([] if is_global and random.random() < 0.5 else sides))


def draw_segments(random, kinds=(1, 1, 1, 2, 3, 4, 16, None)):
    frequencies = (0, ONE // 2, ONE, 3 * ONE // 10)
    return tuple(Segment(random.choice(frequencies), random.choice(kinds)) for _ in range(random.choice((1, 1, 2, 3))))


def draw_arch(random):
    is_absolute = random.random() < 0.3
    tracks, shares = (0, ONE // 2, ONE, 3 * ONE // 2, 2 * ONE, 5 * ONE), (0, ONE // 4, ONE // 3, ONE // 2, ONE, 7 * ONE // 4)
    values = tracks if is_absolute else shares
    fc = [random.choice(values) for _ in range(3)]
    return Architecture(random.randint(1, 3), draw_pins(random), is_absolute, *fc, draw_segments(random))


@dataclass
class Design:
    """A netlist placed on an array, whose pins are joined at random."""

    arch: Architecture
    nx: int
    ny: int
    blocks: list = field(default_factory=list)
    globals: set = field(default_factory=set)

    @staticmethod
    def draw(random, arch, nx, ny, nets):
        """Blocks at random sites, and at most this many nets, each from a free output to free inputs."""
        design = Design(arch, nx, ny)
        logic = [(x, y) for x in range(1, nx + 1) for y in range(1, ny + 1)]
        edge = [(x, y) for x in (0, nx + 1) for y in range(1, ny + 1)] + [(x, y) for y in (0, ny + 1) for x in range(1, nx + 1)]
        pads = [(x, y, at) for x, y in edge for at in range(arch.pads)]
        for number, (x, y) in enumerate(random.sample(logic, random.randint(1, len(logic)))):
            design.blocks.append(Block("clb", f"b{number}", x, y, None, [None] * len(arch.pins)))
        for number, site in enumerate(random.sample(pads, random.randint(1, min(len(pads), 2 * nets)))):
            design.blocks.append(Block(random.choice(("input", "output")), f"p{number}", *site, [None]))
        random.shuffle(design.blocks)
        design.join(random, nets)
        return design

    def join(self, random, count):
        """Draws the nets: global pins are left open, and so is a second pin of one class of one block."""
        outputs, inputs = self.free_pins(False), self.free_pins(True)
        random.shuffle(outputs)
        random.shuffle(inputs)
        for number, (block, pin) in enumerate(outputs[:count]):
            name = f"n{number}"
            self.blocks[block].nets[pin] = name
            met = set()
            for _ in range(random.choice((0, 1, 1, 1, 2, 2, 3, 5))):
                at = next((at for at, end in enumerate(inputs) if self.terminal(*end) not in met), None)
                if at is None:
                    break
                end = inputs.pop(at)
                met.add(self.terminal(*end))
                self.blocks[end[0]].nets[end[1]] = name
            if random.random() < 0.08:
                self.globals.add(name)

    def free_pins(self, is_sink):
        """The pins that may drive a net, or may be driven, each as the numbers of a block and a pin."""
        found = []
        for number, block in enumerate(self.blocks):
            if block.kind == "clb":
                found += [(number, at) for at, pin in enumerate(self.arch.pins) if pin.is_input == is_sink and not pin.is_global]
            elif (block.kind == "output") == is_sink:
                found.append((number, 0))
        return found

    def terminal(self, block, pin):
        """A pin's block and class; a pad has no class."""
        return block, self.arch.pins[pin].group if self.blocks[block].kind == "clb" else None

    def drives(self, block, pin):
        kind = self.blocks[block].kind
        return kind == "input" or (kind == "clb" and not self.arch.pins[pin].is_input)

    def nets(self):
        """All nets, in the order of their first appearance in a pinlist."""
        pins = [(name, block, pin) for block, it in enumerate(self.blocks) for pin, name in enumerate(it.nets) if name]
        found = []
        for number, name in enumerate(dict.fromkeys(name for name, _, _ in pins)):
            ends = [(block, pin) for net, block, pin in pins if net == name]
            driver = next(self.terminal(*end) for end in ends if self.drives(*end))
            sinks = [self.terminal(*end) for end in ends if not self.drives(*end)]
            found.append(Net(number, name, name in self.globals, driver, sinks))
        return found

    def routed(self):
        """The nets that are routed: those that aren't global and have a sink."""
        return [net for net in self.nets() if not net.is_global and net.sinks]

    def node(self, kind, terminal):
        block, group = self.blocks[terminal[0]], terminal[1]
        return Node(kind, block.x, block.y, block.position if group is None else group)

    def problem(self, device):
        """For each routed net the numbers of its source and of its sinks, ascending."""
        for net in self.routed():
            sinks = sorted({device.ids[self.node(SINK, sink)] for sink in net.sinks})
            yield device.ids[self.node(SOURCE, net.driver)], sinks

    def net_text(self):
        lines = [f".global {name}" for name in sorted(self.globals)]
        for block in self.blocks:
            lines += [f".{block.kind} {block.name}", "pinlist: " + " ".join(name or "open" for name in block.nets)]
        return "\n".join([*lines, ""])

    def place_text(self):
        lines = ["Netlist file: d.net Architecture file: d.arch", f"Array size: {self.nx} x {self.ny} logic blocks"]
        lines += [f"{block.name} {block.x} {block.y} {block.position or 0}" for block in self.blocks]
        return "\n".join([*lines, ""])
