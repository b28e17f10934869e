"""Reads a netlist of gates in BLIF, as yosys and ABC write it after mapping to look-up tables.

docs/FORMATS.md lists the lines that are read ("BLIF"). A refused file raises `vpr430.Fault`.
"""
from __future__ import annotations

import dataclasses
import re

import vpr430

# Lines that don't change what a design does.
SKIPPED = (".default_input_arrival", ".default_output_required", ".area", ".delay")
# Lines of hierarchy and of cells that are not look-up tables.
SUBCIRCUITS = (".subckt", ".gate", ".mlatch", ".search", ".conn", ".blackbox")
EDGES = ("re", "fe")


@dataclasses.dataclass(frozen=True)
class Port:
    """A name of `.inputs` or `.outputs`, and its line."""

    name: str
    line: vpr430.Line


@dataclasses.dataclass
class Lut:
    """A look-up table: the rows of its cover are a pattern of `0`, `1` and `-`, and a value."""

    output: str
    inputs: list
    line: vpr430.Line
    cover: list = dataclasses.field(default_factory=list)

    def value(self, bits):
        """Its output, 0 or 1, for these values of its inputs."""
        for pattern, value in self.cover:
            if all(want in ("-", str(bit)) for want, bit in zip(pattern, bits)):
                return value
        return 1 - self.cover[0][1] if self.cover else 0

    def is_buffer(self):
        """Whether its output is its one input."""
        return len(self.inputs) == 1 and [self.value([0]), self.value([1])] == [0, 1]


@dataclasses.dataclass
class Latch:
    """A flip-flop. Its clock is None if the file names none."""

    output: str
    input: str
    clock: str | None
    line: vpr430.Line


@dataclasses.dataclass
class Model:
    """A design of look-up tables and flip-flops."""

    name: str
    inputs: list
    outputs: list
    luts: list
    latches: list


class Reading:
    """A model that is being read, line by line."""

    def __init__(self):
        self.model = Model("", [], [], [], [])
        self.model_line, self.is_ended = None, False
        # The look-up table whose cover is being read.
        self.lut = None

    def take(self, line):
        """Reads a line."""
        key = line.words[0]
        if not key.startswith("."):
            self.take_row(line)
            return
        self.lut = None
        if key == ".model":
            self.take_model(line)
        elif self.is_ended:
            raise line.fault(f"`{key}` after `.end`")
        elif key in (".inputs", ".outputs"):
            ports = self.model.inputs if key == ".inputs" else self.model.outputs
            ports += [Port(name, line) for name in line.words[1:]]
        elif key == ".names":
            self.take_names(line)
        elif key == ".latch":
            self.take_latch(line)
        elif key == ".end":
            self.is_ended = True
        elif key in SUBCIRCUITS:
            raise line.fault(
                f"`{key}` is a subcircuit: flatten the design and map it to look-up tables first"
            )
        elif key not in SKIPPED:
            raise line.fault(f"`{key}` is not a supported BLIF keyword")

    def take_model(self, line):
        if self.model_line:
            raise line.fault(
                f"a second model (line {self.model_line.number} has the first): flatten the design"
            )
        self.model_line = line
        self.model.name = " ".join(line.words[1:])

    def take_names(self, line):
        if len(line.words) < 2:
            raise line.fault("`.names` without a name")
        self.lut = Lut(line.words[-1], list(line.words[1:-1]), line)
        self.model.luts.append(self.lut)

    def take_row(self, line):
        """Reads a row of a cover, such as `1-0 1`, or `1` for a constant."""
        if self.lut is None:
            raise line.fault(f"`{line.words[0]}` is a row without a `.names`")
        many = len(self.lut.inputs)
        *pattern, value = line.words
        wanted = [many] if many else []
        if list(map(len, pattern)) != wanted or value not in ("0", "1"):
            raise line.fault(f"not a row of a cover with {many} inputs")
        if not all(re.fullmatch("[01-]*", part) for part in pattern):
            raise line.fault("a row may only have the characters `0`, `1` and `-`")
        if self.lut.cover and self.lut.cover[0][1] != int(value):
            raise line.fault("the rows of a cover have different output values")
        self.lut.cover.append(("".join(pattern), int(value)))

    def take_latch(self, line):
        """Reads a line such as `.latch D Q re clk 0`; edge with clock, and start, are optional."""
        words = list(line.words[1:])
        if len(words) in (3, 5) and words.pop() not in ("0", "1", "2", "3"):
            raise line.fault("the start of a flip-flop must be 0, 1, 2 or 3")
        if len(words) not in (2, 4):
            raise line.fault("the line must have the form `.latch INPUT OUTPUT re CLOCK START`")
        if len(words) == 4 and words[2] not in EDGES:
            raise line.fault(f"latch type `{words[2]}`: only flip-flops (`re`, `fe`) are packed")
        clock = words[3] if len(words) == 4 and words[3] != "NIL" else None
        self.model.latches.append(Latch(words[1], words[0], clock, line))


def read_model(path):
    """Reads the model of a file."""
    lines, end = vpr430.read_lines(path)
    reading = Reading()
    for line in lines:
        reading.take(line)
    model = reading.model
    if not model.inputs and not model.outputs and not model.luts and not model.latches:
        raise end.fault("the file has no design")
    check_names(model)
    return model


def drivers_of(model):
    """What drives each name: an input's port, a look-up table or a flip-flop."""
    drivers = {}
    for driver in [*model.inputs, *model.luts, *model.latches]:
        name = driver.name if isinstance(driver, Port) else driver.output
        if name in drivers:
            number = drivers[name].line.number
            raise driver.line.fault(f"`{name}` is driven twice: line {number} drives it too")
        if name == vpr430.OPEN:
            raise driver.line.fault(f"`{name}` can't be the name of a net in a netlist: rename it")
        drivers[name] = driver
    return drivers


def uses_of(model):
    """Each use of a name, with its line and what uses it."""
    for lut in model.luts:
        yield from ((name, lut.line, "an input") for name in lut.inputs)
    for latch in model.latches:
        yield latch.input, latch.line, "an input"
        if latch.clock:
            yield latch.clock, latch.line, "the clock"
    for port in model.outputs:
        yield port.name, port.line, "an output"


def check_names(model):
    """Refuses names that aren't driven exactly once, and duplicate outputs."""
    drivers = drivers_of(model)
    for name, line, what in uses_of(model):
        if name not in drivers:
            raise line.fault(f"nothing drives `{name}`, {what}")
    met = {}
    for port in model.outputs:
        if port.name in met:
            raise port.line.fault(f"duplicate output `{port.name}`")
        met[port.name] = port
