"""Simulates a netlist of gates, and the netlist after packing.

The readers are plain ones of this module, for files without faults. A value is an integer; each of
its bits belongs to a run of its own, so many runs are simulated at once.
"""
import contextlib
import importlib.machinery
import importlib.util
import io
import random
import re
import sys

from bundled import TOP

sys.dont_write_bytecode = True
sys.path.insert(0, str(TOP / "tools"))

import command  # noqa: E402

LANES = 32
ALL = 2**LANES - 1


def script(path):
    """A script, whose name has no suffix, as a module."""
    loader = importlib.machinery.SourceFileLoader(path.name.replace("-", "_"), str(path))
    module = importlib.util.module_from_spec(importlib.util.spec_from_loader(loader.name, loader))
    sys.modules[loader.name] = module  # its dataclasses look it up there
    loader.exec_module(module)
    return module


def told(tool, folder, *words):
    """The status of a tool, and what it prints on both outputs. It runs in this process.

    Words with a suffix of file names are files of the folder.
    """
    out, complaints = (io.TextIOWrapper(io.BytesIO()) for _ in range(2))
    with contextlib.redirect_stdout(out), contextlib.redirect_stderr(complaints):
        try:
            named = [f"{folder}/{word}" if re.search(r"\.[a-z]+$", word) else word for word in words]
            status = command.main(tool.run, named)
        except SystemExit as end:
            status = end.code
    for text in (out, complaints):
        text.flush()
    texts = (text.buffer.getvalue().decode(errors="surrogateescape") for text in (out, complaints))
    return (status, *(text.replace(f"{folder}/", "") for text in texts))


def lines_of(text):
    """The words of each line, without comments; a backslash continues a line."""
    whole = re.sub(r"\\\s*\n", " ", re.sub(r"#.*", "", text))
    return [line.split() for line in whole.splitlines() if line.split()]


class Table:
    """A look-up table: the names of its inputs, and the rows of its cover."""

    def __init__(self, inputs):
        self.inputs, self.rows = inputs, []

    def value(self, values):
        """Its output for these values of its inputs."""
        met = 0
        for pattern, _ in self.rows:
            row = ALL
            for want, value in zip(pattern, values):
                if want != "-":
                    row &= value if want == "1" else ~value & ALL
            met |= row
        is_off = bool(self.rows) and self.rows[0][1] == "0"
        return ~met & ALL if is_off else met


class Gates:
    """A BLIF: inputs, outputs, look-up tables by their outputs, and flip-flops by theirs."""

    def __init__(self, text):
        self.inputs, self.outputs, self.tables, self.flip_flops = [], [], {}, {}
        table = None
        for key, *words in lines_of(text):
            if key == ".inputs":
                self.inputs += words
            elif key == ".outputs":
                self.outputs += words
            elif key == ".names":
                table = self.tables[words[-1]] = Table(words[:-1])
            elif key == ".latch":
                self.flip_flops[words[1]] = words[0]
            elif not key.startswith("."):
                table.rows.append((key, words[0]) if words else ("", key))

    def run(self, stimuli, names):
        """The value of each of these names in each cycle."""
        state, answers = {}, []
        for stimulus in stimuli:
            values = {**stimulus, **state}

            def value_of(name):
                if name not in values:
                    table = self.tables[name]
                    values[name] = table.value([value_of(other) for other in table.inputs])
                return values[name]

            answers.append({name: value_of(name) for name in names})
            state = {name: value_of(taken) for name, taken in self.flip_flops.items()}
        return answers

    def stimuli(self, cycles, seed):
        """Random values of the inputs for these cycles; in the first, of the flip-flops too."""
        chance = random.Random(seed)
        first = {name: chance.getrandbits(LANES) for name in self.flip_flops}
        drawn = [{name: chance.getrandbits(LANES) for name in self.inputs} for _ in range(cycles)]
        return [{**first, **drawn[0]}, *drawn[1:]]


class Subblock:
    """A subblock of a logic block, with its block's nets."""

    def __init__(self, words, nets, others):
        self.name, *self.inputs, self.output, self.clock = words
        self.nets, self.others = nets, others


class Packed:
    """A packed netlist, whose look-up tables are those of the gates."""

    def __init__(self, text, gates):
        self.gates, self.inputs, self.outputs, self.blocks = gates, [], {}, {}
        self.globals, self.subblocks = [], {}
        for key, *words in lines_of(text):
            if key == ".global":
                self.globals += words
            elif key in (".input", ".output", ".clb"):
                kind, name = key, words[0]
            elif key == "pinlist:":
                nets = [None if word == "open" else word for word in words]
                self.blocks[name] = (kind, nets, [])
            elif key == "subblock:":
                kind, nets, subblocks = self.blocks[name]
                subblocks.append(Subblock(words, nets, subblocks))
                self.subblocks[words[0]] = subblocks[-1]
        # What drives each net: a subblock, or None if it is a pad.
        self.drivers = {}
        for kind, nets, subblocks in self.blocks.values():
            if kind == ".input":
                self.drivers[nets[0]] = None
            for subblock in subblocks:
                if subblock.output != "open":
                    self.drivers[nets[int(subblock.output)]] = subblock

    def table_of(self, subblock):
        """The look-up table of a subblock, or None if it only feeds the flip-flop."""
        if subblock.name not in self.gates.flip_flops:
            return self.gates.tables[subblock.name]
        taken = self.gates.flip_flops[subblock.name]
        return None if taken in self.subblocks else self.gates.tables.get(taken)

    def run(self, stimuli):
        """The value of each output and each subblock in each cycle, according to the pins of nets."""
        answers, state = [], {}
        for stimulus in stimuli:
            known = {**stimulus, **state}

            def output_of(subblock):
                if subblock.name not in known:
                    known[subblock.name] = logic_of(subblock)
                return known[subblock.name]

            def net(name):
                driver = self.drivers[name]
                return stimulus[name] if driver is None else output_of(driver)

            def input_of(subblock, word):
                if word.startswith("ble_"):
                    return output_of(subblock.others[int(word[4:])])
                return net(subblock.nets[int(word)])

            def logic_of(subblock):
                words = [word for word in subblock.inputs if word != "open"]
                values = [input_of(subblock, word) for word in words]
                table = self.table_of(subblock)
                if table is None:
                    (value,) = values
                    return value
                assert len(values) == len(table.inputs), subblock.name
                return table.value(values)

            outputs = {
                name[len("out:") :]: net(nets[0])
                for name, (kind, nets, _) in self.blocks.items()
                if kind == ".output"
            }
            answers.append({**{name: output_of(one) for name, one in self.subblocks.items()}, **outputs})
            flip_flops = [name for name in self.subblocks if name in self.gates.flip_flops]
            state = {name: logic_of(self.subblocks[name]) for name in flip_flops}
        return answers
