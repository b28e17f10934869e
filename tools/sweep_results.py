"""The results of sweeps by circuit and architecture, for the tables and plots of a paper.

    rows = sweep_results.rows_of(source, "new.tsv")  # the bytes of a table, and its name
    results = sweep_results.Results(rows)
    results.of[series, circuit].widths  # the least widths of the circuit's placements
"""
from __future__ import annotations

import collections
import dataclasses
import os
import re
import typing

import vpr430
from sweep_table import COLUMNS, HEAD, NAMES, fault_of, name_part, no_table, stem_of

# The end of the name of a netlist that a sweep packed, and what the name of a placement adds.
MADE_NET, MADE_PLACE = r"(?P<circuit>.+)\.[0-9a-f]{16}", r"\.s(?P<seed>[0-9]+)\.place"


class Series(typing.NamedTuple):
    """What is compared: the results of a table on an architecture with a list of options."""

    table: str
    architecture: str
    options: str


@dataclasses.dataclass
class Result:
    """The results of the placements of a circuit on an architecture."""

    widths: list = dataclasses.field(default_factory=list)
    bounds: list = dataclasses.field(default_factory=list)
    wirelengths: list = dataclasses.field(default_factory=list)
    # The status of each placement (docs/SWEEP.md).
    statuses: list = dataclasses.field(default_factory=list)


def is_table(source):
    """Whether bytes begin like a table of a sweep, of this version or another one."""
    return source.split(b"\n", 1)[0].decode(**vpr430.TEXT).split("\t")[: len(NAMES)] == NAMES


def rows_of(source, name):
    """The rows of a table, given by its bytes and its name: the fields by column."""
    lines = source.decode(**vpr430.TEXT).split("\n")
    rows = []
    if lines[0] + "\n" != HEAD:
        raise vpr430.Line(name, 1, ()).fault(no_table(lines[0]))
    for number, text in enumerate(lines[1:], 2):
        words = text.split("\t")
        line = vpr430.Line(name, number, tuple(words))
        if number == len(lines) and not text or text + "\n" == HEAD:
            continue
        fault = "the line is incomplete" if number == len(lines) else fault_of(words)
        if fault:
            raise line.fault(fault)
        rows.append(dict(zip(COLUMNS, words)))
    return rows


def circuit_of(row):
    """The circuit of a line, and what identifies its placement.

    If a sweep packed and placed a BLIF, the circuit is the BLIF's name, and the seed identifies the
    placement. So a placement of a changed BLIF replaces the one before.
    """
    stem = stem_of(os.path.basename(row["netlist"]), ".net")
    arch = re.escape(name_part(row["architecture"], ".arch"))
    made = re.fullmatch(rf"{arch}\.{MADE_NET}", stem)
    placed = re.fullmatch(re.escape(stem) + MADE_PLACE, os.path.basename(row["placement"]))
    if made and placed:
        return made["circuit"], int(placed["seed"])
    return stem_of(row["netlist"], ".net"), row["placement"]


def short_names(names):
    """Short names for paths without their endings: their last parts, if these differ."""
    short = {name: os.path.basename(name) for name in names}
    return short if len(set(short.values())) == len(short) else {name: name for name in names}


class Results:
    """The results of tables by series and circuit, in the order of their first lines.

    If a placement has several lines, the last one counts. `tables` has the name of each row's
    table, if there are several.
    """

    def __init__(self, rows, tables=None):
        last = {}
        for row, table in zip(rows, tables or [""] * len(rows)):
            series = Series(table, row["architecture"], row["options"])
            circuit, placement = circuit_of(row)
            last[series, circuit, placement] = row
        self.of = collections.defaultdict(Result)
        for (series, circuit, _), row in last.items():
            add_row(self.of[series, circuit], row)
        self.series = list(dict.fromkeys(series for series, _ in self.of))
        self.circuits = list(dict.fromkeys(circuit for _, circuit in self.of))

    def circuit_names(self):
        """The name to show for each circuit."""
        return short_names(self.circuits)

    def series_names(self, with_options=True):
        """The name to show for each series: its table if there are several, its architecture, and
        its options if a table has several lists of them.
        """
        stems = {series: stem_of(series.architecture, ".arch") for series in self.series}
        short = short_names(list(dict.fromkeys(stems.values())))
        options = {(series.table, series.options) for series in self.series}
        differ = with_options and len(options) > len({table for table, _ in options})
        names = {}
        for series, stem in stems.items():
            parts = (series.table, short[stem], series.options if differ else "")
            names[series] = ", ".join(part for part in parts if part)
        return names


def add_row(result, row):
    """Adds a row to a circuit's result."""
    result.statuses.append(row["status"])
    if row["least_width"]:
        result.widths.append(int(row["least_width"]))
    if row["bound"] not in ("", "none"):
        result.bounds.append(int(row["bound"]))
    if row["wirelength"]:
        result.wirelengths.append(int(row["wirelength"]))
