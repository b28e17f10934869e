"""The page of a routing, or of the iterations of a run: one self-contained file for a browser.

The page is tools/draw.html with tools/draw.js and the data inserted. Numbers of nodes and trees are
bytes in base64.
"""
from __future__ import annotations

import array
import base64
import dataclasses
import html
import json
import pathlib
import re
import sys

import picture
from vpr430 import Kind

TOOLS = pathlib.Path(__file__).resolve().parent
KINDS = ("SOURCE", "SINK", "OPIN", "IPIN", "CHANX", "CHANY")
LABELS = ("Class", "Pin", "Pad", "Track")
# Type codes of arrays, for numbers of one, two and four bytes.
BYTE, SHORT, LONG, SIGNED = "B", "H", "I", "i"


@dataclasses.dataclass
class Shot:
    """What the page shows at a time: a routing, and if it is an iteration's, its row of the log."""

    sections: list
    row: list | None = None


def packed(numbers, letter):
    """Numbers as bytes in base64, little-endian."""
    values = array.array(letter, numbers)
    if sys.byteorder == "big":
        values.byteswap()
    return base64.b64encode(values.tobytes()).decode()


def nodes_data(graph):
    """The nodes, column by column."""
    columns = list(zip(*graph.nodes))
    kinds = [KINDS.index(kind) for kind in columns[0]]
    labels = [LABELS.index(label) for label in columns[5]]
    data = dict(zip(("x", "y", "endX", "endY"), columns[1:5]))
    data.update(kind=kinds, label=labels, number=columns[6])
    texts = {name: packed(column, BYTE) for name, column in data.items()}
    return {**texts, "capacity": packed(graph.capacities, SHORT)}


def layout_data(layout):
    return {
        "nx": layout.nx, "ny": layout.ny, "tracks": layout.tracks, "pads": layout.pads,
        "pitch": picture.PITCH, "padDepth": picture.PAD_DEPTH, "channel": layout.channel,
        "spacing": layout.spacing, "side": layout.side,
    }


def blocks_data(design):
    return [
        {
            "name": picture.legible(block.name), "x": site.x, "y": site.y,
            "position": site.position, "isPad": block.is_pad, "isInput": block.kind is Kind.INPUT,
        }
        for block, site in zip(design.netlist.blocks, design.placement.sites)
    ]


def nets_data(design, colours):
    return [
        {
            "name": picture.legible(net.name), "colour": colour, "isRouted": net.is_routed,
            "sinks": len(net.sinks), "source": design.graph.numbers[design.source(number)],
        }
        for number, (net, colour) in enumerate(zip(design.netlist.nets, colours))
    ]


def pins_data(architecture):
    """The pins of a logic block. A global pin has no side."""
    return [
        {
            "isInput": pin.is_input,
            "sides": [] if pin.is_global else sorted(side.value for side in pin.sides),
        }
        for pin in architecture.pins
    ]


def lists_data(shots):
    """The distinct lists of nodes of all shots, and each shot with the lists of its nets."""
    numbers, data = {}, []
    for shot in shots:
        lists = [tuple(section.nodes) if section else () for section in shot.sections]
        trees = [numbers.setdefault(nodes, len(numbers)) if nodes else -1 for nodes in lists]
        data.append({"trees": packed(trees, SIGNED), "row": shot.row})
    starts = [0]
    for nodes in numbers:
        starts.append(starts[-1] + len(nodes))
    every = [node for nodes in numbers for node in nodes]
    return {"starts": packed(starts, LONG), "nodes": packed(every, LONG)}, data


def wrong_steps(design, shots):
    """The steps that aren't switches of the device, in the form of edges."""
    edges = set(design.graph.edges)
    steps = (
        f"{start} -> {end}"
        for shot in shots for section in shot.sections if section
        for start, end in section.steps(design.graph)
    )
    return sorted({step for step in steps if step not in edges})


def page_data(design, shots, acc):
    """Everything that the page shows. `acc` is what overuse adds to the history of a node."""
    last = picture.Routing(design, design.graph, shots[-1].sections)
    colours = picture.colours_of(len(design.netlist.nets), last)
    lists, shots_data = lists_data(shots)
    return {
        "title": design.title,
        "isGlobal": design.options.is_global,
        "heat": design.options.heat,
        "chosen": design.chosen,
        "acc": acc,
        "layout": layout_data(design.layout),
        "pins": pins_data(design.architecture),
        "netColours": picture.NET_COLOURS,
        "heatColours": picture.HEAT_COLOURS,
        "overusedColour": picture.OVERUSED_COLOUR,
        "historyColour": picture.HISTORY_COLOUR,
        "blocks": blocks_data(design),
        "freeSites": design.free_sites(),
        "nets": nets_data(design, colours),
        "nodes": nodes_data(design.graph),
        "wrong": wrong_steps(design, shots),
        "lists": lists,
        "shots": shots_data,
    }


def page_text(design, shots, acc=0):
    """The page of shots."""
    data = json.dumps(page_data(design, shots, acc), separators=(",", ":"))
    parts = {
        "TITLE": html.escape(design.title),
        "SCRIPT": (TOOLS / "draw.js").read_text().rstrip(),
        "DATA": data.replace("<", "\\u003c"),  # so that no name ends the element
    }
    template = (TOOLS / "draw.html").read_text()
    return re.sub("@(TITLE|SCRIPT|DATA)@", lambda mark: parts[mark[1]], template)
