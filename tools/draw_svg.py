"""The picture of a routing as SVG, from the background to the foreground.

The same files give the same picture, byte for byte.
"""
from __future__ import annotations

import collections
import html

import picture

MARGIN, HEAD, LINE, TEXT_SIZE, LEAST_SIZE, LEAST_WIDTH = 12, 46, 20, 12, 6, 460
# The width of a character as a share of the font size, a little more than most characters have.
CHARACTER = 0.58
STYLE = """
text{font-family:sans-serif;fill:#222}
path,rect{fill:none}
.name{text-anchor:middle;dominant-baseline:central}
.block{fill:#f3f3ee;stroke:#8a8a80}
.pad{fill:#e9eef2;stroke:#8a8a80}
.free{fill:none;stroke:#dcdcd4}
.track{stroke:#e3e3e3;stroke-width:1}
.wire{stroke-width:2.4}
.switch{stroke-width:1.2}
.tap{stroke-width:4;stroke-linecap:round}
.driver{stroke-width:6;stroke-linecap:square}
.faded{opacity:.13}
.chosen .wire{stroke-width:3.6}
.chosen .switch{stroke-width:2}
.mark{stroke:#d00000;stroke-width:5}
.case{stroke:#fff;stroke-width:8}
.wrong{stroke-dasharray:3 3}
.thin{opacity:.45}
""".strip()


def path_of(lines):
    """The path of lines, each given by its first and last point."""
    parts = []
    for x, y, end_x, end_y in lines:
        if y == end_y:
            parts.append(f"M{x} {y}H{end_x}")
        elif x == end_x:
            parts.append(f"M{x} {y}V{end_y}")
        else:
            parts.append(f"M{x} {y}L{end_x} {end_y}")
    return "".join(parts)


def path_text(name, lines):
    """The element of a path, or an empty text if it has no line."""
    return f'<path class="{name}" d="{path_of(lines)}"/>' if lines else ""


def title_text(text):
    return f"<title>{html.escape(text)}</title>"


def fitting(name, room):
    """A name for this much room, without its middle if it is too long, and its font size."""
    size = min(TEXT_SIZE - 1, int(room / (CHARACTER * max(len(name), 1))))
    if size >= LEAST_SIZE:
        return name, size
    many = max(int(room / (CHARACTER * LEAST_SIZE)) - 1, 2)
    return name[: many - many // 2] + "\u2026" + name[len(name) - many // 2 :], LEAST_SIZE


class Svg:
    """The SVG picture of a routing, from the background to the foreground."""

    def __init__(self, design, routing):
        self.design, self.routing = design, routing
        self.options, self.layout = design.options, design.layout
        self.nodes = design.graph.nodes
        self.left = MARGIN + max(0, LEAST_WIDTH - design.layout.width) // 2
        self.chosen = set(design.chosen)
        self.edges = set(design.graph.edges)
        self.offset = picture.offsets_in(design.layout, routing, self.options.is_global)
        # For each pin the lines to the wires that nets tap; known after the nets are drawn.
        self.taps = collections.defaultdict(list)

    # ---- coordinates, from the top downward

    def line(self, x, y, end_x, end_y):
        """A line of the layout in the coordinates of the picture."""
        top = HEAD + self.layout.height
        return x + self.left, top - y, end_x + self.left, top - end_y

    def box_words(self, box):
        """The attributes of a rectangle."""
        x, y, right, bottom = self.line(box.left, box.high, box.right, box.low)
        return f'x="{x}" y="{y}" width="{right - x}" height="{bottom - y}"'

    # ---- the array

    def blocks(self):
        """The blocks with their names, and the outlines of free sites."""
        sites = self.design.placement.sites
        for site in self.design.free_sites():
            yield f'<rect class="free" {self.box_words(self.layout.block(*site))}/>'
        for block, site in zip(self.design.netlist.blocks, sites):
            yield self.block(block, self.layout.block(site.x, site.y, site.position))

    def block(self, block, box):
        """A block and its name, along its longer side."""
        name = picture.legible(block.name)
        x, y, right, bottom = self.line(box.left, box.high, box.right, box.low)
        is_upright = bottom - y > right - x
        shown, size = fitting(name, max(right - x, bottom - y) - 6)
        across, down = f"{(x + right) / 2:g}", f"{(y + bottom) / 2:g}"
        turn = f' transform="rotate(-90 {across} {down})"' if is_upright else ""
        kind = "pad" if block.is_pad else "block"
        title = title_text(name) if shown != name else ""
        return (
            f'<g>{title}<rect class="{kind}" {self.box_words(box)}/><text class="name"'
            f' x="{across}" y="{down}" font-size="{size}"{turn}>{html.escape(shown)}</text></g>'
        )

    def tracks(self):
        """The wires that no net uses."""
        if self.options.is_global:
            wires = [node for node in self.nodes if node.is_wire]
            boxes = (self.layout.channel_place(wire.kind, wire.x, wire.y) for wire in wires)
            return [f'<rect class="free" {self.box_words(box)}/>' for box in boxes]
        lines = [
            self.line(*self.layout.wire(node, self.offset(number, None)))
            for number, node in enumerate(self.nodes)
            if node.is_wire and number not in self.routing.nets_at
        ]
        return [path_text("track", lines)]

    def heat(self):
        """The places of channels, darker if more tracks are used."""
        taken = self.routing.occupancy(self.options.is_global)
        for (kind, x, y), many in sorted(taken.items()):
            box = self.layout.channel_place(kind, x, y)
            words = f"{kind} ({x},{y}): {many} of {self.options.width}"
            yield (
                f'<rect {self.box_words(box)} style="fill:{heat_colour(many, self.options.width)}">'
                f"{title_text(words)}</rect>"
            )

    # ---- nets

    def nets(self):
        """The nets, the chosen ones last, on top of the others."""
        colours = picture.colours_of(len(self.design.netlist.nets), self.routing)
        for tree in sorted(self.routing.trees, key=lambda tree: tree.net in self.chosen):
            colour = picture.NET_COLOURS[colours[tree.net]]
            yield self.net(tree, colour)

    def net(self, tree, colour):
        """A net: its wires, the switches and the taps between them, and the pin that drives it."""
        lines = {
            number: self.layout.wire(self.nodes[number], self.offset(number, tree.net))
            for number in {*tree.nodes, *(start for start, _ in tree.steps)}
            if self.nodes[number].is_wire
        }
        wires = [self.line(*lines[number]) for number in tree.nodes if number in lines]
        parts = {"wire": wires, "switch": [], "switch wrong": [], "tap": [], "driver": []}
        for step in tree.steps:
            drawn = picture.step_line(self.layout, self.design.graph, step, lines)
            if drawn:
                self.add_step(parts, step, self.line(*drawn))
        title = title_text(picture.legible(self.design.netlist.nets[tree.net].name))
        paths = "".join(path_text(*part) for part in parts.items())
        return f'<g class="net{self.mood(tree.net)}" stroke="{colour}">{title}{paths}</g>'

    def add_step(self, parts, step, line):
        """Adds the line of a step to the parts of its net, with the dot of a tap."""
        is_switch = f"{step[0]} -> {step[1]}" in self.edges
        parts["switch" if is_switch else "switch wrong"].append(line)
        first, last = line[:2] * 2, line[2:] * 2
        if not self.nodes[step[0]].is_wire:
            parts["driver"].append(first)
            parts["tap"].append(last)
            self.taps[step[0]].append(line)
        elif not self.nodes[step[1]].is_wire:
            parts["tap"].append(first)
            self.taps[step[1]].append(line)

    def mood(self, net):
        """The suffix of a net's class: whether it is highlighted, faded or thin."""
        if self.chosen:
            return " chosen" if net in self.chosen else " faded"
        return " thin" if self.options.heat else ""

    def overused(self):
        """The overused nodes, on top of everything else."""
        for number in self.routing.overused:
            node = self.nodes[number]
            nets = self.routing.nets_at[number]
            names = " ".join(picture.legible(self.design.netlist.nets[net].name) for net in nets)
            title = title_text(f"{self.routing.in_words(number)} nets {names}")
            is_faded = self.chosen and not self.chosen.intersection(nets)
            mood = " faded" if is_faded else ""
            yield f'<g class="over{mood}">{title}{self.marked(number, node)}</g>'

    def marked(self, number, node):
        """The mark of an overused node: its wire, its pin's taps, or the box of its block."""
        lines = self.wire_lines(number) if node.is_wire else self.taps[number]
        if lines:
            return path_text("case", lines) + path_text("mark", lines)
        position = node.number if node.label == "Pad" else 0
        return f'<rect class="mark" {self.box_words(self.layout.block(node.x, node.y, position))}/>'

    def wire_lines(self, number):
        """The lines of a wire: one, or in a global channel one for each net."""
        nets = self.routing.nets_at[number]
        shown = nets if self.options.is_global else nets[:1]
        return [
            self.line(*self.layout.wire(self.nodes[number], self.offset(number, net)))
            for net in shown
        ]

    # ---- head and legend

    def head(self):
        """Two lines of text: what the picture shows, and what is used."""
        wires = sum(node.is_wire for node in self.nodes)
        figures = (
            f"trees {len(self.routing.trees)} of {self.design.to_route},"
            f" wires {len(self.routing.wires)} of {wires},"
            f" overused nodes {len(self.routing.overused)}"
        )
        title = html.escape(self.design.title)
        yield f'<text x="{MARGIN}" y="17" font-size="14" font-weight="bold">{title}</text>'
        yield f'<text x="{MARGIN}" y="35" font-size="{TEXT_SIZE}">{figures}</text>'

    def legend_items(self):
        """The items of the legend: a drawing of 26 x 12, and its text."""
        blue = picture.NET_COLOURS[0]
        box = 'x="3" y="0" width="20" height="12"'
        if self.options.is_global:
            yield f'<rect class="free" {box}/>', "place of a channel"
        else:
            yield '<path class="track" d="M0 3H26M0 9H26"/>', "unused track"
        yield f'<path class="wire" stroke="{blue}" d="M0 6H26"/>', "wire, in its net's colour"
        yield f'<path class="switch" stroke="{blue}" d="M2 11L24 1"/>', "switch"
        yield (
            f'<g stroke="{blue}"><path class="switch" d="M8 2V12"/>'
            '<path class="driver" d="M8 11H8"/><path class="tap" d="M8 2H8"/></g>'
        ), "driver's pin"
        yield (
            f'<g stroke="{blue}"><path class="switch" d="M8 2V12"/>'
            '<path class="tap" d="M8 2H8"/></g>'
        ), "pin that takes"
        yield '<path class="mark" d="M0 6H26"/>', "overused"
        yield f'<rect class="block" {box}/>', "logic block"
        yield f'<rect class="pad" {box}/>', "pad"
        if self.options.heat:
            cells = "".join(
                f'<rect x="{at * 4}" y="0" width="4" height="12" style="fill:{colour}"/>'
                for at, colour in enumerate(picture.HEAT_COLOURS)
            )
            yield cells, "channel, empty to full"

    def legend(self, width):
        """The legend in rows of this width, and how many rows there are."""
        x, row, parts = MARGIN, 0, []
        for drawing, text in self.legend_items():
            wide = 32 + int(len(text) * CHARACTER * TEXT_SIZE) + 14
            if x > MARGIN and x + wide > width:
                x, row = MARGIN, row + 1
            y = HEAD + self.layout.height + 14 + row * LINE
            parts.append(
                f'<g transform="translate({x} {y})">{drawing}'
                f'<text x="32" y="10" font-size="{TEXT_SIZE}">{html.escape(text)}</text></g>'
            )
            x += wide
        return parts, row + 1

    def text(self):
        """The whole picture."""
        width = max(self.layout.width, LEAST_WIDTH) + 2 * MARGIN
        legend, rows = self.legend(width)
        height = HEAD + self.layout.height + 14 + rows * LINE + 4
        parts = [
            f'<svg xmlns="http://www.w3.org/2000/svg" viewBox="0 0 {width} {height}"'
            f' width="{width}" height="{height}">',
            f"<style>{STYLE}</style>",
            f'<rect width="{width}" height="{height}" style="fill:#fff"/>',
            *self.head(),
            *(self.heat() if self.options.heat else ()),
            *self.tracks(), *self.blocks(), *self.nets(), *self.overused(), *legend,
            "</svg>",
        ]
        return "\n".join(parts) + "\n"


def heat_colour(many, room):
    """The colour of a place of a channel where `many` of `room` tracks are used."""
    last = len(picture.HEAT_COLOURS) - 1
    return picture.HEAT_COLOURS[min(-(-many * last // room), last)]
