"""Designs for measurements: one at the limits of a netlist, one that fills the greatest array, a routing of nearly 2^24 bytes, and arrays of look-up
tables that take the nets of blocks near them.

The names in the first two have a hundred bytes and differ only at their ends.
"""
import random
from dataclasses import dataclass
from pathlib import Path
from typing import Optional

from bundled import SMALL, UART

SIDE, PADS, PINS = 100, 16, 4
MOST_BLOCKS, MOST_NETS = 20_000, 65_535
MOST_BYTES = 2**24
# The tracks of the routing's channels: one for each pin of the blocks of half a row.
WIDTH = PINS * SIDE // 2
PERIMETER = (
    *((0, y) for y in range(1, SIDE + 1)), *((SIDE + 1, y) for y in range(1, SIDE + 1)),
    *((x, 0) for x in range(1, SIDE + 1)), *((x, SIDE + 1) for x in range(1, SIDE + 1)))


@dataclass(frozen=True)
class Design:
    """The files that a design has, and the width of its routing."""

    arch: Path
    net: Path
    place: Optional[Path] = None
    route: Optional[Path] = None
    width: Optional[int] = None


def write(folder, name, text):
    """Writes a file of a folder, and returns its path."""
    file = Path(folder, name)
    file.write_text(text)
    return file


def write_long_arch(folder):
    """The architecture of examples/small.arch with wires of sixteen places."""
    return write(folder, "long.arch", SMALL.read_text().replace("length: 1 ", "length: 16 "))


def write_arch(folder, name, pads, side):
    """An architecture of blocks with four inputs of one class on one side, and four outputs of another one on the top."""
    pins = f"inpin class: 0 {side}\n" * PINS + "outpin class: 1 top\n" * PINS
    return write(folder, name, f"""io_rat {pads}
chan_width_io 1
chan_width_x uniform 1
chan_width_y uniform 1
{pins}switch_block_type subset
Fc_type fractional
Fc_output 1
Fc_input 1
Fc_pad 1
segment frequency: 1 length: 1 wire_switch: 0 opin_switch: 0 Frac_cb: 1 Frac_sb: 1 Rmetal: 0 Cmetal: 0
switch 0 buffered: yes R: 0 Cin: 0 Cout: 0 Tdel: 0
""")


def long_name(letter, number):
    """A name of a hundred bytes."""
    return f"{letter}{number:099d}"


def net_name(number, nets):
    """A net's name, or `open` past the last net."""
    return long_name("n", number) if number < nets else "open"


def block_lines(number, nets):
    """A logic block that drives four nets, and takes four nets of distant blocks."""
    own = [PINS * number + pin for pin in range(PINS)]
    driven = [net_name(net, nets) for net in own]
    taken = [net_name((net + nets // 2) % nets, nets) if net < nets else "open" for net in own]
    return f".clb {long_name('b', number)}\npinlist: {' '.join(taken)} {' '.join(driven)}\n"


def make_limits(folder):
    """The most blocks and nets that a netlist may have; no array has places for that many."""
    arch = write_arch(folder, "limits.arch", PADS, "bottom")
    blocks = (block_lines(number, MOST_NETS) for number in range(MOST_BLOCKS))
    return Design(arch, write(folder, "limits.net", "".join(blocks)))


def make_full(folder):
    """A logic block at each place of the greatest array, and pads at each place around it; they take the nets of the blocks."""
    arch = write_arch(folder, "full.arch", PADS, "bottom")
    nets, pads = PINS * SIDE * SIDE, len(PERIMETER) * PADS
    blocks = [block_lines(number, nets) for number in range(SIDE * SIDE)]
    blocks += [f".output {long_name('p', pad)}\npinlist: {net_name(pad, pads)}\n" for pad in range(pads)]
    rows = [f"{long_name('b', x * SIDE + y)} {x + 1} {y + 1} 0\n" for x in range(SIDE) for y in range(SIDE)]
    rows += [f"{long_name('p', i * PADS + s)} {x} {y} {s}\n" for i, (x, y) in enumerate(PERIMETER) for s in range(PADS)]
    return Design(arch, write(folder, "full.net", "".join(blocks)), write_place(folder, "full", SIDE, rows))


def write_place(folder, name, height, rows):
    """A placement of these rows on an array that is as wide as the greatest one."""
    header = f"Netlist file: {name}.net Architecture file: {name}.arch\nArray size: {SIDE} x {height} logic blocks\n"
    return write(folder, f"{name}.place", header + "".join(rows))


def row_block(x, y):
    """A block's lines: a block of the left half drives the nets that the block across takes."""
    none = ["open"] * PINS
    nets = [f"n{min(x, SIDE + 1 - x)}_{y}_{pin}" for pin in range(PINS)]
    pins = none + nets if 2 * x <= SIDE else nets + none
    return f".clb b{x}_{y}\npinlist: {' '.join(pins)}\n"


def row_net(number, x, y, pin):
    """A routed net's lines: along the channel above its row, on a track of its own."""
    across, track = SIDE + 1 - x, PINS * (x - 1) + pin
    wires = "".join(f" CHANX ({place},{y})  Track: {track}\n" for place in range(x, across + 1))
    return (
        f"\nNet {number} (n{x}_{y}_{pin})\n\nSOURCE ({x},{y})  Class: 1\n  OPIN ({x},{y})  Pin: {PINS + pin}\n"
        f"{wires}  IPIN ({across},{y})  Pin: {pin}\n  SINK ({across},{y})  Class: 0\n")


def row_nets(y):
    """The routed nets of a row of blocks: four from each block of the left half to the one across."""
    starts = [(x, pin) for x in range(1, SIDE // 2 + 1) for pin in range(PINS)]
    return "".join(row_net((y - 1) * len(starts) + i, x, y, pin) for i, (x, pin) in enumerate(starts))


def rows_of_nets():
    """As many rows as a file holds."""
    rows = [row_nets(1)]
    length = 64 + len(rows[0])
    while len(rows) < SIDE and length + len(following := row_nets(len(rows) + 1)) <= MOST_BYTES:
        rows.append(following)
        length += len(following)
    return rows


def make_large(folder):
    """A legal routing in a file that is nearly as long as one may be."""
    rows = rows_of_nets()
    height = len(rows)
    places = [(x, y) for y in range(1, height + 1) for x in range(1, SIDE + 1)]
    return Design(
        write_arch(folder, "large.arch", 1, "top"),
        write(folder, "large.net", "".join(row_block(x, y) for x, y in places)),
        write_place(folder, "large", height, [f"b{x}_{y} {x} {y} 0\n" for x, y in places]),
        write(folder, "large.route", f"Array size: {SIDE} x {height} logic blocks.\n\nRouting:\n" + "".join(rows)),
        WIDTH)

def block_beside(chance, x, y, side):
    """The place of another block, mostly a near one: longer steps along both axes are rarer."""
    while True:
        steps = [chance.choice((-1, 1)) * int(chance.expovariate(1 / 3)) for _ in range(2)]
        place = (x + steps[0], y + steps[1])
        if place != (x, y) and all(1 <= at <= side for at in place):
            return place


def make_local(folder, side, seed):
    """An array full of look-up tables; each takes the outputs of three others, mostly near ones."""
    chance = random.Random(seed)
    places = [(x, y) for y in range(1, side + 1) for x in range(1, side + 1)]
    taken = {place: [block_beside(chance, *place, side) for _ in range(3)] for place in places}
    driving = {place for sources in taken.values() for place in sources}

    def name(place):
        return "n{}_{}".format(*place)

    def lines(place):
        inputs = [name(source) for source in dict.fromkeys(taken[place])]
        pins = inputs + ["open"] * (4 - len(inputs)) + [name(place) if place in driving else "open", "open"]
        return f".clb {name(place)}\npinlist: {' '.join(pins)}\n"

    net = write(folder, f"local{side}.net", "".join(map(lines, places)))
    rows = "".join(f"{name((x, y))} {x} {y} 0\n" for x, y in places)
    header = f"Netlist file: {net.name} Architecture file: {UART[1].name}\nArray size: {side} x {side} logic blocks\n"
    return Design(UART[1], net, write(folder, f"local{side}.place", header + rows))
