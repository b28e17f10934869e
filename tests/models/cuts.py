"""Cuts of an array, counted slowly in the listing of a device.

The listing is that of `graph --global`. There each place of a channel is one node, and a pin leads
to the places beside it, or they lead to it. So only the listing shows on which sides a pin is.
"""
import re
from dataclasses import dataclass

NODE = re.compile(r"(\d+) (\w+) \((\d+),(\d+)\)(?: to \((\d+),(\d+)\))? \w+: (\d+) cap (\d+)")


@dataclass
class Cut:
    """A region of corners, places of channels (kind, column and row), and pins (with a number)."""

    corners: set
    places: set
    pins: set


class Listing:
    """The nodes of a listing, each as kind, column, row and number; their spans and edges."""

    def __init__(self, text):
        self.spans, self.following, self.before, names = {}, {}, {}, []
        for line in text.splitlines()[1:]:
            if " -> " in line:
                begin, end = (names[int(word)] for word in line.split(" -> "))
                self.following[begin].append(end)
                self.before[end].append(begin)
            else:
                _, kind, x, y, x2, y2, number, _ = NODE.fullmatch(line).groups()
                name = (kind, int(x), int(y), int(number))
                names.append(name)
                self.spans[name] = (name[1], name[2], int(x2 or x), int(y2 or y))
                self.following[name], self.before[name] = [], []

    def wires(self):
        return [name for name in self.spans if name[0] in ("CHANX", "CHANY")]

    def places(self):
        """The places of channels, in a listing of a global device."""
        return [wire[:3] for wire in self.wires()]

    def places_of(self, wire):
        """The places that a wire covers."""
        x1, y1, x2, y2 = self.spans[wire]
        return {(wire[0], x, y) for x in range(x1, x2 + 1) for y in range(y1, y2 + 1)}

    def size(self):
        return max(name[1] for name in self.spans) - 1, max(name[2] for name in self.spans) - 1


def ends(place):
    kind, x, y = place
    return {(x, y), (x - 1, y) if kind == "CHANX" else (x, y - 1)}


def side(cut, place):
    """`in` or `out`, or None for a place of the border."""
    if place in cut.places:
        return None
    met = ends(place) & cut.corners
    return None if len(met) == 1 else "in" if met else "out"


def border(listing, cut):
    return {place for place in listing.places() if side(cut, place) is None}


def sides(cut, places):
    return {side(cut, place[:3]) for place in places} - {None}


def is_cut(listing, cut, source, sinks):
    """Whether each output pin that is left is parted from some sink."""
    for output in listing.following[source]:
        if output in cut.pins:
            continue
        own = sides(cut, listing.following[output])
        left = [[pin for pin in listing.before[sink] if pin not in cut.pins] for sink in sinks]
        if not any(all(not own & sides(cut, listing.before[pin]) for pin in pins) for pins in left):
            return False
    return True


def has_way_round(detailed, cut, closed, source, sinks):
    """Whether some output pin that is left reaches all sinks without what is closed."""
    for output in detailed.following[source]:
        met, waiting = {output}, [output]
        while waiting and output not in cut.pins:
            new = [name for name in detailed.following[waiting.pop()] if name not in met | closed]
            met.update(new)
            waiting += new
        if met >= set(sinks):
            return True
    return False


def bound(nets, pins, places):
    """The width below which there is no routing, tried one by one, or None if there is none."""
    if not places and nets > pins:
        return None
    width = 1
    while nets > pins + width * places:
        width += 1
    return width


def draw(random, listing, pins):
    """A random cut: a line, a box or some corners, with a few places and pins of blocks."""
    nx, ny = listing.size()
    corners = [(x, y) for x in range(nx + 1) for y in range(ny + 1)]
    kind, at, other = random.random(), random.randint(0, nx), random.randint(0, ny)
    if kind < 0.3:
        region = {(x, y) for x, y in corners if x <= at}
    elif kind < 0.6:
        region = {(x, y) for x, y in corners if y >= other}
    elif kind < 0.8:
        region = {(x, y) for x, y in corners if x >= at and y <= other}
    else:
        region = {corner for corner in corners if random.random() < 0.5}
    if random.random() < 0.5 and region:
        region ^= {random.choice(corners)}
    places = random.sample(listing.places(), random.choice((0, 0, 0, 1, 2)))
    pins = random.sample(pins, min(len(pins), random.choice((0, 0, 1, 2, 4))))
    return Cut(region, set(places), set(pins))


def runs(columns):
    """The first and the last column of each run."""
    begins = [x for x in columns if x - 1 not in columns]
    return zip(sorted(begins), sorted(x for x in columns if x + 1 not in columns))


def text(cut, named, counts):
    """The certificate; `named` has the words of pins, and `counts` the numbers of nets, pins and places."""
    heads = zip(("bound", "nets", "pins", "places"), (bound(*counts) or "none", *counts))
    lines = [f"{key} {value}" for key, value in heads]
    for row in sorted({y for _, y in cut.corners}):
        of_row = runs({x for x, y in cut.corners if y == row})
        lines.append(f"corners {row} " + " ".join(f"{first}-{last}" for first, last in of_row))
    lines += [f"place {kind} {x} {y}" for kind, x, y in sorted(cut.places)]
    lines += [f"pin {named[pin]}" for pin in sorted(cut.pins)]
    return "\n".join([*lines, ""])
