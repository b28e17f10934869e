"""Trees of nets as rows, each a node and the row that it hangs on, and lists of pairs: writes, draws and corrupts them."""
from device import CHANX, IPIN, SINK
from negotiation import grow
from views import draw_margin, draw_present, draw_view

# A number that no node has.
GREATEST = 2**32 - 1


def rows_of(source, pairs):
    """The rows of a tree of these pairs."""
    rows, places = [(source, None)], {source: 0}
    for begin, end in pairs:
        places[end] = len(rows)
        rows.append((end, places[begin]))
    return rows


def pairs_of(rows):
    return [(rows[parent][0], node) for node, parent in rows[1:]]


def text_of(rows):
    """A tree as it is written: chains of nodes; each after the first one has its row before it."""
    words = [str(rows[0][0])]
    for place, (node, parent) in enumerate(rows[1:], 1):
        words += [str(node)] if parent == place - 1 else [f"{parent}:", str(node)]
    return " ".join(words)


def read(text):
    """The rows of a tree that was written."""
    first, *words = text.split(" ")
    rows, parent = [(int(first), None)], 0
    for word in words:
        if word.endswith(":"):
            parent = int(word[:-1])
        else:
            rows.append((int(word), parent))
            parent = len(rows) - 1
    return rows


def hang(rows, parent, way):
    """The rows with a way that hangs on one of them."""
    rows = list(rows)
    for node in way:
        rows.append((node, parent))
        parent = len(rows) - 1
    return rows


def draw_legal(random, device, net):
    """A tree that routes a net, searched for among random costs or walked at random; None if none is found."""
    if random.random() < 0.5:
        return wander(random, device, net)
    view = draw_view(random, len(device.nodes))
    pairs, open_sinks = grow(device, net, view.others, view.histories, draw_present(random), draw_margin(random))
    return None if open_sinks else rows_of(net[0], pairs)


def wander(random, device, net):
    """A tree whose ways to one sink after the other are walked at random."""
    source, sinks = net
    rows = [(source, None)]
    for sink in random.sample(sinks, len(sinks)):
        met = {node for node, _ in rows}
        places = range(1, len(rows)) if len(rows) > 1 else [0]
        ways = ((place, stroll(random, device, met, rows[place][0], sink)) for place in shuffled(random, places))
        place, way = next(((place, way) for place, way in ways if way), (None, None))
        if way is None:
            return None
        rows = hang(rows, place, way)
    return rows


def shuffled(random, things):
    return sorted(things, key=lambda _: random.random())


def stroll(random, device, met, start, sink):
    """The nodes of a random way to a sink that enters no node that was met; None if there is none. Then all entered nodes count as met,
    since none of them leads there."""
    seen, way, left = {*met, start}, [], [shuffled(random, device.successors[start])]
    while left:
        if not left[-1]:
            left.pop()
            del way[-1:]
            continue
        node = left[-1].pop()
        if node == sink:
            return [*way, node]
        if node not in seen and node not in device.sinks:
            seen.add(node)
            way.append(node)
            left.append(shuffled(random, device.successors[node]))
    met |= seen
    return None


def bare(_random, _device, rows):
    return rows[:1]


def begin_elsewhere(random, device, rows):
    return [(any_node(random, device), None), *rows[1:]]


def any_node(random, device):
    """A node, or rarely a number that is none."""
    return random.choice((len(device.nodes), GREATEST)) if random.random() < 0.1 else random.randrange(len(device.nodes))


def replace_one(random, device, rows):
    place = random.randrange(len(rows))
    return [*rows[:place], (any_node(random, device), rows[place][1]), *rows[place + 1 :]]


def successors(device, node):
    return device.successors[node] if node < len(device.nodes) else []


def repeat(random, device, rows):
    """A node of the tree is reached once more."""
    met = {node for node, _ in rows}
    edges = [(place, end) for place, (node, _) in enumerate(rows) for end in successors(device, node) if end in met]
    place, end = random.choice(edges or [(len(rows) - 1, rows[0][0])])
    return hang(rows, place, [end])


def leave_twice(random, device, rows):
    """The source has another output, if the device has one."""
    met = {node for node, _ in rows}
    outputs = [node for node in successors(device, rows[0][0]) if node not in met]
    return hang(rows, 0, [random.choice(outputs)]) if outputs else rows


def go_on(random, device, rows):
    """A way that leads on from some row, to a sink or to nothing."""
    met, place, way = {node for node, _ in rows}, random.randrange(len(rows)), []
    for _ in range(random.randint(1, 3)):
        node = way[-1] if way else rows[place][0]
        ends = [end for end in successors(device, node) if end not in met]
        if not ends:
            break
        way.append(random.choice(ends))
        met.add(way[-1])
    return hang(rows, place, way)


def reach_another_sink(random, device, rows):
    """A way through a pin beside the tree to its sink."""
    met = {node for node, _ in rows}
    pins = [(place, pin) for place, (node, _) in enumerate(rows) for pin in successors(device, node) if pin not in met]
    pins = [(place, pin) for place, pin in pins if device.nodes[pin].kind == IPIN and device.successors[pin][0] not in met]
    if not pins:
        return rows
    place, pin = random.choice(pins)
    return hang(rows, place, [pin, device.successors[pin][0]])


def cut(random, _device, rows):
    return rows[: random.randint(1, len(rows))]


def leave_out_last(_random, device, rows):
    """The tree without its last way."""
    ends = [place for place, (node, _) in enumerate(rows[:-1]) if node < len(device.nodes) and device.nodes[node].kind == SINK]
    return rows[: ends[-1] + 1] if ends else rows


def reorder(random, _device, rows):
    """The same pairs in another order."""
    made, places, left = [rows[0]], {0: 0}, list(range(1, len(rows)))
    while left:
        place = random.choice([place for place in left if rows[place][1] in places])
        left.remove(place)
        places[place] = len(made)
        made.append((rows[place][0], places[rows[place][1]]))
    return made


SPOILS = (
    *(bare, begin_elsewhere, replace_one, repeat, repeat, leave_twice, leave_twice, go_on, go_on),
    *(reach_another_sink, reach_another_sink, cut, leave_out_last, leave_out_last, reorder, reorder),
)


def spoil(random, device, rows):
    """A tree, corrupted in one way or two."""
    for _ in range(random.choice((1, 1, 1, 2))):
        rows = random.choice(SPOILS)(random, device, rows)
    return rows


def draw_tree(random, device, net):
    """A tree for a net, mostly corrupted."""
    rows = draw_legal(random, device, net) or [(net[0], None)]
    return spoil(random, device, rows) if random.random() < 0.8 else rows


def shuffle(random, _device, pairs):
    random.shuffle(pairs)


def delete(random, _device, pairs):
    del pairs[random.randrange(len(pairs))]


def double(random, _device, pairs):
    pairs.insert(random.randrange(len(pairs) + 1), random.choice(pairs))


def exchange(random, _device, pairs):
    one, other = random.randrange(len(pairs)), random.randrange(len(pairs))
    pairs[one], pairs[other] = pairs[other], pairs[one]


def turn(random, _device, pairs):
    place = random.randrange(len(pairs))
    pairs[place] = pairs[place][::-1]


def add_a_circle(random, device, pairs):
    """Two wires that join, there and back."""
    wires = [number for number, node in enumerate(device.nodes) if node.kind >= CHANX]
    one = random.choice(wires)
    others = [end for end in device.successors[one] if device.nodes[end].kind >= CHANX]
    if others:
        other = random.choice(others)
        pairs += [(one, other), (other, one)]


def add_an_edge(random, device, pairs):
    begin = random.randrange(len(device.nodes))
    if device.successors[begin]:
        pairs.insert(random.randrange(len(pairs) + 1), (begin, random.choice(device.successors[begin])))


def replace_a_number(random, device, pairs):
    place = random.randrange(len(pairs))
    node = len(device.nodes) if random.random() < 0.1 else random.randrange(len(device.nodes))
    pairs[place] = random.choice(((node, pairs[place][1]), (pairs[place][0], node)))


SPOILS_OF_PAIRS = (shuffle, delete, double, exchange, turn, add_a_circle, add_an_edge, replace_a_number)


def draw_list(random, device, net):
    """The pairs of a tree that routes a net, None if none is found."""
    rows = draw_legal(random, device, net)
    return rows and pairs_of(rows)


def draw_lists(random, device, problem):
    """Lists of pairs, most of which route the nets; some are corrupted, of other nets, left out or one too many."""
    lists = [draw_list(random, device, net) for net in problem]
    for _ in range(random.choice((0, 0, 1, 1, 2))):
        net = random.randrange(len(lists)) if lists else None
        kind = random.random()
        if kind < 0.05:
            lists.append([])
        elif net is None:
            break
        elif kind < 0.1:
            lists.pop()
        elif kind < 0.2:
            lists[net] = random.choice((None, [], random.choice(lists)))
        elif kind < 0.5:
            lists[net] = pairs_of(draw_tree(random, device, problem[net])) if net < len(problem) else []
        elif lists[net]:
            lists[net] = list(lists[net])
            random.choice(SPOILS_OF_PAIRS)(random, device, lists[net])
    return lists
