"""Views: what a net sees of the others."""

MOST_OTHERS = 65_535
MOST_HISTORY = 2**42


class View:
    """How many other nets use each node, and the node's history."""

    def __init__(self, size):
        self.others, self.histories = [0] * size, [0] * size

    def __len__(self):
        return len(self.others)

    def make(self, case):
        """Asks for the view, and for all that it shows."""
        case.ask(f"view {len(self)}", f"{len(self)} nodes")
        for node, seen in enumerate(zip(self.others, self.histories)):
            if seen != (0, 0):
                case.ask(f"set {node}: {seen[0]} {seen[1]}", self.seen(node))

    def seen(self, node):
        return f"{self.others[node]} {self.histories[node]}"

    def dump(self):
        """A line for each node that another net uses or that has a history."""
        shown = (node for node in range(len(self)) if self.others[node] or self.histories[node])
        return [f"{node}: {self.seen(node)}" for node in shown]


def light(random):
    """Few nets and small histories, so that many ways cost the same."""
    return int(random.random() < 0.25), 20 * int(4 * random.random())


def dense(random):
    return int((MOST_OTHERS + 1) * random.random()), int(2**16 * random.random())


def old(random):
    return int(random.random() < 0.25), int((MOST_HISTORY + 1) * random.random())


def greatest(random):
    return MOST_OTHERS - int(3 * random.random()), MOST_HISTORY - int(3 * random.random())


def steps(random):
    """Histories that differ in multiples of 2^32 alone."""
    return int(random.random() < 0.25), int(8 * random.random()) * 2**32


def walls(random):
    return random.choice(((0, 0), (0, 0), (MOST_OTHERS, MOST_HISTORY), (MOST_OTHERS, 0), (0, MOST_HISTORY)))


def brink(random):
    """Histories with which some ways cost a little less than 2^32 and others a little more."""
    return 0, max(0, 2**28 // random.randint(1, 5) - random.randint(-5, 60))


TRAFFIC = (light, light, dense, old, greatest, steps, walls, brink)


def draw_view(random, size):
    """A view that shows nothing, something of a few nodes, or something of all."""
    view, traffic = View(size), random.choice(TRAFFIC)
    few = random.sample(range(size), min(size, random.randint(1, 6)))
    for node in random.choice(([], few, few, range(size), range(size), range(size))):
        view.others[node], view.histories[node] = traffic(random)
    return view


def draw_present(random):
    """A present-congestion factor."""
    return random.choice((0, 8, random.randrange(64), random.randint(0, 2**20), 2**20))


def draw_margin(random):
    """How far a net's box goes beyond its terminals: by one place, by a few, or beyond the device."""
    return random.choice((1, 1, random.randint(1, 4), random.randint(1, 255), 255))
