"""A congestion book, plain and slow, from the definitions: it keeps lists, and counts by going over all of them."""
from figures import places_of
from judge import tree_fault
from trees import pairs_of, text_of

MOST_ROWS = 500


class Book:
    """The rows of each net's tree or nothing, the rows of overuse, the turns of each iteration, and who holds which drawn net."""

    def __init__(self, problem, acc):
        self.device, self.nets, self.acc = problem.device, problem.nets, acc
        self.trees = [None] * len(self.nets)
        self.rows, self.turns = [], [[]]
        self.drawn, self.holders = 0, {}
        self.histories = [0] * len(self.device.nodes)

    def uses(self, but=None):
        """How many nets use each node, with one net left out."""
        uses = [0] * len(self.device.nodes)
        for net, rows in enumerate(self.trees):
            if rows is not None and net != but:
                for node in {node for node, _ in rows}:
                    uses[node] += 1
        return uses

    def overuse(self):
        """The nodes that more nets use than may, in ascending order, and by how many more."""
        return [(node, used - room) for node, (used, room) in enumerate(zip(self.uses(), self.device.capacities)) if used > room]

    def draw(self, worker, view):
        if len(view) != len(self.device.nodes):
            return "ViewSize"
        if self.drawn == len(self.nets):
            return "none"
        net = self.drawn
        self.drawn += 1
        self.holders[net] = worker
        view.others, view.histories = self.uses(net), list(self.histories)
        return str(net)

    def look(self, net, view):
        if net >= len(self.nets):
            return "refused: there is no such net"
        if len(view) != len(self.device.nodes):
            return "ViewSize"
        view.others, view.histories = self.uses(net), list(self.histories)
        return "looked"

    def has_filled(self, net, rows, view):
        """Whether the other nets fill a node now, and those in the view did not."""
        if net >= len(self.nets):
            return "refused: there is no such net"
        if len(view) != len(self.device.nodes):
            return "refused: the view is of other nodes"
        now, room = self.uses(net), self.device.capacities
        filled = any(view.others[a] < room[a] <= now[a] for a, _ in rows if a < len(room))
        return "true" if filled else "false"

    def commit(self, worker, net, rows):
        if self.holders.get(net) != worker:
            return "NotHeld"
        fault = tree_fault(self.device, *self.nets[net], pairs_of(rows))
        if fault:
            return f"Illegal({fault})"
        self.end_turn(worker, net, rows)
        return "committed"

    def pass_by(self, worker, net):
        if self.holders.get(net) != worker:
            return "NotHeld"
        self.end_turn(worker, net, None)
        return "passed"

    def end_turn(self, worker, net, rows):
        self.trees[net] = rows
        del self.holders[net]
        self.turns[-1].append((worker, net, rows is None))

    def close(self):
        ended = {net for _, net, _ in self.turns[-1]}
        waiting = [net for net in range(len(self.nets)) if net not in ended]
        if waiting:
            return f"Unfinished({waiting[0]})"
        if len(self.rows) == MOST_ROWS:
            return "Full"
        self.rows.append(self.overuse())
        self.turns.append([])
        self.drawn = 0
        amounts = [0] * len(self.device.nodes)
        for row in self.rows:
            for node, by in row:
                amounts[node] += by
        self.histories = [self.acc * amount for amount in amounts]
        return "closed"

    def tree(self, net):
        """The line of a net's tree."""
        return "none" if net >= len(self.nets) or self.trees[net] is None else text_of(self.trees[net])

    def occupancy(self, node):
        return str(self.uses()[node]) if node < len(self.device.nodes) else "refused: there is no such node"

    def history(self, node):
        return str(self.histories[node]) if node < len(self.device.nodes) else "refused: there is no such node"

    def turns_of(self, iteration):
        if not 1 <= iteration <= len(self.turns):
            return "refused: there is no such iteration"
        turns = (f" {worker} {net}{' passed' if passed else ''}" for worker, net, passed in self.turns[iteration - 1])
        return f"turns {iteration}:" + "".join(turns)

    def row_lines(self):
        return [f"row {place}:" + "".join(f" {node} {by}" for node, by in row) for place, row in enumerate(self.rows, 1)]

    def overused(self):
        return str(len(self.overuse()))

    def excess(self):
        return str(sum(by for _, by in self.overuse()))

    def wirelength(self):
        """The places of the wires of all trees, each once a tree."""
        nodes = (self.device.nodes[node] for rows in self.trees if rows for node in {node for node, _ in rows})
        return str(sum(len(places_of(self.device, node)) for node in nodes if node in self.device.spans))

    def unrouted(self):
        return str(self.trees.count(None))

    def fresh(self):
        return "true" if self.drawn == 0 else "false"

    def dump(self):
        """All lines of the book's contents."""
        nodes = enumerate(zip(self.uses(), self.histories))
        return [
            *(f"tree {net}: {self.tree(net)}" for net in range(len(self.nets))),
            *(f"node {node}: {used} {history}" for node, (used, history) in nodes if used or history),
            *self.row_lines(),
            *(self.turns_of(iteration) for iteration in range(1, len(self.turns) + 1)),
            f"overused {self.overused()}, unrouted {self.unrouted()}, fresh {self.fresh()}",
        ]
