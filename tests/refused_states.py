"""The values of a session of lab after a call that lacked memory or a thread. tests/refusals compares them with those before it."""
import re
from dataclasses import dataclass

# A number that no answer has: the answer to the next call begins after it.
MARK = "3141592653"
KINDS = ("arch", "net", "device", "problem", "tree", "counts", "view")
DEVICE = ("parts", "edge_count", "has_architecture")
ENTRIES = ("io_rat", "class_count", "fc_type", "fc_output", "fc_input", "fc_pad", "pins", "segments", "switches")
DESIGN = ("blocks", "netlist", "site 0", "site 1", "site 2")
VALUES = ("dump_problem", "dump_tree", "marks_fit", "dump_routing", "settings", "dump_counts", "dump_histories", "dump_view", "dump_files")
# The same for the other values; each takes the place of the one that was printed before.
OTHERS = (*(f"other {kind}" for kind in KINDS), "pins", "blocks", "parts", "dump_problem", "dump_tree", "dump_counts", "dump_view")
BOOK = ("dump_book",)
# For a device with more wires the nodes aren't printed.
MOST_WIRES = 400
LOST = ["refused: there is no book"]
GATES_THAT_WAIT = ("meeting", "holding")
GATES = (*GATES_THAT_WAIT, "counting")
# These give the book to workers, and a fault loses it.
LETS_GO = ("iterate", "iterate_nets", "iterate_in", "iterate_nets_in", "desk")
STOPPED = re.compile(r"memory after (\d+) events")


@dataclass(frozen=True)
class Call:
    """A call of a script: its lines, with those of the text below it."""

    lines: tuple

    @property
    def name(self):
        """The word that names it, or the call that it makes many times."""
        words = self.lines[0].split()
        return words[2] if words[0] in ("time", "repeat") else words[0]

    @property
    def kind(self):
        """What it has in common with other calls: its name, and its gate, if it has one."""
        return self.name, next((gate for gate in GATES if gate in self.lines[0].split()), None)

    @property
    def waits(self):
        """Whether threads wait for one another in its gate."""
        return self.kind[1] in GATES_THAT_WAIT

    def cut(self, count):
        """The same list of events, cut after this many."""
        events = [line for line in self.lines[1:-1] if line.split("#")[0].strip()]
        return Call((self.lines[0], *events[:count], self.lines[-1]))


def calls_of(script):
    """The calls of a script, without comments, wanted answers, and the line that has calls repeated."""
    lines = iter(script.read_bytes().decode("utf-8", "surrogateescape").split("\n"))
    calls = []
    for line in lines:
        words = line.split("#")[0].split()
        if words and words != ["again"] and not line.startswith("="):
            below = []
            while "<<" in words and (not below or below[-1].strip() != ">>"):
                below.append(next(lines))
            calls.append(Call((line, *below)))
    return calls


def text_of(calls, before=()):
    """A script of calls, as bytes."""
    return bytes_of([*before, *(line for call in calls for line in call.lines)])


def bytes_of(lines):
    return "\n".join([*lines, ""]).encode("utf-8", "surrogateescape")


def dumps_of(calls):
    """The calls that print the values of a session after these."""
    sizes = [call.lines[0].split()[1:4] for call in calls if call.lines[0].split()[0] == "device"]
    is_great = any(len(size) == 3 and (int(size[0]) + 1) * (int(size[1]) + 1) * int(size[2]) > MOST_WIRES for size in sizes)
    return (*ENTRIES, *DESIGN, *DEVICE, *(() if is_great else ("dump_device",)), *VALUES, *BOOK, *OTHERS)


class States:
    """A script whose calls are refused memory or a thread: the requests of each call, the values after it, and the wanted ones."""

    def __init__(self, refusals, script):
        self.refusals, self.name = refusals, script.stem
        self.calls = calls_of(script)
        self.dumps = dumps_of(self.calls)
        self.wanted = {}
        # How many requests the line `again` makes, the line of the output at which the answer to each call begins, and the numbers of the
        # requests of each.
        self.offset, self.starts, self.asked = self.count()

    def count(self):
        """Counts the requests up to a mark before each call. Two marks at the end show how many requests a mark makes itself."""
        mark = f"number {MARK}"
        marked = b"".join(text_of([call], (mark,)) for call in self.calls) + bytes_of((mark, mark))
        answer, counts = self.refusals.counts_at_marks(marked)
        lines = lines_of(answer)
        starts = [line - place for place, line in enumerate(line for line, text in enumerate(lines) if text == MARK)]
        own = counts[-1] - counts[-2]
        after = [count - own * (place + 1) for place, count in enumerate(counts[:-1])]
        _, again = self.refusals.counts_at_marks(bytes_of(("again", mark)))
        offset = again[0] - counts[0]
        return offset, starts, [range(begin + offset + 1, end + offset + 1) for begin, end in zip(after, after[1:])]

    def script_behind(self, place, calls):
        """A script of the calls before one, of some calls instead of it, and of those that print all values."""
        dumps = [f"number {MARK}", *(line for dump in self.dumps for line in (dump, f"number {MARK}"))]
        return text_of([*self.calls[:place], *calls]) + bytes_of(dumps)

    def wanted_behind(self, place, stood):
        """The values wanted after a refused call; if it is a list of events, after this many of them."""
        key = (place, stood)
        if key not in self.wanted:
            events = [self.calls[place].cut(stood)] if stood else []
            answer, _ = self.refusals.made(self.script_behind(place, events), 0)
            self.wanted[key] = parts_of(lines_of(answer))[1:]
        return self.wanted[key]

    def forget(self, place):
        """Has the values wanted after a call found again, by another run."""
        self.wanted = {key: wanted for key, wanted in self.wanted.items() if key[0] != place}

    def compare(self, number, place, lacks):
        """Whether all values are right after a call whose request of this number is refused; None if that wasn't reached."""
        answer, _ = self.refusals.made(self.script_behind(place, [self.calls[place]]), number - self.offset)
        if answer is None or answer.status != 0 or answer.complained:
            return None
        before, *given = parts_of(lines_of(answer))
        if len(before) != self.starts[place] + 1:
            return None
        stopped = STOPPED.fullmatch(before[-1])
        if stopped or before[-1].encode() in lacks:
            return self.are_same(self.calls[place], given, self.wanted_behind(place, int(stopped[1]) if stopped else 0))
        return None

    def are_same(self, call, given, wanted):
        """Whether all values are as wanted, except for a lost book."""
        if len(given) != len(wanted):
            return False
        for dump, have, want in zip(self.dumps, given, wanted):
            is_gone = dump in BOOK and call.name in LETS_GO and have == LOST
            if have != want and not is_gone and in_any_order(have) != in_any_order(want):
                return False
        return True


def lines_of(answer):
    """The lines that a run printed; nothing may have gone wrong in it."""
    if answer.status != 0 or answer.complained:
        raise SystemExit(f"{answer}"[:600])
    return answer.printed.decode("utf-8", "surrogateescape").split("\n")


def parts_of(lines):
    """The lines before the first mark, and those between each two."""
    parts = [[]]
    for line in lines[:-1]:
        if line == MARK:
            parts.append([])
        else:
            parts[-1].append(line)
    return parts[:-1]


def in_any_order(lines):
    """The lines of a book, with the nets of an iteration sorted and without their workers, since both may differ between runs."""
    return [order_turns(line) if line.startswith("turns ") else line for line in lines]


def order_turns(line):
    head, _, turns = line.partition(":")
    return head, sorted(re.findall(r"\d+ (\d+(?: passed)?)", turns))
