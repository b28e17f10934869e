"""Runs the program, and tests of crates, with calls for memory or threads refused: what without-memory and without-threads share."""
import argparse
import concurrent.futures
import functools
import itertools
import os
import pathlib
import queue
import re
import signal
import struct
import subprocess
import tempfile
from dataclasses import dataclass, replace
from typing import Callable, Optional

from bundled import TOP

# Placeholders for the routing file, and for a script, in the words of a run.
ROUTE = "ROUTE"
SCRIPT = "SCRIPT"
OLD_ROUTING = b"an old routing\n"
SECONDS = 120
PROCESSORS = len(os.sched_getaffinity(0))
# How often a run is made if its answer says nothing.
TRIES = 5
# Each call is refused up to this one; with thinning, later ones are refused at steps of a hundredth of their number.
EACH_CALL = 300
# A job and its result, as refused_call.c has them.
JOB = struct.Struct("3L")
END = struct.Struct("4L")
# What is reported if a call was refused.
REFUSED = b"!"


@dataclass(frozen=True)
class Answer:
    """The result of a run: its status, what it printed on both streams, and the contents of the routing file, if there is one."""

    status: int
    printed: bytes
    complained: bytes
    routing: Optional[bytes]

    def is_refusal(self, lines, before):
        """Whether it is the answer to a refusal, one of these lines, with the routing file as before."""
        return self.status == 6 and self.printed in lines and self.complained == b"" and self.routing == before


def says_all(_answer):
    """Whether an answer says nothing: none does."""
    return False


@dataclass(frozen=True)
class Run:
    """A command that is run again and again: its words, the routing file or the script before it, which answers are right, and which
    say nothing."""

    name: str
    words: tuple
    before: Optional[bytes]
    is_right: Callable
    says_nothing: Callable = says_all

    def answer(self):
        """The answer if nothing is refused."""
        with tempfile.TemporaryDirectory() as folder:
            files = Files(folder, self.words)
            files.put(self.before)
            ran = subprocess.run(files.words, cwd=folder, env={}, stdin=subprocess.DEVNULL, capture_output=True, timeout=SECONDS)
            return Answer(ran.returncode, ran.stdout, ran.stderr, files.routing())


class Files:
    """The files of runs in a folder: a routing or a script, if the words have one."""

    def __init__(self, folder, words):
        names = {ROUTE: f"{folder}/new.route", SCRIPT: f"{folder}/script.lab"}
        self.words = [names.get(word, str(word)) for word in words]
        self.route = names[ROUTE] if ROUTE in words else None
        self.script = names[SCRIPT] if SCRIPT in words else None
        self.there = None

    def put(self, before):
        """Makes the file what it is before a run."""
        if self.route and before is None:
            pathlib.Path(self.route).unlink(missing_ok=True)
        elif self.route or (self.script and before != self.there):
            pathlib.Path(self.route or self.script).write_bytes(before)
            self.there = before

    def routing(self):
        """The contents of the routing file, None if there is none."""
        try:
            return pathlib.Path(self.route).read_bytes() if self.route else None
        except FileNotFoundError:
            return None


class Loaded:
    """A program that is loaded once with the library: each of its runs begins as a copy of it (refused_call.c)."""

    def __init__(self, words, variables):
        self.folder = tempfile.TemporaryDirectory()
        self.files = Files(self.folder.name, words)
        jobs, self.jobs = os.pipe()
        ends, writer = os.pipe()
        self.ends = open(ends, "rb")
        variables = {**variables, "REFUSED_JOBS": str(jobs), "REFUSED_ENDS": str(writer)}
        nothing = dict.fromkeys(("stdin", "stdout", "stderr"), subprocess.DEVNULL)
        self.process = subprocess.Popen(self.files.words, cwd=self.folder.name, env=variables, pass_fds=(jobs, writer), **nothing)
        os.close(jobs)
        os.close(writer)

    def answer(self, before, number, is_from):
        """The answer of a run, None if it takes too long, and the report on its calls."""
        self.files.put(before)
        os.write(self.jobs, JOB.pack(number, is_from, SECONDS))
        status, *sizes = END.unpack(self.ends.read(END.size))
        printed, complained, report = map(self.ends.read, sizes)
        status = os.waitstatus_to_exitcode(status)
        answer = None if status == -signal.SIGALRM else Answer(status, printed, complained, self.files.routing())
        return answer, report

    def end(self):
        os.close(self.jobs)
        self.process.wait()
        self.ends.close()
        self.folder.cleanup()


class Refusals:
    """A program with calls of one kind refused, loaded once for each processor. Each copy makes one run at a time."""

    def __init__(self, library, kind, words, mark="", each=EACH_CALL, share=100):
        self.kind, self.each, self.share = kind, each, share
        variables = {"LD_PRELOAD": library, "REFUSED_KIND": kind, "REFUSED_MARK": mark}
        self.loaded = [Loaded(words, variables) for _ in range(PROCESSORS)]
        self.idle = queue.SimpleQueue()
        for loaded in self.loaded:
            self.idle.put(loaded)

    def __enter__(self):
        return self

    def __exit__(self, *_):
        for loaded in self.loaded:
            loaded.end()

    def made(self, before, number, is_from=False):
        """The answer of a run by an idle copy, and the report on its calls."""
        loaded = self.idle.get()
        try:
            return loaded.answer(before, number, is_from)
        finally:
            self.idle.put(loaded)

    def answer(self, run, number, is_from):
        """The answer of a run with the call of this number refused, and all after it if wanted; and whether it was made."""
        for _ in range(TRIES):
            answer, report = self.made(run.before, number, is_from)
            if answer is None or not run.says_nothing(answer):
                break
        return answer, REFUSED in report

    def count(self, run):
        """How many calls of the kind a run makes: their greatest number, found by bisection."""
        least, over = 0, 1
        while self.answer(run, over, False)[1]:
            least, over = over, 2 * over
        while over - least > 1:
            middle = (least + over) // 2
            least, over = (middle, over) if self.answer(run, middle, False)[1] else (least, middle)
        return least

    def numbers(self, is_thinned):
        """The numbers of the calls that are refused; with thinning, the steps between later ones grow with the number."""
        number = 1
        while True:
            yield number
            number += 1 + (number // self.share if is_thinned and number >= self.each else 0)

    def counts_at_marks(self, script):
        """The answer of a script with nothing refused, and how many calls it made before each line that is a mark."""
        answer, report = self.made(script, 0)
        return answer, [int(line) for line in report.splitlines()]

    def answers(self, run, is_from, numbers):
        """Refuses one call after another until the run makes no more: the number of each, the answer, and whether the call was made."""
        with concurrent.futures.ThreadPoolExecutor(PROCESSORS) as pool:
            for chunk in chunks(numbers):
                given = list(pool.map(lambda number: self.answer(run, number, is_from), chunk))
                yield from ((number, *answered) for number, answered in zip(chunk, given))
                if not all(is_refused for _, is_refused in given):
                    break

    def refuse(self, run, is_from, is_thinned):
        """Refuses one call after another until the run makes no more; how many were refused, and how many answers are wrong."""
        return self.refuse_numbers(run, is_from, self.numbers(is_thinned))

    def refuse_numbers(self, run, is_from, numbers, keep=lambda number, answer: None):
        """Refuses the calls of some numbers, and passes on each right answer; how many were refused, and how many answers are wrong."""
        way = f"all {self.kind} from" if is_from else self.kind
        refused = last = wrong = 0
        for number, answer, is_refused in self.answers(run, is_from, numbers):
            if answer is None or not run.is_right(answer):
                wrong += 1
                print(f"{run.name}: {way} call {number}: {answer or 'no answer'}"[:600], flush=True)
            elif is_refused:
                keep(number, answer)
            if is_refused:
                refused, last = refused + 1, number
        print(f"{run.name}: {way}: {refused} of some {last} refused, {wrong} wrong answers", flush=True)
        return refused, wrong


def chunks(numbers):
    """Some numbers at a time."""
    rest = iter(numbers)
    while chunk := list(itertools.islice(rest, 16)):
        yield chunk


def usual_of(words, before=None):
    """The answer of a command with nothing refused."""
    return Run("", words, before, None).answer()


def run_of(name, words, before=None, refusals=(b"error: memory\n",)):
    """A run whose answer is always the same, or that of a refusal."""
    usual = usual_of(words, before)
    return Run(name, words, before, lambda given: given == usual or given.is_refusal(refusals, before))


def run_that_complains(name, words, refusals):
    """A run whose answer is always the same, or that of a refusal; standard error may have only a front of its lines."""
    usual = usual_of(words)
    lines = usual.complained.splitlines(keepends=True)
    fronts = [b"".join(lines[:count]) for count in range(len(lines) + 1)]

    def is_right(given):
        plain = replace(given, complained=b"")
        return given.complained in fronts and (plain == replace(usual, complained=b"") or plain.is_refusal(refusals, None))

    return Run(name, words, None, is_right)


@functools.lru_cache
def is_legal(program, design, width, routing):
    """Whether a program finds a routing of a design legal at a width."""
    judged = usual_of((program, "check", *design, ROUTE, "--width", width), routing)
    return judged.status == 0 and judged.printed == b"legal\n"


def run_by_workers(name, words, program, design, width_of, before=None):
    """A run of several workers: any routing is right that is legal at the width that the run prints."""

    def is_right(given):
        if given.is_refusal((b"error: memory\n", b"error: no thread\n"), before):
            return True
        width = width_of(given.printed)
        return given.status == 0 and width is not None and not given.complained and is_legal(program, design, width, given.routing)

    return Run(name, words, before, is_right)


def route_by_workers(name, program, design, width, workers, before=None):
    """A run that routes a design by several workers."""
    words = (program, "route", *design, ROUTE, "--width", width, "--workers", workers)
    return run_by_workers(name, words, program, design, lambda printed: width if re.fullmatch(rb"routed, iterations \d+\n", printed) else None, before)


def search_by_workers(name, program, design, start, workers, before=None):
    """A run that searches for the least width of a design by several workers."""
    words = (program, "width", *design, ROUTE, "--start", start, "--workers", workers, "--no-bound", "--iterations", "10")

    def width_of(printed):
        found = re.fullmatch(rb"(?:width \d+: (?:not )?routed\n)+least routed width: (\d+)\n", printed)
        return found and found[1].decode()

    return run_by_workers(name, words, program, design, width_of, before)


def tests_of(crate, suffix):
    """The tests of a crate whose names have this suffix, as `rt ci` or `rt test` built them last."""
    program = TOP / f"crates/{crate}/out/{crate}_tests"
    if not program.is_file():
        return []
    listed = subprocess.run([program, "--list"], capture_output=True, text=True, check=True).stdout
    names = [line.removesuffix(": test") for line in listed.splitlines()]
    return [run_of_test(crate, program, name) for name in names if name.endswith(suffix)]


def run_of_test(crate, program, name):
    return Run(f"{crate} {name}", (program, name), None, lambda given: given.status == 0 and given.printed.endswith(b"test result: ok\n"))


def runs_of_crates(crates, suffix):
    """The tests of these crates, or of all, whose names have this suffix."""
    for crate in crates or sorted(path.name for path in (TOP / "crates").iterdir()):
        yield from tests_of(crate, suffix)


def built_library(folder):
    """Builds the library that refuses calls in a folder, and returns its path."""
    library = f"{folder}/refused_call.so"
    subprocess.run([os.environ.get("CC", "cc"), "-O1", "-shared", "-fPIC", "-o", library, TOP / "tests/refused_call.c", "-ldl"], check=True)
    return library


def refuse_run(library, kind, run, ways, is_thinned):
    """Refuses the calls of a run, one by one, or all from each one on; for each of these ways, how many were refused and how many answers wrong."""
    with Refusals(library, kind, run.words) as refusals:
        return [refusals.refuse(run, is_from, is_thinned) for is_from in ways]


def main(kind, runs_of_program):
    """Refuses the calls of a kind in the program's runs, or in tests of crates; the status to exit with."""
    words = argparse.ArgumentParser(description=f"Runs a program with {kind} refused.")
    words.add_argument("program", nargs="?", metavar="PROGRAM", help="the program, one of this repository's")
    words.add_argument("--all", action="store_true", help="refuse each call, also those that are else thinned out")
    words.add_argument("--crates", nargs="*", metavar="CRATE", help=f"tests of these crates, or of all, that are named .._without_{kind}")
    given = words.parse_args()
    if (given.program is None) == (given.crates is None):
        words.error("either a program or --crates")
    program = given.program and os.path.abspath(given.program)
    # After a refusal a test of a crate calls again, and that must succeed: so the tests aren't run with all calls refused from one on.
    ways, runs = ((False, True), runs_of_program(program)) if program else ((False,), runs_of_crates(given.crates, f"_without_{kind}"))
    with tempfile.TemporaryDirectory() as folder:
        library = built_library(folder)
        counts = [count for run in runs for count in refuse_run(library, kind, run, ways, not given.all)]
    failed = sum(wrong > 0 for _, wrong in counts)
    print(f"{len(counts)} runs, {sum(refused for refused, _ in counts)} refusals of {kind}, {sum(wrong for _, wrong in counts)} wrong answers")
    print(f"{len(counts) - failed} passed, {failed} failed")
    return 1 if failed or not counts else 0
