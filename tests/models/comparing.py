"""Compares the program's answers with those of a model, over random cases drawn by seeds."""
import argparse
import concurrent.futures
import os
import pathlib
import random
import subprocess
import sys
import tempfile
from dataclasses import dataclass, field

SECONDS = 120
ROUTE = "new.route"


@dataclass
class Case:
    """The words and files of a run, and its required results: its text, its status, and the routing file, if there is one."""

    words: list
    files: dict
    text: str
    status: int
    routing: str = None
    kinds: list = field(default_factory=list)


def difference(program, case):
    """What is wrong with the program's answer to a case, or nothing."""
    with tempfile.TemporaryDirectory() as folder:
        for name, text in case.files.items():
            pathlib.Path(folder, name).write_text(text)
        run, nothing = [program, *case.words], subprocess.DEVNULL
        try:
            ran = subprocess.run(run, cwd=folder, stdin=nothing, capture_output=True, text=True, timeout=SECONDS, check=False)
        except subprocess.TimeoutExpired:
            return f"no answer in {SECONDS} s"
        made = pathlib.Path(folder, ROUTE)
        routing = made.read_text() if made.exists() and ROUTE not in case.files else None
    if (ran.returncode, ran.stdout, ran.stderr) != (case.status, case.text, ""):
        return f"status {ran.returncode}, want {case.status}; " + first_difference(ran.stdout, case.text) + ran.stderr[:200]
    if routing != case.routing:
        return "the routing: " + first_difference(routing or "", case.routing or "")
    return ""


def first_difference(got, want):
    for number, (have, wish) in enumerate(zip(got.split("\n") + [""], want.split("\n") + [""]), 1):
        if have != wish:
            return f"line {number}: got {have[:100]!r}, want {wish[:100]!r}"
    return "the same text"


def judge(program, draw, seed):
    """What is wrong with the case of a seed, the case, and the kinds under which it counts."""
    case = draw(random.Random(seed))
    return difference(program, case), case


def keep(case, seed):
    """Keeps the files of a case that failed, and says where."""
    folder = pathlib.Path(tempfile.mkdtemp(prefix=f"seed-{seed}-"))
    for name, text in case.files.items():
        (folder / name).write_text(text)
    return folder


def asked(doc, count):
    """The program that the command line names, and the seeds: the first ones, or those that it names."""
    words = argparse.ArgumentParser(description=doc.split("\n")[0])
    words.add_argument("program", metavar="PROGRAM")
    words.add_argument("--seeds", nargs=2, type=int, default=(0, count), metavar=("FROM", "TO"), help=f"by default 0 {count}")
    given = words.parse_args()
    return os.path.abspath(given.program), range(*given.seeds)


def print_counts(kinds, seeds, failed):
    """Prints how often each kind was met, and how many seeds passed and failed; the status to exit with."""
    name = pathlib.Path(sys.argv[0]).name
    print(f"{name}: " + ", ".join(f"{kind} {number}" for kind, number in sorted(kinds.items())))
    print(f"{len(seeds) - failed} passed, {failed} failed")
    return 1 if failed or not seeds else 0


def main(doc, draw, count):
    """Compares the cases of the seeds that the command line names, or of the first ones; the status to exit with."""
    program, seeds = asked(doc, count)
    failed, kinds = 0, {}
    with concurrent.futures.ProcessPoolExecutor(len(os.sched_getaffinity(0))) as pool:
        judged = pool.map(judge, [program] * len(seeds), [draw] * len(seeds), seeds, chunksize=8)
        for seed, (wrong, case) in zip(seeds, judged):
            for kind in case.kinds:
                kinds[kind] = kinds.get(kind, 0) + 1
            if wrong:
                failed += 1
                print(f"seed {seed}: {' '.join(case.words)}: {wrong} (files in {keep(case, seed)})", flush=True)
    return print_counts(kinds, seeds, failed)
