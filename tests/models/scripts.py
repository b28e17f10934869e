"""Compares the answers of `lab` to random scripts, drawn by seeds, with those of a model."""
import concurrent.futures
import os
import pathlib
import random
import subprocess
import tempfile
from collections import Counter
from dataclasses import dataclass, field

from comparing import asked, print_counts

# One run of the program takes the scripts of this many seeds.
CHUNK = 8
SECONDS = 300


@dataclass
class Case:
    """The calls of a script, and for each the lines that must be answered, or functions that say what is wrong with them."""

    calls: list = field(default_factory=list)
    kinds: Counter = field(default_factory=Counter)

    def ask(self, call, *answers):
        self.calls.append((call, answers))

    def ask_below(self, call, lines, *answers):
        """Asks for a call that reads lines."""
        self.ask("\n".join([f"{call} <<", *lines, ">>"]), *answers)

    def met(self, kind, number=1):
        self.kinds[kind] += number

    def script(self):
        return "".join(f"{call}\n" for call, _ in self.calls)

    def script_with_answers(self):
        """The script with the answers that are known."""
        texts = []
        for call, answers in self.calls:
            texts += [call, *(f"= {answer}" for answer in answers if not any(map(callable, answers)))]
        return "\n".join([*texts, ""])

    def difference(self, lines):
        """What is wrong with the lines that were answered, or nothing."""
        have = iter(lines)
        for number, (call, answers) in enumerate(self.calls, 1):
            for answer in answers:
                wrong = wrong_with(next(have, None), answer)
                if wrong:
                    return f"call {number} ({call[:60]!r}): {wrong}"
        rest = list(have)
        return f"after the last call: got {rest[0][:100]!r}" if rest else ""


def wrong_with(line, answer):
    """What is wrong with a line of an answer, or nothing."""
    if line is None:
        return "no answer"
    if callable(answer):
        return answer(line)
    place = next((at for at, (have, wish) in enumerate(zip(line, answer)) if have != wish), min(len(line), len(answer)))
    begin = max(place - 40, 0)
    return "" if line == answer else f"got {line[begin:][:100]!r}, want {answer[begin:][:100]!r}"


def mark(seed):
    """The line that is answered before a seed's case, and the call for it."""
    return f"1: case {seed}", f"lines <<\ncase {seed}\n>>\n"


def answers_by_seed(text, seeds):
    """The lines that were answered to the case of each seed."""
    marks, found, lines = {mark(seed)[0]: seed for seed in seeds}, {seed: [] for seed in seeds}, []
    for line in text.split("\n")[:-1]:
        if line in marks:
            lines = found[marks[line]]
        else:
            lines.append(line)
    return found


def judge(program, draw, seeds):
    """For the case of each seed, what is wrong with its answers or nothing, where a wrong one is kept, and the kinds that it met."""
    cases = {seed: draw(random.Random(seed)) for seed in seeds}
    script = "".join(mark(seed)[1] + case.script() for seed, case in cases.items())
    try:
        ran = subprocess.run([program], input=script.encode(), capture_output=True, timeout=SECONDS, check=False)
    except subprocess.TimeoutExpired:
        return [(seed, f"no answer in {SECONDS} s", keep(case, seed), case.kinds) for seed, case in cases.items()]
    answers = answers_by_seed(ran.stdout.decode(errors="replace"), seeds)
    wrong = {seed: case.difference(answers[seed]) for seed, case in cases.items()}
    if ran.returncode or ran.stderr:
        blamed = next((seed for seed in seeds if wrong[seed]), seeds[-1])
        wrong[blamed] += f" (status {ran.returncode}, said {ran.stderr.decode(errors='replace')[:200]!r})"
    for seed, case in cases.items():
        case.met("answers", len(answers[seed]))
    return [(seed, wrong[seed], wrong[seed] and keep(case, seed), case.kinds) for seed, case in cases.items()]


def keep(case, seed):
    """Keeps the script of a case that failed, and says where."""
    path = pathlib.Path(tempfile.mkdtemp(prefix=f"seed-{seed}-"), "case.lab")
    path.write_text(case.script_with_answers())
    return path


def main(doc, draw, count):
    """Compares the cases of the seeds that the command line names, or of the first ones; the status to exit with."""
    program, seeds = asked(doc, count)
    chunks = [seeds[begin : begin + CHUNK] for begin in range(0, len(seeds), CHUNK)]
    failed, kinds = 0, Counter()
    with concurrent.futures.ProcessPoolExecutor(len(os.sched_getaffinity(0))) as pool:
        for judged in pool.map(judge, [program] * len(chunks), [draw] * len(chunks), chunks):
            for seed, wrong, path, met in judged:
                kinds += met
                if wrong:
                    failed += 1
                    print(f"seed {seed}: {wrong} (script in {path})", flush=True)
    return print_counts(kinds, seeds, failed)
