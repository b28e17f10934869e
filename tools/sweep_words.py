"""The command line of a sweep: its options, and the jobs that it names."""
import argparse
import decimal
import itertools
import os
import pathlib
import re
import shlex

import sweep_texts
from sweep_plan import USUAL_RATIO, Job
from sweep_streams import TEXT, WrongWords
from sweep_table import stem_of

MOST_JOBS = 1024
MOST_SECONDS = 10**9
MOST_SEEDS, MOST_SEED, MOST_EFFORT = 1000, 2**32 - 1, 1000


class Words(argparse.ArgumentParser):
    def error(self, message):
        raise WrongWords(message)


def whole_number(most=None):
    """A parser of whole numbers from 1 to `most`, if given; the program has limits of its own."""
    what = f"from 1 to {most}" if most else "above 0"

    def read(text):
        if not re.fullmatch(r"0*[1-9][0-9]{0,8}", text) or int(text) > (most or int(text)):
            raise argparse.ArgumentTypeError(f"{text!r} is not a whole number {what}")
        return int(text)

    return read


def time_limit(text):
    try:
        value = float(text)
    except ValueError:
        value = 0.0
    if not 0 < value <= MOST_SECONDS:
        what = f"number of seconds above 0, up to {MOST_SECONDS}"
        raise argparse.ArgumentTypeError(f"{text!r} is not a {what}")
    return value


def seeds(text):
    """The seeds of a list such as `1-5,9`, each once."""
    found = []
    for part in text.split(","):
        ends = re.fullmatch(r"([0-9]{1,10})(?:-([0-9]{1,10}))?", part)
        first, last = (int(ends[1]), int(ends[2] or ends[1])) if ends else (1, 0)
        if not first <= last <= MOST_SEED or len(found) + last - first >= MOST_SEEDS:
            what = f"at most {MOST_SEEDS} seeds up to {MOST_SEED}, such as 1-5 or 1,4,9"
            raise argparse.ArgumentTypeError(f"{text!r} is not a list of {what}")
        found += range(first, last + 1)
    return list(dict.fromkeys(found))


def effort(text):
    """The option of the placer for an effort."""
    try:
        value = float(text)
    except ValueError:
        value = 0.0
    if not 0 < value <= MOST_EFFORT:
        raise argparse.ArgumentTypeError(f"{text!r} is not a number above 0, up to {MOST_EFFORT}")
    return ["--effort", f"{value:.15g}"]


def ratio(text):
    """A ratio, exactly: 1.1 times 10 tracks is 11, and not a little more."""
    if not re.fullmatch(r"[0-9]+(\.[0-9]+)?", text) or decimal.Decimal(text) < 1:
        raise ValueError(text)
    return decimal.Decimal(text)


ratio.__name__ = "ratio of 1 or more"


def read_words(words):
    """Parses a command line."""
    handed = []
    if "--" in words:
        at = words.index("--")
        words, handed = words[:at], words[at + 1 :]
    parser = Words(add_help=False, allow_abbrev=False)
    parser.add_argument("words", nargs="*")
    parser.add_argument("-h", "--help", action="store_true")
    parser.add_argument("--arch", action="append", default=[])
    parser.add_argument("--circuits", action="append", default=[])
    parser.add_argument("--jobs", action="append", default=[], dest="job_files")
    parser.add_argument("--from-blif")
    parser.add_argument("--seeds", type=seeds)
    parser.add_argument("--effort", type=effort)
    parser.add_argument("--out")
    parser.add_argument("--keep")
    parser.add_argument("--ratio", type=ratio, default=USUAL_RATIO)
    parser.add_argument("--start", type=whole_number())
    parser.add_argument("--upward", action="store_true")
    parser.add_argument("--global", action="store_true", dest="is_global")
    parser.add_argument("--workers", type=whole_number())
    parser.add_argument("-j", type=whole_number(MOST_JOBS), default=1, dest="at_once")
    parser.add_argument("--timeout", type=time_limit)
    parser.add_argument("--summary", action="store_true")
    parser.add_argument("--table", choices=sweep_texts.FORMS)
    parser.add_argument("--jobs-list", action="store_true")
    parser.add_argument("--job", action="store_true")
    parser.add_argument("--program")
    options = parser.parse_intermixed_args(words)
    options.handed = handed
    if (options.summary or options.table) and not options.out:
        raise WrongWords("--summary and --table need --out")
    if options.jobs_list and (options.summary or options.table):
        raise WrongWords("--jobs-list can't be combined with --summary or --table")
    if (options.seeds or options.effort) and options.from_blif is None:
        raise WrongWords("--seeds and --effort need --from-blif")
    # Whether a finished table is printed, with no job to run.
    options.lists = options.arch + options.circuits + options.job_files
    options.is_finished = bool(options.table) and not (
        options.words or options.lists or options.from_blif or options.summary
    )
    if options.job and (options.out or options.jobs_list):
        raise WrongWords("--job can't be combined with --out or --jobs-list")
    return options


def split_words(words):
    """The architectures and the circuits that arguments name."""
    architectures, circuits, at = [], [], 0
    while at < len(words):
        word, at = words[at], at + 1
        if word.endswith(".arch"):
            architectures.append(word)
        elif word.endswith(".place"):
            raise WrongWords(f"{word}: a placement must come right after its netlist NAME.net")
        elif word.endswith(".net") and at < len(words) and words[at].endswith(".place"):
            circuits.append((word, words[at]))
            at += 1
        else:
            stem = stem_of(word, ".net")
            circuits.append((stem + ".net", stem + ".place"))
    return architectures, circuits


def split_designs(words):
    """The architectures and the BLIFs that arguments name."""
    architectures = [word for word in words if word.endswith(".arch")]
    others = [word for word in words if not word.endswith(".arch")]
    for word in others:
        if word.endswith((".net", ".place")):
            raise WrongWords(f"{word}: with --from-blif, circuits are BLIFs, such as uart.blif")
    return architectures, [stem_of(word, ".blif") + ".blif" for word in others]


def lines_in(path):
    """The number and the words of each line of a file that lists circuits."""
    try:
        lines = pathlib.Path(path).read_text(**TEXT).split("\n")
    except OSError as fault:
        raise WrongWords(f"{path}: {fault.strerror}") from fault
    for number, line in enumerate(lines, 1):
        try:
            words = shlex.split(line, comments=True)
        except ValueError as fault:
            raise WrongWords(f"{path} line {number}: {fault}") from fault
        if words:
            yield number, words


def circuit_of(words, folder):
    """The circuit of a line's words, a stem or a netlist and its placement, in a folder."""
    stem = stem_of(words[0], ".net")
    files = words if len(words) == 2 else (stem + ".net", stem + ".place")
    return tuple(os.path.join(folder, file) for file in files)


def design_of(word, folder):
    """The BLIF that a line's word names, in a folder."""
    return os.path.join(folder, split_designs([word])[1][0])


def circuits_in(path):
    """The circuits that a file lists; their paths begin at its folder."""
    for number, words in lines_in(path):
        if len(words) > 2:
            raise WrongWords(f"{path} line {number}: the line must be a stem, or NET PLACE")
        yield circuit_of(words, os.path.dirname(path))


def designs_in(path):
    """The BLIFs that a file lists; their paths begin at its folder."""
    for number, words in lines_in(path):
        if len(words) > 1:
            raise WrongWords(f"{path} line {number}: the line must be one BLIF")
        yield design_of(words[0], os.path.dirname(path))


def jobs_in(path):
    """The jobs that a file lists: architectures with circuits. Their paths begin at its folder."""
    folder = os.path.dirname(path)
    for number, (arch, *circuit) in lines_in(path):
        if not 1 <= len(circuit) <= 2:
            raise WrongWords(f"{path} line {number}: the line must be ARCH NET PLACE, or ARCH STEM")
        yield os.path.join(folder, arch), circuit_of(circuit, folder)


def made_jobs_in(path):
    """The architectures and BLIFs that a file lists; their paths begin at its folder."""
    folder = os.path.dirname(path)
    for number, words in lines_in(path):
        if len(words) != 2:
            raise WrongWords(f"{path} line {number}: with --from-blif, the line must be ARCH BLIF")
        yield os.path.join(folder, words[0]), design_of(words[1], folder)


def jobs_named(options, split, listed, listed_jobs, what):
    """The jobs that arguments and files name, each an architecture and a circuit."""
    architectures, circuits = split(options.words)
    architectures += options.arch
    for path in options.circuits:
        circuits += listed(path)
    jobs = [(arch, circuit) for arch in architectures for circuit in circuits]
    if bool(architectures) != bool(circuits) or not (jobs or options.job_files):
        raise WrongWords(f"expected at least an architecture (NAME.arch) and {what}, or --jobs")
    for path in options.job_files:
        jobs += listed_jobs(path)
    return jobs


def refuse_options(paths):
    """Refuses names of files that begin like an option."""
    for path in paths:
        if path.startswith("-"):
            raise WrongWords(f"{path}: the program would take this name for an option")


def made_jobs_of(options, designs):
    """Each BLIF with each architecture and each seed, once."""
    jobs = jobs_named(options, split_designs, designs_in, made_jobs_in, "a BLIF")
    if options.job and (options.lists or len(jobs) != 1 or len(designs.seeds) != 1):
        raise WrongWords("--job with --from-blif needs ARCH BLIF and one seed")
    refuse_options(itertools.chain.from_iterable(jobs))
    made = [designs.jobs(arch, blif) for arch, blif in dict.fromkeys(jobs)]
    return list(dict.fromkeys(itertools.chain.from_iterable(made)))


def jobs_of(options):
    """Each circuit with each architecture, once."""
    if options.job:
        if len(options.words) != 3 or options.lists:
            raise WrongWords("--job needs three files: ARCH NET PLACE")
        jobs = [Job(*options.words)]
    else:
        named = jobs_named(options, split_words, circuits_in, jobs_in, "a circuit")
        jobs = [Job(arch, *circuit) for arch, circuit in named]
    refuse_options(itertools.chain.from_iterable(jobs))
    return list(dict.fromkeys(jobs))
