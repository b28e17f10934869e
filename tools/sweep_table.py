"""The table of a sweep: its columns, the file to which lines are appended, and its means."""
import errno
import fcntl
import hashlib
import math
import os
import re
import stat

from sweep_streams import TEXT, NotRun, put, say, shown, write

COLUMNS = [
    "architecture", "netlist", "placement", "options", "sum", "status", "bound", "least_width",
    "trials", "width", "iterations", "wirelength", "nets", "blocks", "array", "occupancy",
    "width_seconds", "route_seconds", "message",
]
# The columns that identify a job.
NAMES = COLUMNS[:5]
HEAD = "\t".join(COLUMNS) + "\n"
# The columns whose means are printed, and the formats of those that are used in calculations.
MEANS = ["least_width", "wirelength", "occupancy", "width_seconds", "route_seconds"]
FIGURES = {
    "bound": r"none|[1-9][0-9]{0,8}", "least_width": r"[1-9][0-9]{0,2}",
    "wirelength": r"[0-9]{1,18}", "occupancy": r"[0-9]{1,9}\.[0-9]{4}",
    "width_seconds": r"[0-9]{1,12}\.[0-9]{3}", "route_seconds": r"[0-9]{1,12}\.[0-9]{3}",
}
# The most bytes of a file's stem in the name of a kept routing, and how many remain of a longer
# one: file systems allow names of 255 bytes.
MOST_STEM, CUT_STEM = 100, 83


def stem_of(path, suffix):
    return path[: -len(suffix)] if path.endswith(suffix) else path


def name_part(path, suffix):
    """The part of the name of a kept routing that names a file (docs/SWEEP.md)."""
    stem = stem_of(os.path.basename(path), suffix)
    part, whole = shown(stem), stem.encode(**TEXT)
    if len(part.encode(**TEXT)) <= MOST_STEM:
        return part
    while len(part.encode(**TEXT)) > CUT_STEM:
        part = part[:-1]
    return f"{part}~{hashlib.sha256(whole).hexdigest()[:16]}"


def no_table(head):
    """Why a file with this first line is not a table to append to."""
    if head.split("\t")[: len(NAMES)] == NAMES:
        return "it has the columns of another version; name another file"
    return "it is not a table of `sweep`"


def fault_of(words):
    """Why these fields can't be a line of a table; nothing if they can."""
    if len(words) != len(COLUMNS):
        return f"it has {len(words)} columns instead of {len(COLUMNS)}"
    line = dict(zip(COLUMNS, words))
    for name, form in FIGURES.items():
        if line[name] and not re.fullmatch(form, line[name]):
            return f"invalid {name} `{line[name]}`"
    lacking = [name for name in MEANS if line["status"] == "routed" and not line[name]]
    return f"it is of a routed job, but has no {lacking[0]}" if lacking else ""


class Table:
    """The table to which lines are appended, each whole. An existing file is read first."""

    def __init__(self, path=None, has_head=True):
        self.path, self.lines = path, {}
        # Why the table can't be printed, if standard output is closed.
        self.fault = None
        if path is None:
            self.file = os.dup(1)
            if has_head:
                self.write(HEAD)
            return
        try:
            self.file = os.open(path, os.O_RDWR | os.O_CREAT | os.O_APPEND, 0o666)
            if not stat.S_ISREG(os.fstat(self.file).st_mode):
                raise NotRun(f"{path}: it is not a regular file")
            self.lock()
            self.read()
        except OSError as fault:
            raise NotRun(f"{path}: {fault.strerror}") from fault

    def lock(self):
        """Locks the file: two sweeps that append to it would run the same jobs twice."""
        try:
            fcntl.flock(self.file, fcntl.LOCK_EX | fcntl.LOCK_NB)
        except BlockingIOError as fault:
            raise NotRun(f"{self.path}: another sweep is appending to it") from fault
        except OSError:
            pass  # a file system without locks

    def read(self):
        with open(self.file, "rb", closefd=False) as file:
            bytes_read = file.read()
        whole = bytes_read[: bytes_read.rfind(b"\n") + 1]
        lines = whole.decode(**TEXT).split("\n")[:-1]
        if bytes_read and (not lines or lines[0] + "\n" != HEAD):
            raise NotRun(f"{self.path}: {no_table(lines[0] if lines else '')}")
        if len(whole) < len(bytes_read):
            say(f"{self.path}: its last line is incomplete and is removed")
            os.ftruncate(self.file, len(whole))
        if not bytes_read:
            self.write(HEAD)
        for number, line in enumerate(lines[1:], 2):
            if line + "\n" == HEAD:
                continue
            words = line.split("\t")
            fault = fault_of(words)
            if fault:
                say(f"{self.path} line {number}: skipped: {fault}")
                continue
            self.keep(dict(zip(COLUMNS, words)))

    def keep(self, line):
        self.lines[tuple(line[name] for name in NAMES)] = line

    def line_of(self, plan, job, kept):
        """The line of a job, for its files as they are now."""
        try:
            names = plan.names_of(job, kept)
        except NotRun:
            return {"status": "not run"}
        return self.lines.get(tuple(names.values()), {"status": "not run"})

    def rows_of(self, plan, jobs):
        """For each job all columns of its line."""
        kept, empty = {}, dict.fromkeys(COLUMNS, "")
        return [
            {**empty, **plan.columns_of(job, ""), **self.line_of(plan, job, kept)} for job in jobs
        ]

    def lacks(self, plan, job, kept):
        """Whether a job has no line, or is `not run`, or timed out and gets more time now."""
        line = self.line_of(plan, job, kept)
        if line["status"] != "timed out":
            return line["status"] == "not run"
        had = re.search(r"after ([0-9.]+(?:e-[0-9]+)?) s of the job$", line["message"])
        return not (had and plan.timeout and float(had[1]) >= plan.timeout)

    def append(self, figures):
        line = {name: shown(str(figures.get(name, ""))) for name in COLUMNS}
        self.write("\t".join(line.values()) + "\n")
        self.keep(line)

    def write(self, text):
        """Writes a line whole or not at all, the latter if standard output is closed."""
        if self.fault:
            return
        at = os.fstat(self.file).st_size if self.path else None
        try:
            write(self.file, text)
        except OSError as fault:
            if self.path:
                os.ftruncate(self.file, at)
            elif fault.errno == errno.EBADF:
                self.fault = f"standard output: {fault.strerror}"
                return
            raise NotRun(f"{self.path or 'standard output'}: {fault.strerror}") from fault


def geometric_mean(values):
    if not values or min(values) <= 0:
        return 0.0
    return math.exp(sum(map(math.log, values)) / len(values))


def print_summary(plan, table, jobs):
    """Prints the geometric means of each architecture, over the circuits that were routed."""
    kept = {}
    lines = {job: table.line_of(plan, job, kept) for job in jobs}
    rows = [["architecture", "routed", *MEANS]]
    for arch in dict.fromkeys(job.arch for job in jobs):
        of_arch = [lines[job] for job in jobs if job.arch == arch]
        routed = [line for line in of_arch if line["status"] == "routed"]
        means = [geometric_mean([float(line[name]) for line in routed]) for name in MEANS]
        figures = [f"{mean:.4g}" if routed else "-" for mean in means]
        rows.append([shown(arch), f"{len(routed)} of {len(of_arch)}", *figures])
    put_rows(rows)


def put_rows(rows):
    """Prints rows of cells in columns."""
    widths = [max(map(len, column)) for column in zip(*rows)]
    padded = [[cell.ljust(width) for cell, width in zip(row, widths)] for row in rows]
    put("".join("  ".join(cells).rstrip() + "\n" for cells in padded))


def print_seeds(plan, table, jobs):
    """Prints the least widths of each BLIF on each architecture by seed, their mean and spread."""
    seeds = plan.designs.seeds
    rows = [["architecture", "circuit", *(f"seed_{seed}" for seed in seeds), "mean", "spread"]]
    kept, found = {}, {}
    for job in jobs:
        blif, seed = plan.designs.sources[job]
        width = table.line_of(plan, job, kept).get("least_width")
        found.setdefault((job.arch, blif), {})[seed] = width or "-"
    for (arch, blif), by_seed in found.items():
        widths = [int(width) for width in by_seed.values() if width != "-"]
        figures = ["-", "-"]
        if widths:
            mean = sum(widths) / len(widths)
            figures = [f"{mean:.2f}", str(max(widths) - min(widths))]
        rows.append([shown(arch), shown(blif), *(by_seed[seed] for seed in seeds), *figures])
    put_rows(rows)
