"""How the jobs of a sweep are run: their files, their names, and the options of the program."""
import collections
import decimal
import hashlib
import os
import pathlib
import shlex
import subprocess
import sys
import threading

from sweep_streams import TEXT, NotRun, WrongWords, shown
from sweep_table import NAMES, name_part

TOP = pathlib.Path(__file__).resolve().parent.parent
SWEEP = TOP / "tools/sweep"
USUAL_RATIO = decimal.Decimal("1.2")

# The scripts that make a netlist and a placement from a BLIF, and the modules that they import.
PACK, PLACE = TOP / "tools/pack", TOP / "tools/place"
MAKERS = [PACK, PLACE, *(TOP / f"tools/{name}.py" for name in ("blif", "command", "vpr430"))]

Job = collections.namedtuple("Job", "arch net place")
# What a job's netlist and placement are made from.
Source = collections.namedtuple("Source", "blif seed")


def sum_of_file(path):
    try:
        return hashlib.sha256(pathlib.Path(path).read_bytes()).digest()
    except OSError as fault:
        raise NotRun(f"{path}: {fault.strerror}") from fault
    except ValueError as fault:  # a name with a zero byte
        raise NotRun(f"{path}: {fault}") from fault


def message_of(text):
    """The output of a program, as one line for a table."""
    lines = [" ".join(shown(line).split()) for line in text.split("\n")]
    return "; ".join(line for line in lines if line)[:300]


def find_program(options):
    if options.program:
        return os.path.abspath(options.program)
    try:
        found = subprocess.run(
            [TOP / "tools/program", "pathfinder"], stdout=subprocess.PIPE, check=True, **TEXT
        )
    except (OSError, subprocess.CalledProcessError) as fault:
        raise NotRun("the program `pathfinder` can't be run") from fault
    return found.stdout.strip()


class Designs:
    """BLIFs that are packed and placed. The results are kept in a folder.

    A netlist has the name ARCH.CIRCUIT.SUM.net there, and its placement with seed 3 the name
    ARCH.CIRCUIT.SUM.s3.place. SUM is over the BLIF, the architecture, the effort and the scripts
    that pack and place, so that an existing file needn't be made again.
    """

    def __init__(self, options):
        self.folder, self.seeds = options.from_blif, options.seeds or [1]
        self.effort = options.effort or []
        self.sources, self.locks = {}, {}
        self.makers = b"".join(map(sum_of_file, MAKERS))

    def jobs(self, arch, blif):
        """A job for each seed."""
        try:
            whole = self.makers + sum_of_file(arch) + sum_of_file(blif)
        except NotRun:
            whole = b""  # a file can't be read, so nothing is made
        whole = hashlib.sha256(whole + shlex.join(self.effort).encode()).hexdigest()[:16]
        name = f"{name_part(arch, '.arch')}.{name_part(blif, '.blif')}.{whole}"
        net = os.path.join(self.folder, f"{name}.net")
        self.locks[net] = threading.Lock()
        for seed in self.seeds:
            job = Job(arch, net, os.path.join(self.folder, f"{name}.s{seed}.place"))
            self.sources[job] = Source(blif, seed)
            yield job

    def words_of(self, job):
        """The options and the files that make a job by itself."""
        blif, seed = self.sources[job]
        more = ["--from-blif", self.folder, "--seeds", str(seed)]
        return [*more, *self.effort], [job.arch, blif]

    def make(self, job, running):
        """Makes the netlist and the placement of a job, unless they exist."""
        blif, seed = self.sources[job]
        os.makedirs(self.folder, exist_ok=True)
        with self.locks[job.net]:
            self.call(running, job.net, PACK, blif, job.arch)
        words = ["--seed", str(seed), *self.effort]
        self.call(running, job.place, PLACE, job.net, job.arch, *words)

    def call(self, running, made, maker, *words):
        """Calls a script to make a file, unless it exists."""
        if os.path.exists(made):
            return
        run = [sys.executable, str(maker), *words, "-o", made]
        status, _, complaints = running.run(run, None)
        if status:
            raise NotRun(f"{maker.name}: {message_of(complaints) or f'status {status}'}")


class Plan:
    """How each job of a sweep is run."""

    def __init__(self, options, designs=None):
        self.designs = designs
        self.program = find_program(options)
        self.ratio, self.timeout, self.keep = options.ratio, options.timeout, options.keep
        self.search = [] if options.start is None else ["--start", str(options.start)]
        self.search += ["--upward"] if options.upward else []
        both = ["--global"] if options.is_global else []
        both += ["--workers", str(options.workers)] if options.workers else []
        self.handed = both + options.handed
        self.before = self.search + both
        if self.ratio != USUAL_RATIO:
            self.before = ["--ratio", f"{self.ratio.normalize():f}", *self.before]
        self.after = ["--", *options.handed] if options.handed else []
        self.options = shlex.join(self.before + self.after)
        self.explain = ["--explain"] if "--explain" in options.handed else []
        # A search upward begins at the bound, so it doesn't take --no-bound.
        is_quiet = not options.upward and not self.refusal("width", ["--no-bound"])
        self.quiet = ["--no-bound"] if is_quiet else []
        self.try_words()

    def words_of(self, command, width=None):
        """The options of a command."""
        if command == "bound":
            return self.explain
        own = [*self.search, *self.quiet] if command == "width" else ["--width", str(width)]
        return own + self.handed

    def refusal(self, command, words):
        """What the program says if it refuses options of a command; nothing if it accepts them.

        It gets them with files that it then refuses.
        """
        nothing = [os.devnull] * (3 if command == "bound" else 4)
        try:
            tried = subprocess.run(
                [self.program, command, *nothing, *words], capture_output=True, check=False,
                stdin=subprocess.DEVNULL, **TEXT,
            )
        except OSError as fault:
            raise NotRun(f"{self.program}: {fault.strerror}") from fault
        if tried.returncode == 4:
            return ""
        said = (tried.stdout + tried.stderr).strip().split("\n")[0]
        return said or f"status {tried.returncode}"

    def try_words(self):
        """Lets the program check the options that it will get."""
        for command in ("width", "route", "bound"):
            refusal = self.refusal(command, self.words_of(command, 1))
            if refusal:
                raise WrongWords(f"`pathfinder {command}` refuses these options: {refusal}")

    def line_of(self, job):
        """The command line of a job."""
        words = [str(SWEEP), "--job", "--program", self.program]
        words += ["--timeout", f"{self.timeout:.15g}"] if self.timeout else []
        words += ["--keep", self.keep] if self.keep else []
        more, files = self.designs.words_of(job) if self.designs else ([], job)
        line = shlex.join([*words, *more, *self.before, *files, *self.after])
        if line != shown(line):
            raise WrongWords(f"{line}: --jobs-list can't print a control character")
        return line

    def names_of(self, job, kept=None):
        """The columns that identify a job. `kept` has the sums of files that were read before.

        A name with control characters is part of the sum, so that the sum differs from those of
        other names that look the same.
        """
        kept = {} if kept is None else kept
        whole = hashlib.sha256(self.options.encode(**TEXT))
        for path in (self.program, *job):
            if path not in kept:
                kept[path] = sum_of_file(path)
            whole.update(kept[path])
        for place, path in enumerate(job):
            if path != shown(path):
                whole.update(f"\0{place} {path}\0".encode(**TEXT))
        return self.columns_of(job, whole.hexdigest()[:16])

    def columns_of(self, job, whole):
        return dict(zip(NAMES, (*map(shown, (*job, self.options)), whole)))
