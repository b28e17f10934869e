"""How a job of a sweep is run: the calls of the program, and the columns of its line."""
import fractions
import itertools
import math
import operator
import os
import re
import signal
import subprocess
import tempfile
import threading
import time

import vpr430
from sweep_plan import message_of
from sweep_streams import TEXT, Ended, NotRun, shown
from sweep_table import name_part

MOST_TRACKS = 256
# The seconds that a program has to end after SIGTERM before it is killed.
GRACE = 2.0


def signal_group(program, number):
    """Sends a signal to a running program, and to the processes that it started."""
    if program.poll() is None:
        try:
            os.killpg(program.pid, number)
        except ProcessLookupError:
            pass


class Running:
    """The running programs, which end with the sweep."""

    def __init__(self):
        self.lock, self.is_ending, self.programs = threading.Lock(), False, set()

    def run(self, words, seconds):
        """Status, output and error output of a program; the status is None after a timeout."""
        with self.lock:
            if self.is_ending:
                raise Ended
            # In a session of its own, so that only the sweep gets the terminal's interrupt.
            program = subprocess.Popen(
                words, stdin=subprocess.DEVNULL, stdout=subprocess.PIPE, stderr=subprocess.PIPE,
                start_new_session=True, **TEXT,
            )
            self.programs.add(program)
        try:
            text, complaints = program.communicate(timeout=seconds)
            status = program.returncode
        except subprocess.TimeoutExpired:
            signal_group(program, signal.SIGKILL)
            (text, complaints), status = program.communicate(), None
        finally:
            with self.lock:
                self.programs.discard(program)
        if self.is_ending:
            raise Ended
        return status, text, complaints

    def end(self):
        """Ends the running programs, and lets no more start."""
        with self.lock:
            self.is_ending = True
            programs = list(self.programs)
        for program in programs:
            signal_group(program, signal.SIGTERM)
        until = time.monotonic() + GRACE
        for program in programs:
            while program.poll() is None and time.monotonic() < until:
                time.sleep(0.01)
            signal_group(program, signal.SIGKILL)


def size_of(job):
    """The nets, blocks and array of a placed circuit that the program has read."""
    design = vpr430.read_design(job.net, job.arch, job.place)
    netlist, placement = design.netlist, design.placement
    return {
        "nets": len(netlist.nets), "blocks": len(netlist.blocks),
        "array": f"{placement.nx} x {placement.ny}",
    }


def wirelength_of(path):
    """The places of the wires that a routing's nets use, each wire once per net."""
    nets = itertools.groupby(vpr430.nodes_in(path), key=operator.itemgetter(0))
    used = ({node for _, node in pairs if node.is_wire} for _, pairs in nets)
    return sum(node.places for nodes in used for node in nodes)


def places_of(array, width):
    """The number of places of the tracks of all channels of an array."""
    nx, ny = (int(number) for number in array.split(" x "))
    return width * (nx * (ny + 1) + ny * (nx + 1))


class Run:
    """A running job: the columns of its line."""

    def __init__(self, plan, running, job, folder):
        self.plan, self.running, self.job, self.folder = plan, running, job, folder
        self.figures, self.begun = {}, time.monotonic()

    def call(self, command, width=None):
        """Status, output and error output of a command on the job's files."""
        seconds = None
        if self.plan.timeout:
            seconds = max(self.begun + self.plan.timeout - time.monotonic(), 0.0)
        arch, net, place = (os.path.abspath(path) for path in self.job)
        files = [net, arch, place]
        files += [] if command == "bound" else [os.path.join(self.folder, command)]
        run = [self.plan.program, command, *files, *self.plan.words_of(command, width)]
        try:
            return self.running.run(run, seconds)
        except OSError as fault:
            raise NotRun(f"{self.plan.program}: {fault.strerror}") from fault

    def time(self, command, width=None):
        """Calls a command, and records its seconds."""
        begun = time.monotonic()
        result = self.call(command, width)
        self.figures[f"{command}_seconds"] = f"{time.monotonic() - begun:.3f}"
        return result

    def fails(self, status, text, complaints, what):
        """Records why a command gave no result; its status is None after a timeout."""
        said = message_of(text + complaints)
        if status is None:
            limit = f"{self.plan.timeout:.15g}"
            self.note("timed out", f"{what} was ended after {limit} s of the job")
        elif status == 4:
            self.note("bad input", said)
        elif status == 5:
            raise NotRun(f"{what}: {said}")
        else:
            by = f"signal {-status}" if status < 0 else f"status {status}"
            self.note("failed", f"{what}: {by}{': ' if said else ''}{said}")

    def note(self, status, message=""):
        self.figures.update(status=status, message=message)

    def has_bound(self):
        """Records the width below which there is no routing; returns whether the job goes on."""
        status, text, complaints = self.call("bound")
        found = re.match(r"no routing (?:below width (\d+)|at any width)\n", text)
        if status == 0 and found:
            self.figures["bound"] = found[1] or "none"
            return True
        self.fails(status, text, complaints, "bound")
        return False

    def search(self):
        """The least width, or None."""
        status, text, complaints = self.time("width")
        trials = re.findall(r"^width \d+: (?:not )?routed$", text, re.M)
        if trials:
            self.figures["trials"] = len(trials)
        found = re.search(r"^least routed width: (\d+)\n\Z", text, re.M)
        if status == 0 and found:
            self.figures["least_width"] = int(found[1])
            return int(found[1])
        if status == 3 and text.endswith("no routed width\n"):
            self.note("no width", "no routed width")
        else:
            self.fails(status, text, complaints, "width")
        return None

    def route(self, width):
        self.figures["width"] = width
        status, text, complaints = self.time("route", width)
        made = re.fullmatch(r"(?:routed|not routed: .*), iterations (\d+)\n", text)
        if made and status in (0, 3):
            self.figures["iterations"] = int(made[1])
        if made and status == 0:
            self.figures["wirelength"] = wirelength_of(os.path.join(self.folder, "route"))
            self.note("routed")
        elif made and status == 3:
            self.note("not routed", message_of(text))
        else:
            self.fails(status, text, complaints, "route")

    def measure(self):
        """Adds the circuit's size, if the program has read its files."""
        if self.figures["status"] not in ("routed", "not routed", "no width"):
            return
        self.figures.update(size_of(self.job))
        if "wirelength" in self.figures:
            places = places_of(self.figures["array"], self.figures["width"])
            self.figures["occupancy"] = f"{self.figures['wirelength'] / places:.4f}"

    def keep(self, whole):
        """Moves the routings to the folder of --keep."""
        arch, net = name_part(self.job.arch, ".arch"), name_part(self.job.net, ".net")
        ends = {}
        if "least_width" in self.figures:
            ends["width"] = f"least-w{self.figures['least_width']}"
        if self.figures["status"] == "routed":
            ends["route"] = f"w{self.figures['width']}"
        for command, end in ends.items():
            kept = os.path.join(self.plan.keep, f"{arch}.{net}.{whole}.{end}.route")
            os.replace(os.path.join(self.folder, command), kept)


def run_job(plan, running, job):
    """The columns of a job's line."""
    try:
        if plan.designs:
            plan.designs.make(job, running)
        names = plan.names_of(job)
        with tempfile.TemporaryDirectory(prefix=".sweep-", dir=plan.keep) as folder:
            run = Run(plan, running, job, folder)
            width = run.search() if run.has_bound() else None
            if width is not None:
                run.route(min(math.ceil(fractions.Fraction(plan.ratio) * width), MOST_TRACKS))
            run.measure()
            if plan.names_of(job) != names:
                raise NotRun("a file was changed while the job ran")
            if plan.keep:
                run.keep(names["sum"])
        return {**names, **run.figures}
    except Ended:
        raise
    except NotRun as fault:
        reason = str(fault)
    except OSError as fault:
        reason = f"{fault.filename or 'a file'}: {fault.strerror}"
    except Exception as fault:  # whatever it is, the other jobs go on
        reason = f"{type(fault).__name__}: {fault}"
    return {**plan.columns_of(job, ""), "status": "not run", "message": shown(reason)[:300]}
