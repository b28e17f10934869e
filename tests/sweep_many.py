"""Checks of many jobs: files that list them, how many are left, GNU parallel and Slurm."""
import os
import pty
import re
import shlex
import shutil
import subprocess
import sys

from bundled import TOP
from gates import script
from sweep_checks import COLUMNS, HEAD, SweepChecks

# It does what Slurm does with an array of tasks, except for their time: it takes at most 1,000, which
# begin in no order. Without --wait it doesn't run them, as if they came later.
SBATCH = """#!PYTHON
import argparse
import concurrent.futures
import os
import random
import subprocess
import sys

parser = argparse.ArgumentParser(allow_abbrev=False)
parser.add_argument("--wait", action="store_true")
for name in ("--array", "--output", "--error", "--wrap"):
    parser.add_argument(name, required=True)
options = parser.parse_args()
first, last = map(int, options.array.split("-"))
if last > 1000:
    sys.exit("sbatch: error: Batch job submission failed: Invalid job array specification")
print("Submitted batch job 7")


def run(task):
    env = {**os.environ, "SLURM_ARRAY_TASK_ID": str(task)}
    paths = (path.replace("%a", str(task)) for path in (options.output, options.error))
    with open(next(paths), "wb") as out, open(next(paths), "wb") as complaints:
        words = ["/bin/sh", "-c", options.wrap]
        return subprocess.run(words, env=env, stdout=out, stderr=complaints, stdin=subprocess.DEVNULL).returncode


if options.wait:
    tasks = list(range(first, last + 1))
    random.shuffle(tasks)
    with concurrent.futures.ThreadPoolExecutor(2) as pool:
        sys.exit(max(pool.map(run, tasks)))
"""
# A sweep of this many jobs, each of which writes a line at once.
JOBS = 1100
LIST = """#!/bin/sh
i=0; while [ $i -lt JOBS ]; do i=$((i + 1)); echo "echo 'job $i'"; done
"""


def block_of(word):
    """The commands of docs/SWEEP.md that have a word."""
    blocks = re.findall(r"(?:^    .*\n)+", (TOP / "docs/SWEEP.md").read_text(), re.M)
    block, = (block for block in blocks if word in block)
    return re.sub(r"(?m)^    ", "", block)


class ManyChecks(SweepChecks):
    """Checks of sweeps with many jobs."""

    def of_jobs_files(self):
        """A file lists jobs, with paths relative to its folder; they are run in addition to the other ones."""
        inner = self.folder / "job lists"
        inner.mkdir()
        (inner / "all").write_text(
            "# three jobs, one of them twice\n../k4n1.arch ../counter.net ../counter.place\n"
            "../lut4.arch ../uart # by its stem\n'../lut4.arch' ../counter.net '../counter.place'\n\n"
            "../k4n1.arch ../counter\n"
        )
        listed = self.sweep("--jobs", "job lists/all", "k4n1.arch", "uart", "--jobs-list")[0].splitlines()
        jobs = [shlex.split(line)[-3:] for line in listed]
        at = "job lists/../"
        wanted = [
            ["k4n1.arch", "uart.net", "uart.place"],
            [f"{at}k4n1.arch", f"{at}counter.net", f"{at}counter.place"],
            [f"{at}lut4.arch", f"{at}uart.net", f"{at}uart.place"],
            [f"{at}lut4.arch", f"{at}counter.net", f"{at}counter.place"],
        ]
        self.expect("listed jobs", jobs, wanted)
        self.calls()
        self.sweep("--jobs", "job lists/all", "--out", "listed jobs.tsv")
        lines = self.lines("listed jobs.tsv")
        self.expect("their lines", [[line[name] for name in COLUMNS[:3]] for line in lines], wanted[1:])
        self.expect("their ends", {line["status"] for line in lines}, {"routed"})
        self.expect("their calls", len(self.calls()), 3 * 3)
        self.sweep("--jobs", "job lists/all", "--out", "listed jobs.tsv")
        self.expect("nothing is run again", self.calls(), [])
        (inner / "blifs").write_text("../k4n1.arch ../light\n../lut4.arch ../light.blif\n")
        shutil.copy(TOP / "examples/flow/light.blif", self.folder)
        words = ["--jobs", "job lists/blifs", "--from-blif", "made", "--seeds", "1-2", "--jobs-list"]
        listed = self.sweep(*words)[0].splitlines()
        jobs = [[*shlex.split(line)[-2:], line.count("--seeds 2")] for line in listed]
        self.expect("listed BLIFs", jobs, [[f"{at}{arch}.arch", f"{at}light.blif", seed] for arch in ("k4n1", "lut4") for seed in (0, 1)])
        for text, words, told in (
            ("a.arch\n", [], "wrong line 1: the line must be ARCH NET PLACE, or ARCH STEM"),
            ("# none\na.arch b c d\n", [], "wrong line 2: the line must be ARCH NET PLACE"),
            ("a.arch 'b\n", [], "wrong line 1: No closing quotation"),
            ("-a b c\n", [], "-a: the program would take this name for an option"),
            ("a.arch b c\n", ["k4n1.arch"], "and a circuit"),
            ("a.arch b c\n", ["counter"], "an architecture"),
            ("a.arch b c\n", ["--job"], "three files"),
            ("a.arch b c\n", ["--from-blif", "made"], "with --from-blif, the line must be ARCH BLIF"),
            ("a.arch b.net\n", ["--from-blif", "made"], "with --from-blif, circuits are BLIFs"),
        ):
            (self.folder / "wrong").write_text(text)
            self.told(f"{text!r} {words}", self.sweep("--jobs", "wrong", *words, status=2)[1], told)
        self.told("no such list", self.sweep("--jobs", "nowhere", status=2)[1], "nowhere: No such file")
        (self.folder / "wrong").write_text("# none\n")
        self.expect("a list of none", self.sweep("--jobs", "wrong"), (HEAD, ""))

    def of_terminals(self):
        """On a terminal standard error says after each job how many are left; otherwise it says nothing."""
        words = ["k4n1.arch", "counter", "nowhere", "uart", "--out", "terminal.tsv"]
        master, slave = pty.openpty()
        ran = subprocess.Popen(self.words(*words), cwd=self.folder, stdout=subprocess.PIPE, stderr=slave)
        os.close(slave)
        said = b""
        try:
            while part := os.read(master, 4096):
                said += part
        except OSError:  # the other end is closed
            pass
        os.close(master)
        self.expect("on a terminal", (ran.communicate()[0], ran.returncode), (b"", 1))
        lines = [re.sub(r"(about|after) \d+ (s|min)", r"\1 N", line) for line in said.decode().splitlines()]
        self.expect("what it says", lines, [
            "sweep: 3 jobs to run",
            "sweep: 1 of 3: k4n1.arch counter.net routed, 2 tracks; 2 left, about N",
            "sweep: not run: nowhere.net: No such file or directory",
            "sweep: 2 of 3: k4n1.arch nowhere.net not run; 1 left, about N",
            "sweep: 3 of 3: k4n1.arch uart.net routed, 4 tracks; none left, after N",
        ])
        left = script(self.tool).left
        for number, many, seconds, wanted in (
            (1, 2, 0.1, "1 left, about 1 s"), (3, 12, 29, "9 left, about 87 s"), (3, 12, 30, "9 left, about 2 min"),
            (1, 100, 60, "99 left, about 2 h"), (10, 1000, 1000, "990 left, about 28 h"), (4, 4, 240, "none left, after 4 min"),
        ):
            self.expect(f"left after {number} of {many}", left(number, many, seconds), wanted)

    def pasted(self, block, tool, tools):
        """What a block of commands leaves in a folder with designs, if this tool is the sweep."""
        top = self.folder / "pasted"
        for name in ("k4n1.arch", "lut4.arch"):
            (top / "circuits").mkdir(parents=True, exist_ok=True)
            shutil.copy(self.folder / name, top)
        for name in ("counter", "uart"):
            for ending in ("net", "place"):
                shutil.copy(self.folder / f"{name}.{ending}", top / "circuits")
        self.expect("a sweep in the commands", block.count("tools/sweep "), 1)
        commands = block.replace("tools/sweep", shlex.join(map(str, tool)))
        env = {**os.environ, "PATH": f"{tools}:{os.environ['PATH']}"}
        run = ["bash", "--noprofile", "--norc", "-c", commands]
        return subprocess.run(run, cwd=top, env=env, capture_output=True, text=True, check=False)

    def of_clusters(self):
        """The commands for Slurm and GNU parallel run all jobs once, and take no old lines."""
        tools = self.folder / "slurm tools"
        tools.mkdir()
        slurm = tools / "sbatch"
        slurm.write_text(SBATCH.replace("PYTHON", sys.executable))
        fast = tools / "fast"
        fast.write_text(LIST.replace("JOBS", str(JOBS)))
        for path in (slurm, fast):
            path.chmod(0o755)
        block, table = block_of("sbatch"), self.folder / "pasted/new.tsv"
        jobs = sorted((arch, f"circuits/{name}.net", "routed") for arch in ("k4n1.arch", "lut4.arch") for name in ("counter", "uart"))
        for turn in (1, 2):
            ran = self.pasted(block, self.words(), tools)
            self.expect(f"Slurm: what is said, turn {turn}", (ran.stdout, ran.stderr, ran.returncode), ("Submitted batch job 7\n", "", 0))
            lines = self.lines(table)
            got = sorted((line["architecture"], line["netlist"], line["status"]) for line in lines)
            self.expect(f"Slurm: the jobs, turn {turn}", got, jobs)
        table.unlink()
        old = self.folder / "pasted/lines-old000"
        old.mkdir()
        (old / "1").write_text("an old line\n")
        (self.folder / "pasted/line.1").write_text("an old line\n")
        ran = self.pasted(block, [fast], tools)
        self.expect("Slurm: many jobs", (ran.stderr, ran.returncode), ("", 0))
        lines = table.read_text().splitlines()
        self.expect("Slurm: each of many once", sorted(lines), sorted(f"job {number}" for number in range(1, JOBS + 1)))
        if not shutil.which("parallel"):
            print("skipped, because it is missing: GNU parallel")
            return
        table.unlink()
        ran = self.pasted(block_of("parallel -j"), self.words(), tools)
        self.expect("GNU parallel", ran.returncode, 0)
        got = sorted((line["architecture"], line["netlist"], line["status"]) for line in self.lines(table))
        self.expect("GNU parallel: the jobs", got, jobs)
