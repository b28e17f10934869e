"""What the checks of tools/sweep share: a folder with designs, a stand-in for the program, calls."""
import csv
import os
import re
import shlex
import shutil
import subprocess
import sys
import time

from bundled import COUNTER, UART

COLUMNS = (
    "architecture netlist placement options sum status bound least_width trials width iterations"
    " wirelength nets blocks array occupancy width_seconds route_seconds message"
).split()
HEAD = "\t".join(COLUMNS) + "\n"
# The seconds that a sweep may take to reach a state, on a busy machine.
LONGEST = 60
# The columns that differ from run to run.
SECONDS = ("width_seconds", "route_seconds")
# For the command that the file `how` names it does what that file says, and otherwise it calls the
# program.
STAND_IN = """#!/bin/sh
echo "$*" >>calls
if read -r what command how 2>/dev/null <how && [ "$1" = "$command" ] && [ "${2##*/}" = "$what" ]
then
  case $how in
    wait) echo $$ >waits; exec sleep 60 ;;
    break) kill -SEGV $$ ;;
    babble) echo 'all is well'; exit 0 ;;
    none) echo 'no routing at any width'; echo '1 nets are cut by 0 places'; exit 0 ;;
    refuse) echo 'error: memory'; exit 6 ;;
    paint) printf '\\033[2J\\tred\\177\\302\\233\\n'; exit 6 ;;
    change) echo '# later' >>"$4" ;;
  esac
fi
exec PROGRAM "$@"
"""
# A program that doesn't know WORD, which is an option or a command.
UNKNOWING = """#!/bin/sh
for word in "$@"; do
  [ "$word" != WORD ] || { echo "error: unexpected argument 'WORD' found"; exit 2; }
done
exec PROGRAM "$@"
"""


class SweepChecks:
    """Sweeps in a folder of their own, and their results."""

    def __init__(self, program, folder):
        self.program, self.folder, self.passed, self.failed = program, folder, 0, 0
        self.begun = []
        folder.mkdir()
        self.tool = folder.parent / "tools/sweep"
        self.stand_in = self.script("pathfinder", STAND_IN.replace("PROGRAM", shlex.quote(program)))
        for path in (*COUNTER, *UART):
            shutil.copy(path, folder)
        # With a quarter of the tracks tapped some widths are much harder than narrower ones.
        text = (folder / "k4n1.arch").read_text()
        text, tapped = re.subn(r"(?m)^(Fc_(?:out|in)put) 1.0$", r"\1 0.25", text)
        self.expect("two values of Fc to replace", tapped, 2)
        (folder / "quarter.arch").write_text(text)

    def expect(self, what, got, want):
        if got == want:
            self.passed += 1
        else:
            self.failed += 1
            print(f"{what}: it should be {want!r}, but is {got!r}")

    def told(self, what, text, *wanted):
        missing = [words for words in wanted if words not in text]
        self.expect(f"{what}: what is missing in {text!r}", missing, [])

    def script(self, name, text):
        path = self.folder / name
        path.write_text(text)
        path.chmod(0o755)
        return path

    def words(self, *words):
        """A sweep's words; -S shows that it needs only the standard library."""
        return [sys.executable, "-S", self.tool, "--program", self.stand_in, *words]

    def sweep(self, *words, status=0):
        """The text and the complaints of a sweep, after a check of its status."""
        ran = subprocess.run(
            self.words(*words), cwd=self.folder, capture_output=True, text=True, check=False
        )
        if ran.returncode != status:
            self.expect(f"status of {words} ({ran.stderr.strip()})", ran.returncode, status)
        else:
            self.passed += 1
        return ran.stdout, ran.stderr

    def sweep_by(self, shell, *words, **streams):
        """Status, text and complaints of a sweep that a shell calls, with other streams."""
        pipes = {"stdout": subprocess.PIPE, "stderr": subprocess.PIPE, **streams}
        ran = subprocess.run(
            ["sh", "-c", f'"$@" {shell}', "sh", *self.words(*words)], cwd=self.folder, text=True,
            check=False, **pipes,
        )
        return ran.returncode, ran.stdout, ran.stderr

    def lines(self, name):
        """The lines of a table, after a check of its form."""
        text = (self.folder / name).read_text()
        return self.read(text, name)

    def read(self, text, name):
        rows = text.split("\n")
        self.expect(f"{name}: its head", rows[0].split("\t"), COLUMNS)
        self.expect(f"{name}: its end", rows[-1], "")
        tabs = {row.count("\t") for row in rows[:-1]}
        self.expect(f"{name}: tabs in its lines", tabs, {len(COLUMNS) - 1})
        return list(csv.DictReader(rows[:-1], delimiter="\t", quoting=csv.QUOTE_NONE))

    def calls(self):
        """How the program was called since the last time, without the trials of words."""
        path = self.folder / "calls"
        text = path.read_text() if path.exists() else ""
        path.write_text("")
        return [line.split() for line in text.splitlines() if os.devnull not in line]

    def how(self, text):
        """How the stand-in behaves from now on."""
        (self.folder / "how").write_text(text)

    def same(self, what, got, want):
        """The lines are the same except for seconds, in any order."""
        def bare(lines):
            return sorted(
                tuple(text for name, text in line.items() if name not in SECONDS) for line in lines
            )

        self.expect(what, bare(got), bare(want))

    def begin(self, *words, **variables):
        """Begins a sweep in which a job's search waits, and returns when it does."""
        (self.folder / "waits").unlink(missing_ok=True)
        sweep = subprocess.Popen(
            self.words(*words), cwd=self.folder, stdout=subprocess.PIPE, stderr=subprocess.PIPE,
            text=True, start_new_session=True, env={**os.environ, **variables},
        )
        self.begun.append(sweep)
        self.wait_for(sweep, lambda: self.read_file("waits").endswith("\n"))
        return sweep, int(self.read_file("waits"))

    def wait_for(self, sweep, happens):
        """Waits until something happens, or ends the sweep if it doesn't."""
        until = time.monotonic() + LONGEST
        while not happens():
            if time.monotonic() > until or sweep.poll() is not None:
                sweep.terminate()
                raise SystemExit(f"a sweep doesn't reach the expected state: {sweep.communicate()}")
            time.sleep(0.01)

    def end(self):
        """Ends the sweeps that still run after a check was broken off."""
        for sweep in self.begun:
            if sweep.poll() is None:
                sweep.terminate()
                sweep.communicate(timeout=LONGEST)

    def read_file(self, name):
        path = self.folder / name
        return path.read_text() if path.exists() else ""

    def ends(self, name, wanted):
        got = [(line["netlist"], line["status"], line["message"]) for line in self.lines(name)]
        self.expect(f"{name}: how jobs ended", got, wanted)
