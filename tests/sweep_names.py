"""Checks of sweeps over files with long names, and with names that control a terminal."""
import hashlib
import os
import re
import shutil

from bundled import COUNTER
from sweep_checks import SweepChecks


class NameChecks(SweepChecks):
    """Checks of names in sweeps."""

    def of_long_names(self):
        """Names of kept routings are short enough, and differ if jobs do."""
        arch, wide = "a" * 200 + ".arch", "\u00e9" * 120
        shutil.copy(COUNTER[1], self.folder / arch)
        circuits = ["n" * 200, "n" * 199 + "m", "n" * 100, wide]
        for circuit in circuits:
            shutil.copy(COUNTER[0], self.folder / f"{circuit}.net")
            shutil.copy(COUNTER[2], self.folder / f"{circuit}.place")
        self.sweep(arch, *circuits, "--out", "long.tsv", "--keep", "long")
        lines = self.lines("long.tsv")
        self.expect("long names", [line["status"] for line in lines], ["routed"] * 4)
        kept = set(os.listdir(self.folder / "long"))
        self.expect("two files a job", len(kept), 8)
        wanted = set()
        for line in lines:
            names = [name_part(line[name]) for name in ("architecture", "netlist")]
            stem = ".".join([*names, line["sum"]])
            wanted.update({f"{stem}.least-w{line['least_width']}.route",
                           f"{stem}.w{line['width']}.route"})
        self.expect("their names", kept, wanted)
        self.expect("bytes of a name", max(len(os.fsencode(name)) for name in kept) < 255, True)

    def of_control_characters(self):
        """Tables and terminals have `?` instead of control characters, and jobs stay distinct."""
        circuits = ["a\tb", "a\nb", "a\x1b[2Jb", "a\x7f\u009bb", "a\x01b", "a?b"]
        shown = ["a?b", "a?b", "a?[2Jb", "a??b", "a?b", "a?b"]
        for circuit in circuits:
            shutil.copy(COUNTER[0], self.folder / f"{circuit}.net")
            shutil.copy(COUNTER[2], self.folder / f"{circuit}.place")
        shutil.copy(COUNTER[1], self.folder / "\x1b.arch")
        jobs = ["\x1b.arch", *circuits, "--out", "control.tsv", "--keep", "control"]
        self.clean("names", self.sweep(*jobs))
        lines = self.lines("control.tsv")
        names = [(line["netlist"], line["placement"], line["status"]) for line in lines]
        wanted = [(f"{name}.net", f"{name}.place", "routed") for name in shown]
        self.expect("names in a table", names, wanted)
        self.expect("their sums", len({line["sum"] for line in lines}), len(circuits))
        kept = os.listdir(self.folder / "control")
        self.expect("what is kept", len(kept), 2 * len(circuits))
        self.clean("names of what is kept", kept)
        self.calls()
        said = self.sweep(*jobs, "--summary")
        self.expect("all are known", (self.calls(), self.lines("control.tsv")), ([], lines))
        self.clean("a summary", said)
        self.told("a summary", said[0], "?.arch        6 of 6  2  ")
        said = self.sweep("\x1b.arch", "no\x1b\u009b\nwhere", "--out", "control.tsv", status=1)
        self.clean("a file that isn't there", said)
        self.told("a file that isn't there", said[1], "not run: no???where.net: No such file")
        self.how("counter.net width paint\n")
        self.sweep("lut4.arch", "counter", "--out", "painted.tsv", "--", "--iterations", "9")
        self.how("")
        self.ends("painted.tsv", [("counter.net", "failed", "width: status 6: ?[2J?red??")])
        for words in (
            ["counter", "--non\x1bsense"], ["counter", "--", "--non\x1bsense"],
            ["--circuits", "\x1b"], ["\x1b.place"],
        ):
            self.clean(f"{words}", self.sweep("lut4.arch", *words, status=2))
        said = self.sweep("lut4.arch", circuits[0], "--jobs-list", status=2)
        self.told("a list of jobs", said[1], "--jobs-list can't print a control character")
        self.clean("a list of jobs", said)

    def clean(self, what, texts):
        """There is no control character in texts, except ends of lines."""
        found = re.findall(r"[\x00-\x09\x0b-\x1f\x7f-\x9f]", "".join(texts).replace("\t", ""))
        self.expect(f"{what}: control characters", found, [])


def name_part(file):
    """The part of a kept routing's name that denotes a file, as docs/SWEEP.md has it."""
    stem = os.path.splitext(file)[0].encode()
    if len(stem) <= 100:
        return stem.decode()
    return f"{stem[:83].decode(errors='ignore')}~{hashlib.sha256(stem).hexdigest()[:16]}"
