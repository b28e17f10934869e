"""Checks of sweeps that pack and place BLIFs."""
import os
import re
import shutil
import subprocess
import sys

from bundled import EXAMPLES, TOP
from sweep_checks import COLUMNS, SweepChecks


class BlifChecks(SweepChecks):
    """Checks of sweeps with BLIFs."""

    def of_blifs(self):
        """BLIFs are packed and placed once, with several seeds, and their least widths are put together."""
        for path in (EXAMPLES / "flow/light.blif", TOP / "tests/blifs/t481.blif"):
            shutil.copy(path, self.folder)
        words = ["k4n1.arch", "lut4.arch", "light", "t481.blif", "--from-blif", "made"]
        words += ["--seeds", "1,7-7,1", "--effort", "0.02"]
        said = self.sweep(*words, "--out", "blifs.tsv", "-j", "2", "--summary")[0]
        lines = self.lines("blifs.tsv")
        self.expect("eight jobs", [line["status"] for line in lines], ["routed"] * 8)
        widths, placed = {}, set()
        for line in lines:
            arch, circuit, whole, _ = os.path.basename(line["netlist"]).split(".")
            seed = re.fullmatch(rf"made/{arch}\.{circuit}\.{whole}\.s(\d+)\.place", line["placement"])
            widths.setdefault((f"{arch}.arch", f"{circuit}.blif"), {})[seed[1]] = int(line["least_width"])
            placed |= {line["netlist"], line["placement"]}
            if arch == "k4n1":
                self.make(line, f"{circuit}.blif", seed[1])
        made = {f"made/{name}" for name in os.listdir(self.folder / "made")}
        self.expect("what is made", (made, len(made)), (placed, 4 + 8))
        rows = [row.split() for row in said.splitlines()]
        self.expect("the head of seeds", rows[0], "architecture circuit seed_1 seed_7 mean spread".split())
        for row, (names, of) in zip(rows[1:5], sorted(widths.items())):
            by_seed = [of[seed] for seed in "17"]
            wanted = [*names, *map(str, by_seed), f"{sum(by_seed) / 2:.2f}", str(max(by_seed) - min(by_seed))]
            self.expect(f"the widths of {names}", row, wanted)
        self.expect("the means after them", rows[5][:2], ["architecture", "routed"])
        inodes = {name: (self.folder / name).stat().st_ino for name in made}
        self.calls()
        self.sweep(*words, "--out", "blifs.tsv")
        self.expect("nothing is run again", (self.calls(), len(self.lines("blifs.tsv"))), ([], 8))
        self.sweep(*words[:3], *words[4:], "--out", "blifs.tsv", "--start", "5")
        self.expect("nothing is made again", {name: (self.folder / name).stat().st_ino for name in made}, inodes)
        listed = self.sweep(*words, "--jobs-list")[0].splitlines()
        ran = subprocess.run(listed[4], cwd=self.folder, shell=True, capture_output=True, text=True, check=False)
        names = {line["placement"]: [line[name] for name in COLUMNS[:8]] for line in lines}
        fields = ran.stdout.split("\t")
        self.expect("a listed job", (len(listed), fields[:8]), (8, names.get(fields[2])))
        with open(self.folder / "light.blif", "a", encoding="utf-8") as file:
            file.write("# another\n")
        self.sweep(*words, "--out", "blifs.tsv")
        self.expect("a changed BLIF", len({line["netlist"] for line in self.lines("blifs.tsv")}), 4 + 2)

    def make(self, line, blif, seed):
        """Packs and places a design of a line, and compares."""
        for made, words in (
            ("netlist", ["pack", blif, line["architecture"], "-o", "x.net"]),
            ("placement", ["place", line["netlist"], line["architecture"], "-o", "x.place", "--seed", seed, "--effort", "0.02"]),
        ):
            subprocess.run([sys.executable, self.tool.with_name(words[0]), *words[1:]], cwd=self.folder, capture_output=True, check=True)
            self.expect(f"{line[made]}", self.read_file(line[made]), self.read_file(words[4]))

    def of_blifs_that_fail(self):
        """A BLIF that can't be packed has a line, and a sweep that is stopped leaves no half placement."""
        shutil.copy(EXAMPLES / "flow/light.blif", self.folder)
        (self.folder / "bad.blif").write_text(".inputs a\n.outputs y\n")
        words = ["lut4.arch", "--from-blif", "bad made", "--out", "bad.blifs.tsv"]
        complaint = self.sweep(*words, "bad", "no", "light", "--effort", "0.01", status=1)[1]
        self.told("a BLIF that is at fault", complaint, "not run: pack: bad.blif:2: nothing drives `y`, an output")
        self.told("a BLIF that isn't there", complaint, "not run: pack: no.blif: No such file or directory")
        got = [line["status"] for line in self.lines("bad.blifs.tsv")]
        self.expect("the jobs", got, ["not run", "not run", "routed"])
        sweep = subprocess.Popen(
            self.words("lut4.arch", "light", "--from-blif", "stopped made", "--effort", "1000"), cwd=self.folder,
            stdout=subprocess.PIPE, stderr=subprocess.PIPE, text=True, start_new_session=True,
        )
        self.wait_for(sweep, lambda: any(self.folder.glob("stopped made/*.net")))
        sweep.terminate()
        complaint = sweep.communicate(timeout=20)[1]
        self.told("a stop while it is placed", complaint, "ended by SIGTERM with 1 of 1 jobs left")
        self.expect("what is left", [path.suffix for path in (self.folder / "stopped made").iterdir()], [".net"])
        for words, told in (
            (["lut4.arch", "counter", "--seeds", "1-3"], "need --from-blif"),
            (["lut4.arch", "counter", "--effort", "2"], "need --from-blif"),
            (["lut4.arch", "--from-blif", "made", "counter.net"], "counter.net: with --from-blif, circuits are BLIFs"),
            (["lut4.arch", "--from-blif", "made"], "and a BLIF"), (["light", "--from-blif", "made"], "an architecture"),
            *((["lut4.arch", "light", "--from-blif", "made", "--seeds", seeds], "is not a list of at most 1000 seeds")
              for seeds in ("", "x", "3-1", "1-", "1-1001", "5000000000")),
            *((["lut4.arch", "light", "--from-blif", "made", "--effort", effort], "is not a number above 0")
              for effort in ("0", "nan", "1001")),
            (["--job", "lut4.arch", "light", "--from-blif", "made", "--seeds", "1-2"], "one seed"),
        ):
            self.told(f"{words}", self.sweep(*words, status=2)[1], told)
