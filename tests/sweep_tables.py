"""Checks of the tables for a text that sweeps print, in Markdown and LaTeX."""
import re

from sweep_checks import COLUMNS, HEAD, SweepChecks

# Names of circuits, and how they are written in Markdown and in LaTeX.
NAMES = {
    "plain": ("plain", "plain"),
    "a_b": (r"a\_b", r"a\_b"),
    "x|y": (r"x\|y", r"x\textbar{}y"),
    "**$&#!**": (r"\*\*\$\&\#\!\*\*", r"{*}{*}\$\&\#{!}{*}{*}"),
    "<b>`c`": (r"\<b\>\`c\`", r"\textless{}b\textgreater{}{`}c{`}"),
    r"\{%}~^": (r"\\{%}\~^", r"\textbackslash{}\{\%\}\textasciitilde{}\textasciicircum{}"),
    "[l](u:v)": (r"\[l\](u\:v)", "{[}l{]}(u:v)"),
    "--'\"": ("--'\"", "{-}{-}{'}\\char34{}"),
    "\x1b[2J\udcff": (r"?\[2J?", "{?}{[}2J{?}"),
}
HEADING = "Least routed channel widths, in tracks."
BOUNDS = " The bound is in brackets: below it no router can route the placement."
MEANS = " Numbers with decimals are means over the placements of a circuit."
ROUTED = " If N of M placements have a routed width, it is the mean of these."


class TableChecks(SweepChecks):
    """Checks of tables of least widths."""

    def table_file(self, name, rows):
        """Writes a table with rows; what a row leaves out has the usual value."""
        usual = {
            "architecture": "k.arch", "netlist": "n.net", "placement": "p.place", "status": "routed",
            "bound": "2", "least_width": "3", "width": "4", "wirelength": "5", "occupancy": "0.1000",
            "width_seconds": "0.001", "route_seconds": "0.001",
        }
        lines = ["\t".join({**usual, **row}.get(column, "") for column in COLUMNS) for row in rows]
        text = "".join(f"{line}\n" for line in [HEAD.rstrip("\n"), *lines])
        (self.folder / name).write_bytes(text.encode("utf-8", "surrogateescape"))
        return name

    def rows_in(self, text):
        """The cells of each table in Markdown, with the text above it."""
        found = re.findall(r"(?m)^(Least .*)\n\n((?:\|.*\n)+)", text + "\n")
        return [(head, [row.strip("| \n").split(" | ") for row in rows.splitlines()]) for head, rows in found]

    def of_tables(self):
        """A table from a file has the figures of its lines; after a sweep it has those of the sweep's jobs."""
        jobs = ["k4n1.arch", "lut4.arch", "counter", "uart", "--out", "texts.tsv"]
        self.calls()
        said = self.sweep(*jobs, "--table", "md")[0]
        self.expect("four jobs", len(self.calls()), 4 * 3)
        lines = self.lines("texts.tsv")
        cells = {
            (line["netlist"], line["architecture"]): f"{line['least_width']} ({line['bound']})" for line in lines
        }
        wanted = [
            ["circuit", "k4n1", "lut4"], ["---|---:|---:"],
            *([name, *(cells[f"{name}.net", f"{arch}.arch"] for arch in ("k4n1", "lut4"))] for name in ("counter", "uart")),
        ]
        self.expect("after a sweep", self.rows_in(said), [(HEADING + BOUNDS, wanted)])
        self.sweep("lut4.arch", "counter", "--upward", "--out", "texts.tsv")
        self.calls()
        before = (self.folder / "texts.tsv").read_bytes()
        whole = self.rows_in(self.sweep("--table", "md", "--out", "texts.tsv")[0])
        upward = [["circuit", "lut4"], ["---|---:"], ["counter", cells["counter.net", "lut4.arch"]]]
        options = (HEADING + BOUNDS + " Options of the sweep: `--upward`.", upward)
        self.expect("a finished sweep", whole, [(HEADING + BOUNDS, wanted), options])
        self.expect("nothing is run", self.calls(), [])
        self.expect("the file is as it was", (self.folder / "texts.tsv").read_bytes(), before)
        said = self.sweep("lut4.arch", "nowhere", "counter", "--out", "texts.tsv", "--table", "md", status=1)[0]
        wanted = [["circuit", "lut4"], ["---|---:"], ["nowhere", "not run"], ["counter", cells["counter.net", "lut4.arch"]]]
        self.expect("a job that isn't run", self.rows_in(said), [(HEADING + BOUNDS, wanted)])
        said = self.sweep("--table", "latex", "--out", "texts.tsv", "lut4.arch", "counter", "--upward")[0]
        self.expect("LaTeX", said, "\n".join([
            r"\begin{table}", r"  \centering", rf"  \caption{{{HEADING}{BOUNDS} Options of the sweep: \texttt{{{{-}}{{-}}upward}}.}}",
            r"  \begin{tabular}{lr}", r"    \hline", r"    circuit & lut4 \\", r"    \hline",
            rf"    counter & {cells['counter.net', 'lut4.arch']} \\", r"    \hline", r"  \end{tabular}", r"\end{table}", "",
        ]))

    def of_cells(self):
        """The cells for several placements, for jobs without a width, and for several lines of one job."""
        made = "m/k.light.0123456789abcdef"
        failed = {"least_width": "", "bound": "", "wirelength": "", "occupancy": ""}
        self.table_file("cells.tsv", [
            {"netlist": f"{made}.net", "placement": f"{made}.s1.place", "least_width": "9", "bound": "9"},
            {"netlist": f"{made}.net", "placement": f"{made}.s1.place", "least_width": "4", "bound": "2"},
            {"netlist": f"{made}.net", "placement": f"{made}.s2.place", "least_width": "5", "bound": "3"},
            {"netlist": f"{made}.net", "placement": f"{made}.s3.place", **failed, "status": "timed out", "bound": "3"},
            {"netlist": "none.net", **failed, "status": "no width", "bound": "none"},
            {"netlist": "late.net", "placement": "a.place", **failed, "status": "timed out", "bound": "7"},
            {"netlist": "late.net", "placement": "b.place", **failed, "status": "failed"},
            {"netlist": "narrow.net", "status": "not routed", "least_width": "3", "wirelength": ""},
            {"architecture": "wide.arch", "netlist": "late.net", "least_width": "7", "bound": ""},
        ])
        (head, rows), = self.rows_in(self.sweep("--table", "md", "--out", "cells.tsv")[0])
        self.expect("what numbers are", head, HEADING + BOUNDS + MEANS + ROUTED)
        self.expect("cells", rows[2:], [
            ["light", "4.50 (2.67), 2 of 3", "-"], ["none", "no width", "-"],
            ["late", "timed out; failed (7.00)", "7"], ["narrow", "3 (2)", "-"],
        ])
        self.table_file("folders.tsv", [{"architecture": f"{at}/k.arch", "netlist": f"{at}/n.net", "bound": ""} for at in "pq"])
        (head, rows), = self.rows_in(self.sweep("--table", "md", "--out", "folders.tsv")[0])
        self.expect("names in two folders", (head, rows[0], [row[0] for row in rows[2:]]), (HEADING, ["circuit", "p/k", "q/k"], ["p/n", "q/n"]))

    def of_escapes(self):
        """A table shows names as they are."""
        self.table_file("names.tsv", [
            {"architecture": f"{name}.arch", "netlist": f"{name}.net", "options": "--x '`'"} for name in NAMES
        ])
        for form, at in (("md", 0), ("latex", 1)):
            said = self.sweep("--table", form, "--out", "names.tsv")[0]
            names = [text[at] for text in NAMES.values()]
            circuits = re.findall(r"(?m)^(?:\| |    )(.*?)(?: \| | & )", said)
            circuits = [name for name in circuits if name != "circuit"]
            self.expect(f"circuits in {form}", circuits, names)
            head = " | ".join(names) if form == "md" else " & ".join(names)
            self.told(f"architectures in {form}", said, f"circuit {'|' if form == 'md' else '&'} {head} ")
        self.told("options in LaTeX", said, r"\texttt{{-}{-}x {'}{`}{'}}")
        self.told("options in Markdown", self.sweep("--table", "md", "--out", "names.tsv")[0], "sweep: `` --x '`' ``.")

    def of_tables_that_fail(self):
        """Files that aren't tables are refused, and nothing is made; a sweep skips wrong lines."""
        self.calls()
        for name, text, said in (
            ("no table", "x\n", "no table:1: it is not a table"),
            ("older", HEAD.replace("\tbound", ""), "older:1: it has the columns of another version"),
            ("empty", "", "empty:1: it is not a table"),
            ("head", HEAD, "the table has no line"),
            ("short", HEAD + "a\tb\n", "short:2: it has 2 columns instead of 19"),
            ("half", HEAD + "a" + "\t" * 18, "half:2: the line is incomplete"),
        ):
            (self.folder / name).write_text(text)
            self.told(f"{name}", self.sweep("--table", "md", "--out", name, status=1)[1], f"sweep: {said}")
        for column, word in (("least_width", "x"), ("bound", "-1"), ("wirelength", "1e9"), ("route_seconds", ""), ("occupancy", "nan")):
            self.table_file("wrong", [{column: word}])
            said = f"invalid {column} `{word}`" if word else f"it is of a routed job, but has no {column}"
            self.told(f"a wrong {column}", self.sweep("--table", "md", "--out", "wrong", status=1)[1], f"wrong:2: {said}")
            complaint = self.sweep("lut4.arch", "counter", "--out", "wrong", "--summary")[1]
            self.told(f"a wrong {column} in a sweep", complaint, f"wrong line 2: skipped: {said}")
        said = self.sweep("--table", "md", "--out", "nothing.tsv", status=1)[1]
        self.told("a table that isn't there", said, "nothing.tsv: No such file or directory")
        self.expect("it isn't made", (self.folder / "nothing.tsv").exists(), False)
        for words, told in (
            (["--table", "md"], "need --out"), (["--table", "html", "--out", "x.tsv"], "invalid choice: 'html'"),
            (["lut4.arch", "counter", "--table", "md"], "need --out"),
            (["lut4.arch", "counter", "--table", "md", "--out", "x.tsv", "--jobs-list"], "or --table"),
            (["--table", "md", "--out", "x.tsv", "--summary"], "an architecture"),
            (["--job", *"abc", "--table", "md", "--out", "x.tsv"], "combined with --out"),
        ):
            self.told(f"{words}", self.sweep(*words, status=2)[1], told)
        self.table_file("right", [{}])
        got = self.sweep_by(">&-", "--table", "md", "--out", "right")
        self.expect("a table on closed output", got, (1, "", "sweep: standard output: Bad file descriptor\n"))
