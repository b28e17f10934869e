"""The least widths of a sweep as a table of circuits by architectures, in Markdown or LaTeX."""
from __future__ import annotations

import re

from sweep_streams import shown

FORMS = ("md", "latex")
NO_ROW = "-"
HEADING = "Least routed channel widths, in tracks."
BOUNDS = "The bound is in brackets: below it no router can route the placement."
MEANS = "Numbers with decimals are means over the placements of a circuit."
ROUTED = "If N of M placements have a routed width, it is the mean of these."
OPTIONS = "Options of the sweep:"


# ---- The contents of a table ---------------------------------------------------------------------


def mean_of(values, is_one):
    """A number, or a mean with two decimals."""
    return str(values[0]) if is_one else f"{sum(values) / len(values):.2f}"


def cell_of(result):
    """The cell of a circuit on an architecture."""
    if result is None:
        return NO_ROW
    many = len(result.statuses)
    if result.widths:
        text = mean_of(result.widths, many == 1)
    else:
        text = "; ".join(dict.fromkeys(result.statuses))
    if result.bounds:
        text += f" ({mean_of(result.bounds, many == 1)})"
    if result.widths and len(result.widths) < many:
        text += f", {len(result.widths)} of {many}"
    return text


def sentences_of(results):
    """The sentences that explain the numbers of a table, except its options."""
    yield HEADING
    if any(result.bounds for result in results):
        yield BOUNDS
    if any(len(result.statuses) > 1 for result in results):
        yield MEANS
    if any(0 < len(result.widths) < len(result.statuses) for result in results):
        yield ROUTED


def tables_of(results):
    """The tables of results, one for each list of options: sentences, options, rows of cells."""
    names, circuits = results.series_names(with_options=False), results.circuit_names()
    for options in dict.fromkeys(series.options for series in results.series):
        columns = [series for series in results.series if series.options == options]
        rows = [["circuit", *(names[series] for series in columns)]]
        found = []
        for circuit in results.circuits:
            cells = [results.of.get((series, circuit)) for series in columns]
            if any(cells):
                rows.append([circuits[circuit], *map(cell_of, cells)])
                found += filter(None, cells)
        yield " ".join(sentences_of(found)), options, rows


# ---- Markdown ------------------------------------------------------------------------------------


def plain(text):
    """A text without characters that no document can have."""
    return shown(text).encode("utf-8", "replace").decode()


def markdown(text):
    """A text that Markdown shows as it is."""
    return re.sub(r"([\\`*_\[\]<>|~&$!#:])", r"\\\1", plain(text))


def code(text):
    """A text as code in Markdown. The fence is longer than each run of backticks in the text."""
    fence = "`" * (1 + max(map(len, re.findall("`+", text)), default=0))
    return f"{fence} {plain(text)} {fence}" if "`" in text else f"`{plain(text)}`"


def markdown_table(sentences, options, rows):
    """A table in Markdown."""
    if options:
        sentences += f" {OPTIONS} {code(options)}."
    head, *others = [f"| {' | '.join(map(markdown, row))} |" for row in rows]
    rule = "|---|" + "---:|" * (len(rows[0]) - 1)
    return "\n".join([sentences, "", head, rule, *others])


# ---- LaTeX ---------------------------------------------------------------------------------------

# Replacements of characters that are special in LaTeX, alone or next to others.
LATEX = {
    "\\": r"\textbackslash{}", "{": r"\{", "}": r"\}", "$": r"\$", "&": r"\&", "#": r"\#",
    "%": r"\%", "_": r"\_", "^": r"\textasciicircum{}", "~": r"\textasciitilde{}",
    "<": r"\textless{}", ">": r"\textgreater{}", "|": r"\textbar{}", '"': r"\char34{}",
    "'": "{'}", "`": "{`}", "-": "{-}", "[": "{[}", "]": "{]}", "*": "{*}", "!": "{!}", "?": "{?}",
}


def latex(text):
    """A text that LaTeX shows as it is."""
    return "".join(LATEX.get(letter, letter) for letter in plain(text))


def latex_table(sentences, options, rows):
    """A table in LaTeX, which needs no package."""
    if options:
        sentences += rf" {OPTIONS} \texttt{{{latex(options)}}}."
    head, *others = [rf"    {' & '.join(map(latex, row))} \\" for row in rows]
    return "\n".join([
        r"\begin{table}", r"  \centering", rf"  \caption{{{sentences}}}",
        rf"  \begin{{tabular}}{{l{'r' * (len(rows[0]) - 1)}}}", r"    \hline", head, r"    \hline",
        *others, r"    \hline", r"  \end{tabular}", r"\end{table}",
    ])


def text_of(form, results):
    """The text of all tables of results."""
    write = {"md": markdown_table, "latex": latex_table}[form]
    return "\n\n".join(write(*table) for table in tables_of(results)) + "\n"
