"""Draws the charts of tools/plot with matplotlib: runs by iteration, and the results of sweeps.

A chart is a figure of matplotlib. The same input gives the same chart, and the same file: it
doesn't depend on the user's settings, and has no date.
"""
from __future__ import annotations

import io
import logging
import os
import warnings

# Otherwise it reports its search for fonts, and the environment selects how it draws.
logging.getLogger("matplotlib").setLevel(logging.ERROR)
os.environ.pop("MPLBACKEND", None)

import matplotlib  # noqa: E402
from matplotlib.figure import Figure  # noqa: E402
from matplotlib.lines import Line2D  # noqa: E402
from matplotlib.ticker import (  # noqa: E402
    LogLocator,
    MaxNLocator,
    NullFormatter,
    StrMethodFormatter,
    SymmetricalLogLocator,
)

import command  # noqa: E402
import sweep_results  # noqa: E402

STYLE = {
    "font.family": "sans-serif",
    "font.sans-serif": ["DejaVu Sans"],
    "font.size": 8,
    "axes.labelsize": 8,
    "legend.fontsize": 7,
    "xtick.labelsize": 7,
    "ytick.labelsize": 7,
    "axes.linewidth": 0.6,
    "xtick.major.width": 0.6,
    "ytick.major.width": 0.6,
    "axes.spines.top": False,
    "axes.spines.right": False,
    "axes.grid": True,
    "axes.axisbelow": True,
    "grid.color": "#dddddd",
    "grid.linewidth": 0.5,
    "lines.linewidth": 1.1,
    "lines.markersize": 3.2,
    # PDF texts use fonts that publishers accept, and SVG texts look the same everywhere.
    "pdf.fonttype": 42,
    "svg.fonttype": "path",
    "svg.hashsalt": "pathfinder",
}
# No dates, so that a chart is the same each time.
METADATA = {".svg": {"Date": None}, ".pdf": {"CreationDate": None}, ".png": {}}
# Colours that most people can distinguish (Okabe and Ito), with markers for prints in grey.
COLOURS = "#0072b2 #d55e00 #009e73 #cc79a7 #e69f00 #56b4e9 #000000 #8c8c00".split()
MARKERS = "os^Dv<>P"
DASHES = ["-", "--", ":", "-."]
# Inches: the width of a column of a paper, the height of a panel and of a row, and the margins.
COLUMN, PANEL, LEGEND_ROW, MARGIN = 3.5, 1.15, 0.15, 0.45
LETTER, HANDLE = 0.062, 0.45  # Inches of a letter of the legend and of the handle before a name.
MOST_LETTERS = 40
DOTS_PER_INCH, MOST_DOTS = 300, 40_000_000


def shown(name):
    """A name for a chart: without control characters, shortened, and never a formula."""
    name = command.shown(name).encode("utf-8", "replace").decode()
    if len(name) > MOST_LETTERS:
        half = MOST_LETTERS // 2 - 1
        name = f"{name[:half]}\u2026{name[-half:]}"
    return name.replace("$", r"\$")


def styles(many):
    """The styles of this many series: colours, then markers with them, then dashes."""
    for at in range(many):
        yield {
            "color": COLOURS[at % len(COLOURS)],
            "marker": MARKERS[at % len(MARKERS)],
            "linestyle": DASHES[at // len(COLOURS) % len(DASHES)],
        }


def columns_of(names, width):
    """The number of columns of a legend with these names within a width."""
    widest = HANDLE + LETTER * max(map(len, names))
    return max(1, min(len(names), int(width / widest)))


class Sheet:
    """An empty figure with a legend of names above, and below it rows and columns of panels.

    Heights are those of the rows in inches. A single name has no legend.
    """

    def __init__(self, size, width, heights, columns, names):
        width = size[0] if size else width
        self.names, self.many = names if len(names) > 1 else [], columns_of(names, width)
        legend = max(LEGEND_ROW * -(-len(self.names) // self.many), 0.02)
        height = size[1] if size else legend + sum(heights) + MARGIN
        self.figure = Figure(figsize=(width, height), constrained_layout=True)
        self.grid = self.figure.add_gridspec(
            1 + len(heights), columns, height_ratios=[legend, *heights]
        )

    def panel(self, row, column, **shared):
        """The axes of a panel, by its row and column, counted from 0."""
        return self.figure.add_subplot(self.grid[row + 1, column], **shared)

    def add_legend(self, handles):
        """Fills the legend with the handles of its names."""
        if not self.names:
            return
        axes = self.figure.add_subplot(self.grid[0, :])
        axes.axis("off")
        legend = axes.legend(
            handles, [f"name {at}" for at in range(len(handles))], loc="center left",
            bbox_to_anchor=(0, 0.5), borderaxespad=0, borderpad=0, frameon=False, handlelength=2,
            columnspacing=1.2, ncol=self.many,
        )
        # Matplotlib leaves out a label that begins with `_`.
        for text, name in zip(legend.get_texts(), self.names):
            text.set_text(name)


def count_axis(axis):
    """Makes an axis show whole numbers, with commas between thousands."""
    axis.set_major_locator(MaxNLocator(integer=True, nbins=6, min_n_ticks=1))
    axis.set_major_formatter(StrMethodFormatter("{x:,.0f}"))


# ---- Runs ----------------------------------------------------------------------------------------

PANELS = {"overused": "overused\nnodes", "unrouted": "unrouted\nnets", "wirelength": "wirelength"}
# More overused nodes than this have a logarithmic axis, which includes 0.
MOST_LINEAR = 10
# The most markers on a line.
MOST_MARKERS = 20


def chart_of_runs(runs, size=None):
    """The chart of negotiations: what each iteration left. Runs are pairs of a name and rows."""
    names = [shown(name) for name, _ in runs]
    is_whole = not any(row.unrouted for _, rows in runs for row in rows)
    heights = [PANEL * share for share in (1.3, 0.5 if is_whole else 1, 1)]
    sheet, panels = Sheet(size, COLUMN, heights, 1, names), []
    for at, (column, title) in enumerate(PANELS.items()):
        panels.append(sheet.panel(at, 0, sharex=panels[0] if panels else None))
        add_runs(panels[-1], column, runs)
        panels[-1].set_ylabel(title)
        panels[-1].tick_params(labelbottom=column == "wirelength")
    longest = max(rows[-1].iteration for _, rows in runs)
    count_axis(panels[-1].xaxis)
    panels[-1].set_xlim(max(0.5, 1 - longest / 40), max(1.5, longest + longest / 40))
    panels[-1].set_xlabel("iteration")
    sheet.figure.align_ylabels(panels)
    sheet.add_legend(panels[0].get_lines())
    return sheet.figure


def add_runs(axes, column, runs):
    """Draws a column of runs."""
    most = 0
    for style, (_, rows) in zip(styles(len(runs)), runs):
        values = [getattr(row, column) for row in rows]
        marked = [*range(0, len(rows) - 1, -(-len(rows) // MOST_MARKERS)), len(rows) - 1]
        turns = [row.iteration for row in rows]
        axes.plot(turns, values, markevery=marked, clip_on=False, zorder=3, **style)
        most = max(most, *values)
    count_axis(axes.yaxis)
    if column == "overused" and most > MOST_LINEAR:
        axes.set_yscale("symlog", linthresh=1, linscale=0.4)
        axes.yaxis.set_major_locator(SymmetricalLogLocator(base=10, linthresh=1))
        axes.yaxis.set_major_formatter(StrMethodFormatter("{x:,.0f}"))
    if column != "wirelength":
        axes.set_ylim(bottom=0, top=None if most else 1)


# ---- Results of sweeps ---------------------------------------------------------------------------

ROW, SERIES = 0.24, 0.07  # Inches of a row, and of each series within it.
BOUND = {"color": "#888888", "marker": "|", "linestyle": "none", "markersize": 6}
# Above this ratio of the greatest to the least, wirelengths have a logarithmic axis.
LEAST_DECADES = 20


def chart_of_results(results, size=None):
    """The chart of sweeps: a row for each circuit, with a point for each architecture."""
    series, circuits = results.series_names(), results.circuit_names()
    names = [shown(series[one]) for one in results.series]
    has_bounds = any(result.bounds for result in results.of.values())
    names += ["bound"] if has_bounds else []
    row = max(ROW, SERIES * (len(results.series) + 1))
    sheet = Sheet(size, 2 * COLUMN, [max(row * len(circuits), 0.6)], 2, names)
    widths = sheet.panel(0, 0)
    wirelengths = sheet.panel(0, 1, sharey=widths)
    drawn = list(styles(len(results.series)))
    for axes, column in ((widths, "widths"), (wirelengths, "wirelengths")):
        for at, (style, one) in enumerate(zip(drawn, results.series)):
            offset = (at - (len(drawn) - 1) / 2) * 0.8 / (len(drawn) + 1)
            add_series(axes, column, results, one, offset, style)
        add_rows(axes, [shown(circuits[circuit]) for circuit in results.circuits])
    wirelengths.tick_params(labelleft=False)
    widths.set_xlabel("least routed width, in tracks")
    count_axis(widths.xaxis)
    widths.set_xlim(left=0)
    wirelengths.set_xlabel("wirelength, in places")
    scale_wirelengths(wirelengths, results)
    handles = [Line2D([], [], **{**style, "linestyle": "none"}) for style in drawn]
    sheet.add_legend(handles + [Line2D([], [], **BOUND)] * has_bounds)
    return sheet.figure


def add_rows(axes, names):
    """Names the rows of an axis from top to bottom, and draws pale lines between them."""
    axes.set_yticks(range(len(names)))
    axes.set_yticklabels(names)
    axes.set_ylim(len(names) - 0.5, -0.5)
    axes.tick_params(axis="y", length=0)
    axes.grid(False, axis="y")
    for at in range(1, len(names)):
        axes.axhline(at - 0.5, color="#eeeeee", linewidth=0.5, zorder=0)


def mean(values):
    return sum(values) / len(values)


def add_series(axes, column, results, series, offset, style):
    """Draws a series: its means as points, and lines from the least to the greatest."""
    points = {}
    for at, circuit in enumerate(results.circuits):
        result = results.of.get((series, circuit))
        values = getattr(result, column) if result else []
        if not values:
            continue
        points[at + offset] = mean(values)
        axes.plot(
            [min(values), max(values)], [at + offset] * 2, color=style["color"], linewidth=1.1
        )
        if column == "widths" and result.bounds:
            axes.plot([mean(result.bounds)], [at + offset], zorder=1.5, **BOUND)
    axes.plot(
        list(points.values()), list(points), clip_on=False, zorder=3, label="points",
        **{**style, "linestyle": "none"}
    )


def scale_wirelengths(axes, results):
    """Starts the axis of wirelengths at 0, or makes it logarithmic if they differ much."""
    values = [value for result in results.of.values() for value in result.wirelengths if value]
    if values and max(values) > LEAST_DECADES * min(values):
        axes.set_xscale("log")
        is_long = max(values) > 100 * min(values)
        axes.xaxis.set_major_locator(LogLocator(subs=(1,) if is_long else (1, 2, 5)))
        axes.xaxis.set_major_formatter(StrMethodFormatter("{x:,.0f}"))
        axes.xaxis.set_minor_formatter(NullFormatter())
    else:
        count_axis(axes.xaxis)
        axes.set_xlim(left=0)


# ---- Files ---------------------------------------------------------------------------------------


def chart_of(contents, size=None):
    """The chart of runs or of the results of sweeps."""
    is_sweep = isinstance(contents, sweep_results.Results)
    return (chart_of_results if is_sweep else chart_of_runs)(contents, size)


def image_of(contents, size, ending):
    """The bytes of the image of a chart, in the format of a file's ending."""
    with matplotlib.rc_context(), warnings.catch_warnings():
        warnings.simplefilter("ignore")  # about letters that the font doesn't have
        matplotlib.rcdefaults()
        matplotlib.rcParams.update(STYLE)
        figure = chart_of(contents, size)
        width, height = figure.get_size_inches()
        dots = min(DOTS_PER_INCH, (MOST_DOTS / (width * height)) ** 0.5, 2**15 / max(width, height))
        image = io.BytesIO()
        figure.savefig(image, format=ending[1:], dpi=dots, metadata=METADATA[ending])
    return image.getvalue()
