"""Plots the events of a run over time: what waited, or how many there were, by component, by core or by kind."""

import os

from .derived import quotient
from .errors import ToolError, check_ending_of
from .plots import COLOURS, ENDINGS, INCHES, MARKERS, STROKES, TITLE, add_legend, new_figure, save, style_of
from .series import columns_of
from .ticks import fit_label

# How many points a line has at most, and how many have a marker each.
POINTS = 200
MARKED = 40
# What can be plotted, and its label: of which an interval has so much, in the mean over those of a point.
NUMBERS = {
    "events": "events in an interval",
    "waited": "waiting in an interval (cycles)",
    "wait": "waiting (cycles per event)",
    "misses": "misses in the L2 in an interval",
    "l2_mpki": "misses in the L2 per 1000 instructions",
}


class Words:
    """The heading of the legend."""

    def label(self, way):
        return way


def plot_series(series, out, y="waited", way="component", title=None, size=INCHES):
    """Plots a number over time, with a line for each component, core or kind, and writes it as PNG, SVG or PDF by the
    ending of the name `out`. Returns the figure of matplotlib."""
    check_ending_of(out, ENDINGS, "plot")
    lines = lines_of(series, y, way)
    if not lines:
        raise ToolError(f"{series.source.name}: has no {y} to plot")
    interval = series.source.machine.values["interval"]
    places = [(sums.interval + sums.intervals / 2) * interval for sums in series.rows]
    with style_of(size):
        figure, axes = new_figure(size)
        named = f"{os.path.basename(series.source.name)} on {os.path.basename(series.source.machine.name)}"
        axes.set_title(title or named, fontsize="medium")
        axes.set_xlabel("time (cycles)")
        for number, (name, values) in enumerate(lines.items()):
            axes.plot(
                places,
                values,
                color=COLOURS[number % len(COLOURS)],
                marker=MARKERS[number % len(MARKERS)] if len(places) <= MARKED else None,
                linestyle=STROKES[number % len(STROKES)],
                clip_on=False,  # (or half a marker at 0)
                label=name,
            )
        axes.grid(True, color="0.9")
        axes.set_xlim(0, series.source.intervals * interval)
        axes.set_ylim(bottom=0)
        add_legend(axes, [way], Words(), len(lines))
        fit_label(figure, axes.yaxis.label, NUMBERS[y], int(TITLE * size[1]))
        save(figure, out)
    return figure


def lines_of(series, y, way):
    """Returns the values of each line by its name. What has no event at all has no line."""
    if y == "l2_mpki" and series.instructions is None:
        raise ToolError("--y l2_mpki: needs the report of the run (--report)")
    counted = {"wait": "waited", "l2_mpki": "misses"}.get(y, y)
    events = columns_of(series, way, "events", counted)
    columns = {name: column for name, column in columns_of(series, way, counted).items() if events[name][-1]}
    lengths = [sums.intervals for sums in series.rows]
    if y == "wait":
        return {name: list(map(quotient, column[:-1], events[name])) for name, column in columns.items()}
    whole = series.instructions / 1000 if y == "l2_mpki" else 1
    return {name: [quotient(n, whole * length) for n, length in zip(column, lengths)] for name, column in columns.items()}
