"""Plots of tables: a number against an axis, as lines or as bars, or a map of two axes.

They read in grey as well: lines differ in their markers and strokes, bars in their hatches, and the colours also in how
light they are. The words and units of axes, legends and titles are those of `labels`.
"""

import textwrap
from pathlib import Path

from .errors import ToolError, check_ending_of
from .labels import label_of, value_text
from .plot_rows import (
    GEOMETRIC_MEAN,
    SPEEDUP,
    axes_of,
    check_column,
    good_rows,
    is_numeric,
    over_repeats,
    relative,
    selected,
    with_geometric_mean,
)
from .table import write_whole
from .ticks import fit_label, fit_numbers, name_ticks, number_ticks

ENDINGS = (".png", ".svg", ".pdf")
# From dark to light, so that they differ in print without colour too (of matplotlib's map "viridis").
COLOURS = ("#440154", "#21908d", "#e07b00", "#3b528b", "#5dc963", "#b8627d")
MARKERS = ("o", "s", "^", "D", "v", "P", "X", "*")
STROKES = ("-", "--", "-.", ":")
HATCHES = ("", "///", "...", "\\\\\\", "xx", "--")
# How many values of an axis have a tick of their own, and how many entries of a legend stand in a column.
MOST_TICKS = 32
MOST_ENTRIES = 20
INCHES = (7.0, 4.5)
DOTS = 150
# How wide texts are, in characters: that of a legend's heading, and those of titles and labels for each inch.
HEADING = 22
TITLE = 11
# The size of the letters, in points: the first for each inch of a plot's width, and the least and the greatest.
LETTERS = (1.43, 7.0, 10.0)


def plot(
    table,
    out,
    x=None,
    y=None,
    lines=(),
    heat=None,
    where=None,
    title=None,
    log_y=False,
    name="table",
    *,
    bars=(),
    log_x=False,
    size=INCHES,
    baseline=None,
    geomean=False,
    with_limits=False,
):
    """Plots column y of a table against column x, and writes it as PNG, SVG or PDF, by the ending of the name `out`.

    There is a line for each combination of values of the columns `lines`; of the executable, where none is given. With
    `bars`, columns too, there is a group of bars for each value of x, of the executable where none is given. With
    `heat`, another column, it is a map of x and that column instead. `where` picks rows, as in `{"l1.sets": 64,
    "l1.ways": [1, 2]}`. `baseline`, as in `{"l1.ways": 1}`, divides y by what it is there; y can be `speedup` then.
    `geomean` adds the geometric mean over the executables. Of repeats it is the mean, with a bar from the least to the
    greatest. `size` is the width and the height in inches. Returns the figure of matplotlib, and how many rows were left
    out since their run did not end by the program's exit; `with_limits` takes those that reached a limit too. ToolError
    says what is wrong with the words or the table.
    """
    check_ending_of(out, ENDINGS, "plot")
    x = x or ("executable" if bars else None)
    if x is None or y is None:
        raise ToolError("a plot needs the columns x and y")
    columns = [heat] if heat else list(bars) or list(lines) or ([] if geomean else ["executable"])
    columns = [column for column in columns if column != x]
    rows, left_out = rows_of(table, x, y, columns, where or {}, baseline or {}, with_limits, name)
    if geomean:
        rows = with_geometric_mean(rows, y, "executable" in (x, *columns), name)
    words = Words(rows, "fetches" in table.columns)
    rows = over_repeats(rows, y, [x, *columns], name)
    with style_of(size):
        figure, axes = new_figure(size)
        axes.set_title(textwrap.fill(title or words.common((x, *columns)), int(TITLE * size[0])), fontsize="medium")
        axes.set_xlabel(words.label(x))
        label = y_label(words, y, baseline)
        if heat:
            heat_map(figure, axes, rows, x, heat, y, words, label)
        else:
            (draw_bars if bars else draw_lines)(axes, rows, x, y, columns, words)
            scale_y(axes, rows, y, log_y)
            for _ in range(2):  # (since the ticks and the label make room for each other)
                ticks_below(figure, axes, rows, x, words, bool(bars), log_x)
                fit_label(figure, axes.yaxis.label, label, int(TITLE * size[1]))
        save(figure, out)
    return figure, left_out


def rows_of(table, x, y, columns, where, baseline, with_limits, name):
    """Returns the rows that are to be plotted, with y relative to the baseline, and how many rows were left out."""
    if y == SPEEDUP and not baseline:
        raise ToolError(f"{name}: {SPEEDUP}: is over a baseline; name its rows with --baseline")
    rows, left_out = good_rows(selected(table, where, name), with_limits)
    if rows.empty:
        raise ToolError(f"{name}: no run ended by its program's exit, so there is nothing to plot")
    check_column(rows, "cycles" if y == SPEEDUP else y, name, numeric=True)
    for column in (x, *columns):
        check_column(rows, column, name)
    of = "cycles" if y == SPEEDUP else y
    rows = rows[rows[of].notna() & rows[x].notna()]
    if rows.empty:
        raise ToolError(f"{name}: column {y}: has no number in these rows")
    if baseline:
        others = {column: value for column, value in where.items() if column not in baseline}
        base, _ = good_rows(selected(table, {**others, **baseline}, name), with_limits)
        rows = relative(rows, base, baseline, y, name)
    return rows, left_out


class Words:
    """The words of a plot: labels of columns, and texts of their values."""

    def __init__(self, rows, fetching):
        self.rows = rows
        self.fetching = fetching
        self.executables = short_names(rows["executable"].dropna().unique())

    def label(self, column):
        return label_of(column, self.fetching)

    def value(self, column, value):
        return self.executables[value] if column == "executable" else value_text(value)

    def key(self, columns, values):
        """Returns the entry of a legend."""
        return ", ".join(self.value(column, value) for column, value in zip(columns, values))

    def common(self, drawn):
        """Returns the values that all rows have in common: those of the other axes, and of the executable."""
        axes = [column for column in axes_of(self.rows) if column not in drawn]
        axes += [column for column in drawn[1:] if self.rows[column].nunique() == 1]
        return ", ".join(
            self.value(column, self.rows[column].iloc[0])
            if column == "executable"
            else f"{self.label(column)}: {self.value(column, self.rows[column].iloc[0])}"
            for column in axes
            if self.rows[column].nunique(dropna=False) == 1 and column != "repeat"
        )


def short_names(executables):
    """Returns the name of each executable without its folder and ending; with its folder, where two have one name."""
    stems = {name: name if name.startswith("gen:") else Path(name).stem for name in executables}
    alike = {stem for stem in stems.values() if list(stems.values()).count(stem) > 1}
    return {name: str(Path(name).with_suffix("")) if stem in alike else stem for name, stem in stems.items()}


def y_label(words, y, baseline):
    """Returns the label of the number that is plotted, with what it is relative to."""
    if not baseline:
        return words.label(y)
    there = ", ".join(f"{words.label(column).partition(' (')[0]} = {value}" for column, value in baseline.items())
    return f"{words.label(y)} over {there}" if y == SPEEDUP else f"{words.label(y)}, relative to {there}"


def keys_of(rows, columns):
    """Returns each combination of values of the columns once: executables as they stand, the mean last; others by size."""
    keys = rows[columns].drop_duplicates()
    for column in reversed([column for column in columns if column != "executable"]):
        keys = keys.sort_values(column, kind="stable")
    if "executable" in columns:
        order = list(dict.fromkeys(rows["executable"]))
        order.sort(key=lambda executable: executable == GEOMETRIC_MEAN)
        keys = keys.sort_values("executable", kind="stable", key=lambda column: column.map(order.index))
    return list(keys.itertuples(index=False, name=None))


def rows_with(rows, columns, key):
    """Returns the rows that have these values in the columns."""
    return rows[(rows[columns] == list(key)).all(axis=1)] if columns else rows


def spread_of(rows):
    """Returns how far the repeats go down and up from their mean; None where there are none."""
    ends = [list(map(float, rows["down"])), list(map(float, rows["up"]))]
    return ends if any(map(any, ends)) else None


def draw_lines(axes, rows, x, y, columns, words):
    numeric = is_numeric(rows[x])
    places = {value: place for place, (value,) in enumerate(keys_of(rows, [x]))}
    keys = keys_of(rows, columns) if columns else [()]
    for number, key in enumerate(keys):
        line = rows_with(rows, columns, key).sort_values(x)
        line = line if numeric else line.sort_values(x, key=lambda column: column.map(places))
        axes.errorbar(
            [float(value) if numeric else places[value] for value in line[x]],
            list(map(float, line[y])),
            yerr=spread_of(line),
            capsize=3,
            color=COLOURS[number % len(COLOURS)],
            marker=MARKERS[number % len(MARKERS)],
            linestyle=STROKES[number % len(STROKES)],
            label=words.key(columns, key),
        )
    axes.grid(True, color="0.9")
    add_legend(axes, columns, words, len(keys))


def draw_bars(axes, rows, x, y, columns, words):
    """Draws a group of bars for each value of x, with one for each combination of values of the columns."""
    groups = {value: place for place, (value,) in enumerate(keys_of(rows, [x]))}
    keys = keys_of(rows, columns) if columns else [()]
    width = 0.8 / len(keys)
    for number, key in enumerate(keys):
        bar = rows_with(rows, columns, key)
        axes.bar(
            [groups[value] + (number - (len(keys) - 1) / 2) * width for value in bar[x]],
            list(map(float, bar[y])),
            width,
            yerr=spread_of(bar),
            capsize=3,
            color=COLOURS[number % len(COLOURS)],
            hatch=HATCHES[number % len(HATCHES)],
            edgecolor="white",
            ecolor="black",
            label=words.key(columns, key),
        )
    axes.set_axisbelow(True)
    axes.grid(True, axis="y", color="0.9")
    add_legend(axes, columns, words, len(keys))


def add_legend(axes, columns, words, entries):
    """Has a legend beside the plot, where it lies on no curve."""
    if entries < 2:
        return
    heading = ",\n".join(textwrap.fill(words.label(column), HEADING) for column in columns)
    axes.legend(
        title=heading if columns != ["executable"] else None,
        loc="upper left",
        bbox_to_anchor=(1.01, 1.0),
        borderaxespad=0.0,
        frameon=False,
        fontsize="small",
        title_fontsize="small",
        alignment="left",
        handlelength=3.0,
        ncol=-(-entries // MOST_ENTRIES),
    )


def scale_y(axes, rows, y, log_y):
    if log_y:
        if (rows[y] <= 0).any():
            raise ToolError(f"--log-y: {y} has values that are not above 0")
        axes.set_yscale("log")
    else:
        axes.set_ylim(bottom=min(0, float(rows[y].min())))


def ticks_below(figure, axes, rows, x, words, bars, log_x):
    """Has ticks along the bottom: at each number, or at each name and each group of bars."""
    if is_numeric(rows[x]) and not bars:
        scale_x(figure, axes, rows[x], log_x)
    elif log_x:
        what = "bars stand side by side, whatever stands below them" if bars else f"{x} is not of numbers"
        raise ToolError(f"--log-x: {what}")
    else:
        name_ticks(figure, axes, [words.value(x, value) for (value,) in keys_of(rows, [x])])


def scale_x(figure, axes, column, log_x):
    """Has a tick at each value, on a logarithmic axis where the values double or it is asked for."""
    values = sorted({float(value) for value in column})
    if log_x and values[0] <= 0:
        raise ToolError(f"--log-x: {column.name} has values that are not above 0")
    if doubles(values):
        axes.set_xscale("log", base=2)
    elif log_x:
        axes.set_xscale("log")
    if len(values) <= MOST_TICKS:
        number_ticks(figure, axes.xaxis, values, list(map(value_text, values)))


def doubles(values):
    """Whether values grow by doubling, each once or a few times."""
    ratios = {after / before for before, after in zip(values, values[1:]) if before > 0}
    return len(values) > 2 and values[0] > 0 and values[-1] / values[0] >= 8 and not ratios - {2.0, 4.0, 8.0}


def heat_map(figure, axes, rows, x, heat, y, words, label):
    """Draws a field for each pair of values, with its number: the darker, the more. A pair without one is hatched."""
    axes.patch.set(hatch="///", edgecolor="0.7")
    grid = rows.pivot(index=heat, columns=x, values=y).astype(float)
    image = axes.imshow(grid.to_numpy(), cmap="Greys", aspect="auto", origin="lower")
    axes.set_ylabel(words.label(heat))
    bar = figure.colorbar(image)
    fit_label(figure, bar.ax.yaxis.label, label, int(TITLE * figure.get_figheight()))
    for column, values, axis in ((heat, grid.index, axes.yaxis), (x, grid.columns, axes.xaxis)):
        number_ticks(figure, axis, range(len(values)), [words.value(column, value) for value in values])
    middle = (grid.min().min() + grid.max().max()) / 2
    texts = [
        axes.text(
            column, row, f"{value:.3g}", ha="center", va="center", color="white" if value > middle else "black"
        )
        for row, values in enumerate(grid.to_numpy())
        for column, value in enumerate(values)
        if value == value
    ]
    fit_numbers(figure, axes, texts)


def style_of(size):
    """Returns the context of a plot of this size: small ones have smaller letters, lines and markers."""
    import matplotlib

    by_inch, least, greatest = LETTERS
    letters = min(greatest, max(least, by_inch * size[0]))
    return matplotlib.rc_context(
        {
            "font.size": letters,
            "lines.linewidth": 0.15 * letters,
            "lines.markersize": 0.6 * letters,
            # Texts stay texts, and the same plot is the same file.
            "svg.fonttype": "none",
            "svg.hashsalt": "zsim-tools",
            "pdf.fonttype": 42,
        }
    )


def new_figure(size):
    from matplotlib.figure import Figure

    figure = Figure(figsize=size, dpi=DOTS, layout="constrained")
    return figure, figure.add_subplot()


def save(figure, out):
    form = Path(out).suffix.removeprefix(".")
    metadata = {"svg": {"Date": None}, "pdf": {"CreationDate": None}, "png": {"Software": None}}[form]
    write_whole(out, lambda file: figure.savefig(file, format=form, metadata=metadata))
