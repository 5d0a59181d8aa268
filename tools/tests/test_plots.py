"""Plots: their size and labels. What they look like, a person looked at once (docs/tools.md has them)."""

import re
import struct

import pytest

import zsim_tools
from zsim_tools.labels import label_of

# As the command gives them: 7 by 4.5 inches at 150 dots an inch.
PIXELS = (1050, 675)


@pytest.fixture
def table(command, twelve):
    """The table of the sweep of 12 runs."""
    assert command("sweep", "sweep.toml", "--out", "table.csv").returncode == 0
    return zsim_tools.read_table(twelve / "table.csv")


def size_of(path):
    """Returns the width and the height of a PNG."""
    head = path.read_bytes()[:24]
    assert head.startswith(b"\x89PNG")
    return struct.unpack(">II", head[16:24])


def texts_of(axes):
    return [text.get_text() for text in axes.get_legend().get_texts()]


def test_lines_of_executables(table, tmp_path):
    figure, left_out = zsim_tools.plot(table, tmp_path / "a.png", "l1.ways", "l1_mpki", where={"l1.sets": "2"})
    axes = figure.axes[0]
    assert left_out == 0 and size_of(tmp_path / "a.png") == PIXELS
    assert axes.get_xlabel() == "ways of the L1 (lines in a set)"
    assert axes.get_ylabel() == "misses in the L1 per 1000 instructions"
    assert axes.get_title() == "sets of the L1: 2"
    assert texts_of(axes) == ["a", "long"]
    lines = [container.lines[0] for container in axes.containers]
    assert [list(line.get_xdata()) for line in lines] == [[1, 2, 4]] * 2
    assert list(lines[0].get_ydata()) == [50, 25, 12.5]
    # The lines differ without their colours too.
    assert len({(line.get_marker(), line.get_linestyle()) for line in lines}) == 2
    assert [tick.get_text() for tick in axes.get_xticklabels()] == ["1", "2", "4"]
    assert axes.get_ylim()[0] == 0


def test_lines_of_another_axis(table, tmp_path):
    where = {"executable": "a.elf"}
    figure, _ = zsim_tools.plot(table, tmp_path / "a.svg", "l1.ways", "cycles", lines=["l1.sets"], where=where)
    assert texts_of(figure.axes[0]) == ["2", "4"]
    assert figure.axes[0].get_legend().get_title().get_text() == "sets of the L1"
    svg = (tmp_path / "a.svg").read_text()
    for text in ("ways of the L1 (lines in a set)", "cycles", "sets of the L1", "2", "4", "a"):
        assert re.search(f">{re.escape(text)}</text>", svg)
    # The same plot is the same file.
    zsim_tools.plot(table, tmp_path / "b.svg", "l1.ways", "cycles", lines=["l1.sets"], where=where)
    assert (tmp_path / "b.svg").read_text() == svg


def test_lines_of_several_columns(table, tmp_path):
    figure, _ = zsim_tools.plot(table, tmp_path / "a.png", "l1.ways", "cpi", lines=["executable", "l1.sets"])
    assert texts_of(figure.axes[0]) == ["a, 2", "a, 4", "long, 2", "long, 4"]
    assert figure.axes[0].get_legend().get_title().get_text() == "executable,\nsets of the L1"


def test_a_heat_map(table, tmp_path):
    figure, _ = zsim_tools.plot(
        table, tmp_path / "a.png", "l1.ways", "l2_mpki", heat="l1.sets", where={"executable": "a.elf"}
    )
    axes, bar = figure.axes
    assert size_of(tmp_path / "a.png") == PIXELS
    assert (axes.get_xlabel(), axes.get_ylabel()) == ("ways of the L1 (lines in a set)", "sets of the L1")
    assert bar.get_ylabel() == "misses in the L2 per 1000 instructions"
    assert [text.get_text() for text in axes.texts] == ["50", "25", "12.5", "25", "12.5", "6.24"]
    assert [tick.get_text() for tick in axes.get_yticklabels()] == ["2", "4"]


def ticks_of(axis):
    return [tick.get_text() for tick in axis.get_ticklabels() if tick.get_text()]


def bars_of(axes):
    """Returns the heights of the bars, by the entries of the legend."""
    from matplotlib.container import BarContainer

    bars = [container for container in axes.containers if isinstance(container, BarContainer)]
    return {container.get_label(): [bar.get_height() for bar in container] for container in bars}


def test_bars_relative_to_a_baseline_and_their_mean(table, tmp_path):
    options = {"bars": ["l1.ways"], "where": {"l1.sets": 2}, "baseline": {"l1.ways": 1}, "geomean": True}
    figure, _ = zsim_tools.plot(table, tmp_path / "a.pdf", y="l1_mpki", **options)
    axes = figure.axes[0]
    assert (tmp_path / "a.pdf").read_bytes().startswith(b"%PDF")
    # Twice the ways have half the misses, for each executable.
    halves = {ways: [pytest.approx(1 / int(ways), rel=0.01)] * 3 for ways in ("1", "2", "4")}
    assert bars_of(axes) == halves and ticks_of(axes.xaxis) == ["a", "long", "geometric mean"]
    assert (axes.get_xlabel(), axes.get_title()) == ("executable", "sets of the L1: 2")
    label = "misses in the L1 per 1000 instructions, relative to ways of the L1 = 1"
    assert axes.get_ylabel().replace("\n", " ") == label
    assert axes.get_legend().get_title().get_text() == "ways of the L1 (lines\nin a set)"
    # Bars differ without their colours too.
    assert len({container[0].get_hatch() for container in axes.containers}) == 3
    cycles = table[table["executable"].eq("a.elf") & table["l1.sets"].eq(2)].set_index("l1.ways")["cycles"]
    figure, _ = zsim_tools.plot(table, tmp_path / "a.png", y="speedup", **options)
    assert bars_of(figure.axes[0])["4"][0] == pytest.approx(cycles[1] / cycles[4])
    assert figure.axes[0].get_ylabel() == "speed-up over ways of the L1 = 1"


def test_the_baseline_need_not_be_plotted(table, tmp_path):
    where = {"l1.sets": [2, 4], "l1.ways": 4}
    figure, _ = zsim_tools.plot(
        table, tmp_path / "a.png", "l1.sets", "l1_mpki", where=where, baseline={"l1.ways": 1}, geomean=True
    )
    axes = figure.axes[0]
    # Without the executable among the lines there is their mean alone, in one line that needs no legend.
    (line,) = [container.lines[0] for container in axes.containers]
    assert list(line.get_ydata()) == pytest.approx([0.25, 0.25], rel=0.01) and axes.get_legend() is None
    assert axes.get_title() == "ways of the L1 (lines in a set): 4, geometric mean"


def test_an_executable_as_the_baseline(table, tmp_path):
    options = {"where": {"l1.sets": 2}, "baseline": {"executable": "a.elf"}}
    figure, _ = zsim_tools.plot(table, tmp_path / "a.png", "l1.ways", "instructions", **options)
    lines = [list(container.lines[0].get_ydata()) for container in figure.axes[0].containers]
    assert lines == [[1, 1, 1], [pytest.approx(24 / 9)] * 3]
    alone = table[table["l1.sets"].eq(2) & table["l1.ways"].eq(1)].drop(columns=["l1.sets", "l1.ways"])
    figure, _ = zsim_tools.plot(
        alone, tmp_path / "a.png", "executable", "instructions", lines=["status"], baseline={"executable": "a.elf"}
    )
    assert list(figure.axes[0].containers[0].lines[0].get_ydata()) == [1, pytest.approx(24 / 9)]


def repeated(table):
    """Returns a table in which each run is there three times, with more cycles each time."""
    import pandas

    copies = [table.assign(repeat=repeat, cycles=table["cycles"] * (1 + repeat)) for repeat in range(3)]
    return pandas.concat(copies, ignore_index=True)


@pytest.mark.parametrize("kind", ["lines", "bars"])
def test_repeats_are_a_mean_with_a_bar_from_the_least_to_the_greatest(table, tmp_path, kind):
    table = repeated(table)
    options = {"where": {"l1.sets": 2, "executable": "a.elf"}, kind: ["executable"]}
    figure, _ = zsim_tools.plot(table, tmp_path / "a.png", "l1.ways", "cycles", **options)
    errors = [container for container in figure.axes[0].containers if getattr(container, "has_yerr", False)]
    first = table[table["executable"].eq("a.elf") & table["l1.sets"].eq(2) & table["repeat"].eq(0)]["cycles"]
    ends = [[end[1] for end in segment] for segment in errors[0].lines[2][0].get_segments()]
    assert ends == [[cycles, 3 * cycles] for cycles in first]


def test_runs_that_reached_a_limit(command, twelve):
    (twelve / "long.elf").write_text("endless")
    command("sweep", "sweep.toml", "--out", "table.csv")
    table = zsim_tools.read_table(twelve / "table.csv")
    where = {"l1.sets": 2}
    figure, left_out = zsim_tools.plot(table, twelve / "a.png", "l1.ways", "cpi", where=where)
    assert (left_out, len(figure.axes[0].containers)) == (3, 1)
    figure, left_out = zsim_tools.plot(table, twelve / "a.png", "l1.ways", "cpi", where=where, with_limits=True)
    assert (left_out, len(figure.axes[0].containers)) == (0, 2)


def test_the_size_and_the_letters(table, tmp_path):
    where = {"l1.sets": 2}
    figure, _ = zsim_tools.plot(table, tmp_path / "a.png", "l1.ways", "cpi", where=where, size=(3.5, 2.5))
    assert size_of(tmp_path / "a.png") == (525, 375)
    assert figure.axes[0].xaxis.label.get_fontsize() == 7
    figure, _ = zsim_tools.plot(table, tmp_path / "a.png", "l1.ways", "cpi", where=where)
    assert figure.axes[0].xaxis.label.get_fontsize() == 10


def many(names, values):
    """Returns a table of these executables, each at all values of an axis."""
    import pandas

    rows = [
        {"memory.size": value, "executable": name, "status": 0, "halt": "exit 0", "cycles": len(name) * 10**6 + value}
        for name in names
        for value in values
    ]
    return pandas.DataFrame(rows)


def boxes_of(texts):
    return [text.get_window_extent() for text in texts if text.get_text()]


@pytest.mark.parametrize("log_x, size", [(False, (7, 4.5)), (True, (7, 4.5)), (True, (3.4, 2.4))])
def test_ticks_do_not_overlap_and_the_legend_is_beside(tmp_path, log_x, size):
    names = [f"folder/program_with_a_name_{number}.elf" for number in range(8)]
    table = many(names, [65536 * factor for factor in (1, 2, 3, 4, 5, 6, 7, 8, 9, 12, 16, 20, 28)])
    figure, _ = zsim_tools.plot(table, tmp_path / "a.png", "memory.size", "cycles", log_x=log_x, size=size)
    axes = figure.axes[0]
    assert axes.get_xscale() == ("log" if log_x else "linear")
    boxes = boxes_of(axes.get_xticklabels())
    assert len(boxes) > 2 and not any(one.overlaps(other) for one, other in zip(boxes, boxes[1:]))
    assert ticks_of(axes.xaxis)[-1] == "1835008" and len(axes.get_xticks()) == 13
    legend = axes.get_legend().get_window_extent()
    assert not legend.overlaps(axes.get_window_extent()) and legend.x1 <= figure.bbox.width + 1
    label = axes.yaxis.label.get_window_extent()
    assert label.y0 >= 0 and label.y1 <= figure.bbox.height


def test_names_are_turned_where_they_would_overlap(tmp_path):
    names = [f"folder/program_with_a_name_{number}.elf" for number in range(8)]
    figure, _ = zsim_tools.plot(many(names, [1, 2]), tmp_path / "a.png", bars=["memory.size"], y="cycles")
    labels = figure.axes[0].get_xticklabels()
    assert {label.get_rotation() for label in labels} == {30} and labels[0].get_text() == "program_with_a_name_0"
    figure, _ = zsim_tools.plot(many(["a.elf", "b.elf"], [1]), tmp_path / "a.png", bars=["memory.size"], y="cycles")
    assert {label.get_rotation() for label in figure.axes[0].get_xticklabels()} == {0}


def test_executables_of_one_name_have_their_folders(tmp_path):
    names = ["one/a.elf", "other/a.elf", "one/b.elf", "gen:5"]
    figure, _ = zsim_tools.plot(many(names, [1, 2]), tmp_path / "a.png", "memory.size", "cycles")
    assert texts_of(figure.axes[0]) == ["one/a", "other/a", "b", "gen:5"]


def test_a_map_of_many_fields_has_smaller_numbers_or_none(tmp_path):
    few, many_values = many(["a.elf", "b.elf"], range(1, 5)), many(["a.elf", "b.elf"], range(1, 200))
    figure, _ = zsim_tools.plot(few, tmp_path / "a.png", "memory.size", "cycles", heat="executable")
    assert len(figure.axes[0].texts) == 8 and ticks_of(figure.axes[0].yaxis) == ["a", "b"]
    figure, _ = zsim_tools.plot(many_values, tmp_path / "a.png", "memory.size", "cycles", heat="executable")
    assert len(figure.axes[0].texts) == 0


def test_runs_that_did_not_end_by_an_exit_are_left_out(command, twelve):
    (twelve / "sweep.toml").write_text((twelve / "sweep.toml").read_text().replace("[1, 2, 4]", "[1, 0, 4]"))
    (twelve / "long.elf").write_text("break")
    command("sweep", "sweep.toml", "--out", "table.csv")
    ended = command("plot", "table.csv", "--x", "l1.ways", "--y", "cpi", "--lines", "l1.sets", "--out", "a.png")
    assert ended.returncode == 0 and (twelve / "a.png").is_file()
    assert ended.stderr == "zsim-tools: 8 of the rows are left out: their runs did not end by the program's exit\n"


@pytest.mark.parametrize(
    "words, told",
    [
        (
            "--x l1.ways --y l1_mpki --out a.png",
            "table.csv: 2 rows have l1.ways = 1, executable = a.elf; pick a value of l1.sets with --where, or draw --lines of it",
        ),
        ("--x l1.way --y l1_mpki --out a.png", "table.csv: has no column l1.way; did you mean l1.ways?"),
        ("--x l1.ways --y nothing_like_it --out a.png", "table.csv: has no column nothing_like_it"),
        ("--x l1.ways --y halt --out a.png", "table.csv: column halt: is not of numbers"),
        ("--x l1.ways --y cpi --lines colour --out a.png", "table.csv: has no column colour"),
        ("--x l1.ways --y cpi --heat sets --out a.png", "table.csv: has no column sets; did you mean l1.sets?"),
        ("--x l1.ways --y cpi --where l1.sets=3 --out a.png", "table.csv: no row has l1.sets = 3; there are 2, 4"),
        (
            "--x l1.ways --y cpi --where l1.sets --out a.png",
            "usage: argument --where: l1.sets is not COLUMN=VALUE (see zsim-tools plot --help)",
        ),
        (
            "--x l1.ways --y delay --where l1.sets=2 --out a.gif",
            "cannot write: a.gif: the name of a plot ends with .png or .svg or .pdf",
        ),
        ("--x l1.ways --y delay --where l1.sets=2 --out no/a.png", "cannot write: no/a.png: no is no folder"),
        (
            "--x l1.ways --y bank_waited --where l1.sets=2 --log-y --out a.png",
            "--log-y: bank_waited has values that are not above 0",
        ),
        (
            "--x l1.ways --y cpi --lines l1.sets --heat l1.sets --out a.png",
            "usage: argument --heat: not allowed with argument --lines (see zsim-tools plot --help)",
        ),
        ("--y cpi --out a.png", "usage: the following arguments are required: --x (see zsim-tools plot --help)"),
        (
            "--x l1.ways --y cpi --where l1.sets=2 --size 7 --out a.png",
            "usage: argument --size: 7 is not WxH, as 7x4.5, from 1 to 40 inches each (see zsim-tools plot --help)",
        ),
        (
            "--x executable --y cpi --where l1.sets=2 --where l1.ways=1 --log-x --out a.png",
            "--log-x: executable is not of numbers",
        ),
        (
            "--bars l1.ways --y cpi --where l1.sets=2 --log-x --out a.png",
            "--log-x: bars stand side by side, whatever stands below them",
        ),
        (
            "--x l1.ways --y bank_waited --where l1.sets=2 --geomean --out a.png",
            "table.csv: bank_waited has values that are not above 0, of which there is no geometric mean",
        ),
        (
            "--x l1.ways --y speedup --where l1.sets=2 --out a.png",
            "table.csv: speedup: is over a baseline; name its rows with --baseline",
        ),
        (
            "--x l1.ways --y cpi --where l1.sets=2 --baseline l1.ways=3 --out a.png",
            "table.csv: no row has l1.ways = 3; there are 1, 2, 4",
        ),
        (
            "--x l1.ways --y bank_waited --where l1.sets=2 --baseline l1.ways=1 --out a.png",
            "table.csv: --baseline: there is no bank_waited above 0 for l1.sets = 2, executable = a.elf",
        ),
    ],
)
def test_what_is_wrong_is_named(command, table, twelve, words, told):
    ended = command("plot", "table.csv", *words.split())
    assert (ended.returncode, ended.stderr) == (2, f"zsim-tools: {told}\n")
    assert not list(twelve.glob("*.png")) and not list(twelve.glob(".*"))


@pytest.mark.parametrize(
    "name, text, told",
    [
        ("a.csv", None, "cannot read: a.csv: No such file or directory"),
        ("a.csv", "", "a.csv: no table: No columns to parse from file"),
        ("a.csv", "zsim report 1\ncores 1\n", "a.csv: no table of a sweep: it has no column executable"),
        (
            "a.csv",
            "executable,status,line,halt,cpi\na.elf,0,,exit 0,fast\n",
            "a.csv: column cpi: has a value that is no number",
        ),
        (
            "a.csv",
            "executable,status,line,halt\na.elf,good,,exit 0\n",
            "a.csv: column status: has a value that is no number",
        ),
        ("a.txt", "text", "a.txt: no table: its name ends neither with .csv nor with .parquet"),
    ],
)
def test_what_is_no_table_is_refused(command, tmp_path, name, text, told):
    if text is not None:
        (tmp_path / name).write_text(text)
    ended = command("plot", name, "--x", "status", "--y", "cpi", "--out", "a.png")
    assert (ended.returncode, ended.stderr) == (2, f"zsim-tools: {told}\n")


def test_what_fetches_are_counted_with_is_in_the_label():
    assert label_of("l1_mpki", fetching=True) == "misses in the L1 and L1I per 1000 instructions"
    assert label_of("core3_hits", fetching=True) == "core 3: hits in the L1 and L1I"
    assert label_of("l2_mpki", fetching=True) == label_of("l2_mpki")


def test_every_column_has_a_label_with_words(table):
    for column in table.columns:
        if not column.endswith(("sha256", "_halt")) and column not in (
            "executable",
            "status",
            "line",
            "halt",
            "cycles",
            "instructions",
            "cores",
            "accesses",
            "events",
            "loads",
            "stores",
            "atomics",
            "upgrades",
        ):
            assert label_of(column) != column, column
