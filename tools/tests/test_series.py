"""The events of runs over time: compared with the reports of the same runs, and with sums that were made by hand."""

import csv
import io
import re
import tracemalloc

import pytest
from events_files import FILL, LOOKUP, READ, TWO_MISSES, Told, file_of, run_model
from test_plots import size_of

from zsim_tools.machine import read_machine
from zsim_tools.parts import KINDS
from zsim_tools.report import parse_report
from zsim_tools.series import Series
from zsim_tools.series_plot import lines_of, plot_series

# x6 = 12; sd x0, -8(x2); addi x2, x2, -64; addi x6, x6, -1; bne x6, x0, -12; exit
STORES = "00C00313 FE013C23 FC010113 FFF30313 FE031AE3 05D00893 00000073"


def machine_text(**swaps):
    """Returns the built-in machine with three cores, two banks and short intervals."""
    text = read_machine("plain").text
    for old, new in {
        "cores = 1": "cores = 3",
        "interval = 10000": "interval = 400",
        "banks = 1": "banks = 2",
        "banks = [0]": "banks = [0, 1]",
        **swaps,
    }.items():
        text = text.replace(old, new)
    return text


@pytest.fixture(scope="module")
def ran():
    """A machine, and the report and the events file of a run of the model on it."""
    return machine_text(), *run_model(machine_text(), STORES)


@pytest.fixture
def files(ran, tmp_path):
    for name, data in zip(("m.toml", "run.txt"), ran):
        (tmp_path / name).write_text(data)
    (tmp_path / "run.events").write_bytes(ran[2])
    return ran


def rows_of(text):
    return [{name: value for name, value in row.items()} for row in csv.DictReader(io.StringIO(text))]


def test_the_sums_are_those_of_the_report(command, files):
    report = parse_report(files[1])
    ended = command("series", "run.events", "--machine", "m.toml", "--report", "run.txt", "--csv")
    assert ended.returncode == 0, ended.stderr
    rows = rows_of(ended.stdout)
    assert [int(row["interval"]) for row in rows] == list(range(report.summary["intervals"])) and len(rows) > 4
    sums = {name: sum(int(row[name]) for row in rows) for name in rows[0] if name not in ("wait", "l2_mpki")}
    assert sums["events"] == report.summary["events"]
    assert sums["waited"] == sum(part.counters["waited"] for part in (*report.bank_list, *report.controller_list)) > 0
    for kind, parts in (("bank", report.bank_list), ("controller", report.controller_list)):
        for part in parts:
            for name in ("events", "waited"):
                assert sums[f"{kind}{part.number}_{name}"] == part.counters[name]
    for core in report.core_list:
        assert sums[f"core{core.number}_misses"] == core.counters["misses"] > 0
    assert sums["misses"] == sums["fill_events"] == sums["read_events"]
    assert sums["write_backs"] == sums["write_events"] > 0
    mpki = [float(row["l2_mpki"]) for row in rows]
    assert sum(mpki) / len(mpki) == pytest.approx(report.derived["l2_mpki"])


def test_every_column_is_in_the_documents(command, files, repository):
    text = (repository / "docs/tools.md").read_text()
    printed = command("series", "run.events", "--machine", "m.toml", "--report", "run.txt", "--csv").stdout
    for name in printed.splitlines()[0].split(","):
        assert f"`{name}`" in text or re.match(f"((bank|controller|core)[0-9]+|{'|'.join(KINDS)})_", name), name


def test_rows_of_several_intervals_have_the_same_sums(files, tmp_path):
    machine = read_machine(tmp_path / "m.toml")
    one, three = (Series(tmp_path / "run.events", machine, every=every) for every in (1, 3))
    assert len(three.rows) == -(-len(one.rows) // 3) and three.rows[-1].intervals == (len(one.rows) - 1) % 3 + 1
    for place, sums in enumerate(three.rows):
        part = one.rows[3 * place : 3 * place + 3]
        assert sums.total("waited") == sum(row.total("waited") for row in part)
        assert sums.interval == 3 * place


def test_a_file_that_was_written_down(command, tmp_path):
    (tmp_path / "two.toml").write_text(read_machine("plain").text.replace("cores = 1", "cores = 2"))
    (tmp_path / "two.events").write_bytes(file_of(2, TWO_MISSES))
    rows = rows_of(command("series", "two.events", "--machine", "two.toml", "--csv").stdout)
    told = [[int(row[name]) for name in ("interval", "cycle", "events", "waited", "late", "misses")] for row in rows]
    # (the read that starts at 16 could at 12, and the fill at 132 could at 112)
    assert told == [[0, 0, 6, 20, 24, 2], [1, 10000, 1, 0, 0, 0], [2, 20000, 0, 0, 0, 0]]
    assert (rows[0]["bank0_waited"], rows[0]["controller0_waited"], rows[0]["core1_waited"]) == ("4", "16", "20")
    assert rows[0]["wait"] == str(20 / 6) and rows[2]["wait"] == ""
    text = command("series", "two.events", "--machine", "two.toml").stdout
    assert "two.events: 3 intervals\n" in text and "waited by component" in text and "misses by core" in text
    lines = text.splitlines()
    assert [line.split() for line in lines if line.startswith("all")] == [
        ["all", "7", "20", "2.857", "24", "2", "0"],
        ["all", "5", "2"],
        ["all", "4", "16"],
        ["all", "4", "3"],
        ["all", "0", "20"],
        ["all", "1", "1"],
    ]


def test_a_file_without_intervals(command, tmp_path):
    (tmp_path / "none.events").write_bytes(file_of(2, []))
    assert "0 intervals" in command("series", "none.events", "--machine", "plain").stdout
    assert command("series", "none.events", "--machine", "plain", "--csv").stdout == ""
    ended = command("series", "none.events", "--machine", "plain", "--out", "none.png")
    assert (ended.returncode, ended.stderr) == (2, "zsim-tools: none.events: has no waited to plot\n")


@pytest.mark.parametrize(
    "words, line",
    [
        (["run.events", "--machine", "plain"], "run.events: byte 8: it is of a machine of 3 components, and plain has 2"),
        (["run.events", "--machine", "m.toml", "--report", "other.txt"], "run.events: these are not the events of the run "),
        (["run.events", "--machine", "m.toml", "--report", "brief.txt"], "brief.txt: a brief report tells nothing of"),
        (["strange.events", "--machine", "m.toml"], "strange.events: event 1 of interval 1 is of core 3, and there are 3"),
        (["cut.events", "--machine", "m.toml", "--csv"], "cut.events: byte "),
        (["run.events", "--machine", "m.toml", "--out", "a.jpg"], "cannot write: a.jpg: the name of a plot ends with"),
        (["run.events", "--machine", "m.toml", "--y", "l2_mpki", "--out", "a.png"], "--y l2_mpki: needs the report"),
    ],
)
def test_refusals(command, files, tmp_path, words, line):
    (tmp_path / "other.txt").write_text(run_model(files[0], STORES.replace("00C00313", "00B00313"))[0])
    (tmp_path / "brief.txt").write_text("".join(files[1].splitlines(keepends=True)[:7]))
    strange = [[], [Told(0, LOOKUP, 0, 10), Told(0, LOOKUP, 0, 14, core=3)]]
    (tmp_path / "strange.events").write_bytes(file_of(3, strange))
    (tmp_path / "cut.events").write_bytes(files[2][:-1])
    ended = command("series", *words)
    assert ended.returncode == 2 and ended.stderr.count("\n") == 1 and ended.stderr.startswith(f"zsim-tools: {line}")


@pytest.mark.parametrize("y", ["waited", "events", "wait", "misses", "l2_mpki"])
def test_plots(command, files, tmp_path, y):
    ended = command(
        *("series", "run.events", "--machine", "m.toml", "--report", "run.txt", "--y", y, "--by", "core"),
        *("--out", "a.svg", "--size", "6x3"),
    )
    assert (ended.returncode, ended.stdout, ended.stderr) == (0, "", "")
    text = (tmp_path / "a.svg").read_text()
    for told in ("time (cycles)", "run.events on m.toml", ">core<", "core 0", "core 1", "core 2"):
        assert told in text


def test_the_values_of_a_plot(files, tmp_path):
    series = Series(tmp_path / "run.events", read_machine(tmp_path / "m.toml"), parse_report(files[1]), every=2)
    for way in ("component", "core", "kind"):
        lines = lines_of(series, "waited", way)
        sums = [sum(line[place] for line in lines.values()) for place in range(len(series.rows))]
        assert sums == pytest.approx([row.total("waited") / row.intervals for row in series.rows])
    figure = plot_series(series, tmp_path / "a.png", size=(5.0, 3.0))
    assert size_of(tmp_path / "a.png") == (750, 450)
    (axes,) = figure.axes
    assert axes.get_xlim() == (0, 400 * series.source.intervals)


def test_the_plot_of_the_document(command, repository, tmp_path):
    """Draws it as the document says, from a run of the model. A person looked at the one that stands there."""
    text = (repository / "docs/tools.md").read_text()
    (line,) = re.findall(r"(?m)^    tools/zsim-tools (series sum[.]events .*--out series[.]png)$", text)
    machine = (repository / "examples/machines/bank_conflicts.toml").read_text()
    machine = machine.replace("interval = 10000", "interval = 1000")
    report, file = run_model(machine, (repository / "examples/c/sum.elf").read_bytes())
    for name, data in (("conflicts.toml", machine.encode()), ("sum.txt", report.encode()), ("sum.events", file)):
        (tmp_path / name).write_bytes(data)
    assert command(*line.split()).returncode == 0 and "](plots/series.png)" in text
    assert size_of(tmp_path / "series.png") == size_of(repository / "docs/plots/series.png")
    series = Series(tmp_path / "sum.events", read_machine(tmp_path / "conflicts.toml"), every=1)
    lines = lines_of(series, "waited", "component")
    # What is said of both banks: in the first interval, from cycle 2000 to 19,000 in the mean, and from 21,000 to 25,000.
    told = [[line[0], round(sum(line[2:19]) / 17), round(sum(line[21:25]) / 4)] for line in lines.values()]
    assert told == [[85, 782, 2723], [2947, 714, 10], [0, 0, 0], [0, 0, 0]]


def test_many_components_are_put_together(tmp_path):
    """Of twelve banks the eight that waited most have a line, and the others one together."""
    text = machine_text(**{"banks = 2": "banks = 12", "banks = [0, 1]": f"banks = {[0] * 12}"})
    text = text.replace("sets = 4", "sets = 12").replace("sets = 2\n", "sets = 12\n")
    (tmp_path / "m.toml").write_text(text)
    events = [Told(bank, LOOKUP, 0, 10 + bank) for bank in range(12)]
    (tmp_path / "many.events").write_bytes(file_of(13, [events]))
    lines = lines_of(Series(tmp_path / "many.events", read_machine(tmp_path / "m.toml")), "waited", "component")
    assert list(lines) == [*(f"bank {bank}" for bank in range(4, 12)), "5 other components"]
    assert lines["5 other components"] == [0 + 1 + 2 + 3] and lines["bank 11"] == [11]


def test_memory_does_not_grow_with_the_file(tmp_path, monkeypatch):
    monkeypatch.setattr("zsim_tools.events.CHUNK", 64)
    miss = [Told(0, LOOKUP, 0, 10), Told(1, READ, 10, 110, first=(0, 0)), Told(0, FILL, 110, 112, first=(1, 0))]
    peaks = []
    for copies in (24, 480):
        (tmp_path / "long.events").write_bytes(file_of(2, [miss * 20] * copies))
        tracemalloc.start()
        Series(tmp_path / "long.events", read_machine("plain"))
        peaks.append(tracemalloc.get_traced_memory()[1])
        tracemalloc.stop()
    assert peaks[1] < 1.2 * peaks[0]
