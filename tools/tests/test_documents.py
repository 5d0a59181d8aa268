"""What the documents and the examples say of the tools, and of what the tools read."""

import re
import shlex
import shutil

import pytest
from conftest import FETCHING, HERE, WORKED
from test_plots import size_of, texts_of

import zsim_tools
from zsim_tools import inputs, plots
from zsim_tools.labels import KEYS
from zsim_tools.machine import PLAIN, parse_machine
from zsim_tools.checks import OPTIONAL
from zsim_tools.outcomes import judge, numbers_of, row_of
from zsim_tools.report import parse_report
from zsim_tools.sweep_file import read_sweep
from zsim_tools.table import FRACTIONS, SHA256
from zsim_tools.task import run_machine


# What a machine of version 3 may have beside the tables of the built-in one and gives columns of its own.
TABLES = """
[l1i]
sets = 2
ways = 1
latency = 1

[mesh]
width = 1
height = 1
hop = 3
occupancy = 2
"""

# The report of two cores on such a machine: four links, with ten events in all.
MESHED = FETCHING.replace("report 2", "report 3").replace("events 160", "events 170") + "".join(
    f"link {number} events {number + 1} waited {number} free {100 * number}\n" for number in range(4)
)


def test_plain_is_the_built_in_machine(repository):
    text = inputs.read_text(PLAIN, inputs.MACHINE)
    assert f"```toml\n{text}```" in (repository / "docs/machine-description.md").read_text()
    source = (repository / "crates/machine_desc/src/plain.rt").read_text()
    assert text in source or text in source.replace("\\n", "\n")


def test_every_key_of_a_machine_has_a_label(repository):
    rows = re.findall(r"(?m)^\| `([a-z0-9_.]+)` \| integer \|", (repository / "docs/machine-description.md").read_text())
    assert len(rows) > 20 and set(rows) - {"version"} == set(KEYS)
    # The built-in machine is of version 1, which has none of the tables that a machine may have or not.
    assert {key for key in KEYS if key.split(".")[0] not in OPTIONAL} < set(zsim_tools.read_machine("plain").values)


def with_tables(machine):
    """Returns a machine of version 3, with instruction caches and a mesh."""
    return parse_machine(machine.text.replace("version = 1", "version = 3") + TABLES, machine.name)


def test_every_column_is_in_the_documents(repository):
    text = (repository / "docs/tools.md").read_text()
    machine = zsim_tools.read_machine("plain").changed({"cores": 2, "l2.banks": 2, "domains.banks": [0, 0]})
    columns = numbers_of(parse_report(MESHED, machine=with_tables(machine), seconds=0.5))
    whole_run = {name for name in columns if not re.fullmatch("(core|bank|controller|link)[0-9]+_.*", name)}
    for name in whole_run:
        assert f"`{name}`" in text, name
    assert set(FRACTIONS) == {name for name in whole_run if isinstance(columns[name], float)}
    for name in ("executable", "repeat", "schedule", "status", "line", "halt", "machine_sha256", "executable_sha256", "zsim_sha256"):
        assert f"`{name}`" in text


def test_the_files_that_a_reader_must_believe_have_the_lines_that_are_told(repository):
    rows = re.findall(r"(?m)^\| (`.*) \| .* \| ([0-9, of]+) \|$", (repository / "docs/reading.md").read_text())
    assert len(rows) > 20
    for names, counts in rows:
        lines, folder = [], None
        for name in re.findall(r"`([a-z_/]*[A-Za-z_]+[.](?:rt|antt))`", names):
            *above, name = name.split("/")
            # A name without a crate is one of the crate before it, and one without a folder lies beside the one before.
            folder = repository / "crates" / above[0] / above[1] if len(above) == 2 else folder
            folder = folder.parent / above[0] if len(above) == 1 else folder
            lines.append(len((folder / name).read_text().splitlines()))
        assert [int(count.split()[-1]) for count in counts.split(",")] == lines, names


def test_what_the_documents_point_to_is_there(repository):
    pages = [*repository.glob("*.md"), *repository.glob("docs/*.md"), *repository.glob("examples/**/*.md")]
    links = [(page, link) for page in pages for link in re.findall(r"\]\(([^)#:]+)(?:#[^)]*)?\)", page.read_text())]
    assert len(links) > 5
    for page, link in links:
        assert (page.parent / link).exists(), f"{page}: {link}"


@pytest.mark.parametrize("name, runs", [("matrix.toml", 48), ("stream.toml", 64), ("pipeline.toml", 48), ("mesh.toml", 16), ("rows.toml", 42)])
def test_the_sweeps_of_the_examples_are_read(repository, name, runs):
    planned = read_sweep(repository / "examples/sweeps" / name).planned()
    assert len(planned) == runs and len({(run.machine_sha256, run.executable.sha256) for run in planned}) == runs


def test_the_machine_of_an_example_keeps_its_text(repository):
    for path in (repository / "examples/machines").glob("*.toml"):
        machine = zsim_tools.read_machine(path)
        assert machine.changed({"l1.ways": machine.values["l1.ways"]}).values == machine.values
        changed = parse_machine(machine.changed({"l1.ways": 3}).text, "changed")
        assert changed.values == {**machine.values, "l1.ways": 3}
        lines, changed_lines = machine.text.splitlines(), changed.text.splitlines()
        assert len(lines) == len(changed_lines) and sum(map(str.__ne__, lines, changed_lines)) == 1


# What stands on the plots of docs/tools.md: the labels of both axes, the title, and the legend or the fields' numbers.
PLOTS = {
    "matrix.png": (
        "sets of the L1",
        "misses in the L1 per 1000 instructions",
        "",
        ["matrix_naive, 1", "matrix_naive, 8", "matrix_blocked, 1", "matrix_blocked, 8"],
    ),
    "matrix_blocked.png": (
        "ways of the L1 (lines in a set)",
        "sets of the L1",
        "matrix_blocked",
        "171 140 136 136 156 138 136 135 150 137 84.4 6.62 147 53.6 6.61 5.27 46.8 10.6 5.27 3.69 31.5 7.4 3.6 1.4".split(),
    ),
    "stream.png": (
        "occupancy of a controller (cycles per event)",
        "waiting (share of the cycles)",
        "",
        [f"{name}, {banks}" for name in ("stream", "stream_padded") for banks in (1, 2, 4)],
    ),
    "pipeline.png": (
        "counters that predict branches",
        "cycles per instruction",
        "",
        [f"{name}, {penalty}" for name in ("sort", "bytecode") for penalty in (3, 12)],
    ),
    "hops.png": (
        "time of a hop (cycles)",
        "waiting for the links (cycles per event)",
        "",
        [f"{name}, {occupancy}" for name in ("sum", "counter") for occupancy in (2, 32)],
    ),
    "rows.png": (
        "lines of a row of memory",
        "waiting for the controllers (cycles per event)",
        "cores: 1",
        [f"{name}, {banks}" for name in ("walk", "walk_jumping") for banks in (1, 16)],
    ),
}


def test_the_plots_of_the_documents(command, repository, tmp_path, monkeypatch):
    """Draws them as the document says, from stored tables of the sweeps. A person looked at those that stand there."""
    text = (repository / "docs/tools.md").read_text().replace("\\\n", " ")
    lines = re.findall(r"(?m)^    tools/zsim-tools (plot (?:matrix|stream|pipeline|mesh|rows)\.csv .*)$", text)
    assert len(lines) == len(PLOTS)
    for name in ("matrix.csv", "stream.csv", "pipeline.csv", "mesh.csv", "rows.csv"):
        shutil.copy(HERE / "data" / name, tmp_path)
    figures = []
    monkeypatch.setattr(
        "zsim_tools.plots.save", lambda figure, out, save=plots.save: (figures.append(figure), save(figure, out))
    )
    for line in lines:
        assert command(*shlex.split(line)).returncode == 0
        name = shlex.split(line)[-1]
        axes = figures[-1].axes[0]
        marks = texts_of(axes) if axes.get_legend() else [field.get_text() for field in axes.texts]
        assert (axes.get_xlabel(), axes.get_ylabel(), axes.get_title(), marks) == PLOTS[name]
        assert size_of(tmp_path / name) == size_of(repository / "docs/plots" / name)
        assert f"](plots/{name})" in text


@pytest.mark.parametrize(
    "name, where",
    [
        ("matrix", {"l1.sets": 16, "l1.ways": 8}),
        ("stream", {"controllers.occupancy": 32, "l2.banks": 2}),
        ("pipeline", {"pipe.entries": 64, "pipe.penalty": 3}),
        ("mesh", {"mesh.hop": 9, "mesh.occupancy": 32}),
        ("rows", {"dram.row_lines": 256, "dram.banks": 16}),
    ],
)
def test_the_stored_tables_are_those_of_zsim(built_zsim, repository, tmp_path, name, where):
    """Runs two of the runs of each sweep with the built program, and compares all that they counted."""
    planned = read_sweep(repository / f"examples/sweeps/{name}.toml").planned()
    table = zsim_tools.read_table(HERE / f"data/{name}.csv")
    chosen = [run for run in planned if where.items() <= run.values.items()]
    assert len(chosen) == 2
    for run in chosen:
        outcome = run_machine(built_zsim, run.machine.text, str(repository / "examples/sweeps" / run.executable.name))
        wanted = row_of(run, judge(run, outcome), "")
        rows = table[
            (table[[*run.values, "executable"]] == [wanted[key] for key in (*run.values, "executable")]).all(axis=1)
        ]
        assert len(rows) == 1
        found = rows.iloc[0]
        own = {*SHA256, "seconds", "instructions_per_second"}  # (what is not the same at every place and time)
        assert {key: found[key] for key in wanted if key not in own} == {
            key: value for key, value in wanted.items() if key not in own
        }


def test_the_example_of_the_document(command, repository, tmp_path):
    """The sweep that a new user writes, over what stands in for zsim."""
    text = (repository / "docs/tools.md").read_text()
    (tmp_path / "examples").symlink_to(repository / "examples")
    (tmp_path / "mysweep.toml").write_text(re.search(r"(?s)```toml\n(.*?)```", text)[1])
    lines = re.findall(r"(?m)^    tools/zsim-tools ((?:sweep|plot) mysweep\..*)$", text)
    assert len(lines) == 2
    for line in lines:
        assert command(*shlex.split(line)).returncode == 0
    assert len(zsim_tools.read_table(tmp_path / "mysweep.csv")) == 15 and (tmp_path / "mysweep.png").is_file()


def test_the_python_of_the_document(repository, fake_zsim, tmp_path, monkeypatch, command):
    text = (repository / "docs/tools.md").read_text()
    (tmp_path / "examples").symlink_to(repository / "examples")
    (tmp_path / "mysweep.toml").write_text(re.search(r"(?s)```toml\n(.*?)```", text)[1])
    exec(compile(re.search(r"(?s)```python\n(.*?)```", text)[1], "docs/tools.md", "exec"), {})
    assert (tmp_path / "mysweep.svg").is_file()
