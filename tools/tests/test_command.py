"""The command line: help, tables in the terminal, comparisons, and what happens to an output that fails."""

import csv
import io
import json
import os
import re
import shutil
import subprocess
import sys
from pathlib import Path

import pytest
from conftest import FETCHING, WORKED, environment

import zsim_tools

COMMANDS = ("show", "diff", "sweep", "plot", "run", "describe", "explain", "timeline", "series", "annotate", "sharing")
DEBIAN = "/usr/lib/python3/dist-packages"


def test_help(command):
    text = command("--help").stdout
    for name in COMMANDS:
        assert f"zsim-tools {name}" in text
        ended = command(name, "--help")
        assert ended.returncode == 0 and ended.stderr == ""
        assert "Status: 0 done" in ended.stdout and f"usage: zsim-tools {name}" in ended.stdout
        assert max(map(len, ended.stdout.splitlines())) <= 112


@pytest.mark.parametrize(
    "words, told",
    [
        ([], "the following arguments are required: COMMAND (see zsim-tools --help)"),
        (
            ["shew"],
            f"argument COMMAND: invalid choice: 'shew' (choose from {str(COMMANDS)[1:-1]}) (see zsim-tools --help)",
        ),
        (["show"], "the following arguments are required: REPORT (see zsim-tools show --help)"),
        (["show", "a", "--colour"], "unrecognized arguments: --colour (see zsim-tools --help)"),
        (
            ["show", "a", "--json", "--csv"],
            "argument --csv: not allowed with argument --json (see zsim-tools show --help)",
        ),
        (["diff", "a"], "the following arguments are required: B (see zsim-tools diff --help)"),
        (["sweep", "a.toml"], "the following arguments are required: --out (see zsim-tools sweep --help)"),
        (
            ["sweep", "a.toml", "--out", "a.csv", "--jobs", "0"],
            "argument --jobs: 0 is no whole number of at least 1 (see zsim-tools sweep --help)",
        ),
        (
            ["sweep", "a.toml", "--out", "a.csv", "--jobs", "2", "--scheduler", "a"],
            "argument --scheduler: not allowed with argument --jobs (see zsim-tools sweep --help)",
        ),
    ],
)
def test_words_that_are_no_command(command, words, told):
    ended = command(*words)
    assert (ended.returncode, ended.stdout, ended.stderr) == (2, "", f"zsim-tools: usage: {told}\n")


def test_show(command, worked):
    ended = command("show", "worked.txt")
    assert (ended.returncode, ended.stderr) == (0, "")
    lines = [line.split() for line in ended.stdout.splitlines()]
    assert lines[0] == ["worked.txt"]
    for line in (
        "cpi 2.333",
        "waiting 7.14 %",
        "cycles_spread 28.57 %",
        "0 1000 4000 400 500 100 0 exit 0",
        "1 2000 3000 100 600 50 50 exit 1",
        "mean 1500 3500 250 550 75 25",
        "1 1.5 3.33 % 325 5 10 20 10",
        "least 580 5 10 5",
        "0 100 50 4100 0.5",
        "0 40 80 3900 2",
    ):
        assert line.split() in lines, line


def test_show_of_one_core_and_a_machine(command, repository):
    ended = command("show", repository / "crates/zsim_main/stdout", "--machine", "plain")
    assert "spread" not in ended.stdout and "least" not in ended.stdout
    assert ["bank", "events", "waited", "free", "wait", "busy"] in [line.split() for line in ended.stdout.splitlines()]


def test_show_of_a_brief_report(command, tmp_path):
    (tmp_path / "brief.txt").write_text("".join(WORKED.splitlines(keepends=True)[:7]))
    ended = command("show", "brief.txt")
    assert [line.split() for line in ended.stdout.splitlines()][3:] == [
        ["cores", "2"],
        ["intervals", "1"],
        ["instructions", "3000"],
        ["cycles", "4000"],
        ["accesses", "1300"],
        ["events", "160"],
    ]


def test_show_of_cores_that_fetch(command, tmp_path):
    (tmp_path / "fetching.txt").write_text(FETCHING)
    lines = [line.split() for line in command("show", "fetching.txt").stdout.splitlines()]
    assert "core instructions cycles delay loads stores atomics fetches halt".split() in lines
    assert "1 2000 3000 100 600 50 50 700 exit 1".split() in lines and ["fetches_pki", "366.7"] in lines


def test_show_as_json_and_csv_have_the_same_numbers(command, worked, repository):
    names = ("worked.txt", str(repository / "crates/zsim_main/stdout"))
    listed = json.loads(command("show", *names, "--json").stdout)
    rows = list(csv.DictReader(io.StringIO(command("show", *names, "--csv").stdout)))
    assert [report["report"] for report in listed] == list(names)
    first = listed[0]
    assert (first["run"]["cycles"], first["cores"][1]["misses"], first["banks"][0]["free"]) == (4000, 20, 4100)
    assert (first["cores"][0]["halt"], first["cores"][0]["console"]) == ("exit 0", 'a\n"')
    assert listed[1]["run"]["bank_wait"] is None
    told = {(row["report"], row["part"], row["number"], row["name"]): row["value"] for row in rows}
    for report in listed:
        parts = [("run", "", report["run"])]
        parts += [
            (kind[:-1], str(n), part)
            for kind in ("cores", "banks", "controllers")
            for n, part in enumerate(report[kind])
        ]
        for kind, number, part in parts:
            for name, value in part.items():
                if name != "console":
                    text = told[report["report"], kind, number, name]
                    assert text == ("" if value is None else str(value))


CHANGED = (
    WORKED.replace("cycles 4000", "cycles 4400")
    .replace("delay 400", "delay 800")
    .replace("waited 50", "waited 450")
    .replace("halt exit 1", "halt break")
)


def test_diff(command, worked, tmp_path):
    (tmp_path / "changed.txt").write_text(CHANGED)
    ended = command("diff", "worked.txt", "changed.txt")
    lines = [line.split() for line in ended.stdout.splitlines()]
    assert lines[4] == "core 1 halt exit 1 break - - text".split()
    # 400 cycles more, of 7400 of both cores.
    assert "run cycles 4000 4400 +400 +10.00 % 0.0541".split() in lines
    assert "bank 0 waited 50 450 +400 +800.00 % 0.0541".split() in lines
    weights = [float(line[-1]) for line in lines[5:-1]]
    assert weights == sorted(weights, reverse=True)
    assert lines[-1][:3] == ["15", "numbers", "changed,"]
    top = command("diff", "worked.txt", "changed.txt", "--top", 2).stdout.splitlines()
    assert len(top) == 7 and top[-1].startswith("15 numbers changed; 13 lighter ones are not shown, ")
    frame = zsim_tools.diff(zsim_tools.read_report(worked), zsim_tools.read_report(tmp_path / "changed.txt"))
    # The heaviest number is the spread of the cycles: from 4000 and 3000 to 4400 and 3000.
    assert len(frame) == 15 and list(frame["name"])[:2] == ["halt", "cycles_spread"]
    assert frame["weight"].iloc[1] == pytest.approx(1400 / 3700 - 1000 / 3500)
    assert len(json.loads(command("diff", "worked.txt", "changed.txt", "--json").stdout)) == 15
    assert command("diff", "worked.txt", "changed.txt", "--csv").stdout.count("\n") == 16


def test_nothing_changed(command, worked):
    assert re.fullmatch("0 numbers changed, [0-9]+ are the same\n", command("diff", "worked.txt", "worked.txt").stdout)


def test_diff_of_machines_with_other_parts(command, worked, repository):
    ended = command("diff", "worked.txt", repository / "crates/zsim_main/stdout", "--json")
    changes = {(change["part"], change["name"]): change for change in json.loads(ended.stdout)}
    assert changes["core 1", "misses"]["b"] is None and changes["run", "cores"]["change"] == -1
    assert changes["core 1", "misses"]["weight"] == 0 and changes["core 1", "halt"]["weight"] is None


def call(words, **options):
    """Runs zsim-tools in a process of its own."""
    return subprocess.run(
        [sys.executable, "-m", "zsim_tools", *map(str, words)],
        env=environment("zsim"),
        check=False,
        stderr=subprocess.PIPE,
        text=True,
        **options,
    )


def test_an_output_that_is_full(worked):
    with open("/dev/full", "w") as full:
        ended = call(["show", worked], stdout=full)
    assert (ended.returncode, ended.stderr) == (
        2,
        "zsim-tools: cannot write: standard output: No space left on device\n",
    )


def test_a_reader_that_is_gone(worked):
    reader, writer = os.pipe()
    os.close(reader)
    with open(writer, "w") as gone:
        assert call(["show", worked], stdout=gone).stderr == ""


def test_standard_input(worked):
    with open(worked) as report:
        ended = call(["show", "-"], stdin=report, stdout=subprocess.PIPE)
    assert ended.returncode == 0 and ended.stdout.startswith("standard input\n")


def test_the_script_runs_from_anywhere(worked, repository):
    words = [repository / "tools/zsim-tools", "show", "worked.txt"]
    variables = {**os.environ, "ZSIM_PYTHON": sys.executable}
    ended = subprocess.run(words, cwd=worked.parent, env=variables, capture_output=True, text=True, check=False)
    assert (ended.returncode, ended.stdout.splitlines()[0]) == (0, "worked.txt")


def test_missing_packages_are_named(repository):
    words = [repository / "tools/find-python", "pandas", "no_such_package", "nor_this"]
    variables = {**os.environ, "ZSIM_PYTHON": sys.executable}
    ended = subprocess.run(words, env=variables, capture_output=True, text=True, check=False)
    assert (ended.returncode, ended.stdout) == (1, "")
    assert f"{sys.executable} has no no_such_package nor_this" in ended.stderr


def python_that_tells(folder, name, says):
    """Writes a program that stands in for a Python: it notes that it was started, and says what was asked."""
    program = folder / name
    program.write_text(f'#!/bin/sh\necho started >>{folder}/started\n{says}\n')
    program.chmod(0o755)


@pytest.mark.skipif(not Path(DEBIAN, "rich").is_dir(), reason="there are no packages of Debian's")
def test_no_python_is_started_to_look_for_the_packages_of_debian(repository, tmp_path):
    python_that_tells(tmp_path, "python3", "echo")
    unset = {name: "" for name in ("ZSIM_PYTHON", "VIRTUAL_ENV", "CONDA_PREFIX")}
    variables = {**os.environ, **unset, "PATH": f"{tmp_path}:{os.environ['PATH']}"}

    def found(*names, **others):
        words = [repository / "tools/find-python", *names]
        ended = subprocess.run(words, env=variables | others, capture_output=True, text=True, check=True)
        return ended.stdout

    assert found("rich", "tomlkit") == "/usr/bin/python3\n" and not (tmp_path / "started").exists()
    # A package that is not there is asked for, and so is who is in an environment of Python's, or names one.
    assert found("rich", "no_such_package") == "python3\n"
    assert found("rich", VIRTUAL_ENV=str(tmp_path)) == "python3\n"
    assert found("rich", ZSIM_PYTHON=f"{tmp_path}/python3") == f"{tmp_path}/python3\n"
    assert (tmp_path / "started").read_text() == "started\n" * 3


def test_the_package_installs_into_an_environment(repository, tmp_path):
    """As docs/tools.md has it, over the packages of the Python that runs the tests, and without a network."""
    pytest.importorskip("ensurepip", reason="there is no python3-venv")
    pytest.importorskip("setuptools")
    pytest.importorskip("wheel")
    # (a copy, since what is built stands beside the sources)
    ignored = shutil.ignore_patterns("__pycache__", "build", "*.egg-info", "tests")
    shutil.copytree(repository / "tools", tmp_path / "tools", ignore=ignored)
    text = (repository / "docs/tools.md").read_text()
    lines = re.findall(r"(?m)^    ((?:python3 -m venv|environment/bin/pip) .*)$", text)
    assert len(lines) == 2
    unset = {name: value for name, value in os.environ.items() if name not in ("PYTHONPATH", "ZSIM_PYTHON")}
    for line in [*lines, "environment/bin/zsim-tools explain zsim: elf 2", "environment/bin/zsim-tools describe plain"]:
        words = line.split()
        words[0] = sys.executable if words[0] == "python3" else words[0]
        ended = subprocess.run(words, cwd=tmp_path, env=unset, capture_output=True, text=True, timeout=200, check=False)
        assert ended.returncode == 0, ended.stderr
    assert ended.stdout.startswith("plain\n")


def loaded_by(code):
    """Returns the modules that are there after a piece of Python."""
    words = [sys.executable, "-c", f"import sys\n{code}\nprint(*sys.modules)"]
    ended = subprocess.run(words, env=environment("zsim"), stdout=subprocess.PIPE, text=True, check=True)
    return set(ended.stdout.split())


def test_the_library_loads_little_at_first():
    assert not {"pandas", "matplotlib", "distributed"} & loaded_by("import zsim_tools; zsim_tools.run")


def test_a_sweep_loads_little_before_its_first_run():
    """Nothing of what is large, nor of what only shows, reads reports or runs elsewhere."""
    loaded = loaded_by("from zsim_tools import command, progress, sweeps") - loaded_by("")
    late = {"pandas", "matplotlib", "rich", "distributed", "dataclasses", "pathlib", "subprocess", "zsim_tools.report"}
    assert "zsim_tools.runners" in loaded and not late & loaded
