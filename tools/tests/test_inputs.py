"""Inputs that are too long, or no input at all: each is refused in one line."""

import re

import pytest

from zsim_tools import inputs


@pytest.fixture
def short(monkeypatch):
    """Has the limits be small, so that no test reads a gigabyte; that of the program stays."""
    for name, bytes_at_most in (("REPORT", 2**20), ("TABLE", 2**20), ("EXECUTABLE", 2**20)):
        monkeypatch.setattr(inputs, name, bytes_at_most)


@pytest.mark.parametrize(
    "words, told",
    [
        ("show /dev/zero", "/dev/zero: too long: it has more than 1048576 bytes"),
        ("diff a.txt /dev/zero", "cannot read: a.txt: No such file or directory"),
        ("diff /dev/zero a.txt", "/dev/zero: too long: it has more than 1048576 bytes"),
        ("show a.txt --machine /dev/zero", "/dev/zero: too long: it has more than 1048576 bytes"),
        ("sweep /dev/zero --out a.csv", "/dev/zero: too long: it has more than 1048576 bytes"),
        ("plot zero.csv --x a --y b --out a.png", "zero.csv: too long: it has more than 1048576 bytes"),
        ("sweep sweep.toml --out zero.csv", "cannot write: zero.csv: it is no regular file"),
        ("show .", "cannot read: .: Is a directory"),
    ],
)
def test_what_has_no_end(command, twelve, short, words, told):
    (twelve / "zero.csv").symlink_to("/dev/zero")
    ended = command(*words.split())
    assert (ended.returncode, ended.stderr) == (2, f"zsim-tools: {told}\n")


@pytest.mark.parametrize(
    "old, new, told",
    [
        ('"a.elf"', '"/dev/zero"', "sweep.toml: executables: /dev/zero: too long: it has more than 1048576 bytes"),
        ('"a.elf"', '"a\\u0000b"', "sweep.toml: executables: cannot read: a\x00b: embedded null byte"),
        ('"machine.toml"', '"/dev/zero"', "/dev/zero: too long: it has more than 1048576 bytes"),
        (
            "l1.sets = [2, 4]",
            f"l1.sets = {list(range(1025))}\nl1.latency = {list(range(513))}",
            "sweep.toml: these are 3154950 runs, and a sweep has at most 1048576",
        ),
        ("l1.sets = [2, 4]", f"l1.sets = {'[' * 5000}", "sweep.toml: no TOML that can be read: "),
        ("l1.sets = [2, 4]", f"l1.sets = [{'9' * 5000}]", "sweep.toml: no TOML that can be read: "),
    ],
    ids=["executable", "name", "machine", "runs", "brackets", "digits"],
)
def test_a_sweep_of_what_has_no_end(command, twelve, short, old, new, told):
    text = (twelve / "sweep.toml").read_text()
    assert text.count(old) == 1
    (twelve / "sweep.toml").write_text(text.replace(old, new))
    ended = command("sweep", "sweep.toml", "--out", "table.csv")
    assert ended.returncode == 2 and ended.stderr.startswith(f"zsim-tools: {told}")
    assert ended.stderr.count("\n") == 1 and not list(twelve.glob("table*"))


def test_a_file_of_runs_without_end(command, twelve):
    (twelve / "table.csv.runs").symlink_to("/dev/zero")
    ended = command("sweep", "sweep.toml", "--out", "table.csv")
    assert (ended.returncode, ended.stderr) == (
        2,
        "zsim-tools: cannot write: table.csv.runs: it is no regular file\n",
    )


def test_a_number_of_many_digits(command, worked):
    worked.write_text(worked.read_text().replace("waited 50", f"waited {'9' * 5000}"))
    ended = command("show", "worked.txt")
    assert ended.returncode == 2 and ended.stderr.startswith("zsim-tools: worked.txt: line 12: the number 9999")
    assert ended.stderr.endswith("9... is too large\n")


@pytest.mark.parametrize(
    "error, told",
    [
        (MemoryError(), "out of memory"),
        (KeyError("a\nb"), r"a fault of these tools: command.py, line \d+: KeyError: 'a\\nb'"),
    ],
)
def test_what_nobody_thought_of_is_one_line_too(command, worked, monkeypatch, error, told):
    def fail(*_):
        raise error

    monkeypatch.setattr("zsim_tools.report.read_report", fail)
    ended = command("show", "worked.txt")
    assert (ended.returncode, ended.stdout) == (2, "")
    assert re.fullmatch(f"zsim-tools: {told}\n", ended.stderr)
