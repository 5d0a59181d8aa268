"""One run at a terminal: the time that passes, the consoles as text, the tables, and what went wrong in words."""

import os
import re
import subprocess
import sys

import pytest
from conftest import environment, said_to_terminal

from zsim_tools.report import parse_report
from zsim_tools.run_once import show_consoles


@pytest.fixture
def slow(twelve):
    """What stands in for zsim, half a second late."""
    program = twelve / "zsim"
    program.write_text(f'#!/bin/sh\nsleep 0.5\nexec {os.environ["ZSIM"]} "$@"\n')
    program.chmod(0o755)
    return program


def test_a_run_shows_the_console_and_the_tables(command, twelve):
    (twelve / "a.elf").write_text("hello")
    ended = command("run", "machine.toml", "a.elf", "--out", "a.txt")
    assert (ended.returncode, ended.stderr) == (0, "")
    assert ended.stdout.startswith("console of core 0:\n    hello\n\nthe report of a.elf\n")
    lines = [line.split() for line in ended.stdout.splitlines()]
    assert ["l1_kib", "0.125"] in lines and any(line[:1] == ["instructions_per_second"] for line in lines)
    assert command("show", "a.txt").stdout.splitlines()[0] == "a.txt"


@pytest.mark.parametrize("form, begin", [("--json", "["), ("--csv", "report,part,number,name,value\n")])
def test_other_forms(command, twelve, form, begin):
    assert command("run", "plain", "gen:5", form).stdout.startswith(begin)


def test_schedules(command, twelve):
    assert command("run", "plain", "a.elf", "--workers", 2, "--record", "a.schedule").returncode == 0
    assert (twelve / "a.schedule").read_text() == "schedule of 9 bytes"
    assert command("run", "plain", "a.elf", "--schedule", "a.schedule").returncode == 0
    ended = command("run", "plain", "a.elf", "--schedule", "a.schedule", "--workers", 2)
    assert ended.returncode == 2 and ended.stderr.startswith("zsim-tools: a replay has its order from a file")


@pytest.mark.parametrize(
    "words, name",
    [
        ("--record a.elf", "a.elf"),
        ("--record ./machine.toml", "machine.toml"),
        ("--record link", "a.elf"),
        ("--out a.elf", "a.elf"),
        ("--record a.schedule --out a.schedule", "a.schedule"),
        ("--schedule a.schedule --out a.schedule", "a.schedule"),
    ],
)
def test_an_output_is_no_input(command, twelve, words, name):
    (twelve / "link").hardlink_to(twelve / "a.elf")
    (twelve / "a.schedule").write_text("before")
    before = {path: path.read_bytes() for path in twelve.iterdir() if path.is_file()}
    ended = command("run", "machine.toml", "a.elf", *words.split())
    assert ended.returncode == 2
    told = f"cannot write: {words.split()[-1]}: it is {name}, which the run reads or writes too"
    assert ended.stderr == f"zsim-tools: {told}\n"
    assert {path: path.read_bytes() for path in twelve.iterdir() if path.is_file()} == before


@pytest.mark.parametrize(
    "program, told",
    [
        ("break", ["core 0 halted: break", "A breakpoint: "]),
        ("endless", ["zsim: stopped at the limit", "The run reached a limit"]),
        ("gone", ["status 4: zsim: cannot read", "The machine, the executable or the schedule cannot be read"]),
    ],
)
def test_what_went_wrong_is_explained(command, twelve, program, told):
    (twelve / "a.elf").write_text(program)
    ended = command("run", "machine.toml", "a.elf")
    assert ended.returncode == 3
    assert [line[: len(words) + 12] for line, words in zip(ended.stderr.splitlines(), told)] == [
        f"zsim-tools: {words}" for words in told
    ]


def test_a_machine_that_is_refused_is_explained(command, twelve):
    text = (twelve / "machine.toml").read_text()
    (twelve / "machine.toml").write_text(text.replace("ways = 1", "ways = 0"))
    ended = command("run", "machine.toml", "a.elf")
    assert (ended.returncode, ended.stdout) == (3, "")
    assert "zsim: machine 4 l1.ways 0\n" in ended.stderr and "line 13 of the description" in ended.stderr


def test_an_output_that_cannot_be_written_is_refused_before(command, twelve):
    ended = command("run", "plain", "a.elf", "--out", "no/a.txt", FAKE_LOG=twelve / "log")
    assert (ended.returncode, ended.stderr) == (2, "zsim-tools: cannot write: no/a.txt: no is no folder\n")
    assert not (twelve / "log").exists()


def test_the_time_without_a_terminal(command, slow, monkeypatch):
    monkeypatch.setattr("zsim_tools.ticker.MINUTE", 0.1)
    ended = command("run", "plain", "a.elf", "--zsim", slow)
    assert ended.returncode == 0
    lines = ended.stderr.splitlines()
    assert len(lines) >= 3 and all(re.fullmatch("zsim-tools: zsim has run for 0:00:0[0-9]", line) for line in lines)


def test_the_time_at_a_terminal(command, slow, twelve):
    slow.write_text(slow.read_text().replace("0.5", "2.5"))
    words = [sys.executable, "-m", "zsim_tools", "run", "plain", "a.elf"]
    variables = environment(str(slow), TERM="xterm")
    status, said = said_to_terminal(words, cwd=twelve, env=variables, stdout=subprocess.DEVNULL)
    assert status == 0 and b"zsim has run for 0:00:0" in said and said.endswith(b"\r\x1b[K")


def test_control_characters_do_not_reach_the_terminal(capsys, worked):
    text = worked.read_text().replace('3 "a\\x0a\\x22"', '9 "a\\x1b[2J\\x0a\\xc3\\xa4\\x00"')
    show_consoles(parse_report(text))
    assert capsys.readouterr().out == "console of core 0:\n    a\\x1b[2J\n    ä\\x00\n\n"
