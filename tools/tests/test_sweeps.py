"""Sweeps: over a small program that stands in for zsim, and over zsim itself where it is built."""

import contextlib
import os
import re
import shutil
import signal
import subprocess
import sys
import time
from pathlib import Path

import pytest
from conftest import environment, process_of, said_to_terminal, without_times

import zsim_tools
from zsim_tools.sweeps import Watcher


def text_of(path):
    return path.read_text() if path.exists() else ""


def wait_for(condition, seconds=60):
    end = time.monotonic() + seconds
    while not condition():
        assert time.monotonic() < end, "it did not come to that in time"
        time.sleep(0.01)


def table_of(folder):
    return zsim_tools.read_table(folder / "table.csv")


def runs_of(process):
    """Returns the processes that were given files of this one."""
    given = f"/proc/{process.pid}/fd/".encode()
    found = []
    for path in Path("/proc").glob("[0-9]*/cmdline"):
        with contextlib.suppress(OSError):
            found += [path] if given in path.read_bytes() else []
    return found


def test_a_sweep_has_a_row_for_each_run(command, twelve):
    ended = command("sweep", "sweep.toml", "--out", "table.csv", "--jobs", 3)
    assert (ended.returncode, ended.stdout) == (0, "")
    assert ended.stderr == "zsim-tools: table.csv: 12 runs\n"
    table = table_of(twelve)
    assert list(table.columns[:6]) == ["l1.sets", "l1.ways", "executable", "status", "line", "halt"]
    # The executables in their order, and the last axis the fastest.
    assert list(table["executable"]) == ["a.elf"] * 6 + ["long.elf"] * 6
    assert list(zip(table["l1.sets"], table["l1.ways"]))[:6] == [(2, 1), (2, 2), (2, 4), (4, 1), (4, 2), (4, 4)]
    assert list(table["status"]) == [0] * 12 and set(table["halt"]) == {"exit 0"}
    # What stands in for zsim has 1000 accesses for each byte of the executable, and a miss for each so many lines.
    assert list(table["misses"])[:3] == [4500, 2250, 1125] and table["core0_misses"].equals(table["misses"])
    assert table["l2_mpki"].iloc[0] == pytest.approx(50)
    assert table["machine_sha256"].nunique() == 6 and table["executable_sha256"].nunique() == 2
    assert sorted(path.name for path in twelve.iterdir()) == [
        "a.elf",
        "long.elf",
        "machine.toml",
        "sweep.toml",
        "table.csv",
        "table.csv.runs",
    ]


def test_a_run_that_is_done_is_not_run_again(command, twelve):
    log = twelve / "log"
    command("sweep", "sweep.toml", "--out", "table.csv", FAKE_LOG=log)
    first = text_of(twelve / "table.csv")
    again = command("sweep", "sweep.toml", "--out", "table.csv", FAKE_LOG=log)
    assert again.stderr == "zsim-tools: table.csv: 0 runs, 12 were done before\n"
    assert text_of(log).count("\n") == 12 and text_of(twelve / "table.csv") == first
    # A further value runs what is new, and a changed executable what it takes part in.
    (twelve / "sweep.toml").write_text(text_of(twelve / "sweep.toml").replace("[1, 2, 4]", "[1, 2, 4, 8]"))
    command("sweep", "sweep.toml", "--out", "table.csv", FAKE_LOG=log)
    assert text_of(log).count("\n") == 12 + 4 and len(table_of(twelve)) == 16
    (twelve / "a.elf").write_text("another program")
    command("sweep", "sweep.toml", "--out", "table.csv", FAKE_LOG=log)
    assert text_of(log).count("\n") == 16 + 8 and len(table_of(twelve)) == 16


@pytest.mark.parametrize("by", [signal.SIGINT, signal.SIGTERM, signal.SIGHUP, signal.SIGKILL])
def test_a_sweep_that_was_stopped_goes_on(command, fake_zsim, twelve, by):
    log, hold = twelve / "log", twelve / "hold"
    hold.touch()
    words = [sys.executable, "-m", "zsim_tools", "sweep", "sweep.toml", "--out", "table.csv", "--jobs", "1"]
    variables = environment(fake_zsim, FAKE_LOG=log, FAKE_HOLD=hold)
    with process_of(words, cwd=twelve, env=variables, stderr=subprocess.PIPE, text=True) as process:
        # Five runs are done and kept, and the sixth has begun.
        wait_for(lambda: text_of(log).count("\n") == 6 and text_of(twelve / "table.csv.runs").count("\n") == 6)
        assert len(runs_of(process)) == 1
        process.send_signal(by)
        _, said = process.communicate(timeout=60)
        # Whoever can still do so ends the run that goes on.
        assert by == signal.SIGKILL or not runs_of(process)
    hold.unlink()
    if by == signal.SIGKILL:
        assert process.returncode == -signal.SIGKILL and not (twelve / "table.csv").exists()
    else:
        assert process.returncode == (130 if by == signal.SIGINT else 143)
        assert "table.csv: 5 runs; 7 are left, and the next call goes on there" in said
        assert len(table_of(twelve)) == 5
    ended = command("sweep", "sweep.toml", "--out", "table.csv", FAKE_LOG=log)
    assert (ended.returncode, ended.stderr) == (0, "zsim-tools: table.csv: 7 runs, 5 were done before\n")
    # (the sixth was begun twice)
    assert text_of(log).count("\n") == 13 and list(table_of(twelve)["status"]) == [0] * 12


def test_runs_do_not_run_ahead_of_what_is_kept(twelve, fake_zsim, monkeypatch):
    """A kill loses what ended and is not kept yet. So that may only be few."""
    text = text_of(twelve / "sweep.toml")
    (twelve / "sweep.toml").write_text(text.replace("[1, 2, 4]", str(list(range(1, 17)))).replace(', "long.elf"', ""))
    log, jobs, ahead = twelve / "log", 2, []
    monkeypatch.setenv("FAKE_LOG", str(log))

    class Slow(Watcher):
        def ended(self, ended):
            time.sleep(0.1)
            kept = text_of(twelve / "table.csv.runs").count("\n") - 1
            ahead.append(text_of(log).count("\n") - kept)

    zsim_tools.sweep(twelve / "sweep.toml", twelve / "table.csv", zsim=fake_zsim, jobs=jobs, watcher=Slow())
    assert len(ahead) == 32 and max(ahead) <= 2 * jobs


def test_a_standard_input_that_is_closed(twelve, fake_zsim):
    words = ["sh", "-c", 'exec "$@" <&-', "sh", sys.executable, "-m", "zsim_tools"]
    words += ["sweep", "sweep.toml", "--out", "table.csv"]
    ended = subprocess.run(words, cwd=twelve, env=environment(fake_zsim), check=False)
    assert ended.returncode == 0 and list(table_of(twelve)["status"]) == [0] * 12


def test_an_output_that_is_long(twelve, fake_zsim):
    """More than a pipe holds, which nobody reads while the run goes on."""
    program = twelve / "zsim"
    program.write_text("#!/bin/sh\nhead -c 1000000 /dev/zero | tr '\\0' x | tee /dev/stderr\n")
    program.chmod(0o755)
    table = zsim_tools.sweep(twelve / "sweep.toml", twelve / "table.csv", zsim=program, jobs=2)
    assert set(table["line"]) == {"x" * 1000000}


def test_a_terminal_gets_a_bar_and_the_failures_as_they_come(fake_zsim, twelve):
    (twelve / "sweep.toml").write_text(text_of(twelve / "sweep.toml").replace("[1, 2, 4]", "[0, 2, 4]"))
    words = [sys.executable, "-m", "zsim_tools", "sweep", "sweep.toml", "--out", "table.csv", "--jobs", "1"]
    variables = environment(fake_zsim, TERM="xterm", COLUMNS="120")
    status, said = said_to_terminal(words, cwd=twelve, env=variables, stdin=subprocess.DEVNULL)
    assert status == 3
    text = re.sub(r"\x1b\[[0-9;?]*[A-Za-z]", "", said.decode())
    assert "12/12 runs 0:00:" in text and "left 0:00:00" in text
    refusal = text.index("zsim-tools: a.elf l1.sets=2 l1.ways=0: status 6: zsim: machine 4 l1.ways 0")
    assert refusal < text.index("12/12")


def test_without_a_terminal_a_line_each_minute(command, twelve, monkeypatch):
    monkeypatch.setattr("zsim_tools.ticker.MINUTE", 0.2)
    program = twelve / "zsim"
    program.write_text(f'#!/bin/sh\nsleep 0.3\nexec {os.environ["ZSIM"]} "$@"\n')
    program.chmod(0o755)
    ended = command("sweep", "sweep.toml", "--out", "table.csv", "--zsim", program, "--jobs", "2")
    lines = ended.stderr.splitlines()
    assert len(lines) > 3 and lines[-1] == "zsim-tools: table.csv: 12 runs"
    told = "zsim-tools: table.csv: ([0-9]+) of 12 runs in 0:00:0[0-9](, about 0:00:[0-9]{2} left)?"
    done = [int(re.fullmatch(told, line)[1]) for line in lines[:-1]]
    assert done == sorted(done) and done[-1] > 0


def test_who_ends_a_sweep_ends_the_build_that_it_waits_for(twelve, repository):
    """In a checkout of its own, whose script stands in for the one that proves and builds zsim."""
    shutil.copytree(repository / "tools/zsim_tools", twelve / "tools/zsim_tools")
    (twelve / "crates/zsim_main").mkdir(parents=True)
    begun, over = twelve / "begun", twelve / "over"
    script = twelve / "prove"
    script.write_text(f"#!/bin/sh\ntrap 'kill $!; touch {over}; exit 143' TERM\nsleep 600 &\ntouch {begun}\nwait\n")
    script.chmod(0o755)
    variables = environment("", PYTHONPATH=twelve / "tools")
    words = [sys.executable, "-m", "zsim_tools", "sweep", "sweep.toml", "--out", "table.csv"]
    with process_of(words, cwd=twelve, env=variables, stderr=subprocess.PIPE, text=True) as process:
        wait_for(begun.exists)
        process.send_signal(signal.SIGTERM)
        _, said = process.communicate(timeout=60)
    assert (process.returncode, said) == (143, "zsim-tools: ended\n") and over.exists()


def test_what_a_kill_left_of_a_line_is_dropped(command, twelve):
    command("sweep", "sweep.toml", "--out", "table.csv")
    runs = twelve / "table.csv.runs"
    runs.write_bytes(runs.read_bytes()[:-20])
    ended = command("sweep", "sweep.toml", "--out", "table.csv")
    assert ended.stderr == "zsim-tools: table.csv: 1 run, 11 were done before\n"
    assert command("sweep", "sweep.toml", "--out", "table.csv").stderr.endswith("0 runs, 12 were done before\n")


def test_refusals_are_rows_and_stop_nothing(command, twelve):
    (twelve / "sweep.toml").write_text(text_of(twelve / "sweep.toml").replace("[1, 2, 4]", "[1, 0, 4]"))
    (twelve / "long.elf").write_text("endless")
    ended = command("sweep", "sweep.toml", "--out", "table.csv")
    assert ended.returncode == 3
    told = ended.stderr.splitlines()
    assert "zsim-tools: a.elf l1.sets=2 l1.ways=0: status 6: zsim: machine 4 l1.ways 0" in told
    assert "zsim-tools: long.elf l1.sets=4 l1.ways=4: status 3: zsim: stopped at the limit" in told
    assert told[-1] == "zsim-tools: table.csv: 12 runs; 8 did not end by their program's exit"
    table = table_of(twelve)
    refused = table[table["l1.ways"] == 0]
    assert len(table) == 12 and len(refused) == 4
    assert set(refused["status"]) == {6} and set(refused["line"]) == {"zsim: machine 4 l1.ways 0"}
    assert refused["cycles"].isna().all()
    # A run that reached a limit has a report.
    limited = table[table["status"] == 3]
    assert len(limited) == 4 and limited["cycles"].notna().all()
    # The same inputs are refused again, so they are not tried again.
    again = command("sweep", "sweep.toml", "--out", "table.csv")
    assert again.returncode == 3 and "0 runs, 12 were done before; 8 did not end" in again.stderr


def test_what_failed_for_another_cause_is_tried_again(command, twelve):
    (twelve / "a.elf").write_text("gone")
    (twelve / "long.elf").write_text("nonsense")
    ended = command("sweep", "sweep.toml", "--out", "table.csv")
    assert ended.returncode == 3 and "a.elf l1.sets=2 l1.ways=1: status 4: zsim: cannot read" in ended.stderr
    table = table_of(twelve)
    assert list(table["status"]) == [4] * 6 + [0] * 6
    assert set(table["line"][6:]) == {
        'its output: line 1: no report: it begins with "Segmentation fault", not with "zsim report 1, 2 or 3"'
    }
    assert "table.csv: 12 runs;" in command("sweep", "sweep.toml", "--out", "table.csv").stderr


def test_a_fault_of_the_program_is_told(command, twelve):
    (twelve / "a.elf").write_text("break")
    ended = command("sweep", "sweep.toml", "--out", "table.csv")
    assert ended.returncode == 3 and "a.elf l1.sets=2 l1.ways=1: core 0 halted: break" in ended.stderr
    assert list(table_of(twelve)["halt"]) == ["break"] * 6 + ["exit 0"] * 6


def test_keys_that_are_tied_vary_together(command, twelve):
    (twelve / "sweep.toml").write_text(
        """\
machine = "plain"
executables = ["gen:5"]
axes.controllers.occupancy = [1, 8]
[[tied]]
l2.banks = [1, 2]
domains.banks = [[0], [0, 0]]
"""
    )
    assert command("sweep", "sweep.toml", "--out", "table.csv").returncode == 0
    table = table_of(twelve)
    assert list(zip(table["controllers.occupancy"], table["l2.banks"], table["domains.banks"])) == [
        (1, 1, "[0]"),
        (1, 2, "[0, 0]"),
        (8, 1, "[0]"),
        (8, 2, "[0, 0]"),
    ]
    assert table["bank1_events"].isna().tolist() == [True, False, True, False]


def test_domains_follow_a_rule(twelve):
    (twelve / "sweep.toml").write_text(
        """\
machine = "plain"
executables = ["gen:5"]
domains = "even"
axes.l2.banks = [1, 4]
axes.controllers.count = [1, 3]
axes.domains.count = [2, 4]
"""
    )
    from zsim_tools.sweep_file import read_sweep

    planned = read_sweep(twelve / "sweep.toml").planned()
    found = [(run.machine.values["domains.banks"], run.machine.values["domains.controllers"]) for run in planned]
    assert found[0] == ([0], [0]) and found[2] == ([0], [0, 1, 0]) and found[3] == ([0], [0, 1, 2])
    assert found[4] == ([0, 1, 0, 1], [0]) and found[7] == ([0, 1, 2, 3], [0, 1, 2])
    # Columns are for what varies by itself.
    assert set(planned[0].values) == {"l2.banks", "controllers.count", "domains.count"}


def test_runs_of_several_workers_are_repeated(command, twelve):
    log = twelve / "log"
    (twelve / "sweep.toml").write_text("workers = 2\nrepeat = 5\n" + text_of(twelve / "sweep.toml"))
    assert command("sweep", "sweep.toml", "--out", "table.csv", FAKE_LOG=log).returncode == 0
    table = table_of(twelve)
    assert len(table) == 60 and list(table["repeat"])[:6] == [0, 1, 2, 3, 4, 0]
    assert list(table.columns[:5]) == ["l1.sets", "l1.ways", "executable", "repeat", "status"]
    assert table["cycles"].nunique() > 12 and text_of(log).count("\n") == 60
    again = command("sweep", "sweep.toml", "--out", "table.csv", FAKE_LOG=log)
    assert again.stderr == "zsim-tools: table.csv: 0 runs, 60 were done before\n"
    # One worker has runs of its own, and another number of them too.
    (twelve / "sweep.toml").write_text(text_of(twelve / "sweep.toml").replace("repeat = 5\n", ""))
    command("sweep", "sweep.toml", "--out", "table.csv", "--workers", 1, FAKE_LOG=log)
    assert text_of(log).count("\n") == 72 and "repeat" not in table_of(twelve)
    command("sweep", "sweep.toml", "--out", "table.csv", "--workers", 3, FAKE_LOG=log)
    assert text_of(log).count("\n") == 84


def test_schedules_are_recorded(command, twelve):
    log = twelve / "log"
    (twelve / "long.elf").write_text("gone")
    words = ("sweep", "sweep.toml", "--out", "table.csv", "--record", "schedules")
    assert command(*words, FAKE_LOG=log).returncode == 3
    names = list(table_of(twelve)["schedule"])
    assert names[6:] == [""] * 6 and len(set(names[:6])) == 6
    assert {text_of(twelve / name) for name in names[:6]} == {"schedule of 9 bytes"}
    # A run whose schedule is not there any more is made again, with those that are never done.
    (twelve / names[2]).unlink()
    command(*words, FAKE_LOG=log)
    assert text_of(log).count("\n") == 12 + 1 + 6 and (twelve / names[2]).is_file()


def test_the_time_and_the_sizes_are_in_the_table(command, twelve):
    command("sweep", "sweep.toml", "--out", "table.csv")
    table = table_of(twelve)
    assert list(table["l1_kib"])[:6] == [0.125, 0.25, 0.5, 0.25, 0.5, 1.0] and set(table["l2_kib"]) == {0.5}
    assert (table["seconds"] > 0).all() and (table["seconds"] < 60).all()
    speed = table["instructions"] / table["seconds"]
    assert list(table["instructions_per_second"]) == pytest.approx(list(speed))
    first = text_of(twelve / "table.csv")
    command("sweep", "sweep.toml", "--out", "table.csv")
    assert text_of(twelve / "table.csv") == first
    # What an older version kept has no time.
    runs = twelve / "table.csv.runs"
    runs.write_text(re.sub(r', "seconds": [0-9.e-]+', "", text_of(runs)))
    command("sweep", "sweep.toml", "--out", "table.csv")
    assert "seconds" not in table_of(twelve)


def test_runs_from_python_are_recorded_and_replayed(twelve, fake_zsim):
    schedule = twelve / "a.schedule"
    report = zsim_tools.run("plain", twelve / "a.elf", zsim=fake_zsim, workers=2, record=schedule)
    assert text_of(schedule) == "schedule of 9 bytes" and report.derived["seconds"] > 0
    report = zsim_tools.run("plain", twelve / "a.elf", zsim=fake_zsim, replay=schedule)
    assert report.summary["instructions"] == 90000
    with pytest.raises(zsim_tools.ToolError, match="a replay has its order from a file"):
        zsim_tools.run("plain", twelve / "a.elf", zsim=fake_zsim, replay=schedule, workers=2)


def test_the_machine_keeps_its_comments():
    text = "# top\nversion = 1 # one\n[l1]\nways =  8  # lines\nsets = 0x40\n[d]\nbanks = [0, # zero\n 1]\n"
    machine = zsim_tools.Machine("m", text, {"version": 1, "l1.ways": 8, "l1.sets": 64, "d.banks": [0, 1]})
    changed = machine.changed({"l1.ways": 4, "d.banks": [1]})
    assert changed.text == text.replace("8  #", "4  #").replace("[0, # zero\n 1]", "[1]")
    assert (changed.number("l1.ways"), changed.values["d.banks"], machine.text) == (4, [1], text)
    # The one that it was made of stays as it was.
    assert machine.changed({"version": 2}).text == text.replace("version = 1", "version = 2")
    assert changed.changed({"l1.sets": 2}).text == changed.text.replace("0x40", "2")


BAD_SWEEPS = [
    ("l1.ways = [1, 2, 4]", "l1.waays = [1]", "sweep.toml: axes: l1.waays is no key of machine.toml"),
    ("l1.ways = [1, 2, 4]", "ways = [1]", "sweep.toml: axes: ways is no key of machine.toml"),
    (
        "l1.sets = [2, 4]\nl1.ways = [1, 2, 4]",
        "l1 = [1]",
        "sweep.toml: axes: l1 is a table, and not a key with a value, of machine.toml",
    ),
    (
        "[1, 2, 4]",
        '[1, "two"]',
        "sweep.toml: axes: l1.ways has the string 'two', and in machine.toml it is of kind integer",
    ),
    ("[1, 2, 4]", "[1, 2.0]", "sweep.toml: axes: l1.ways has the float 2.0, and in machine.toml it is of kind integer"),
    (
        "[1, 2, 4]",
        "[true]",
        "sweep.toml: axes: l1.ways has the boolean True, and in machine.toml it is of kind integer",
    ),
    (
        "[1, 2, 4]",
        "[[1]]",
        "sweep.toml: axes: l1.ways has the array of integers [1], and in machine.toml it is of kind integer",
    ),
    ("[1, 2, 4]", "1", "sweep.toml: axes.l1.ways: has to be a list of values, with at least one"),
    ("[1, 2, 4]", "[]", "sweep.toml: axes.l1.ways: has to be a list of values, with at least one"),
    ("[1, 2, 4]", "[1, 2, 1]", "sweep.toml: axes: l1.ways: 1 stands twice"),
    ("[1, 2, 4]", "[1, 2,", "sweep.toml: line 6: no TOML: "),
    ("[axes]", "[axis]", "sweep.toml: axis: no key of a sweep; those are machine, executables, axes, tied, domains, workers, repeat"),
    ("[axes]", "[[axes]]", "sweep.toml: axes: is of kind array of tables, and has to be of kind table"),
    ('"machine.toml"', "3", "sweep.toml: machine: is of kind integer, and has to be of kind string"),
    ('"machine.toml"', '"nothing.toml"', "sweep.toml: machine: cannot read: nothing.toml: No such file or directory"),
    ('machine = "machine.toml"\n', "", "sweep.toml: machine: is missing"),
    ('["a.elf", "long.elf"]', "[]", "sweep.toml: executables: is missing"),
    ('"long.elf"', '"a.elf"', "sweep.toml: executables: one stands twice"),
    ('"long.elf"', '"gen:x"', "sweep.toml: executables: gen:x: behind gen: stands a number"),
    ('"long.elf"', '"gone.elf"', "sweep.toml: executables: cannot read: gone.elf: No such file or directory"),
    (
        "[axes]",
        "[[tied]]",
        "sweep.toml: tied[0]: keys that are tied have as many values each: l1.sets has 2 and l1.ways has 3",
    ),
    ("[axes]", "[[tied]]\nl1.sets = [1]\n[axes]", "sweep.toml: l1.sets: stands in two axes"),
    ("[axes]", "workers = 0\n[axes]", "sweep.toml: workers: 0 is not from 1 to 64"),
    ("[axes]", "workers = 65\n[axes]", "sweep.toml: workers: 65 is not from 1 to 64"),
    ("[axes]", "workers = 2\nrepeat = 0\n[axes]", "sweep.toml: repeat: 0 is less than 1"),
    ("[axes]", "repeat = 3\n[axes]", "sweep.toml: repeat: with one worker all 3 runs are the same"),
    ("[axes]", "repeat = true\n[axes]", "sweep.toml: repeat: is of kind boolean"),
    ("[axes]", 'domains = "odd"\n[axes]', "sweep.toml: domains: there is no rule 'odd', only \"even\""),
    (
        "[axes]",
        'domains = "even"\n[axes]\ndomains.banks = [[0]]',
        "sweep.toml: domains.banks: stands in an axis, and follows the rule of domains",
    ),
]


@pytest.mark.parametrize("old, new, told", BAD_SWEEPS, ids=[told.partition(": ")[2] for _, _, told in BAD_SWEEPS])
def test_a_bad_sweep_is_refused_before_anything_runs(command, twelve, old, new, told):
    text = text_of(twelve / "sweep.toml")
    assert text.count(old) == 1
    (twelve / "sweep.toml").write_text(text.replace(old, new))
    ended = command("sweep", "sweep.toml", "--out", "table.csv", FAKE_LOG=twelve / "log")
    assert ended.returncode == 2 and ended.stderr.startswith(f"zsim-tools: {told}")
    assert ended.stderr.count("\n") == 1
    assert not list(twelve.glob("table*")) and not (twelve / "log").exists()


def test_a_bad_machine_is_named_with_its_line(command, twelve):
    (twelve / "machine.toml").write_text("version = 1\ncores = \n")
    ended = command("sweep", "sweep.toml", "--out", "table.csv")
    assert ended.returncode == 2 and ended.stderr.startswith("zsim-tools: machine.toml: line 2: no TOML: ")


@pytest.mark.parametrize(
    "out, told",
    [
        ("table.txt", "cannot write: table.txt: the name of a table ends with .csv or .parquet"),
        ("nowhere/table.csv", "cannot write: nowhere/table.csv: nowhere is no folder"),
        ("folder.csv", "cannot write: folder.csv: it is no regular file"),
        ("other.csv", "other.csv.runs: line 1: this is no file of a sweep's runs"),
        ("torn.csv", "torn.csv.runs: line 2: this is no run of a sweep"),
    ],
)
def test_an_output_that_cannot_be_written(command, twelve, out, told):
    (twelve / "folder.csv").mkdir()
    (twelve / "other.csv.runs").write_text("my own file\n")
    (twelve / "torn.csv.runs").write_text('{"zsim-tools runs": 1}\n{"key": 1}\n')
    ended = command("sweep", "sweep.toml", "--out", out, FAKE_LOG=twelve / "log")
    assert (ended.returncode, ended.stderr) == (2, f"zsim-tools: {told}\n")
    assert not (twelve / "log").exists() and text_of(twelve / "other.csv.runs") == "my own file\n"


def test_parquet_needs_its_library(command, twelve):
    try:
        import pyarrow  # noqa: F401
    except ImportError:
        ended = command("sweep", "sweep.toml", "--out", "table.parquet")
        assert ended.returncode == 2
        assert ended.stderr == (
            "zsim-tools: table.parquet: Parquet needs the Python package pyarrow; tables can also be .csv\n"
        )
    else:
        assert command("sweep", "sweep.toml", "--out", "table.parquet").returncode == 0
        command("sweep", "sweep.toml", "--out", "table.csv")
        parquet = zsim_tools.read_table(twelve / "table.parquet")
        assert without_times(parquet).equals(without_times(table_of(twelve)))


def test_a_name_of_parquet_goes_to_its_library(command, twelve, monkeypatch):
    """Without the library: pandas' own form stands in for what it would write and read."""
    import pandas

    monkeypatch.setattr("importlib.util.find_spec", lambda name: name)
    monkeypatch.setattr("pandas.DataFrame.to_parquet", lambda table, file, engine, index: table.to_pickle(file))
    monkeypatch.setattr("pandas.read_parquet", lambda file, engine: pandas.read_pickle(file))
    assert command("sweep", "sweep.toml", "--out", "table.parquet").returncode == 0
    command("sweep", "sweep.toml", "--out", "table.csv")
    parquet = zsim_tools.read_table(twelve / "table.parquet")
    pandas.testing.assert_frame_equal(without_times(parquet), without_times(table_of(twelve)))


@pytest.mark.parametrize(
    "zsim, told",
    [
        ("./nothing", "cannot run: ./nothing: No such file or directory"),
        ("./sweep.toml", "cannot run: ./sweep.toml: it is no program that can be executed"),
        ("./text", "cannot run: .*/text: Exec format error"),
    ],
)
def test_a_missing_program(command, twelve, zsim, told):
    (twelve / "text").write_text("no program")
    (twelve / "text").chmod(0o755)
    ended = command("sweep", "sweep.toml", "--out", "table.csv", "--zsim", zsim)
    assert ended.returncode == 2 and re.fullmatch(f"zsim-tools: {told}", ended.stderr.splitlines()[-1])
    assert not (twelve / "table.csv").exists()


def test_a_program_that_changes_ends_the_sweep(command, twelve, fake_zsim):
    program = twelve / "zsim"
    # Exchanged, not written: a file that is open for writing cannot be run.
    exchange = '{ cat "$0"; echo "# changed"; } >"$0.$$" && chmod +x "$0.$$" && mv "$0.$$" "$0"'
    program.write_text(f'#!/bin/sh\n{exchange}\nexec {fake_zsim} "$@"\n')
    program.chmod(0o755)
    ended = command("sweep", "sweep.toml", "--out", "table.csv", "--zsim", program)
    assert ended.returncode == 2 and "it was changed during the sweep" in ended.stderr


def test_one_sweep_at_a_time_has_a_table(command, twelve, fake_zsim):
    from zsim_tools.store import Store

    store = Store(twelve / "table.csv.runs")
    ended = command("sweep", "sweep.toml", "--out", "table.csv")
    store.close()
    assert (ended.returncode, ended.stderr) == (
        2,
        "zsim-tools: cannot write: table.csv.runs: another sweep is at work on it\n",
    )


def test_from_python(twelve, fake_zsim):
    report = zsim_tools.run(twelve / "machine.toml", twelve / "a.elf", zsim=fake_zsim)
    assert (report.status, list(report.cores["misses"]), len(report.banks)) == (0, [4500], 1)
    assert report.derived["controller_busy"] > 0
    machine = zsim_tools.read_machine("plain").changed({"l1.ways": 0})
    with pytest.raises(zsim_tools.RunError) as refusal:
        zsim_tools.run(machine, "gen:5", zsim=fake_zsim)
    assert (refusal.value.status, refusal.value.line) == (6, "zsim: machine 4 l1.ways 0")
    table = zsim_tools.sweep(twelve / "sweep.toml", twelve / "table.csv", zsim=fake_zsim, jobs=2)
    read = table_of(twelve)
    assert list(read.columns) == list(table.columns) and read["misses"].equals(table["misses"])
    assert list(read["cpi"]) == list(table["cpi"])
    # The data frame is written as the sweep wrote its rows.
    zsim_tools.write_table(table, twelve / "frame.csv")
    assert text_of(twelve / "frame.csv") == text_of(twelve / "table.csv")


def test_zsim_itself(built_zsim, twelve, repository):
    """Runs that end, a machine that is refused, an executable that is refused, and a limit, with the real program."""
    (twelve / "sweep.toml").write_text(
        f"""\
machine = "machine.toml"
executables = ["{repository}/examples/load.elf", "gen:5", "a.elf"]
[axes]
l1.ways = [1, 2, 0]
intervals = [1, 100000]
"""
    )
    (twelve / "a.elf").write_bytes((repository / "examples/load.elf").read_bytes()[:100])
    table = zsim_tools.sweep(twelve / "sweep.toml", twelve / "table.csv", zsim=built_zsim)
    assert os.path.exists(twelve / "table.csv") and len(table) == 18
    assert set(table[table["l1.ways"] == 0]["line"]) == {"zsim: machine 4 l1.ways 0"}
    ran = table[table["l1.ways"] > 0]
    load = ran[ran["executable"].str.endswith("load.elf")]
    assert set(load["cycles"]) == {119} and set(load["halt"]) == {"exit 9"}
    generated = ran[ran["executable"] == "gen:5"]
    assert list(generated["status"]) == [3, 0, 3, 0] or list(generated["status"]) == [0, 0, 0, 0]
    assert set(ran[ran["executable"] == "a.elf"]["status"]) == {7}
    report = zsim_tools.run("plain", repository / "examples/load.elf", zsim=built_zsim)
    assert report.summary["cycles"] == 119 and report.machine.number("l1.ways") == 1
