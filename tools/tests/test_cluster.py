"""A sweep on a dask cluster of two workers on this machine."""

import os
import re

import pytest
from conftest import without_times

import zsim_tools

distributed = pytest.importorskip("distributed")


@pytest.fixture(scope="module")
def cluster():
    with distributed.LocalCluster(
        n_workers=2, threads_per_worker=1, processes=True, dashboard_address=None, silence_logs=50
    ) as local:
        yield local


def test_the_workers_give_the_same_table(cluster, command, twelve, fake_zsim):
    ended = command("sweep", "sweep.toml", "--out", "cluster.csv", "--scheduler", cluster.scheduler_address)
    assert (ended.returncode, ended.stderr) == (0, "zsim-tools: cluster.csv: 12 runs\n")
    command("sweep", "sweep.toml", "--out", "table.csv")
    cluster, here = (zsim_tools.read_table(twelve / name) for name in ("cluster.csv", "table.csv"))
    assert (cluster["seconds"] > 0).all() and without_times(cluster).equals(without_times(here))


def test_both_workers_have_a_part(cluster, command, twelve):
    log = twelve / "log"
    # What stands in for zsim notes its runs where the program says, since the workers have no variables of the test.
    program = twelve / "zsim"
    program.write_text(f'#!/bin/sh\necho "$PPID" >>{log}\nsleep 0.2\nexec {os.environ["ZSIM"]} "$@"\n')
    program.chmod(0o755)
    ended = command(
        "sweep", "sweep.toml", "--out", "table.csv", "--scheduler", cluster.scheduler_address, "--zsim", program
    )
    assert ended.returncode == 0
    parents = log.read_text().split()
    assert len(parents) == 12 and len(set(parents)) == 2
    # What was run there is done: nothing is left to be run here.
    again = command("sweep", "sweep.toml", "--out", "table.csv", "--zsim", program)
    assert again.stderr == "zsim-tools: table.csv: 0 runs, 12 were done before\n"


def test_schedules_come_from_workers(cluster, command, twelve):
    (twelve / "sweep.toml").write_text("workers = 2\nrepeat = 2\n" + (twelve / "sweep.toml").read_text())
    words = ("sweep", "sweep.toml", "--out", "table.csv", "--record", "schedules")
    ended = command(*words, "--scheduler", cluster.scheduler_address)
    assert ended.returncode == 0
    table = zsim_tools.read_table(twelve / "table.csv")
    assert len(table) == 24 and {(twelve / name).read_text() for name in table["schedule"]} == {
        "schedule of 9 bytes",
        "schedule of 24 bytes",
    }


def test_refusals_come_from_workers_too(cluster, command, twelve):
    text = (twelve / "sweep.toml").read_text()
    (twelve / "sweep.toml").write_text(text.replace("[1, 2, 4]", "[1, 0]").replace("long.elf", "gen:7"))
    ended = command("sweep", "sweep.toml", "--out", "table.csv", "--scheduler", cluster.scheduler_address)
    assert ended.returncode == 3
    assert "zsim-tools: gen:7 l1.sets=4 l1.ways=0: status 6: zsim: machine 4 l1.ways 0\n" in ended.stderr
    assert list(zsim_tools.read_table(twelve / "table.csv")["status"]) == [0, 6, 0, 6, 0, 6, 0, 6]


def test_a_program_that_workers_cannot_run(cluster, command, twelve):
    (twelve / "text").write_text("no program")
    (twelve / "text").chmod(0o755)
    words = ("sweep", "sweep.toml", "--out", "table.csv", "--scheduler", cluster.scheduler_address)
    ended = command(*words, "--zsim", "./text")
    assert ended.returncode == 2 and "zsim-tools: --scheduler: a worker failed: " in ended.stderr
    assert "Exec format error" in ended.stderr and not (twelve / "table.csv").exists()


def test_a_cluster_without_workers(command, twelve, monkeypatch):
    monkeypatch.setattr("zsim_tools.runners.WAIT_FOR_WORKERS", "0.2s")
    with distributed.LocalCluster(n_workers=0, dashboard_address=":0", silence_logs=50) as empty:
        ended = command("sweep", "sweep.toml", "--out", "table.csv", "--scheduler", empty.scheduler_address)
    assert ended.returncode == 2 and not (twelve / "table.csv").exists()
    told = "has no workers; dask-worker tcp://[0-9.:]+ starts one, on any machine\n"
    assert re.fullmatch(f"zsim-tools: --scheduler: tcp://[0-9.:]+ {told}", ended.stderr)


def test_no_scheduler_at_the_address(command, twelve):
    ended = command("sweep", "sweep.toml", "--out", "table.csv", "--scheduler", "tcp://127.0.0.1:9")
    assert ended.returncode == 2
    assert ended.stderr.splitlines()[-1].startswith("zsim-tools: --scheduler: cannot reach tcp://127.0.0.1:9: ")
    assert not (twelve / "table.csv").exists()
