"""Machines whose controllers keep rows open: their descriptions, and the events of their runs."""

import json

import pytest
from events_files import FILL, LOOKUP, READ, ROWREAD, Told, file_of
from test_explain import MESH, PIPE, VERSION_3

from zsim_tools.checks import refusal_of
from zsim_tools.describe import accesses_of, description_of, general_of
from zsim_tools.machine import parse_machine
from zsim_tools.meanings import explain

DRAM = "\n[dram]\nbanks = 2\nrow_lines = 4\nhit = 90\nclosed = 120\nconflict = 150\n"
ROWS = VERSION_3 + DRAM


@pytest.mark.parametrize(
    "text, line",
    [
        (ROWS, None),
        (VERSION_3 + PIPE + DRAM + MESH, None),
        (VERSION_3.replace("version = 3", "version = 1") + DRAM, "5 dram"),
        (ROWS.replace("row_lines = 4\n", ""), "2 dram.row_lines"),
        (ROWS.replace("row_lines = 4\n", "row_lines = 4097\n"), "4 dram.row_lines 4097"),
        (ROWS.replace("closed = 120", "closed = 89"), "4 dram.closed 89"),
        (ROWS.replace("closed = 120", "closed = 90").replace("conflict = 150", "conflict = 90"), None),
        (ROWS.replace("conflict = 150", "conflict = 119"), "4 dram.conflict 119"),
        (ROWS.replace("hit = 90", "hit = 0"), "4 dram.hit 0"),
        # (the tables are checked in their order, and not in that of the text)
        (VERSION_3 + DRAM.replace("hit = 90\n", "") + MESH.replace("hop = 3\n", ""), "2 mesh.hop"),
        (VERSION_3 + PIPE.replace("mul = 3\n", "") + DRAM.replace("hit = 90\n", ""), "2 dram.hit"),
    ],
)
def test_descriptions(text, line):
    refusal = refusal_of(text)
    assert (refusal and refusal.line) == (line and f"zsim: machine {line}")


def test_refusals_are_explained():
    assert "Open rows are of version 3" in explain("zsim: machine 5 dram")
    told = explain("zsim: machine 4 dram.closed 89", ROWS.replace("closed = 120", "closed = 89"))
    assert "is 89, and has to be at least `dram.hit`, which is 90." in told
    assert "from 1 to 16 (or take the table `dram` out)" in explain("zsim: machine 2 dram.banks")


def test_the_numbers_of_a_machine_with_rows():
    """A miss takes 1 + 10 + 90 + 2 cycles where the row is open."""
    machine = parse_machine(ROWS, "rows")
    assert [access.cycles for access in accesses_of(machine.values)][-2:] == [103, 103]
    assert ["a read in the open row takes", "90 cycles, and a row has 256 bytes"] in general_of(machine.values)
    assert description_of(machine)["rows"]["conflict"] == 150
    assert description_of(parse_machine(VERSION_3, "none"))["rows"] is None


def test_events(command, tmp_path):
    """The row was closed: 30 of the 120 cycles that the read takes are more than in an open row."""
    (tmp_path / "rows.toml").write_text(ROWS)
    miss = [
        Told(0, LOOKUP, 2, 12),
        Told(1, ROWREAD, 12, 132, first=(0, 0), bank=1, row=5),
        Told(0, FILL, 132, 134, earliest=102, first=(1, 0), last=True),
    ]
    (tmp_path / "rows.events").write_bytes(file_of(2, [miss]))
    assert command("timeline", "rows.events", "--machine", "rows.toml", "--out", "rows.json").returncode == 0
    entries = json.loads((tmp_path / "rows.json").read_text())["traceEvents"]
    (told,) = [entry["args"] for entry in entries if entry["name"] == "rowread"]
    assert (told["waiting"], told["service"], told["bank"], told["row"]) == (30, 90, 1, 5)
    printed = command("series", "rows.events", "--machine", "rows.toml", "--csv").stdout.splitlines()
    row = dict(zip(printed[0].split(","), printed[1].split(",")))
    assert (row["rowread_events"], row["controller0_waited"], row["misses"]) == ("1", "30", "1")
    for event, line in (
        (Told(1, ROWREAD, 12, 132, bank=2), "controller 0 has no bank 2 of memory"),
        (Told(1, READ, 12, 132), "controller 0 serves no read"),
        (Told(0, LOOKUP, 2, 12, row=1), "a field that has no meaning for it is not 0"),
    ):
        (tmp_path / "bad.events").write_bytes(file_of(2, [[event]]))
        ended = command("timeline", "bad.events", "--machine", "rows.toml", "--out", "bad.json")
        assert ended.stderr == f"zsim-tools: bad.events: byte 20: event 0 of interval 0: {line}\n"
