"""Lines that cores share: whether falsely or truly, which bytes each used, and which data these are."""

import pytest

from zsim_tools.errors import ToolError
from zsim_tools.sharing import Row, is_shared, ranges, read_lines, uses_of, verdict_of
from zsim_tools.symbols import Section, Symbol, Symbols

COLUMNS = (
    "line,core,loads,stores,atomics,fetches,hits,upgrades,l2hits,misses,cold,coherence,inclusion,eviction,invalidating,"
    "invalidated,downgrading,lost,lowered,cycles,missing,waited,cost,read,written"
)


def row(line, core, cost, read, written, loads=0, stores=0, invalidated=0, lost=0):
    found = [loads, stores, 0, 0, loads + stores, 0, 0, 0, 0, 0, 0, 0]
    numbers = [core, *found, 0, invalidated, 0, lost, 0, cost, cost, 0, cost]
    return f"0x{line:x},{','.join(map(str, numbers))},0x{read:016x},0x{written:016x}"


# Two cores that count in neighbouring numbers; a number in which both count; a line that both read; and one of a core.
LINES = [
    row(0x11040, 0, 700, 0xFF, 0xFF, loads=10, stores=10, invalidated=3, lost=4),
    row(0x11040, 3, 500, 0xFF00, 0xFF00, loads=8, stores=8, invalidated=4, lost=3),
    row(0x11000, 0, 450, 0xFF0000, 0xFF, loads=2, stores=2, invalidated=1),
    row(0x11000, 1, 450, 0xF8, 0x0F00, loads=2, stores=2, invalidated=1, lost=1),
    row(0x10000, 0, 113, 0xFF, 0, loads=1),
    row(0x10000, 1, 113, 0xFF, 0, loads=1),
    row(0x11080, 1, 113, 0, 1, stores=1),
]
TEXT = "\n".join([COLUMNS, *LINES, ""])
KNOWN = Symbols(
    [Section(0, 0, 0), Section(0x11000, 0x100, 3)],
    [
        Symbol("total", 0x11000, 8, "OBJECT", True, 1),
        Symbol("counts", 0x11040, 16, "OBJECT", True, 1),
    ],
)


@pytest.fixture
def lines(tmp_path):
    (tmp_path / "lines.csv").write_text(TEXT)
    return list(read_lines(tmp_path / "lines.csv"))


def test_lines_have_the_rows_of_their_cores(lines):
    assert [(line.address, [row.core for row in line.rows]) for line in lines] == [
        (0x11040, [0, 3]),
        (0x11000, [0, 1]),
        (0x10000, [0, 1]),
        (0x11080, [1]),
    ]
    assert [lines[0].total(name) for name in ("cost", "accesses", "lost", "invalidated")] == [1200, 36, 7, 7]


def test_which_lines_are_shared_and_how(lines):
    """A byte that one core writes and another one reads is shared truly, and so is one that both write."""
    assert list(map(is_shared, lines)) == [True, True, False, False]
    assert verdict_of(lines[0]) == "falsely shared"
    assert verdict_of(lines[1]) == "truly shared, in bytes 3-7"


@pytest.mark.parametrize(
    "mask, begins, wanted",
    [
        (0, (), []),
        (1, (), [(0, 0)]),
        (0xF0F1, (), [(0, 0), (4, 7), (12, 15)]),
        (2**64 - 1, (), [(0, 63)]),
        (0xFFFF, {8, 16, 40}, [(0, 7), (8, 15)]),
        (1 << 63, {63}, [(63, 63)]),
    ],
)
def test_ranges(mask, begins, wanted):
    assert list(ranges(mask, begins)) == wanted


def test_the_bytes_of_each_core(lines):
    uses = [uses_of(row, line.address) for line in lines[:2] for row in line.rows]
    assert uses == ["0-7 rw", "8-15 rw", "0-7 w, 16-23 r", "3-7 r, 8-11 w"]
    named = [uses_of(row, line.address, KNOWN) for line in lines[:2] for row in line.rows]
    assert named == ["0-7 rw counts", "8-15 rw counts+8", "0-7 w total, 16-23 r", "3-7 r total+3, 8-11 w"]


def test_data_of_a_run_of_bytes_are_told_apart():
    data = [Symbol("a", 0x40, 4, "OBJECT", True, 1), Symbol("b", 0x44, 4, "OBJECT", True, 1)]
    known = Symbols([Section(0, 0, 0), Section(0x40, 64, 3)], data)
    written = Row(core=0, accesses=3, lost=0, invalidated=0, cost=0, read=0, written=0xFFF)
    assert uses_of(written, 0x40, known) == "0-3 w a, 4-7 w b, 8-11 w"


def test_the_command(command, tmp_path):
    (tmp_path / "lines.csv").write_text(TEXT)
    ended = command("sharing", "lines.csv")
    assert (ended.returncode, ended.stderr) == (0, "")
    printed = [" ".join(line.split()) for line in ended.stdout.splitlines()]
    assert [line for line in printed if line.startswith(("0x", "0 ", "1 ", "3 "))] == [
        "0x11040: falsely shared; cost 1200, accesses 36, lost 7, invalidated 7",
        "0 700 20 4 3 0-7 rw",
        "3 500 16 3 4 8-15 rw",
        "0x11000: truly shared, in bytes 3-7; cost 900, accesses 8, lost 1, invalidated 2",
        "0 450 4 0 1 0-7 w, 16-23 r",
        "1 450 4 1 1 3-7 r, 8-11 w",
    ]
    assert "0x11000" not in command("sharing", "lines.csv", "--lines", 1).stdout


def test_nothing_is_shared(command, tmp_path):
    (tmp_path / "lines.csv").write_text("\n".join([COLUMNS, LINES[-1], ""]))
    assert command("sharing", "lines.csv").stdout == "lines.csv: no line was written that several cores used\n"


@pytest.mark.parametrize(
    "text, told",
    [
        ("", "no lines of a profile: it has no column line"),
        (TEXT.replace(",written", ""), "no lines of a profile: it has no column written"),
        (TEXT.replace("0x11040,3", "0x11040,x"), "line 3: no row of a line: a number is missing or none"),
        ("\n".join([COLUMNS, "0x11040,1"]), "line 2: no row of a line: a number is missing or none"),
    ],
)
def test_what_is_no_table_of_lines(tmp_path, text, told):
    (tmp_path / "lines.csv").write_text(text)
    with pytest.raises(ToolError) as raised:
        list(read_lines(tmp_path / "lines.csv"))
    assert str(raised.value) == f"{tmp_path}/lines.csv: {told}"
