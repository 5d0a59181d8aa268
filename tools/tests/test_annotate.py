"""Profiles with the names of functions, files and lines, and what is said of files that are none."""

import re
import shutil
import subprocess

import pytest
from conftest import HERE
from elf_files import ABSOLUTE, DATA, FUNC, GLOBAL, IN_DATA, IN_TEXT, LOCAL, NOTYPE, OBJECT, TEXT, UNDEFINED, elf_file

from zsim_tools import symbols
from zsim_tools.annotate import annotated
from zsim_tools.errors import ToolError
from zsim_tools.symbols import Place, Section, Span, Symbol, Symbols, read_symbols

HEAD = """\
# callgrind format
version: 1
creator: zprof
positions: instr
events: Ir Loads Cycles

"""
SUMMED = HEAD + """\
ob=cores
fl=???
fn=???
0x10000 1 0 2
0x10004 5 5 40
0x10008 5 0 0
0x10020 1 1 7
0x10024 1 0 0
0x1ff00 2 0 0
totals: 15 6 49
"""
BY_CORE = HEAD + """\
ob=core 0
fl=???
fn=???
0x10004 2 2 30
ob=core 2
fl=???
fn=???
0x10004 3 3 10
totals: 5 5 40
"""

CODE = Section(0x10000, 0x100, 6)
# A function that begins at 0x10000 in a.c, and has two instructions of b.h in it; and one of a file that is not known.
KNOWN = Symbols(
    [Section(0, 0, 0), CODE],
    [Symbol("main", 0x10000, 0x20, "FUNC", True, 1), Symbol("last", 0x10020, 0x20, "FUNC", True, 1)],
    [
        Span(0x10000, 0x10004, Place("/src/a.c", 10)),
        Span(0x10004, 0x10008, Place("/src/b.h", 3)),
        Span(0x10008, 0x10020, Place("/src/a.c", 11)),
    ],
)


def lines_of(text, known=KNOWN):
    return list(annotated("callgrind.out", text.splitlines(), known))


def test_functions_files_and_lines():
    assert lines_of(SUMMED) == [
        "# callgrind format",
        "version: 1",
        "creator: zprof",
        "positions: instr line",
        "events: Ir Loads Cycles",
        "",
        "ob=cores",
        "fl=/src/a.c",
        "fn=main",
        "0x10000 10 1 0 2",
        "fi=/src/b.h",
        "0x10004 3 5 5 40",
        "fe=/src/a.c",
        "0x10008 11 5 0 0",
        "fl=???",
        "fn=last",
        "0x10020 0 1 1 7",
        "0x10024 0 1 0 0",
        "fl=???",
        "fn=???",
        "0x1ff00 0 2 0 0",
        "totals: 15 6 49",
    ]


def test_each_core_has_its_names():
    assert lines_of(BY_CORE)[6:] == [
        "ob=core 0",
        "fl=/src/a.c",
        "fn=main",
        "fi=/src/b.h",
        "0x10004 3 2 2 30",
        "ob=core 2",
        "fl=/src/a.c",
        "fn=main",
        "fi=/src/b.h",
        "0x10004 3 3 3 10",
        "totals: 5 5 40",
    ]


@pytest.mark.parametrize("text", [SUMMED, BY_CORE])
def test_no_cost_is_changed(text):
    costs = re.findall("(?m)^(0x[0-9a-f]+)( .*)$", text)
    assert re.findall("(?m)^(0x[0-9a-f]+) [0-9]+( .*)$", "\n".join(lines_of(text))) == costs
    sums = [sum(column) for column in zip(*(map(int, numbers.split()) for _, numbers in costs))]
    assert lines_of(text)[-1] == f"totals: {' '.join(map(str, sums))}"


@pytest.mark.parametrize(
    "text, told",
    [
        ("", "no profile of zprof: it has no line `events:` behind its line `positions: instr`"),
        ("zsim report 1\n", "line 1: no line of the head of a profile of zprof: zsim report 1"),
        (HEAD.replace("instr", "line"), "line 4: no line of the head of a profile of zprof: positions: line"),
        (HEAD, "the file ends before its totals"),
        (SUMMED.replace("totals: 15 6 49\n", ""), "the file ends before its totals"),
        (SUMMED.replace("0x10004 5 5 40", "0x10004 5 5"), "line 11: no line of a profile of zprof: 0x10004 5 5"),
        (SUMMED.replace("0x10004 5 5 40", "0x10004 5 -5 40"), "line 11: no line of a profile of zprof: 0x10004 5 -5 40"),
        (SUMMED.replace("0x10004 5 5 40", "+4 5 5 40"), "line 11: no line of a profile of zprof: +4 5 5 40"),
    ],
)
def test_what_is_no_profile(text, told):
    with pytest.raises(ToolError) as raised:
        lines_of(text)
    assert str(raised.value) == f"callgrind.out: {told}"


needs_callgrind_annotate = pytest.mark.skipif(
    shutil.which("callgrind_annotate") is None, reason="there is no callgrind_annotate"
)


@needs_callgrind_annotate
@pytest.mark.parametrize("text, main", [(SUMMED, (6, 0, 2)), (BY_CORE, (0, 0, 0))])
def test_callgrind_annotate_reads_it(tmp_path, text, main):
    """It has the totals, and what each function came to, in its own file and in others."""
    by_name = read_by_callgrind_annotate(tmp_path, lines_of(text))
    assert by_name["PROGRAM TOTALS"] == totals_of(text)
    assert by_name["/src/b.h:main"] == (5, 5, 40)
    assert by_name.get("/src/a.c:main", (0, 0, 0)) == main


# What zprof writes of examples/race.elf on examples/machines/desktop.toml: of all cores together, and with a group of
# lines for each of the four.
STORED = {"race.callgrind.out": (), "race_cores.callgrind.out": ("--separate-cores",)}


@needs_callgrind_annotate
@pytest.mark.parametrize("name", STORED)
def test_callgrind_annotate_has_the_totals_of_zprof(tmp_path, name):
    """It reads the file that zprof writes, and the one that has names, and prints the totals that both have."""
    text = (HERE / "data" / name).read_text()
    plain = read_by_callgrind_annotate(tmp_path, text.splitlines())
    named = read_by_callgrind_annotate(tmp_path, lines_of(text))
    assert totals_of(text) == (24, 4, 4, 0, 0, 1, 3, 3, 1, 796, 12)
    assert plain == {"PROGRAM TOTALS": totals_of(text), "???:???": totals_of(text)}
    assert named["PROGRAM TOTALS"] == totals_of(text)
    # All loads are those of the one instruction that is of b.h.
    assert named["/src/b.h:main"] == (4, 4, 0, 0, 0, 0, 0, 3, 1, 570, 12)
    assert named["/src/a.c:main"] == (20, 0, 4, 0, 0, 1, 3, 0, 0, 226, 0)


@pytest.mark.parametrize("name", STORED)
def test_the_stored_profiles_are_those_of_zprof(built_zprof, repository, tmp_path, name):
    machine, executable = repository / "examples/machines/desktop.toml", repository / "examples/race.elf"
    words = [built_zprof, machine, executable, "--out", tmp_path, *STORED[name]]
    subprocess.run(words, check=True, capture_output=True)
    assert (tmp_path / "callgrind.out").read_text() == (HERE / "data" / name).read_text()


def read_by_callgrind_annotate(folder, lines):
    """Returns what callgrind_annotate prints of the lines of a profile: the numbers of each function by its name, and
    the totals."""
    (folder / "callgrind.out").write_text("".join(f"{line}\n" for line in lines))
    words = ["callgrind_annotate", "--auto=no", "--threshold=100", "--show-percs=no", "callgrind.out"]
    ended = subprocess.run(words, cwd=folder, capture_output=True, text=True, check=True)
    assert ended.stderr == ""
    found = re.findall(r"(?m)^ *((?:[0-9,.]+ +)+)(.*)$", ended.stdout)
    return {name.split(" [")[0].strip(): numbers_of(numbers) for numbers, name in found}


def totals_of(text):
    """Returns the numbers of a profile's last line."""
    return numbers_of(text.splitlines()[-1].removeprefix("totals: "))


def numbers_of(text):
    """Returns numbers as callgrind_annotate has them: with commas, and with a point for what was never counted."""
    return tuple(int(number.replace(",", "").replace(".", "0")) for number in text.split())


def test_functions_stand_before_labels():
    """A function tells its size. A label reaches to the next symbol of its section, or to the section's end."""
    known = Symbols(
        [Section(0, 0, 0), CODE, Section(0x11000, 0x100, 3)],
        [
            Symbol("_start", 0x10000, 0, "LABEL", True, 1),
            Symbol("main", 0x10010, 0x10, "FUNC", True, 1),
            Symbol("turn", 0x10018, 0, "LABEL", False, 1),
            Symbol("alias", 0x10010, 0x10, "FUNC", False, 1),
            Symbol("no_size", 0x10030, 0, "FUNC", True, 1),
            Symbol("table", 0x11000, 0x40, "OBJECT", True, 2),
            Symbol("bytes", 0x11040, 0, "LABEL", False, 2),
        ],
    )
    at = {address: known.function(address) for address in (0xFFFC, 0x1000C, 0x10010, 0x1001C, 0x10020, 0x100FC, 0x10100)}
    names = [span and span.what for span in at.values()]
    assert names == [None, "_start", "main", "main", "turn", "no_size", None]
    assert known.function(0x11000) is None and known.datum(0x10000) is None
    assert known.datum(0x1103F) == Span(0x11000, 0x11040, "table")
    assert known.datum(0x110FF) == Span(0x11040, 0x11100, "bytes")
    assert known.place(0x10000) is None


WRITTEN = [
    ("main", TEXT, 8, FUNC, GLOBAL, IN_TEXT),
    ("$x", TEXT, 0, NOTYPE, LOCAL, IN_TEXT),
    (".L2", TEXT + 4, 0, NOTYPE, LOCAL, IN_TEXT),
    ("turn", TEXT + 8, 0, NOTYPE, LOCAL, IN_TEXT),
    ("total", DATA + 8, 8, OBJECT, LOCAL, IN_DATA),
    ("beyond$", DATA + 0x800, 0, NOTYPE, GLOBAL, IN_DATA),
    ("memory", TEXT, 0, NOTYPE, GLOBAL, ABSOLUTE),
    ("printf", 0, 0, NOTYPE, GLOBAL, UNDEFINED),
]


@pytest.fixture
def executable(tmp_path):
    """Writes an executable with these symbols and lines."""
    pytest.importorskip("elftools", reason="there is no pyelftools")

    def write(*made):
        (tmp_path / "a.elf").write_bytes(elf_file(*made))
        return tmp_path / "a.elf"

    return write


def test_symbols_of_a_file(executable):
    known = read_symbols(executable(WRITTEN))
    assert known.function(TEXT + 4).what == "main" and known.function(TEXT + 12).what == "turn"
    assert known.datum(DATA + 12) == Span(DATA + 8, DATA + 16, "total") and known.datum(DATA) is None
    assert known.place(TEXT) is None


def test_lines_of_a_file(executable):
    known = read_symbols(executable(WRITTEN, [(TEXT, 3), (TEXT + 4, 5), (TEXT + 8, 4)], TEXT + 16))
    lines = [known.place(TEXT + 4 * number) for number in range(5)]
    assert lines == [*(Place("/made/by/hand.c", line) for line in (3, 5, 4, 4)), None]


def test_the_command(executable, command, tmp_path):
    executable(WRITTEN, [(TEXT, 3), (TEXT + 4, 5)], TEXT + 8)
    (tmp_path / "callgrind.out").write_text(SUMMED)
    ended = command("annotate", "callgrind.out", "a.elf")
    assert (ended.returncode, ended.stderr) == (0, "")
    assert "\nfl=/made/by/hand.c\nfn=main\n0x10000 3 1 0 2\n0x10004 5 5 5 40\nfl=???\nfn=turn\n" in ended.stdout
    assert command("annotate", "callgrind.out", "a.elf", "-o", "named.out").stdout == ""
    assert (tmp_path / "named.out").read_text() == ended.stdout


@pytest.mark.parametrize(
    "content, told",
    [
        (b"", "no ELF file that can be read: "),
        (b"\x7fELF" + bytes(20), "no ELF file that can be read: "),
        (elf_file([]), "it has no symbols; link it without -s\n"),
    ],
)
def test_what_is_no_executable(executable, command, tmp_path, content, told):
    executable([]).write_bytes(content)
    (tmp_path / "callgrind.out").write_text(SUMMED)
    ended = command("annotate", "callgrind.out", "a.elf")
    assert (ended.returncode, ended.stdout) == (2, "")
    assert ended.stderr.startswith(f"zsim-tools: a.elf: {told}") and ended.stderr.count("\n") == 1


def test_without_the_package(command, tmp_path, monkeypatch):
    monkeypatch.setattr(symbols.importlib.util, "find_spec", lambda _: None)
    (tmp_path / "callgrind.out").write_text(SUMMED)
    ended = command("annotate", "callgrind.out", "a.elf", "-o", "named.out")
    told = "a.elf: its symbols need the Python package pyelftools (Debian's python3-pyelftools)"
    assert (ended.returncode, ended.stdout, ended.stderr) == (2, "", f"zsim-tools: {told}\n")
    assert not (tmp_path / "named.out").exists()
