"""What zsim refuses, in words: the checks of a description, and each line on standard error."""

import re

import pytest

import zsim_tools
from zsim_tools import inputs
from zsim_tools.checks import ALLOWED, TABLES, Allowed, refusal_of
from zsim_tools.meanings import ELF, HALTS, LINES, SCHEDULE, explain, line_of
from zsim_tools.machine import PLAIN

PLAIN_TEXT = inputs.read_text(PLAIN, inputs.MACHINE)
L1I = "[l1i]\nsets = 2\nways = 1\nlatency = 1\n[l2]"
WITH_L1I = PLAIN_TEXT.replace("version = 1", "version = 2").replace("[l2]", L1I)
PIPE = "\n[pipe]\nmul = 3\ndiv = 20\nentries = 16\npenalty = 4\n"
MESH = "\n[mesh]\nwidth = 2\nheight = 1\nhop = 3\noccupancy = 2\n"
VERSION_3 = PLAIN_TEXT.replace("version = 1", "version = 3")


def test_the_keys_and_their_ranges_are_those_of_the_document(repository):
    page = (repository / "docs/machine-description.md").read_text()
    rows = re.findall(r"(?m)^\| `([a-z0-9_.]+)` \| (integer|table|array of integers) \| (.*?) \|", page)
    listed = [key for key, _, _ in rows]
    assert [key for key in listed if key in ALLOWED] == list(ALLOWED)
    assert [key for key in listed if key in TABLES] == list(TABLES)[1:]
    for key, kind, told in rows:
        if kind == "integer":
            numbers = [eval(number.replace("^", "**")) for number in re.findall(r"[0-9]+(?:\^[0-9]+)?", told)]
            assert ALLOWED[key] == Allowed(*numbers), key
        elif kind != "table":
            assert told == f"`{ALLOWED[key]}` elements"


def changed(words):
    """Returns the built-in machine with the changes of a case."""
    text = PLAIN_TEXT
    for change in words.split(";"):
        old, _, new = change.partition("->")
        old, new = (part.strip().replace(" | ", "\n").replace("| ", "\n") for part in (old, new))
        text = text.replace(old, new, 1)
    return text


def test_the_checks_refuse_what_zsim_refuses(repository):
    """The cases of zsim that change the built-in machine, and their stored lines, one after the other."""
    cases = (repository / "crates/zsim_tests/data/cases").read_text()
    cases = cases[cases.index("machine cores = 1 ->") :].splitlines()
    changes = [line.removeprefix("machine ") for line in cases if line.startswith("machine ") and " : " not in line]
    refusals = [refusal_of(changed(change)) for change in changes]
    found = [refusal.line for refusal in refusals if refusal]
    stored = (repository / "crates/zsim_tests/stdout").read_text()
    lines = re.findall(r"(?m)^zsim: machine (?!1$).*$", stored)
    assert len(found) > 15 and lines[: len(found)] == found


@pytest.mark.parametrize(
    "old, new, line",
    [
        ("cores = 1", "cores =", "1"),
        ("version = 1", "", "2 version"),
        ("version = 1", "version = 4", "4 version 4"),
        ("[l1]", "[l9]", "2 l1"),
        ("[l1]\nsets = 2\nways = 1\nlatency = 1", "", "2 l1"),
        ("[memory]", "l1 = 5\n[memory]", "1"),
        ("banks = 1", "banks = 1.0", "3 l2.banks"),
        ("banks = [0]", "banks = [0.5]", "3 domains.banks"),
        ("banks = [0]", "banks = []", "4 domains.banks 0"),
        ("banks = [0]", "banks = [0, 0]", "4 domains.banks 2"),
        ("banks = [0]", "banks = [2]", "7 0"),
        ("controllers = [1]", "controllers = [-1]", "7 1"),
        ("stack = 4096", "stack = 4097", "4 memory.stack 4097"),
        ("size = 1048576", "size = 4096\n#", None),
        ("cores = 1", "cores = 64", None),
        ("stack = 4096", "stack = 1048576", None),
        ("fill = 2", 'fill = 2\n"a b" = 1', '5 l2.a\\x20b'),
        ("fill = 2", "fill = 2\nzz = 1\nae = 1", "5 l2.ae"),
    ],
)
def test_each_check_is_told_as_zsim_tells_it(old, new, line):
    assert PLAIN_TEXT.count(old) >= 1
    refusal = refusal_of(PLAIN_TEXT.replace(old, new, 1))
    assert (refusal and refusal.line) == (line and f"zsim: machine {line}")


def test_stacks_have_to_fit():
    text = PLAIN_TEXT.replace("cores = 1", "cores = 2").replace("stack = 4096", "stack = 1048576")
    assert refusal_of(text).line == "zsim: machine 4 memory.stack 1048576"
    assert "2 of 1048576 bytes are more than `memory.size`" in explain(refusal_of(text).line, text)


def test_the_machines_of_the_examples_pass(repository):
    for path in (repository / "examples/machines").glob("*.toml"):
        assert refusal_of(path.read_text()) is None
    assert refusal_of(PLAIN_TEXT) is None and refusal_of(WITH_L1I) is None
    assert refusal_of(WITH_L1I.replace(L1I, L1I.replace("sets = 2\n", ""))).line == "zsim: machine 2 l1i.sets"


def test_version_3_has_what_tables_it_may():
    fetching = VERSION_3.replace("[l2]", L1I)
    for text in (VERSION_3, VERSION_3 + PIPE, VERSION_3 + MESH, fetching, fetching + PIPE, fetching + PIPE + MESH):
        assert refusal_of(text) is None
    for text, line in (
        (PLAIN_TEXT + PIPE, "5 pipe"),
        (WITH_L1I + PIPE, "5 pipe"),
        (VERSION_3.replace("cores = 1", "cores = 1\npipe = 1"), "3 pipe"),
        (VERSION_3 + PIPE.replace("div = 20\n", ""), "2 pipe.div"),
        (VERSION_3 + PIPE.replace("penalty = 4", "penalty = 65"), "4 pipe.penalty 65"),
        (VERSION_3 + PIPE + "colour = 1", "5 pipe.colour"),
        (PLAIN_TEXT + MESH, "5 mesh"),
        (WITH_L1I + MESH, "5 mesh"),
        (VERSION_3.replace("cores = 1", "cores = 1\nmesh = 1"), "3 mesh"),
        (VERSION_3 + MESH.replace("hop = 3\n", ""), "2 mesh.hop"),
        (VERSION_3 + MESH.replace("width = 2", "width = 9"), "4 mesh.width 9"),
        (VERSION_3 + PIPE + "colour = 1" + MESH + "colour = 1", "5 mesh.colour"),
        (VERSION_3 + "\n[dram]\n", "2 dram.banks"),
    ):
        assert refusal_of(text).line == f"zsim: machine {line}"


@pytest.mark.parametrize(
    "line, told",
    [
        ("zsim: machine 6 l1.sets", "`l1.sets` (sets of the L1) is 24, which is no multiple of `l2.banks`, which is 16"),
        ("zsim: machine 4 l1.ways 0", "is 0, and has to be an integer from 1 to 16"),
        ("zsim: machine 4 memory.base 1", "an integer from 0 to 1099511627776, a multiple of 4096"),
        ("zsim: machine 4 domains.banks 3", "has 3 elements, and needs one for each of `l2.banks`, which is 16"),
        ("zsim: machine 2 l1i", "(or have `version = 1`, which has none)"),
        ("zsim: machine 2 l1i.sets", "(or have no table `l1i`: with `version = 1`, or taken out of one of version 3)"),
        ("zsim: machine 3 cores", "`cores` (cores) is of another kind than it has to be: an integer from 1 to 256"),
        ("zsim: machine 5 l1.way", "`l1.way` is no key of a description; is it `l1.ways`?"),
        ("zsim: machine 5 colour", "`colour` is no key of a description"),
        ("zsim: machine 5 l1i", "Version 1 has no instruction caches"),
        ("zsim: machine 5 pipe", "Pipelines are of version 3"),
        ("zsim: machine 5 mesh", "Meshes are of version 3"),
        ("zsim: machine 2 mesh.hop", "Add it: an integer from 1 to 256 (or take the table `mesh` out)"),
        ("zsim: machine 4 mesh.hop 257", "`mesh.hop` (time of a hop) is 257, and has to be an integer from 1 to 256"),
        ("zsim: machine 2 pipe.div", "Add it: an integer from 1 to 128 (or take the table `pipe` out)"),
        ("zsim: machine 4 pipe.mul 65", "`pipe.mul` (time of a product) is 65, and has to be an integer from 1 to 64"),
        ("zsim: machine 7 17", "Element 1 of `domains.controllers` is 1, and has to be from 0 to 7"),
        ("zsim: machine 4 version 4", "`version` is 4, and has to be an integer from 1 to 3"),
        ("zsim: elf 10 1", "Segment 1 of the executable is not in memory"),
        ("zsim: elf 11 0 2", "The segments 0 and 2 of the executable"),
        ("elf 6", "`-march=rv64ima -mabi=lp64`"),
        ("zsim: schedule 7 2 13", "in interval 2, at place 13"),
        ("zsim: stopped at the limit", "`intervals` of the machine, or 2^26 accesses"),
        ("zsim: too long: machine", "2^20 bytes"),
        ("zsim: usage: zsim run MACHINE EXE", "no command"),
        ("illegal c0002573", "The word c0002573 is no instruction of RV64IMA"),
        ("break", "A breakpoint"),
    ],
)
def test_a_line_in_words(repository, line, told):
    text = (repository / "examples/machines/server.toml").read_text().replace("[l1]\nsets = 64", "[l1]\nsets = 24")
    assert told in explain(line, text)
    # Without the machine there are words too.
    assert explain(line)


def test_the_line_in_the_file_is_named(repository):
    text = (repository / "examples/machines/server.toml").read_text().replace("[l1]\nsets = 64", "[l1]\nsets = 24")
    number = text.splitlines().index("sets = 24") + 1
    assert explain("zsim: machine 6 l1.sets", text).endswith(f"It stands in line {number} of the description.")
    assert "The nearest are 16 or 32." in explain("zsim: machine 6 l1.sets", text)
    assert line_of("l1.ways = 3\n[l2]\n ways=4 # four\n", "l2.ways") == 3
    assert line_of("l1.ways = 3\n", "l1.ways") == 1 and line_of("l1 = {ways = 3}", "l1.ways") is None
    assert line_of("# [l1]\n[l1i]\n", "l1i") == 2


NONE = "zsim|hello|zsim: machine|zsim: machine 9|zsim: machine 4|zsim: elf 13|zsim: machine 4 l1.ways many|Segmentation"


@pytest.mark.parametrize("line", ["", *NONE.split("|"), "zsim: machine 6 colour 1 2"])
def test_what_is_no_line_of_zsim(line):
    assert explain(line) is None


def test_every_line_of_the_documents_has_words(repository):
    programs = (repository / "docs/programs.md").read_text()
    assert {int(number) for number in re.findall(r"(?m)^\| `zsim: elf ([0-9]+)", programs)} == set(ELF)
    halts = re.search(r"(?s)## Programs that halt(.*?)\n## ", programs)[1]
    assert set(re.findall(r"(?m)^\| `([a-z]+)", halts)) == {"halt", *HALTS}
    schedules = (repository / "docs/schedules.md").read_text()
    assert {int(number) for number in re.findall(r"(?m)^\| ([0-9]) \|", schedules)} == set(SCHEDULE)
    lines = (repository / "docs/command-line.md").read_text()
    for line in re.findall(r"`zsim: ([a-z :]+?)(?: n`|`|: zsim run)", lines):
        assert line in ("machine", "elf", "schedule", "events") or line in LINES, line


def test_the_command(command, repository, tmp_path):
    (tmp_path / "bad.toml").write_text(PLAIN_TEXT.replace("ways = 1", "ways = 0"))
    ended = command("explain", "zsim: machine 4 l1.ways 0", "--machine", "bad.toml")
    assert (ended.returncode, ended.stderr) == (0, "")
    assert ended.stdout.endswith("an integer from 1 to 16. It stands in line 13 of the description.\n")
    # The words of the line need no quotes.
    assert command("explain", "zsim:", "elf", "2").stdout == f"{ELF[2]}\n"
    ended = command("explain", "hello", "world")
    assert (ended.returncode, ended.stderr) == (2, "zsim-tools: explain: this is no line of zsim: hello world\n")


def test_a_sweep_explains_a_refusal_once(command, twelve):
    text = (twelve / "sweep.toml").read_text()
    (twelve / "sweep.toml").write_text(text.replace("[1, 2, 4]", "[1, 0]"))
    lines = command("sweep", "sweep.toml", "--out", "table.csv", "--jobs", 1).stderr.splitlines()
    told = [line for line in lines if "has to be an integer from 1 to 16" in line]
    assert len(told) == 1 and told[0].startswith("zsim-tools:     `l1.ways`")
    place = lines.index(told[0])
    assert lines[place - 1] == "zsim-tools: a.elf l1.sets=2 l1.ways=0: status 6: zsim: machine 4 l1.ways 0"


def test_a_refusal_from_python_is_explained(fake_zsim):
    machine = zsim_tools.read_machine("plain").changed({"l1.ways": 0})
    with pytest.raises(zsim_tools.RunError) as refusal:
        zsim_tools.run(machine, "gen:5", zsim=fake_zsim)
    assert "has to be an integer from 1 to 16" in refusal.value.meaning
    assert zsim_tools.explain("zsim: elf 2") == ELF[2]


@pytest.mark.parametrize(
    "line, told",
    [
        ("zsim: events 1 340", "within the field that begins at byte 340"),
        ("zsim: events 2", "does not begin with ZSEV"),
        ("zsim: events 3 2", "is of version 2"),
        ("zsim: events 4 3", "is of a machine of 3 components"),
        ("zsim: events 5 2 17", "Event 17 of interval 2 is none of this machine"),
        ("zsim: events 6 404", "goes on behind its last event, at byte 404"),
        ("zsim: not the weave: start 0 4", "Event 4 of interval 0 does not start when it could first"),
        ("zsim: not the weave: finish 0 3", "Event 3 of interval 0 does not finish when its component"),
        ("zsim: too long: events", "more than 2^28 bytes"),
    ],
)
def test_lines_of_events_files(line, told):
    assert told in explain(line)
    assert explain("zsim: events 7") is None and explain("zsim: not the weave: end 0 3") is None
