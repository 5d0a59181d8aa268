"""Reading reports: all that stand in the repository, one that was worked out by hand, and all that is no report."""

import re

import pytest
from conftest import FETCHING, WORKED

import zsim_tools
from zsim_tools.outcomes import judge, row_of
from zsim_tools.machine import parse_machine
from zsim_tools.report import parse_report
from zsim_tools.sweep_file import Executable, Planned
from zsim_tools.task import Outcome

HEADER = re.compile("zsim report [123]\n")
LINE = re.compile("(cores|intervals|instructions|cycles|accesses|events|core|bank|controller|link) ")


CUT = re.compile(r".*[.][.]$|zsim: cannot write$")


def reports_in(text):
    """Returns the reports in a text, as they stand there between other lines, but for those that are cut off."""
    found = []
    lines = iter(text.splitlines(keepends=True))
    for line in lines:
        is_open = found and not found[-1].endswith("\n\n")
        if HEADER.fullmatch(line):
            found.append(line)
        elif is_open and CUT.match(line):
            found.pop()
        elif is_open and LINE.match(line):
            found[-1] += line
        elif found:
            found[-1] += "\n\n"
    return [report.rstrip("\n") + "\n" for report in found]


def files_with_reports(repository):
    return [
        *repository.glob("crates/*/stdout"),
        *repository.glob("*.md"),
        *repository.glob("docs/*.md"),
        *repository.glob("examples/**/*.md"),
    ]


def test_every_report_of_the_repository_is_read(repository):
    read = 0
    for path in files_with_reports(repository):
        text = re.sub("(?m)^    ", "", path.read_text()) if path.suffix == ".md" else path.read_text()
        for report in reports_in(text):
            made = parse_report(report, str(path))
            assert made.brief == (report.count("\n") == 7)
            assert made.summary["instructions"] == int(re.search("(?m)^instructions (.*)$", report)[1])
            assert len(made.core_list) == (0 if made.brief else made.summary["cores"])
            read += 1
    # (there were 78 of them when this was written)
    assert read >= 78


def test_the_frames_have_what_the_report_says():
    report = parse_report(WORKED)
    assert list(report.cores["misses"]) == [5, 20]
    assert list(report.cores["halt"]) == ["exit 0", "exit 1"]
    assert list(report.cores["console"]) == [b'a\n"', b""]
    assert report.banks.loc[0, "waited"] == 50 and report.banks.loc[1, "free"] == 3000
    assert list(report.controllers["events"]) == [40]
    assert (report.banks.index.name, report.cores.index.name) == ("bank", "core")
    assert report.summary == {
        "cores": 2,
        "intervals": 1,
        "instructions": 3000,
        "cycles": 4000,
        "accesses": 1300,
        "events": 160,
    }


# By hand: core 0 has 4000 cycles and 1000 instructions, core 1 3000 and 2000. With occupancies of 8 cycles for a bank
# and 50 for the controller, bank 0 is busy for 800 of 4100 cycles (it is free again after the last core's clock),
# bank 1 for 160 of 4000, and the controller for 2000 of 4000.
BY_HAND = {
    "cpi": 7000 / 3000,
    "waiting": 500 / 7000,
    "hits_pki": 410.0,
    "upgrades_pki": 5.0,
    "l2hits_pki": 10.0,
    "l1_mpki": 55 / 3,
    "l2_mpki": 25 / 3,
    "instructions_spread": 1000 / 1500,
    "cycles_spread": 1000 / 3500,
    "cpi_spread": 2.5 / 2.75,
    "bank_wait": 50 / 120,
    "bank_busy": (800 / 4100 + 160 / 4000) / 2,
    "bank_busiest": 800 / 4100,
    "controller_wait": 2.0,
    "controller_busy": 0.5,
    "controller_busiest": 0.5,
    "l1_kib": 0.125,
    "l2_kib": 0.5,
}
CORES_BY_HAND = {
    "cpi": [4.0, 1.5],
    "waiting": [0.1, 1 / 30],
    "hits_pki": [580.0, 325.0],
    "upgrades_pki": [5.0, 5.0],
    "l2hits_pki": [10.0, 10.0],
    "l1_mpki": [15.0, 20.0],
    "l2_mpki": [5.0, 10.0],
}


@pytest.fixture
def machine():
    """The machine of the report that was worked out by hand, as far as its derived numbers go."""
    plain = zsim_tools.read_machine("plain")
    return plain.changed(
        {"cores": 2, "l2.banks": 2, "domains.banks": [0, 0], "l2.occupancy": 8, "controllers.occupancy": 50}
    )


def test_derived_numbers_are_those_by_hand(machine):
    report = parse_report(WORKED, machine=machine)
    assert report.derived == pytest.approx(BY_HAND)
    for name, values in CORES_BY_HAND.items():
        assert list(report.cores[name]) == pytest.approx(values)
    assert list(report.banks["busy"]) == pytest.approx([800 / 4100, 0.04])
    assert list(report.banks["wait"]) == [0.5, 0.0]
    assert list(report.controllers["busy"]) == [0.5]


@pytest.mark.parametrize("ending", [".csv", ".parquet"])
def test_derived_numbers_come_back_from_a_table(machine, tmp_path, ending):
    if ending == ".parquet":
        pytest.importorskip("pyarrow")
    run = Planned({"cores": 2}, machine, "m", Executable("a.elf", b"", "e"))
    row = row_of(run, judge(run, Outcome(0, "", WORKED)), "z")
    refused = row_of(run, judge(run, Outcome(6, "zsim: machine 4 cores 2", "")), "z")
    from zsim_tools.table import make_table

    zsim_tools.write_table(make_table([row, refused]), tmp_path / f"table{ending}")
    table = zsim_tools.read_table(tmp_path / f"table{ending}")
    first, second = table.iloc[0], table.iloc[1]
    for name, value in BY_HAND.items():
        assert first[name] == value or first[name] == pytest.approx(value)
    assert (first["cores"], first["intervals_run"], first["cycles"], first["bank_waited"]) == (2, 1, 4000, 50)
    assert (first["core1_misses"], first["bank1_free"], first["halt"]) == (20, 3000, "exit 0; exit 1")
    assert (second["status"], second["line"], second["halt"]) == (6, "zsim: machine 4 cores 2", "")
    assert table["cycles"].isna().tolist() == [False, True] and str(table["cycles"].dtype) == "Int64"


def test_a_report_of_cores_that_fetch():
    report = parse_report(FETCHING)
    assert list(report.cores["fetches"]) == [400, 700] and report.core_list[0].counters["hits"] == 965
    assert report.derived["fetches_pki"] == pytest.approx(1100 / 3)
    assert list(report.cores["fetches_pki"]) == pytest.approx([400, 350])
    # (20 + 30 and 10 + 20 of 3000 instructions: those of loads, stores and atomics, and of fetches)
    assert report.derived["l1_mpki"] == pytest.approx(80 / 3)
    assert "fetches_pki" not in parse_report(WORKED).derived
    # A report of version 3 has the same counters.
    assert parse_report(FETCHING.replace("report 2", "report 3")).core_list == report.core_list


def test_a_report_of_a_machine_with_a_mesh():
    """One node, whose four links have 10 events more in all; a link is busy for 2 cycles with each."""
    lines = [f"link {number} events {number + 1} waited {number} free {100 * number}" for number in range(4)]
    text = WORKED.replace("report 1", "report 3").replace("events 160", "events 170")
    text = text.replace("atomics 0", "atomics 0 fetches 0").replace("atomics 50", "atomics 50 fetches 0")
    mesh = "\n[mesh]\nwidth = 1\nheight = 1\nhop = 3\noccupancy = 2\n"
    plain = zsim_tools.read_machine("plain").changed({"cores": 2, "l2.banks": 2, "domains.banks": [0, 0]})
    machine = parse_machine(plain.text.replace("version = 1", "version = 3") + mesh, "meshed")
    report = parse_report(text + "\n".join(lines) + "\n", machine=machine)
    assert [link.counters["events"] for link in report.link_list] == [1, 2, 3, 4]
    assert (report.derived["link_wait"], report.derived["link_busiest"]) == (0.6, 8 / 4000)
    assert list(report.links["free"]) == [0, 100, 200, 300] and "link_wait" not in parse_report(WORKED).derived
    with pytest.raises(zsim_tools.ToolError, match="its links are 4, but here are 0"):
        parse_report(text.replace("events 170", "events 160"), machine=machine)


def test_without_a_machine_there_is_no_busy_share():
    report = parse_report(WORKED)
    assert "busy" not in report.banks and "bank_busy" not in report.derived


def test_a_machine_of_other_parts_is_refused():
    with pytest.raises(zsim_tools.ToolError, match="no report of plain: cores is 1, but here are 2"):
        parse_report(WORKED, machine=zsim_tools.read_machine("plain"))


def test_a_quotient_by_nothing_is_no_number(repository):
    report = zsim_tools.read_report(repository / "crates/zsim_main/stdout")
    assert report.derived["l2_mpki"] == 0
    assert report.derived["bank_wait"] != report.derived["bank_wait"]


def test_every_cut_is_refused_with_its_line():
    brief = len("".join(WORKED.splitlines(keepends=True)[:7]))
    for length in range(len(WORKED)):
        text = WORKED[:length]
        if length == brief:
            # What is left is a brief report, whole.
            assert parse_report(text).brief
            continue
        with pytest.raises(zsim_tools.ToolError) as refusal:
            parse_report(text, "cut.txt")
        line = int(re.fullmatch("cut.txt: line ([0-9]+): .*", str(refusal.value))[1])
        # It is the line that is cut off or missing, or the one with the sum that does not come out.
        assert line in (text.count("\n") + 1, 7)


def test_a_report_cut_in_half_says_so(command, tmp_path):
    (tmp_path / "half.txt").write_text(WORKED[: len(WORKED) // 2])
    ended = command("show", "half.txt")
    assert ended.returncode == 2 and ended.stdout == ""
    assert (
        ended.stderr
        == "zsim-tools: half.txt: line 10: the report is cut off in this line, where the line of core 1 belongs\n"
    )


@pytest.mark.parametrize(
    "text, told",
    [
        ("", "line 1: no report: the file is empty"),
        (
            "\x7fELF\x02\x01\x01",
            'line 1: no report: it begins with "\\x7fELF\\x02\\x01\\x01", not with "zsim report 1, 2 or 3"',
        ),
        ("zsim report 4\ncores 1\n", 'line 1: a report of version "4"; these tools read version 1, 2 or 3'),
        (WORKED.replace("report 1", "report 2"), "line 8: here belongs the line of core 0, not"),
        (FETCHING.replace("report 2", "report 1"), "line 8: here belongs the line of core 0, not"),
        (FETCHING.replace("fetches 400", "fetches 401"), "line 6: accesses 2400, but the cores below come to 2401"),
        (WORKED.replace("cores 2", "cores 0"), "line 2: a machine has at least one core"),
        (WORKED.replace("cores 2", "cores two"), 'line 2: here belongs "cores N", not "cores two"'),
        (
            WORKED.replace("cycles 4000\nacc", "cycles 04000\nacc"),
            'line 5: here belongs "cycles N", not "cycles 04000"',
        ),
        (WORKED.replace("halt exit 1", "halt nowhere"), "line 10: here belongs the line of core 1, not"),
        (WORKED.replace("console 3", "console 4"), "line 9: core 0 wrote 4 bytes, but here are 3 of core 0"),
        (WORKED.replace("bank 1", "bank 2"), "line 13: bank 2 where bank 1 belongs"),
        (WORKED.replace("core 1 instr", "core 3 instr"), "line 10: core 3 where core 1 belongs"),
        (
            WORKED.replace("waited 50", "waited 99999999999999999999"),
            "line 12: the number 99999999999999999999 is too large",
        ),
        (WORKED + "status 0\n", 'line 15: the report ends before this line, not with "status 0"'),
        (WORKED + WORKED, 'line 15: the report ends before this line, not with "zsim report 1"'),
        (
            WORKED.replace("controller 0 events 40", "controller 0 events 41"),
            "line 7: events 160, but the banks, controllers and links below come to 161",
        ),
        (
            WORKED.replace("hits 580", "hits 581"),
            "line 6: accesses 1300, but what the accesses of the cores found below",
        ),
    ],
)
def test_what_is_wrong_is_named(text, told):
    with pytest.raises(zsim_tools.ToolError) as refusal:
        parse_report(text, "name")
    assert str(refusal.value).startswith(f"name: {told}")


def test_no_file(command):
    ended = command("show", "nothing.txt")
    assert (ended.returncode, ended.stderr) == (2, "zsim-tools: cannot read: nothing.txt: No such file or directory\n")
