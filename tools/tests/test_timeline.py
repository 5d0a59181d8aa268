"""The timelines of events files, and what is said of files that are none."""

import json
import tracemalloc

import pytest
from events_files import FILL, HOP, LOOKUP, READ, TWO_MISSES, WRITE, Told, file_of, run_model

from zsim_tools.machine import read_machine
from zsim_tools.report import parse_report
from zsim_tools.timeline import write_timeline


@pytest.fixture
def drawn(command, tmp_path):
    """Draws an events file of the built-in machine, and returns the entries of its timeline by their kind."""

    def draw(file, *words, machine="plain"):
        (tmp_path / "run.events").write_bytes(file)
        ended = command("timeline", "run.events", "--machine", machine, "--out", "run.json", *words)
        assert ended.returncode == 0, ended.stderr
        by_kind = {}
        for entry in json.loads((tmp_path / "run.json").read_text())["traceEvents"]:
            kind = "split" if entry["name"] in ("waiting", "service") else entry["ph"]
            by_kind.setdefault(kind, []).append(entry)
        return by_kind, ended

    return draw


@pytest.fixture
def refused(command, tmp_path):
    """Returns the line with which a file is refused, of whose machine there are so many components."""

    def refusal(file, machine="plain"):
        (tmp_path / "bad.events").write_bytes(file)
        ended = command("timeline", "bad.events", "--machine", machine, "--out", "bad.json")
        assert (ended.returncode, ended.stdout) == (2, "")
        assert ended.stderr.count("\n") == 1 and not list(tmp_path.glob("*bad.json*"))
        return ended.stderr.strip().removeprefix("zsim-tools: ")

    return refusal


def test_events_are_slices_with_waiting_and_service(drawn):
    kinds, ended = drawn(file_of(2, TWO_MISSES))
    assert [(slice["name"], slice["ts"], slice["dur"]) for slice in kinds["X"]] == [
        ("lookup", 2, 10),
        ("read", 12, 100),
        ("fill", 112, 2),
        ("lookup", 2, 14),
        ("read", 16, 116),
        ("fill", 132, 2),
        ("lookup", 10050, 10),
    ]
    told = kinds["X"][4]["args"]
    assert (told["start"], told["waiting"], told["service"], told["finish"]) == (16, 16, 100, 132)
    assert (told["core"], told["interval"], told["event"], told["last of its access"]) == (1, 0, 4, False)
    assert kinds["X"][5]["args"]["last of its access"]
    assert "7 events and 4 arrows" in ended.stderr


def test_a_slice_that_waited_is_split(drawn):
    """The second core's look-up waits until 6, its read starts at 16 and waits until 32, and its fill waits for nothing."""
    kinds, _ = drawn(file_of(2, TWO_MISSES))
    split = [(entry["pid"], entry["tid"], entry["name"], entry["ts"], entry["dur"]) for entry in kinds["split"]]
    assert split == [
        (1, 3, "waiting", 2, 4),
        (1, 3, "service", 6, 10),
        (2, 3, "waiting", 16, 16),
        (2, 3, "service", 32, 100),
    ]
    assert [(slice["args"]["earliest"], slice["args"]["late"]) for slice in kinds["X"][3:6]] == [(2, 0), (12, 4), (112, 20)]


def test_waiting_and_service_are_those_of_the_report(drawn, tmp_path):
    """On a machine of two cores and one bank, whose components have other times than the built-in one's."""
    machine = read_machine("plain").changed({"cores": 2, "l2.occupancy": 30, "controllers.read": 70, "l2.fill": 3})
    (tmp_path / "two.toml").write_text(machine.text)
    # (ld x5, -8(x2); ld x6, -72(x2); exit)
    report, file = run_model(machine.text, "FF813283 FB813303 05D00893 00000073")
    kinds, _ = drawn(file, machine="two.toml")
    service = {"lookup": 10, "read": 70, "fill": 3}
    for slice in kinds["X"]:
        assert slice["args"]["service"] == service[slice["name"]] == slice["dur"] - slice["args"]["waiting"]
    report = parse_report(report)
    for pid, part in enumerate((*report.bank_list, *report.controller_list), 1):
        slices = [slice for slice in kinds["X"] if slice["pid"] == pid]
        assert len(slices) == part.counters["events"]
        assert sum(slice["args"]["waiting"] for slice in slices) == part.counters["waited"]
    assert sum(part.counters["waited"] for part in report.bank_list) > 0


def test_components_and_cores_have_tracks(drawn):
    kinds, _ = drawn(file_of(2, TWO_MISSES))
    named = {(entry["name"], entry["pid"], entry["tid"]): entry["args"] for entry in kinds["M"]}
    names = {key[1:]: told["name"] for key, told in named.items() if key[0] == "thread_name"}
    assert names == {(1, 1): "core 0", (1, 3): "core 1", (2, 1): "core 0", (2, 3): "core 1"}
    processes = {key[1]: told["name"] for key, told in named.items() if key[0] == "process_name"}
    assert processes == {1: "bank 0", 2: "controller 0", 3: "intervals"}
    assert {slice["pid"] for slice in kinds["X"] if slice["name"] == "read"} == {2}


def test_intervals_are_marks(drawn):
    kinds, _ = drawn(file_of(2, TWO_MISSES))
    assert [(mark["name"], mark["ts"], mark["s"]) for mark in kinds["i"]] == [
        ("interval 0", 0, "g"),
        ("interval 1", 10000, "g"),
        ("interval 2", 20000, "g"),
    ]


def test_arrows_lead_from_slice_to_slice(drawn):
    kinds, _ = drawn(file_of(2, TWO_MISSES))
    assert [arrow["id"] for arrow in kinds["s"]] == [arrow["id"] for arrow in kinds["f"]] == [0, 1, 2, 3]
    for end in ("s", "f"):
        for arrow in kinds[end]:
            tracks = [slice for slice in kinds["X"] if (slice["pid"], slice["tid"]) == (arrow["pid"], arrow["tid"])]
            assert [s["ts"] <= arrow["ts"] < s["ts"] + s["dur"] for s in tracks].count(True) == 1
    assert [(arrow["pid"], arrow["ts"]) for arrow in kinds["f"]] == [(2, 12), (1, 112), (2, 16), (1, 132)]


@pytest.mark.parametrize(
    "words, slices, arrows, marks",
    [
        (["--to", "10000"], 6, 4, 1),
        (["--from", "10000"], 1, 0, 2),
        (["--from", "20", "--to", "113"], 3, 1, 0),
        (["--core", "1"], 3, 2, 3),
        (["--core", "0", "--core", "1", "--to", "1"], 0, 0, 1),
        (["--core", "2"], 0, 0, 3),
    ],
)
def test_timelines_are_cut(drawn, words, slices, arrows, marks):
    kinds, _ = drawn(file_of(2, TWO_MISSES), *words)
    assert [len(kinds.get(kind, ())) for kind in "Xsfi"] == [slices, arrows, arrows, marks]


def test_slices_of_a_track_do_not_overlap(drawn, tmp_path):
    """Two cores with an L1 of one line and an L2 of two store to line after line, so that lines are written back."""
    text = read_machine("plain").text
    for old, new in (("cores = 1", "cores = 2"), ("interval = 10000", "interval = 300"), ("sets = 4", "sets = 1")):
        text = text.replace(old, new)
    (tmp_path / "two.toml").write_text(text)
    # (x6 = 12; sd x0, -8(x2); addi x2, x2, -64; addi x6, x6, -1; bne x6, x0, -12; exit)
    _, file = run_model(text, "00C00313 FE013C23 FC010113 FFF30313 FE031AE3 05D00893 00000073")
    kinds, _ = drawn(file, machine="two.toml")
    tracks = {}
    for slice in kinds["X"]:
        tracks.setdefault((slice["pid"], slice["tid"]), []).append(slice)
    assert len(tracks) == 6 and any(slice["name"] == "write" for slice in kinds["X"])
    for slices in tracks.values():
        slices.sort(key=lambda slice: slice["ts"])
        assert all(one["ts"] + one["dur"] <= other["ts"] for one, other in zip(slices, slices[1:]))


def test_memory_does_not_grow_with_the_file(tmp_path, monkeypatch):
    """A parent that is read again is the first event, which is long past."""
    monkeypatch.setattr("zsim_tools.events.CHUNK", 64)
    chain = [Told(0, LOOKUP, 0, 10)] + [Told(0, LOOKUP, 10, 20, first=(0, 0))] * 150
    peaks = []
    for copies in (1, 20):
        (tmp_path / "long.events").write_bytes(file_of(2, [chain] * copies))
        tracemalloc.start()
        slices, arrows = write_timeline(tmp_path / "long.events", read_machine("plain"), tmp_path / "long.json")
        peaks.append(tracemalloc.get_traced_memory()[1])
        tracemalloc.stop()
        assert (slices, arrows) == (copies * len(chain), copies * (len(chain) - 1))
    assert peaks[1] < 1.2 * peaks[0]


GOOD = file_of(2, TWO_MISSES)


def changed(at, data):
    return GOOD[:at] + data + GOOD[at + len(data) :]


@pytest.mark.parametrize(
    "file, line",
    [
        (b"", "byte 0: the file ends within its first word, which begins here"),
        (b"ZSCH", "no events file: it does not begin with ZSEV"),
        (changed(4, b"\2"), "byte 4: an events file of version 2; these tools read version 1"),
        (changed(8, b"\3"), "byte 8: it is of a machine of 3 components, and plain has 2"),
        (GOOD[:14], "byte 12: the file ends within its number of intervals, which begins here"),
        (GOOD[:18], "byte 16: the file ends within the number of events of interval 0, which begins here"),
        (GOOD[:403], "byte 340: the file ends within event 5 of interval 0, which begins here"),
        (GOOD + b"\0", "byte 476: the file goes on behind its last event"),
        (changed(20, b"\2"), "byte 20: event 0 of interval 0: there is no component 2: plain has 2"),
        (changed(88, b"\7"), "byte 84: event 1 of interval 0: there is no kind 7"),
        (changed(88, b"\0"), "byte 84: event 1 of interval 0: controller 0 serves no lookup"),
        (changed(89, b"\x0a"), "byte 84: event 1 of interval 0: there are no flags 10"),
        (changed(90, b"\1"), "byte 84: event 1 of interval 0: a field that has no meaning for it is not 0"),
        (changed(89, b"\0\0\0\0"), None),
        (changed(108, b"\1"), "byte 84: event 1 of interval 0: its first parent is event 1, which does not come before it"),
        (
            changed(84 + 63, b"\x10"),
            f"byte 84: event 1 of interval 0: its finish of {2**60 + 112} cycles is not below 2^60",
        ),
        (
            changed(84 + 56, b"\x50"),
            "byte 84: event 1 of interval 0: it took 68 cycles, and a read of controller 0 takes 100 at least",
        ),
        (changed(84 + 16, b"\x0d"), "byte 84: event 1 of interval 0: it starts at 12, before its earliest start, which is 13"),
    ],
)
def test_bad_files_are_refused_in_a_line(refused, drawn, file, line):
    if line is None:  # (a read without a parent is one that waits for nothing)
        assert len(drawn(file)[0]["s"]) == 3
    else:
        assert refused(file) == (f"bad.events: {line}")


def test_other_inputs_are_refused(command, tmp_path):
    (tmp_path / "good.events").write_bytes(GOOD)
    (tmp_path / "bad.toml").write_text("version = 1\n")
    for words, line in (
        (["none.events", "--machine", "plain"], "cannot read: none.events: No such file or directory"),
        ([".", "--machine", "plain"], "cannot read: .: Is a directory"),
        (["/dev/null", "--machine", "plain"], "cannot read: /dev/null: it is no regular file"),
        (["good.events", "--machine", "bad.toml"], "bad.toml: zsim: machine 2 cores"),
        (["good.events", "--machine", "plain", "--out", "none/a.json"], "cannot write: none/a.json: none is no folder"),
        (["good.events", "--machine", "plain", "--from", "-1"], "usage: argument --from: -1 is no whole number"),
    ):
        ended = command("timeline", *words, *([] if "--out" in words else ["--out", "a.json"]))
        assert ended.returncode == 2 and ended.stderr.startswith(f"zsim-tools: {line}")


def test_a_full_write_back_has_two_parents(drawn):
    """A miss whose victim is dirty: its fill waits for the read and for the write, which goes on beside it."""
    miss = [
        Told(0, LOOKUP, 2, 12),
        Told(1, READ, 12, 112, first=(0, 0)),
        Told(1, WRITE, 12, 72, first=(0, 0)),
        Told(0, FILL, 112, 114, first=(1, 0), second=(2, 40), last=True),
    ]
    kinds, _ = drawn(file_of(2, [miss]))
    assert [slice["tid"] for slice in kinds["X"]] == [1, 1, 2, 1]
    assert kinds["X"][2]["args"]["waiting"] == 20
    assert [arrow["ts"] for arrow in kinds["f"]] == [12, 12, 112, 112]


def test_links_have_groups(command, tmp_path):
    """A look-up of a core at another node than its bank: a hop there, and one back, which waits."""
    text = read_machine("plain").text.replace("version = 1", "version = 3")
    (tmp_path / "mesh.toml").write_text(text + "\n[mesh]\nwidth = 2\nheight = 1\nhop = 3\noccupancy = 2\n")
    way = [Told(7, HOP, 2, 5, first=None), Told(0, LOOKUP, 5, 15, first=(0, 0)), Told(2, HOP, 15, 19, first=(1, 0))]
    (tmp_path / "mesh.events").write_bytes(file_of(10, [way]))
    assert command("timeline", "mesh.events", "--machine", "mesh.toml", "--out", "mesh.json").returncode == 0
    entries = json.loads((tmp_path / "mesh.json").read_text())["traceEvents"]
    names = {entry["pid"]: entry["args"]["name"] for entry in entries if entry["name"] == "process_name"}
    assert names == {8: "link 5", 1: "bank 0", 3: "link 0", 11: "intervals"}
    hops = [(entry["pid"], entry["args"]["waiting"]) for entry in entries if entry["name"] == "hop"]
    assert hops == [(8, 0), (3, 1)]
    printed = command("series", "mesh.events", "--machine", "mesh.toml", "--csv").stdout.splitlines()
    row = dict(zip(printed[0].split(","), printed[1].split(",")))
    assert (row["link0_waited"], row["link5_events"], row["hop_events"], row["events"]) == ("1", "1", "2", "3")
