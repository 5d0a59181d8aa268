"""What the numbers of a machine come to: compared with numbers that were worked out by hand; and its drawing."""

import json

import pytest
from test_explain import MESH, PIPE, VERSION_3, WITH_L1I
from test_plots import size_of

import zsim_tools
from zsim_tools.describe import (
    accesses_of,
    caches_of,
    controllers_of,
    description_of,
    general_of,
    longest_miss,
    notes_of,
    ways_of,
)
from zsim_tools.drawing import draw
from zsim_tools.machine import parse_machine


def cycles_of(values):
    return [access.cycles for access in accesses_of(values)]


def test_the_numbers_of_the_built_in_machine():
    """L1 1, L2 10 and 5 more, read 100, write 40, fill 2: a miss takes 113, as docs/programs.md has it."""
    values = zsim_tools.read_machine("plain").values
    assert cycles_of(values) == [1, 11, 16, 11, 16, 113, 113]
    assert [access.hops for access in accesses_of(values)] == [0, 1, 1, 1, 1, 2, 2]
    assert (accesses_of(values)[5].bank, accesses_of(values)[5].controller) == (8, 20)
    assert caches_of(values) == [("L1", "each core, data", 2, 1, 0.125), ("L2", "1 banks in all", 4, 2, 0.5)]
    assert controllers_of(values) == [(0, 1, [0], 3.2)] and notes_of(values) == []


def test_a_write_that_takes_longer_than_a_read():
    values = zsim_tools.read_machine("plain").changed({"controllers.write": 140}).values
    assert cycles_of(values)[-2:] == [113, 153]


def test_a_machine_with_instruction_caches():
    values = parse_machine(WITH_L1I.replace("latency = 1\n[l2]", "latency = 3\n[l2]"), "two").values
    fetches = [(access.name, access.cycles) for access in accesses_of(values) if access.name.startswith("fetch")]
    assert fetches == [
        ("fetch: L1I hit", 3),
        ("fetch: L2 hit", 13),
        ("fetch: miss, clean victim", 115),
        ("fetch: miss, dirty victim", 115),
    ]
    assert [row[0] for row in caches_of(values)] == ["L1", "L1I", "L2"]


def test_a_machine_with_pipelines():
    machine = parse_machine(VERSION_3 + PIPE, "three")
    assert general_of(machine.values)[-3:] == [
        ["a product is ready after", "3 cycles"],
        ["a quotient is ready after", "20 cycles"],
        ["a wrong prediction costs", "4 cycles; 16 counters predict"],
    ]
    assert description_of(machine)["pipeline"] == {"mul": 3, "div": 20, "entries": 16, "penalty": 4}
    assert description_of(parse_machine(VERSION_3, "three"))["pipeline"] is None


def test_a_machine_with_a_mesh(repository):
    """The core and the bank are at node 0, and the controller is at node 1."""
    machine = parse_machine(VERSION_3 + MESH, "three")
    assert [tuple(way) for way in ways_of(machine.values)] == [("core to bank", 0, 0, 0), ("bank to controller", 1, 1, 1)]
    assert longest_miss(machine.values) == 119 and longest_miss(parse_machine(VERSION_3, "three").values) == 113
    assert ["bytes a cycle of a link", "32"] in general_of(machine.values)
    assert description_of(machine)["mesh"] == {"width": 2, "height": 1, "hop": 3, "occupancy": 2}
    assert description_of(parse_machine(VERSION_3, "three"))["mesh"] is None
    # From any of 64 nodes to any other: along x as along y 21 / 8 in the mean.
    tiles = zsim_tools.read_machine(repository / "examples/machines/tiles.toml")
    assert tuple(ways_of(tiles.values)[0]) == ("core to bank", 0, 5.25, 14) and notes_of(tiles.values) == []


def test_what_is_worth_a_second_look():
    machine = zsim_tools.read_machine("plain").changed(
        {"cores": 2, "interval": 1000, "controllers.count": 2, "domains.controllers": [1, 1], "domains.count": 4}
    )
    assert notes_of(machine.values) == [
        "an interval of 1000 cycles is shorter than 10 misses of 113 cycles",
        "no bank goes through the controllers 1",
        "the stacks of all cores begin in one set of the L2: have memory.stack a line more or less",
        "2 of the 4 domains have no component",
    ]


def test_the_examples_need_no_second_look(repository):
    for name in ("microcontroller", "laptop", "desktop", "server"):
        assert notes_of(zsim_tools.read_machine(repository / f"examples/machines/{name}.toml").values) == []


def test_the_command(command, repository, tmp_path):
    desktop = repository / "examples/machines/desktop.toml"
    ended = command("describe", desktop, "--out", "desktop.png")
    assert (ended.returncode, ended.stderr) == (0, "") and size_of(tmp_path / "desktop.png") == (1125, 750)
    lines = [line.split() for line in ended.stdout.splitlines()]
    for line in ("L2 4 banks in all 8192 16 8192", "miss, clean victim 348 2 4 10", "1 1 1, 3 6.4", "L1 hit 4 0 0 0"):
        assert line.split() in lines, line
    described = json.loads(command("describe", desktop, "--json").stdout)
    assert described["accesses"][0] == {"name": "L1 hit", "cycles": 4, "hops": 0, "bank": 0, "controller": 0}


@pytest.mark.parametrize("out", ["a.gif", "no/a.png"])
def test_a_drawing_that_cannot_be_written(command, out):
    ended = command("describe", "plain", "--out", out)
    assert ended.returncode == 2 and ended.stderr.startswith(f"zsim-tools: cannot write: {out}: ")


def test_a_description_that_zsim_refuses_is_explained(command, tmp_path):
    plain = zsim_tools.read_machine("plain").text
    (tmp_path / "bad.toml").write_text(plain.replace("ways = 1", "ways = 17"))
    ended = command("describe", "bad.toml", "--out", "a.png")
    assert (ended.returncode, ended.stdout) == (2, "") and not (tmp_path / "a.png").exists()
    assert ended.stderr.startswith("zsim-tools: bad.toml: zsim: machine 4 l1.ways 17: `l1.ways`")
    assert ended.stderr.endswith("from 1 to 16. It stands in line 13 of the description.\n")


def boxes_of(figure):
    """Returns the colours of the boxes by what they stand for."""
    return {patch.get_label(): patch.get_facecolor() for patch in figure.axes[0].patches}


@pytest.mark.parametrize("name, cores, banks, controllers", [("desktop", 4, 4, 2), ("server", 16, 16, 8)])
def test_what_is_drawn(repository, tmp_path, name, cores, banks, controllers):
    machine = zsim_tools.read_machine(repository / f"examples/machines/{name}.toml")
    figure = draw(machine, tmp_path / "a.svg")
    boxes = boxes_of(figure)
    kinds = [label.split()[0] for label in boxes]
    assert [kinds.count(kind) for kind in ("core", "bank", "controller")] == [cores, banks, controllers]
    # A bank and a controller of one domain have one colour, and cores have none.
    assert boxes["bank 1"] == boxes["controller 1"] != boxes["bank 0"] and boxes["core 0"][0] == pytest.approx(0.92)
    # The bar, a link for each core and for each bank below and above it, and one from each bank to its controller.
    assert len(figure.axes[0].lines) == 1 + cores + banks + banks
    texts = " ".join(text.get_text() for text in figure.axes[0].texts)
    for told in ("every core reaches every bank", f"{banks} banks", "bytes a cycle each", "miss, dirty victim: "):
        assert told in texts
    assert f"{name}.toml" in figure.axes[0].get_title() and (tmp_path / "a.svg").read_text().startswith("<?xml")


def test_the_largest_machine_is_drawn(tmp_path):
    machine = zsim_tools.read_machine("plain").changed(
        {"cores": 64, "l2.banks": 64, "l1.sets": 64, "l2.sets": 64, "domains.banks": [0] * 64}
    )
    figure = draw(machine, tmp_path / "a.pdf")
    assert len(boxes_of(figure)) == 64 + 64 + 1 and (tmp_path / "a.pdf").read_bytes().startswith(b"%PDF")
    boxes = [text.get_window_extent() for text in figure.axes[0].texts]
    assert not any(one.overlaps(other) for one, other in zip(boxes, boxes[1:]))
