"""The drawing of a mesh: which links it has, where they lead, and how dark they are."""

import re
import shlex
import subprocess

import pytest
from conftest import WORKED
from test_plots import size_of

from zsim_tools.machine import parse_machine, read_machine
from zsim_tools.mesh_plot import numbers_of, plot_mesh, told
from zsim_tools.report import parse_report

# Three nodes by two, with two cores, two banks and a controller.
TEXT = read_machine("plain").changed({"cores": 2, "l2.banks": 2, "domains.banks": [0, 0]}).text
MESHED = TEXT.replace("version = 1", "version = 3") + "\n[mesh]\nwidth = 3\nheight = 2\nhop = 3\noccupancy = 2\n"
# The links with events: from node 0 to 1 and back, from 1 down to 4 and back, from 4 to 5 and back.
EVENTS = {0: (10, 0), 5: (10, 5), 7: (4, 4), 18: (4, 0), 16: (4, 2), 21: (4, 40)}
LINES = [
    f"link {link} events {EVENTS.get(link, (0, 0))[0]} waited {EVENTS.get(link, (0, 0))[1]} free {100 * (link in EVENTS)}"
    for link in range(24)
]
REPORT = (
    WORKED.replace("report 1", "report 3")
    .replace("events 160", "events 196")
    .replace("atomics 0", "atomics 0 fetches 0")
    .replace("atomics 50", "atomics 50 fetches 0")
) + "".join(f"{line}\n" for line in LINES)


@pytest.fixture
def meshed(tmp_path):
    (tmp_path / "meshed.toml").write_text(MESHED)
    (tmp_path / "meshed.txt").write_text(REPORT)
    machine = parse_machine(MESHED, "meshed.toml")
    return parse_report(REPORT, "meshed.txt", machine), machine


def arrows_of(figure):
    return {patch.get_label(): patch for patch in figure.axes[0].patches if patch.get_label().startswith("link ")}


def test_links_lead_from_node_to_node(meshed, tmp_path):
    figure = plot_mesh(*meshed, tmp_path / "a.png", size=(6.0, 4.0))
    assert size_of(tmp_path / "a.png") == (900, 600)
    arrows = arrows_of(figure)
    # (of 24 links 10 lead out of the mesh)
    assert len(arrows) == 14 and {f"link {link}" for link in EVENTS} < set(arrows)
    ends = {name: arrow._posA_posB for name, arrow in arrows.items()}
    begin, end = ends["link 0"]
    assert 0 < begin[0] < end[0] < 1 and begin[1] == end[1] > 0
    begin, end = ends["link 5"]
    assert 0 < end[0] < begin[0] < 1 and begin[1] == end[1] < 0
    begin, end = ends["link 7"]
    assert 0 < begin[1] < end[1] < 1 and begin[0] == end[0] < 1
    assert (figure.axes[0].get_title(), figure.axes[1].get_ylabel()) == ("meshed.txt on meshed.toml", "waiting for the links (cycles)")


def test_the_more_was_waited_the_darker(meshed, tmp_path):
    for y, ordered in (("waited", (0, 16, 7, 5, 21)), ("wait", (0, 16, 7, 21)), ("busy", (7, 0))):
        arrows = arrows_of(plot_mesh(*meshed, tmp_path / "a.svg", y=y))
        light = [sum(arrows[f"link {link}"].get_edgecolor()[:3]) for link in ordered]
        assert light == sorted(set(light), reverse=True)


def test_nodes_have_their_parts(meshed, tmp_path):
    plot_mesh(*meshed, tmp_path / "a.svg")
    text = (tmp_path / "a.svg").read_text()
    for name in ("core 0", "core 1", "bank 0", "bank 1", "mem 0"):
        assert name in text
    assert ">40<" in text  # (the number beside a link)
    assert [told("core ", [0, 2]), told("core ", [0, 1, 2]), told("m", [7])] == ["core 0,2", "3 cores", "m7"]


def test_numbers_of_links(meshed):
    report, machine = meshed
    waits = numbers_of(report, machine.values, "wait")
    assert (waits[5], waits[21], waits[1]) == (0.5, 10, None)


def test_the_command(command, meshed, tmp_path):
    ended = command("plot", "--mesh", "meshed.txt", "meshed.toml", "--y", "wait", "--out", "a.pdf", "--title", "Two cores")
    assert (ended.returncode, ended.stdout, ended.stderr) == (0, "", "")
    assert (tmp_path / "a.pdf").read_bytes().startswith(b"%PDF")


def test_the_drawing_of_the_document(command, repository, tmp_path):
    """Draws it as the document says, from a stored report. A person looked at the one that stands there."""
    text = (repository / "docs/tools.md").read_text().replace("\\\n", " ")
    (line,) = re.findall(r"(?m)^    tools/zsim-tools (plot --mesh .*--out mesh[.]png)$", text)
    (tmp_path / "tiles.txt").write_bytes((repository / "tools/tests/data/tiles.txt").read_bytes())
    words = shlex.split(line.replace("examples/", f"{repository}/examples/"))
    assert command(*words).returncode == 0 and "](plots/mesh.png)" in text
    assert size_of(tmp_path / "mesh.png") == size_of(repository / "docs/plots/mesh.png")
    links = parse_report((tmp_path / "tiles.txt").read_text()).link_list
    waits = [links[4 * node + 2].counters["waited"] for node in range(50, 2, -8)]
    assert waits == [114, 218, 324, 430, 530, 634] and f"{', '.join(map(str, waits[:-1]))} and {waits[-1]} cycles" in text


def test_the_stored_report_is_that_of_zsim(built_zsim, repository):
    words = [built_zsim, "run", repository / "examples/machines/tiles.toml", repository / "examples/c/sum.elf"]
    said = subprocess.run(words, capture_output=True, text=True, check=True).stdout
    assert said == (repository / "tools/tests/data/tiles.txt").read_text()


@pytest.mark.parametrize(
    "words, line",
    [
        (["--mesh", "worked.txt", "plain"], "plain: has no mesh to draw"),
        (["--mesh", "brief.txt", "meshed.toml"], "brief.txt: has no links; a brief report tells nothing of them"),
        (["--mesh", "meshed.txt", "meshed.toml", "--y", "cpi"], "--y cpi: a mesh is drawn with waited, wait, events or"),
        (["--mesh", "meshed.txt", "meshed.toml", "--x", "cores"], "usage: --mesh draws a report: with --y, --title,"),
        (["t.csv", "--mesh", "meshed.txt", "meshed.toml"], "usage: --mesh draws a report"),
        (["t.csv", "--x", "cores"], "usage: the following arguments are required: --y"),
        (["--x", "cores", "--y", "cpi"], "usage: the following arguments are required: TABLE"),
    ],
)
def test_refusals(command, meshed, tmp_path, words, line):
    one = WORKED.replace("bank 1 events 20 waited 0 free 3000\n", "").replace("events 160", "events 140")
    one = one.replace("cores 2", "cores 1").replace(one[one.index("core 1 inst") : one.index("bank 0")], "")
    one = one.replace("instructions 3000", "instructions 1000").replace("accesses 1300", "accesses 600")
    (tmp_path / "worked.txt").write_text(one)
    (tmp_path / "brief.txt").write_text("".join(REPORT.splitlines(keepends=True)[:7]))
    ended = command("plot", *words, "--out", "a.png")
    assert (ended.returncode, ended.stdout) == (2, "") and ended.stderr.startswith(f"zsim-tools: {line}")
