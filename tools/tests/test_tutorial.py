"""The tutorial as it stands: its files are written, its commands are run one after the other, and what they print is
what the page shows."""

import os
import shlex

import pytest
from pages import clone_of, parts_of, run_page
from test_plots import bars_of, size_of, texts_of, ticks_of

from zsim_tools import plots


@pytest.fixture
def clone(built_zsim, repository, tmp_path):
    return clone_of(repository, tmp_path, zsim=built_zsim)


def test_the_tutorial_as_it_stands(clone, built_zsim, repository, monkeypatch, command):
    parts = parts_of((repository / "docs/tutorial.md").read_text())
    assert [kind for kind, _, _ in parts].count("file") == 4 and len(parts) == 20
    run_page(parts, clone, {**os.environ, "ZSIM": os.path.abspath(built_zsim)})
    draw_again(clone, repository, monkeypatch, command, [what for kind, what, _ in parts if " plot " in what])


def draw_again(clone, repository, monkeypatch, command, lines):
    """Draws the figures again in this process, to look at what is in them."""
    figures = []
    monkeypatch.setattr(
        "zsim_tools.plots.save", lambda figure, out, save=plots.save: (figures.append(figure), save(figure, out))
    )
    for line, stored in zip(lines, ("tutorial.png", "tutorial_ways.png"), strict=True):
        _, *words = shlex.split(line.replace("\\\n", " "))
        assert command(*words).returncode == 0
        assert size_of(clone / words[-1]) == size_of(repository / "docs/plots" / stored) == (510, 360)
    curves, bars = (figure.axes[0] for figure in figures)
    assert (curves.get_xlabel(), curves.get_xscale()) == ("size of the L1 (KiB)", "log")
    assert curves.get_ylabel().replace("\n", " ") == "misses in the L1 per 1000 instructions"
    assert texts_of(curves) == ["transpose, 1", "transpose, 8", "transpose_blocked, 1", "transpose_blocked, 8"]
    assert list(curves.containers[1].lines[0].get_xdata()) == [2, 4, 8, 16, 32]
    assert bars.get_ylabel().replace("\n", " ") == "speed-up over ways of the L1 = 1"
    assert ticks_of(bars.xaxis) == ["transpose", "transpose_blocked", "geometric mean"]
    heights = bars_of(bars)
    assert list(heights) == ["1", "2", "4", "8"] and heights["1"] == [1, 1, 1]
    assert heights["8"][2] == pytest.approx((heights["8"][0] * heights["8"][1]) ** 0.5)
