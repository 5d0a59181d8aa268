"""The page of the profiler as it stands: its files are written, its commands are run one after the other, and what they
print is what the page shows."""

import shutil

import pytest
from pages import clone_of, parts_of, run_page
from test_plots import size_of


@pytest.fixture
def clone(built_zprof, repository, tmp_path):
    pytest.importorskip("elftools", reason="there is no pyelftools")
    for name in ("callgrind_annotate", "patch"):
        if shutil.which(name) is None:
            pytest.skip(f"there is no {name}")
    return clone_of(repository, tmp_path, zprof=built_zprof)


def test_the_page_of_the_profiler_as_it_stands(clone, repository):
    parts = parts_of((repository / "docs/profile.md").read_text())
    assert [kind for kind, _, _ in parts].count("file") == 6 and len(parts) == 44
    run_page(parts, clone)
    for drawn, stored in (("lines.png", "profile_lines.png"), ("misses.png", "profile_misses.png")):
        assert size_of(clone / "trial" / drawn) == size_of(repository / "docs/plots" / stored) == (1050, 420)
