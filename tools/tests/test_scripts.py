"""The scripts `zsim`, `zprof` and `prove`, over a small `rt` that stands in for the kit's."""

import os
import re
import shutil
import subprocess

import pytest

# It prints the words that follow its first `--`, and ends as `rt try` does.
TRY = """#!/bin/sh
while [ "$1" != -- ]; do shift; done
shift
printf '[%s]\\n' "$@"
printf 'zsim: elf 2\\nchecked: ended status=7\\n%s proved=no\\n' "${ENDED-run=ended status=7 runners=1}" >&2
exit 3
"""

# It says that two crates are proved, and builds the program of the folder that it is called in.
PROVE = """#!/bin/sh
name=${PWD##*/}
case $1 in
    all) printf '== zs_num\\n== zsim_main\\n== summary\\n' && exit "${PROVED-0}" ;;
    run) mkdir -p out && printf '#!/bin/sh\\necho '"$name"' "$@"\\nexit 9\\n' >"out/$name" && chmod +x "out/$name" ;;
esac
"""


@pytest.fixture
def checkout(repository, tmp_path):
    """Runs a script of a checkout that has no program yet, in a folder with a space in its name."""
    for name in ("zsim_main", "zprof_main"):
        (tmp_path / "top/crates" / name).mkdir(parents=True)
    (tmp_path / "top/tools").mkdir()
    (tmp_path / "bin").mkdir()
    (tmp_path / "a folder").mkdir()
    for name in ("zsim", "zprof", "prove", "crates.txt", "tools/launch"):
        shutil.copy(repository / name, tmp_path / "top" / name)

    def run(script, *words, rt=TRY, **variables):
        (tmp_path / "bin/rt").write_text(rt)
        (tmp_path / "bin/rt").chmod(0o755)
        environment = {**os.environ, "PATH": f"{tmp_path}/bin:{os.environ['PATH']}", **variables}
        return subprocess.run(
            [tmp_path / "top" / script, *words], cwd=tmp_path / "a folder", env=environment, capture_output=True
        )

    return run


@pytest.mark.parametrize(
    "words, wanted",
    [
        ("run plain a.elf", "run plain L/a.elf"),
        ("run ./plain plain --record x --workers 3 --brief", "run L/./plain L/plain --record L/x --workers 3 --brief"),
        ("replay m.toml gen:5 --schedule=s=t", "replay L/m.toml gen:5 --schedule=L/s=t"),
        ("run gen:5 gen:5", "run L/gen:5 gen:5"),
        ("run --record - -- -x -y", "run --record L/- -- L/-x L/-y"),
        ("run plain /abs --record /abs2 --record=", "run plain /abs --record /abs2 --record="),
        ("run plain x --record -x y", "run plain L/x --record -x L/y"),
        ("run --workers --brief plain x*", "run --workers --brief plain L/x*"),
        ("run plain x --events a --workers=2 --events=b", "run plain L/x --events L/a --workers=2 --events=L/b"),
        ("check m.toml plain", "check L/m.toml L/plain"),
    ],
)
def test_names_are_handed_on_below_a_link(checkout, words, wanted):
    check_handed_on(checkout("zsim", *words.split()), wanted)


def check_handed_on(ended, wanted):
    found = re.sub(r"/[^=\s]*/here/", "L/", ended.stdout.decode())  # L for the link to the folder of the call
    assert found.splitlines() == [f"[{word}]" for word in wanted.split()]
    assert ended.returncode == 7


@pytest.mark.parametrize(
    "words, wanted",
    [
        ("plain a.elf --out f", "plain L/a.elf --out L/f"),
        ("m.toml gen:5 --out=f --every 3 --schedule s --brief", "L/m.toml gen:5 --out=L/f --every 3 --schedule L/s --brief"),
        ("--separate-cores ./plain gen:5 --every=2 --out /f", "--separate-cores L/./plain gen:5 --every=2 --out /f"),
    ],
)
def test_those_of_zprof_too(checkout, words, wanted):
    check_handed_on(checkout("zprof", *words.split()), wanted)


def test_words_that_are_not_text_are_not_handed_on(checkout):
    assert checkout("zsim", b"run", b"plain", b"\xff").stdout == b"[]\n"


def test_an_unproved_run_says_what_the_program_said(checkout):
    ended = checkout("zsim", "run", "plain", "x")
    first, second = ended.stderr.decode().splitlines()
    assert first.startswith("zsim: not proved") and "./prove" in first and second == "zsim: elf 2"


def test_a_run_without_an_answer_is_told(checkout):
    ended = checkout("zsim", "run", "plain", "x", ENDED="run=no-answer")
    assert ended.returncode == 1 and b"run=no-answer" in ended.stderr and b"has no answer" in ended.stderr


def test_the_proved_program_is_taken(checkout):
    assert checkout("prove", "--is-done").returncode == 1
    ended = checkout("prove", rt=PROVE)
    assert ended.returncode == 0 and re.search(rb" 2 of \d+ crates are proved", ended.stderr)
    assert checkout("prove", "--is-done").returncode == 0
    ended = checkout("zsim", "run", "plain", "x")
    assert (ended.returncode, ended.stdout, ended.stderr) == (9, b"zsim_main run plain x\n", b"")
    assert checkout("zprof", "plain", "x").stdout == b"zprof_main plain x\n"


def test_a_proof_that_fails_is_told(checkout):
    ended = checkout("prove", rt=PROVE, PROVED="1")
    assert ended.returncode == 1 and b"could not be proved" in ended.stderr
    assert checkout("prove", "--is-done").returncode == 1
