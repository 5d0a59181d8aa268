"""The script that turns schedule files into text and back."""

import re
import subprocess
import sys

import pytest

RACE = b"ZSCH" + bytes([1, 0, 0, 0, 4, 0, 0, 0, 1, 0, 0, 0, 8, 0, 0, 0, 0, 0, 1, 1, 2, 2, 3, 3])
TWO = b"ZSCH" + bytes([1, 0, 0, 0, 2, 0, 0, 0, 2, 0, 0, 0, 1, 0, 0, 0, 1, 0, 0, 0, 0])
MANY = b"ZSCH" + bytes([2, 0, 0, 0, 65, 0, 0, 0, 1, 0, 0, 0, 2, 0, 0, 0, 64, 0, 3, 0])


@pytest.fixture
def schedule(repository, tmp_path):
    """Runs the script in a folder of its own."""

    def run(*words, data=b""):
        script = [sys.executable, repository / "examples/schedule.py", *words]
        return subprocess.run(script, cwd=tmp_path, input=data, capture_output=True, timeout=60, check=False)

    return run


@pytest.mark.parametrize("data, text", [(RACE, b"0 0 1 1 2 2 3 3\n"), (TWO, b"1\n\n"), (MANY, b"64 3\n")])
def test_a_file_is_its_text(schedule, tmp_path, data, text):
    (tmp_path / "one").write_bytes(data)
    ended = schedule("text", "one")
    assert (ended.returncode, ended.stdout, ended.stderr) == (0, text, b"")
    cores = str(data[8])
    assert schedule("file", cores, "two", data=text).returncode == 0
    assert (tmp_path / "two").read_bytes() == data


# Files of which something is wrong, for as many cores as they say themselves, and how the refusal begins.
BAD = [
    (b"", "zsim: schedule 1 0: "),
    (RACE[:2], "zsim: schedule 1 0: "),
    (b"ZSCX" + RACE[4:], "zsim: schedule 2: "),
    (RACE[:7], "zsim: schedule 1 4: "),
    (RACE.replace(b"H\x01", b"H\x02"), "zsim: schedule 3 2: "),
    (RACE.replace(b"\x04", b"\x41"), "zsim: schedule 3 1: "),
    (MANY.replace(b"A\x00", b"\x01\x01"), "zsim: schedule 4 257: "),
    (MANY[:-1], "zsim: schedule 1 20: "),
    (MANY.replace(b"\x03", b"A"), "zsim: schedule 5 0 1: "),
    (RACE[:-1], "zsim: schedule 1 20: "),
    (RACE[:17], "zsim: schedule 1 16: "),
    (RACE[:-1] + b"\x04", "zsim: schedule 5 0 7: "),
    (TWO[:-5] + b"\x02" + TWO[-4:], "zsim: schedule 5 0 0: "),
    (RACE + b"\x00", "zsim: schedule 6 28: "),
]


@pytest.mark.parametrize("data, told", BAD)
def test_a_file_that_zsim_refuses_is_refused(schedule, tmp_path, data, told):
    (tmp_path / "bad").write_bytes(data)
    ended = schedule("text", "bad")
    assert (ended.returncode, ended.stdout, ended.stderr.count(b"\n")) == (2, b"", 1)
    assert ended.stderr.decode().startswith(f"schedule.py: bad: {told}")


def test_zsim_refuses_them_with_the_same_number(built_zsim, repository, tmp_path):
    desktop = repository / "examples/machines/desktop.toml"
    words = [built_zsim, "replay", desktop, repository / "examples/race.elf", "--schedule", tmp_path / "bad"]
    for data, told in BAD:
        if data[8:9] in (b"", b"\x04"):
            (tmp_path / "bad").write_bytes(data)
            ended = subprocess.run(words, capture_output=True, text=True, timeout=60, check=False)
            assert (ended.returncode, ended.stderr) == (9, f"{told.removesuffix(': ')}\n")


@pytest.mark.parametrize(
    "words, text, told",
    [
        ("file 0 a", b"", "0 is no number of cores from 1 to 256"),
        ("file two a", b"", "two is no number of cores from 1 to 256"),
        ("file 2 a", b"0 1\n0 2\n", "standard input: line 2: place 1: it names core 2 of 2 cores"),
        ("file 2 a", b"0 one\n", "standard input: line 1: these are no numbers of cores"),
        ("file 2 a", b"\xff\n", "standard input: line 1: these are no numbers of cores"),
        ("file 2 no/a", b"0 1\n", "no/a: cannot write: No such file or directory"),
        ("text a", b"", "a: cannot read: No such file or directory"),
        ("text /dev/zero", b"", "/dev/zero: zsim: too long: schedule"),
    ],
)
def test_what_is_wrong_is_told(schedule, words, text, told):
    ended = schedule(*words.split(), data=text)
    assert (ended.returncode, ended.stderr.decode()) == (2, f"schedule.py: {told}\n")


def test_words_that_are_no_command(schedule):
    ended = schedule("text")
    assert ended.returncode == 2 and b"schedule.py diff ONE OTHER" in ended.stderr


@pytest.mark.parametrize(
    "cores, text, told",
    [
        ("4", b"0 0 1 1 2 2 3 3\n", "they are the same"),
        ("4", b"0 0 1 2 2 1 3 3\n", "interval 0, place 3: core 1, and in the other core 2"),
        ("4", b"0 0 1 1 2 2 3\n", "interval 0, place 7: core 3, and in the other the end of the list"),
        ("4", b"0 0 1 1 2 2 3 3\n0\n", "one has 1 intervals, the other 2, and they are the same so far"),
        ("5", b"0 0 1 1 2 2 3 3\n", "one is of 4 cores, the other of 5"),
    ],
)
def test_the_first_difference(schedule, tmp_path, cores, text, told):
    (tmp_path / "one").write_bytes(RACE)
    schedule("file", cores, "other", data=text)
    ended = schedule("diff", "one", "other")
    assert (ended.returncode, ended.stdout.decode()) == (0 if told == "they are the same" else 1, f"{told}\n")


def test_a_reader_that_has_enough(schedule, repository, tmp_path):
    (tmp_path / "long").write_bytes(TWO[:12] + bytes([0, 0, 1, 0]) + bytes(4) * 65536)
    words = f"'{sys.executable}' '{repository}/examples/schedule.py' text long | head -n 1"
    ended = subprocess.run(["sh", "-c", words], cwd=tmp_path, capture_output=True, timeout=60, check=False)
    assert (ended.stdout, ended.stderr) == (b"\n", b"")


def test_the_commands_of_the_document(built_zsim, repository, tmp_path):
    """Each command of the page on schedules, one after the other, with the built program."""
    page = (repository / "docs/schedules.md").read_text()
    (tmp_path / "examples").symlink_to(repository / "examples")
    (tmp_path / "zsim").write_text(f'#!/bin/sh\nexec "{built_zsim}" "$@"\n')
    (tmp_path / "zsim").chmod(0o755)
    commands = re.findall(r"(?m)^    ((?:\./zsim|examples/|echo ).*)$", page)
    said = ""
    for command in commands:
        ended = subprocess.run(["sh", "-c", command], cwd=tmp_path, capture_output=True, timeout=120, check=False)
        assert (ended.returncode, ended.stderr) == (1 if " diff " in command else 0, b""), command
        said += ended.stdout.decode()
    assert len(commands) == 8 and (tmp_path / "lock.schedule").stat().st_size == 7629
    assert "\ninterval 0, place 2: core 1, and in the other core 0\n" in said
