"""The made and spoiled inputs of fuzz.py: a handful of cases, and what it says of a program that answers otherwise."""

import os
import shutil
import subprocess
import sys


def fuzz(repository, program, *words):
    words = [sys.executable, repository / "tools/fuzz.py", "--zsim", program, "--jobs", "2", *words]
    return subprocess.run(words, capture_output=True, text=True)


def test_a_handful_of_cases(repository, built_zsim):
    ended = fuzz(repository, built_zsim, "--cases", "60")
    assert (ended.returncode, ended.stderr) == (0, "")
    assert ended.stdout.startswith("fuzz: 60 cases in ")


def test_an_answer_that_differs_is_told(repository, tmp_path, built_zsim):
    other = tmp_path / "other"
    other.write_text(f"#!/bin/sh\n{built_zsim} \"$@\" >out\nstatus=$?\nsed 's/^events 1*/&1/' out\nexit $status\n")
    other.chmod(0o755)
    ended = fuzz(repository, other, "--cases", "12")
    assert ended.returncode == 1
    seed = ended.stdout.split("\n")[0].split(":")[1].removeprefix(" seed ")
    alone = fuzz(repository, other, "--only", seed)
    assert alone.returncode == 1 and f"fuzz: seed {seed}: " in alone.stdout
    folder = alone.stdout.split("\n")[0].rpartition(" ")[2]
    assert os.path.exists(f"{folder}/m")
    shutil.rmtree(folder)


def test_there_is_no_program(repository, tmp_path):
    ended = fuzz(repository, tmp_path / "missing")
    assert (ended.returncode, ended.stdout) == (2, "")
    assert ended.stderr == f"fuzz: nothing was run: there is no program {tmp_path}/missing\n"
