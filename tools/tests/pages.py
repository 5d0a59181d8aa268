"""Pages of docs/ that a reader types: their files, their commands, and what these print."""

import os
import re
import shutil
import subprocess

import pytest

COMMAND = re.compile(r"(?m)^\$ ((?:.*\\\n)*.*)\n((?:(?!\$ ).*\n)*)")
# What is not the same each time.
TIMES = re.compile(r"(?m)^(seconds|instructions_per_second) .*$")


def parts_of(page):
    """Returns the page's parts in order: of a file its name and text, and of a command its text and what it prints."""
    parts, name = [], None
    for text in re.split(r"(?ms)^(```[a-z]+\n.*?^```\n)", page):
        block = re.fullmatch(r"(?s)```([a-z]+)\n(.*)```\n", text)
        if block and block[1] == "console":
            parts += [("command", *found) for found in COMMAND.findall(block[2])]
        elif block and name:
            parts.append(("file", name, block[2]))
        named = re.search(r"into\s+`([a-z]+/[A-Za-z0-9_.]+)`[^`]*\Z", text)
        name = named[1] if named else None
    return parts


def printed(text):
    """Returns what a command prints without spaces at the ends of lines, and without times."""
    return TIMES.sub(r"\1", "".join(f"{line.rstrip()}\n" for line in text.splitlines()))


def clone_of(repository, folder, **programs):
    """Has in a folder what a clone has, as far as the pages need it, with a script for each of these programs."""
    for name in ("riscv64-unknown-elf-gcc", "make"):
        if shutil.which(name) is None:
            pytest.skip(f"there is no {name}")
    for name in ("tools", "examples"):
        (folder / name).symlink_to(repository / name)
    for name, program in programs.items():
        (folder / name).write_text(f'#!/bin/sh\nexec "{os.path.abspath(program)}" "$@"\n')
        (folder / name).chmod(0o755)
    return folder


def run_page(parts, clone, variables=None):
    """Writes the files of a page and runs its commands, which have to print what the page shows."""
    streams = {"stdin": subprocess.DEVNULL, "stdout": subprocess.PIPE, "stderr": subprocess.STDOUT}
    for kind, what, text in parts:
        if kind == "file":
            (clone / what).write_text(text)
            continue
        words = ["sh", "-c", what]
        ended = subprocess.run(words, cwd=clone, env=variables, text=True, timeout=200, check=False, **streams)
        assert printed(ended.stdout) == printed(text), what
