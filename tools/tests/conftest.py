"""What the tests share: the repository, zsim or what stands in for it, and a sweep of 12 runs."""

import os
import signal
import subprocess
import sys
from contextlib import contextmanager, suppress
from dataclasses import dataclass
from pathlib import Path

import pytest

HERE = Path(__file__).resolve().parent
REPOSITORY = HERE.parents[1]

sys.path.insert(0, str(HERE.parent))

from zsim_tools.command import main  # noqa: E402  (the package stands in this checkout)

SWEEP = """\
machine = "machine.toml"
executables = ["a.elf", "long.elf"]

[axes]
l1.sets = [2, 4]
l1.ways = [1, 2, 4]
"""

# A report of two cores. What follows from it was worked out by hand, in test_reports.py.
WORKED = """\
zsim report 1
cores 2
intervals 1
instructions 3000
cycles 4000
accesses 1300
events 160
core 0 instructions 1000 cycles 4000 delay 400 loads 500 stores 100 atomics 0 hits 580 upgrades 5 l2hits 10 misses 5 halt exit 0
core 0 console 3 "a\\x0a\\x22"
core 1 instructions 2000 cycles 3000 delay 100 loads 600 stores 50 atomics 50 hits 650 upgrades 10 l2hits 20 misses 20 halt exit 1
core 1 console 0 ""
bank 0 events 100 waited 50 free 4100
bank 1 events 20 waited 0 free 3000
controller 0 events 40 waited 80 free 3900
"""

# One of version 2, whose cores fetch: the same with 1100 fetches more, of which 20 found their line in the L2 and 5 in
# memory alone.
FETCHING = (
    WORKED.replace("report 1", "report 2")
    .replace("accesses 1300", "accesses 2400")
    .replace("atomics 0 hits 580", "atomics 0 fetches 400 hits 965")
    .replace("l2hits 10 misses 5", "l2hits 20 misses 10")
    .replace("atomics 50 hits 650", "atomics 50 fetches 700 hits 1340")
    .replace("l2hits 20 misses 20", "l2hits 30 misses 20")
)


# No test takes longer, in seconds, also where others keep the machine busy.
PATIENCE = 300


@pytest.fixture(autouse=True)
def time_limit():
    """Fails a test that would wait for ever."""

    def late(*_):
        pytest.fail(f"it had not ended after {PATIENCE} seconds")

    before = signal.signal(signal.SIGALRM, late)
    signal.alarm(PATIENCE)
    yield
    signal.alarm(0)
    signal.signal(signal.SIGALRM, before)


def meet_signals():
    """Has a process meet signals as one does that was started at a terminal, also where the tests ignore them."""
    for number in (signal.SIGINT, signal.SIGTERM, signal.SIGHUP):
        signal.signal(number, signal.SIG_DFL)


@contextmanager
def process_of(words, **options):
    """A process, which is ended in any case."""
    with subprocess.Popen([str(word) for word in words], preexec_fn=meet_signals, **options) as process:
        try:
            yield process
        finally:
            process.kill()


def said_to_terminal(words, **options):
    """Returns the status of a process and what it says on standard error, which is a terminal."""
    reader, writer = os.openpty()
    with process_of(words, stderr=writer, **options) as process:
        os.close(writer)
        said = b""
        with suppress(OSError):  # (which a terminal gives at its end)
            while part := os.read(reader, 4096):
                said += part
        process.wait()
    os.close(reader)
    return process.returncode, said


@pytest.fixture(scope="session")
def repository():
    return REPOSITORY


@pytest.fixture(scope="session")
def built_zsim():
    """The program that the variable ZSIM names, or that of this checkout. It is not built for a test."""
    return built("zsim")


@pytest.fixture(scope="session")
def built_zprof():
    """The program that the variable ZPROF names, or that of this checkout, as above."""
    return built("zprof")


def built(name):
    """Returns a program that is there, or skips the test."""
    named = os.environ.get(name.upper())
    if named:
        return named
    program = REPOSITORY / f"crates/{name}_main/out/{name}_main"
    if not os.access(program, os.X_OK):
        pytest.skip(f"{name} is not built: there is no {program}")
    newer = newer_source(program)
    if newer:
        pytest.skip(f"{name} is not built: {newer} is newer than {program}")
    return str(program)


def newer_source(program):
    """Returns a source that is newer than the program, if there is one, as the script `prove` looks for it."""
    built_at = program.stat().st_mtime_ns
    crates = REPOSITORY / "crates.txt"
    if crates.stat().st_mtime_ns > built_at:
        return crates
    for folder, folders, files in os.walk(REPOSITORY / "crates"):
        folders[:] = [name for name in folders if name not in ("out", "must-fail") and not name.endswith("_tests")]
        for name in files:
            path = Path(folder, name)
            if path.stat().st_mtime_ns > built_at:
                return path
    return None


@pytest.fixture(scope="session")
def fake_zsim(tmp_path_factory):
    """A small program that stands in for zsim."""
    program = tmp_path_factory.mktemp("fake") / "zsim"
    program.write_text(f'#!/bin/sh\nexec "{sys.executable}" -I -S "{HERE}/fake_zsim.py" "$@"\n')
    program.chmod(0o755)
    return str(program)


@dataclass(frozen=True)
class Ended:
    """How a call of zsim-tools ended."""

    returncode: int
    stdout: str
    stderr: str


@pytest.fixture
def command(fake_zsim, tmp_path, monkeypatch, capsys):
    """Runs zsim-tools in a folder of its own, over what stands in for zsim, and returns how that ended.

    It does so in this process, since a new one would load all libraries again.
    """
    monkeypatch.chdir(tmp_path)
    monkeypatch.setenv("ZSIM", fake_zsim)
    handlers = {number: signal.getsignal(number) for number in (signal.SIGTERM, signal.SIGHUP)}

    def run(*words, **variables):
        for name, value in variables.items():
            monkeypatch.setenv(name, str(value))
        capsys.readouterr()
        try:
            status = main([str(word) for word in words])
        except SystemExit as ended:
            status = ended.code
        return Ended(status, *capsys.readouterr())

    yield run
    for number, handler in handlers.items():
        signal.signal(number, handler)


def environment(zsim, **variables):
    return {
        **os.environ,
        "PYTHONPATH": str(HERE.parent),
        "ZSIM": zsim,
        **{name: str(v) for name, v in variables.items()},
    }


def without_times(table):
    """Returns a table without the numbers that differ from run to run."""
    return table.drop(columns=["seconds", "instructions_per_second"])


@pytest.fixture
def twelve(tmp_path, repository):
    """A folder with a sweep of 12 runs for what stands in for zsim: two executables, two sets, three ways."""
    (tmp_path / "sweep.toml").write_text(SWEEP)
    (tmp_path / "machine.toml").write_bytes((repository / "tools/zsim_tools/plain.toml").read_bytes())
    (tmp_path / "a.elf").write_text("a program")
    (tmp_path / "long.elf").write_text("a program that is longer")
    return tmp_path


@pytest.fixture
def worked(tmp_path):
    """The file of a report that was worked out by hand."""
    path = tmp_path / "worked.txt"
    path.write_text(WORKED)
    return path
