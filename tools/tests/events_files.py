"""Events files for the tests: of events that are written down, and of runs of the model."""

import importlib.util
import os
import struct
import sys
from dataclasses import dataclass
from functools import cache

from conftest import REPOSITORY

LOOKUP, REMOTE, FILL, READ, WRITE, HOP, ROWREAD = range(7)


@dataclass(frozen=True)
class Told:
    """An event of a file. A parent is its number and the time from its finish."""

    component: int
    kind: int
    start: int
    finish: int
    core: int = 0
    earliest: int | None = None
    first: tuple | None = None
    second: tuple | None = None
    last: bool = False
    bank: int = 0
    row: int = 0


def record_of(event):
    flags = event.last | (event.first is not None) << 1 | (event.second is not None) << 2
    parents = [event.first or (0, 0), event.second or (0, 0)]
    earliest = event.start if event.earliest is None else event.earliest
    return struct.pack(
        "<HHBBHQQIIQQQQ",
        *(event.component, event.core, event.kind, flags, event.bank, event.row, earliest),
        *(number for number, _ in parents),
        *(time for _, time in parents),
        *(event.start, event.finish),
    )


def file_of(components, intervals):
    """Returns the file of intervals, which are lists of events."""
    data = struct.pack("<4sIII", b"ZSEV", 1, components, len(intervals))
    return data + b"".join(struct.pack("<I", len(events)) + b"".join(map(record_of, events)) for events in intervals)


# Two cores that miss at cycle 1 on the built-in machine, as docs/time-and-weave.md has it. Behind them, in the second
# interval, the first core finds a line in the L2, and in the third nothing happens.
TWO_MISSES = [
    [
        Told(0, LOOKUP, 2, 12),
        Told(1, READ, 12, 112, first=(0, 0)),
        Told(0, FILL, 112, 114, first=(1, 0), last=True),
        Told(0, LOOKUP, 2, 16, core=1),
        Told(1, READ, 16, 132, core=1, earliest=12, first=(3, 0)),
        Told(0, FILL, 132, 134, core=1, earliest=112, first=(4, 0), last=True),
    ],
    [Told(0, LOOKUP, 10050, 10060, last=True)],
    [],
]


@cache
def model():
    """The model of the machine, which writes events files by itself. What it imports stands beside it."""
    sys.path.append(str(REPOSITORY / "model"))
    spec = importlib.util.spec_from_file_location("model", REPOSITORY / "model/model.py")
    module = importlib.util.module_from_spec(spec)
    spec.loader.exec_module(module)
    return module


def run_model(machine, program):
    """Returns the report and the events file of a run of the model: of the text of a machine, and of an executable, or of
    words of code."""
    made = model()
    names = made.Sure()
    exe = program if isinstance(program, bytes) else made.words_of(program)
    names.held.update(machine=machine.encode(), exe=exe)
    here = os.getcwd()
    os.chdir(REPOSITORY)  # (where it reads the built-in machine)
    try:
        ended = made.call_on("run machine exe --events events", names)
    finally:
        os.chdir(here)
    assert ended.status == 0
    return ended.output, names.held["events"]
