#!/usr/bin/env python3
"""Calls zsim with each of its allocations refused in turn, and each of its threads.

    bench/refused.py [--zsim PROGRAM] [NAME..]

A library that is preloaded (refused.c, compiled first) counts the calls of malloc, realloc and pthread_create, and
refuses the one of a number, from 1 on, until the call ends before that many were made. Each time it ends as it does
where nothing is refused, with the same output and files, or with the status of out of memory. Then standard error has
that line; standard output nothing or a prefix of the report, and the whole only where files were to be written behind
it; and the file of --record and then that of --events is whole, or holds what it held or a prefix of what it was to
hold, and behind one that is not whole the next holds what it held. In both cases the line on standard error may be cut.
Where two workers run cores that race, the recorded schedule has to replay to what was written, and the events to be
those of the weave.

Names choose calls, all if there are none. It is outside the gate. Status 0 says that all ended so.
"""

import argparse
import os
import struct
import subprocess
import sys
import tempfile
from pathlib import Path

HERE = Path(__file__).resolve().parent
TOP = HERE.parent
PROGRAM = TOP / "crates/zsim_main/out/zsim_main"

sys.path.insert(0, str(TOP / "model"))

import model  # noqa: E402  (it stands in this checkout)

# A call takes milliseconds. After so many seconds it is taken to wait for ever.
PATIENCE = 300
NO_MEMORY, LINE = 8, b"zsim: out of memory\n"

# What the files of the outputs hold before a call.
HELD = b"before"

LOAD = "FF813283 05D00893 00000073"
ROWS = "FF813283 FB813303 EF813383 DF813403 FF813483 05D00893 00000073"
TWO = "cores = 1 -> cores = 2"
WHOLE = (
    "cores = 1 -> cores = 4; banks = 1 -> banks = 2; banks = [0] -> banks = [0, 1]; count = 1 -> count = 2;"
    " controllers = [1] -> controllers = [0, 1]; version = 1 -> version = 3;"
    " [l2] -> [l1i] | sets = 2 | ways = 1 | latency = 1 | [mesh] | width = 2 | height = 2 | hop = 3 | occupancy = 2 |"
    " [dram] | banks = 2 | row_lines = 4 | hit = 100 | closed = 120 | conflict = 150 |"
    " [pipe] | mul = 3 | div = 20 | entries = 16 | penalty = 4 | [l2]"
)
# Several intervals, which the room for one has to be taken for, and threads that start in each.
SHORT = f"{TWO}; interval = 10000 -> interval = 50"

CALLS = {
    "run": "run two load",
    "made": "run plain gen:5",
    "made_2": "run plain gen:5 --workers 2",
    "record": "run two load --record s",
    "record_2": "run two load --record s --workers 2",
    "replay": "replay two load --schedule schedule",
    "short": "run short rows --record s --events v",
    "short_2": "run short rows --record s --events v --workers 2",
    "events": "run two load --events v",
    "events_2": "run two load --record s --events v --workers 2",
    "check": "check two events",
    "whole": "run whole rows --record s --events v",
    "whole_2": "run whole rows --record s --events v --workers 2",
    "whole_replay": "replay whole rows --schedule whole_schedule",
    "whole_check": "check whole whole_events",
    "usage": "run two load --workers 0",
    "illegal": "replay two load --schedule illegal",
    "no_machine": "run load load",
    "no_executable": "run two two",
}


class Wrong(Exception):
    """What ended otherwise than it should."""


def prepare(folder, program):
    """Writes the inputs of the calls."""
    machines = {"two": TWO, "short": SHORT, "whole": WHOLE}
    inputs = {name: model.changed(changes).encode() for name, changes in machines.items()}
    inputs |= {"load": model.words_of(LOAD), "rows": model.words_of(ROWS)}
    inputs["schedule"] = model.schedule_file(2, [[0, 1]])
    inputs["illegal"] = model.schedule_file(2, [[0, 0]])
    for name, data in inputs.items():
        (folder / name).write_bytes(data)
    for words in ("run two load --events events", "run whole rows --record whole_schedule --events whole_events"):
        subprocess.run([program, *words.split()], cwd=folder, stdout=subprocess.DEVNULL, check=True)


class Call:
    """A call of zsim in a folder, with its words."""

    def __init__(self, program, library, folder, words):
        self.program, self.library, self.folder, self.words = program, library, folder, words.split()
        self.counted = folder / "counted"
        self.races = "--workers" in self.words and "--record" in self.words
        self.outputs = [name for option, name in zip(self.words, self.words[1:]) if option in ("--record", "--events")]

    def said(self, *words):
        """Returns what another call writes, of which nothing is refused."""
        return subprocess.run([self.program, *words], cwd=self.folder, stdout=subprocess.PIPE, check=False).stdout

    def made(self, refused):
        """Makes it with the allocation of this number refused, and returns its status, streams, files, and how many
        allocations there were."""
        self.counted.write_bytes(bytes(8))
        for name in self.outputs:
            (self.folder / name).write_bytes(HELD)
        environment = {"LD_PRELOAD": str(self.library), "COUNTED": str(self.counted), "REFUSED": str(refused)}
        ended = subprocess.run(
            [self.program, *self.words], cwd=self.folder, env=environment, capture_output=True, timeout=PATIENCE, check=False
        )
        files = [(self.folder / name).read_bytes() for name in self.outputs]
        return ended.returncode, ended.stdout, ended.stderr, files, struct.unpack("<Q", self.counted.read_bytes())[0]


def is_cut(text, whole):
    return whole.startswith(text)


def check(call, wanted, found, refused):
    """Raises Wrong where a call that was refused memory ended otherwise than it may."""
    status, output, error, files, _ = found
    if not is_cut(error, LINE if status == NO_MEMORY else wanted[2]):
        raise Wrong(f"{refused}: standard error has {error}")
    if call.races:
        check_race(call, wanted, found, refused)
        return
    report, kept = wanted[1], wanted[3]
    if (status, output, files) == (wanted[0], report, kept):
        return
    if status != NO_MEMORY:
        raise Wrong(f"{refused}: status {status}, {error}, or another output")
    if not is_cut(output, report) or output == report != b"" and not files:
        raise Wrong(f"{refused}: standard output has {len(output)} of {len(report)} bytes")
    is_before = output == report and wanted[0] in (0, 3)
    for name, file, whole in zip(("first", "second"), files, kept):
        if not (file == HELD or is_before and is_cut(file, whole)):
            raise Wrong(f"{refused}: the {name} file has {file[:40]}")
        is_before = is_before and file == whole


def check_race(call, wanted, found, refused):
    """The same of a call whose cores race, so that each may have another report."""
    status, output, _, files, _ = found
    if status == NO_MEMORY:
        fronts = b"zsim report", b"ZSCH", b"ZSEV"
        if any(not is_cut(text[: len(front)], front) for text, front in zip([output, *files], fronts) if text != HELD):
            raise Wrong(f"{refused}: the outputs have {output[:40]}, {[file[:20] for file in files]}")
        if output == b"" and any(file != HELD for file in files):
            raise Wrong(f"{refused}: a file was written before the report")
        return
    replayed = call.said("replay", *call.words[1:3], "--schedule", "s")
    if status != wanted[0] or replayed != output:
        raise Wrong(f"{refused}: status {status}, or another report than that of its schedule")
    if "v" in call.outputs and not call.said("check", call.words[1], "v").endswith(b"\nyes\n"):
        raise Wrong(f"{refused}: its events are not the weave's")


def refuse_each(call):
    """Refuses each allocation of a call in turn. Returns how many there were, and how often it ended for want of one."""
    wanted = call.made(0)
    refused = without = 0
    while True:
        refused += 1
        try:
            found = call.made(refused)
        except subprocess.TimeoutExpired:
            raise Wrong(f"{refused}: it had not ended after {PATIENCE} seconds") from None
        check(call, wanted, found, refused)
        if found[4] < refused:
            return refused - 1, without
        without += found[0] == NO_MEMORY


def main():
    parser = argparse.ArgumentParser(description=__doc__, formatter_class=argparse.RawDescriptionHelpFormatter)
    parser.add_argument("names", nargs="*", metavar="NAME", help=" ".join(CALLS))
    parser.add_argument("--zsim", default=os.environ.get("ZSIM") or str(PROGRAM))
    said = parser.parse_args()
    program = os.path.realpath(said.zsim)
    if not os.access(program, os.X_OK) or not set(said.names) <= set(CALLS):
        sys.exit(f"refused: nothing was run: there is no program {program}, or no call of one of the names")
    os.chdir(TOP)
    wrong = 0
    with tempfile.TemporaryDirectory(prefix="zsim-refused-") as place:
        folder, library = Path(place), Path(place, "refused.so")
        subprocess.run(["cc", "-O2", "-shared", "-fPIC", "-o", library, HERE / "refused.c", "-ldl"], check=True)
        prepare(folder, program)
        for name, words in CALLS.items():
            if said.names and name not in said.names:
                continue
            try:
                count, without = refuse_each(Call(program, library, folder, words))
                print(f"refused: {words}: {count} allocations, {without} of them ended it", flush=True)
            except Wrong as what:
                wrong += 1
                print(f"refused: {words}: allocation {what}", flush=True)
    return 1 if wrong else 0


if __name__ == "__main__":
    sys.exit(main())
