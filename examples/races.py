#!/usr/bin/env python3
"""Runs programs whose cores race, by several workers, and replays each run.

    examples/races.py           makes 1,000 runs
    examples/races.py RUNS      makes so many

The programs are those of c/ in turn, by 2, 3 and 4 workers, on the desktop of four cores with intervals of 20, 50, 100
and 10,000 cycles, but with 1 MiB of memory: a run is over in less time than it takes to clear 128 MiB. The order of
accesses is that in which the workers come to the caches. Whatever it is, the replay of the recorded schedule writes the
bytes that the run wrote. Where the cores share the work of a program, each exits with 0, by which the program says that
its result is right, and the runs of such a program have more than one schedule, or they show nothing of races. The
other programs are not made for several cores, which write to the same bytes as they come; 2,000 intervals of each are
run.

Before these, 64 workers run programs on the 64 cores of machines/tiles.toml by two processors, and are replayed.

As many runs go on beside each other as there are processors. They run the program that the variable ZSIM names, or that
of this checkout, which is proved and built first if it has to be. Status 0 says that no run had a fault. What a run
with a fault wrote is kept.
"""

import hashlib
import os
import re
import shutil
import subprocess
import sys
import tempfile
import time
from concurrent.futures import ThreadPoolExecutor
from pathlib import Path

HERE = Path(__file__).resolve().parent
TOP = HERE.parent
MACHINES = HERE / "machines"
CORES = 4
SHARED = ["counter", "histogram", "lock", "matrix", "queue", "sum"]
PROGRAMS = sorted(path.stem for path in (HERE / "c").glob("*.elf"))
WORKERS = [2, 3, 4]
INTERVALS = [20, 50, 100, 10000]
RUNS = 1000

# Where more workers run than processors, on more cores.
CROWD = ["histogram", "lock", "queue"]
CROWD_CORES = 64
CROWD_PROCESSORS = 2

# How a call ends whose run comes to the last of its intervals.
AT_LIMIT = 3

# A run takes milliseconds, and more on a busy machine. After so many seconds it is taken to wait for ever.
PATIENCE = 60

# After so many faults no further run is begun.
ENOUGH = 10


class Fault(Exception):
    """What is wrong with a run."""


def program():
    """Returns the name of zsim."""
    named = os.environ.get("ZSIM")
    if named:
        return shutil.which(named) or sys.exit(f"races: nothing was run: {named} is no program")
    if subprocess.run([TOP / "prove"], check=False).returncode != 0:
        sys.exit("races: nothing was run: zsim could not be proved and built")
    return TOP / "crates/zsim_main/out/zsim_main"


def changed(name, folder, **values):
    """Writes the description of a machine with other values of some keys, and returns its name."""
    text = (MACHINES / f"{name}.toml").read_text(encoding="utf-8")
    for key, value in values.items():
        text, count = re.subn(rf"(?m)^{key} = .*$", f"{key} = {value}", text)
        if count != 1:
            sys.exit(f"races: nothing was run: {name} has {count} lines of {key}")
    path = folder / f"{name}-{'-'.join(str(value) for value in values.values())}.toml"
    path.write_text(text, encoding="utf-8")
    return path


def call(output, words, statuses, processors=None):
    """Calls zsim with its standard output in a file, on so many processors at most. Returns its status, which is one of
    these, and what it wrote."""
    def few():
        os.sched_setaffinity(0, sorted(os.sched_getaffinity(0))[:processors])

    with open(output, "wb") as out:
        try:
            ended = subprocess.run(
                words, stdin=subprocess.DEVNULL, stdout=out, stderr=subprocess.PIPE, timeout=PATIENCE, check=False,
                preexec_fn=few if processors and hasattr(os, "sched_setaffinity") else None,
            )
        except subprocess.TimeoutExpired:
            raise Fault(f"the {words[1]} had not ended after {PATIENCE} seconds") from None
    if ended.returncode not in statuses:
        line = ended.stderr.decode(errors="replace").strip()
        raise Fault(f"the {words[1]} ended with status {ended.returncode}: {line}")
    return ended.returncode, output.read_bytes()


def race(zsim, machine, name, workers, folder, cores=CORES, processors=None):
    """Makes a run and its replay, and returns the hash of the schedule."""
    folder.mkdir()
    shared = name in SHARED
    statuses = [0] if shared else [0, AT_LIMIT]
    words, schedule = [machine, HERE / f"c/{name}.elf"], folder / "schedule"
    run = [zsim, "run", *words, "--workers", str(workers), "--record", schedule]
    ran = call(folder / "run", run, statuses, processors)
    halts = re.findall(rb"(?m)^core \d+ instructions .* halt (.*)$", ran[1])
    if shared and halts != [b"exit 0"] * cores:
        raise Fault(f"the cores halted by {b', '.join(halts).decode()}")
    replay = [zsim, "replay", *words, "--schedule", schedule]
    if call(folder / "replay", replay, statuses, processors) != ran:
        raise Fault("the replay wrote another report")
    found = hashlib.sha256(schedule.read_bytes()).digest()
    shutil.rmtree(folder)
    return found


def crowd(zsim, folder):
    """Has many workers run on few processors, and returns the faults."""
    machine, faults = changed("tiles", folder, size="0x800000", interval=100), []
    for name in CROWD:
        place = folder / f"crowd-{name}"
        try:
            race(zsim, machine, name, CROWD_CORES, place, cores=CROWD_CORES, processors=CROWD_PROCESSORS)
        except Fault as fault:
            faults.append(f"{name} by {CROWD_CORES} workers: {fault} ({place})")
    return faults


def races(zsim, runs, folder):
    """Makes the runs. Returns the schedules of each program, and the faults."""
    schedules, faults = {name: set() for name in PROGRAMS}, []
    whole = [changed("desktop", folder, size="0x100000", interval=cycles) for cycles in INTERVALS]
    begun = [changed("desktop", folder, size="0x100000", interval=cycles, intervals=2000) for cycles in INTERVALS]
    with ThreadPoolExecutor(os.cpu_count()) as pool:
        made = []
        for number in range(runs):
            round_of, program_of = divmod(number, len(PROGRAMS))
            name, place = PROGRAMS[program_of], folder / str(number)
            machine = (whole if name in SHARED else begun)[round_of // len(WORKERS) % len(INTERVALS)]
            workers = WORKERS[round_of % len(WORKERS)]
            made.append((name, place, pool.submit(race, zsim, machine, name, workers, place)))
        try:
            for name, place, run in made:
                try:
                    schedules[name].add(run.result())
                except Fault as fault:
                    faults.append(f"{name}: {fault} ({place})")
                if len(faults) == ENOUGH:
                    break
        finally:
            pool.shutdown(cancel_futures=True)
    return schedules, faults


def main():
    words = sys.argv[1:] or [str(RUNS)]
    if len(words) > 1 or not words[0].isdecimal():
        sys.exit(__doc__)
    runs, zsim = int(words[0]), program()
    began = time.monotonic()
    folder = Path(tempfile.mkdtemp(prefix="zsim-races-"))
    faults = crowd(zsim, folder)
    schedules, found = races(zsim, runs, folder)
    faults += found
    if not faults:
        shutil.rmtree(folder)
        faults = [f"{name}: its runs all have one schedule" for name in SHARED if len(schedules[name]) < 2]
    for fault in faults:
        print(f"races: {fault}")
    if faults:
        return 1
    counts = ", ".join(f"{len(found)} of {name}" for name, found in schedules.items())
    print(f"races: {runs} runs and replays in {time.monotonic() - began:.0f} seconds; schedules: {counts}")
    return 0


if __name__ == "__main__":
    sys.exit(main())
