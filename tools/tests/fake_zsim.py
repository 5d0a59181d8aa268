"""Stands in for zsim: takes its words, and prints a report that is made up of the machine's numbers.

With several workers each run has some cycles more or less, as if its cores raced.

It refuses what the tests of sweeps have refused, as zsim does. The variables FAKE_LOG and FAKE_HOLD name files: each
run appends a line to the first as it begins, and with the sixth line and the later ones, runs wait while the second is
there.
"""

import argparse
import os
import sys
import time
import tomllib
from pathlib import Path

TURNS = 1000


def log(line):
    """Notes a run, and returns how many are noted."""
    path = os.environ.get("FAKE_LOG")
    if not path:
        return 0
    with open(path, "a", encoding="utf-8") as file:
        file.write(line + "\n")
    return len(Path(path).read_text(encoding="utf-8").splitlines())


def report(machine, executable, workers):
    lines = machine["l1"]["sets"] * machine["l1"]["ways"]
    misses = max(1, (len(executable) * TURNS) // lines)
    hits = TURNS * len(executable) - misses
    delay = machine["controllers"]["occupancy"] * misses + (os.getpid() % 5 if workers > 1 else 0)
    said = "hello" if b"hello" in executable else ""
    instructions, cycles = 10 * TURNS * len(executable), 20 * TURNS * len(executable) + 100 * misses + delay
    text = [
        "zsim report 1",
        "cores 1",
        "intervals 1",
        f"instructions {instructions}",
        f"cycles {cycles}",
        f"accesses {hits + misses}",
        f"events {3 * misses}",
        f"core 0 instructions {instructions} cycles {cycles} delay {delay} loads {hits + misses} stores 0 atomics 0"
        f" hits {hits} upgrades 0 l2hits 0 misses {misses} halt {'break' if b'break' in executable else 'exit 0'}",
        f'core 0 console {len(said)} "{said}"',
    ]
    banks, controllers = machine["l2"]["banks"], machine["controllers"]["count"]
    text += [f"bank {bank} events {2 * misses if bank == 0 else 0} waited 0 free {cycles}" for bank in range(banks)]
    text += [
        f"controller {number} events {misses if number == 0 else 0} waited {delay if number == 0 else 0} free {cycles}"
        for number in range(controllers)
    ]
    return "\n".join(text) + "\n"


def words():
    parser = argparse.ArgumentParser()
    parser.add_argument("command", choices=["run", "replay"])
    for name in ("machine", "executable", "--record", "--schedule"):
        parser.add_argument(name)
    parser.add_argument("--workers", type=int, default=1)
    return parser


def main():
    given = words().parse_args()
    machine_name, executable_name = given.machine, given.executable
    if machine_name == "plain":
        machine_name = Path(__file__).resolve().parents[1] / "zsim_tools/plain.toml"
    begun = log(executable_name)
    while begun > 5 and os.path.exists(os.environ.get("FAKE_HOLD", "")):
        time.sleep(0.02)
    machine = tomllib.loads(Path(machine_name).read_text(encoding="utf-8"))
    if machine["l1"]["ways"] == 0:
        print("zsim: machine 4 l1.ways 0", file=sys.stderr)
        return 6
    if executable_name.startswith("gen:"):
        executable = executable_name.encode()
    else:
        executable = Path(executable_name).read_bytes()
    if b"gone" in executable:
        print("zsim: cannot read", file=sys.stderr)
        return 4
    if b"nonsense" in executable:
        print("Segmentation fault")
        return 0
    sys.stdout.write(report(machine, executable, given.workers))
    if given.record:
        Path(given.record).write_text(f"schedule of {len(executable)} bytes", encoding="utf-8")
    if b"endless" in executable:
        print("zsim: stopped at the limit", file=sys.stderr)
        return 3
    return 0


sys.exit(main())
