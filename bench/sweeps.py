#!/usr/bin/env python3
"""Times a sweep of zsim-tools against its runs alone.

    bench/sweeps.py [--rounds N] [--runs N] [--jobs N] [--zsim PROGRAM] [EXE..]

Each round runs an executable on so many machines (500, if not given), once by `xargs` with so many jobs (4) at a time,
and once by `zsim-tools sweep`, right after each other so that both meet the same load. It prints the seconds of both,
their quotient, and the processor seconds that the tool took of its own. Where others use the machine, the least
quotient and the processor seconds mean most. Python keeps the tool's modules compiled, whatever PYTHONDONTWRITEBYTECODE
says.
"""

import argparse
import itertools
import os
import subprocess
import sys
import tempfile
import time
from pathlib import Path

TOP = Path(__file__).resolve().parents[1]
PROGRAM = TOP / "crates/zsim_main/out/zsim_main"
TOOL = TOP / "tools/zsim-tools"
LATENCIES = range(1, 11)


def timed(words, **options):
    """Runs a command, and returns its seconds, and the processor seconds of all that it waited for."""
    began = time.monotonic()
    process = subprocess.Popen(words, **options)
    _, status, usage = os.wait4(process.pid, 0)
    if status != 0:
        sys.exit(f"sweeps: {words[0]} failed")
    return time.monotonic() - began, usage.ru_utime + usage.ru_stime


def write_sweep(folder, executable, runs):
    """Writes a sweep over the latencies of the built-in machine, and the same machines."""
    plain = (TOP / "tools/zsim_tools/plain.toml").read_text()
    (folder / "plain.toml").write_text(plain)
    others = list(range(1, -(-runs // len(LATENCIES)) + 1))
    (folder / "sweep.toml").write_text(
        f'machine = "plain.toml"\nexecutables = ["{executable}"]\n'
        f"[axes]\nl1.latency = {list(LATENCIES)}\nl2.latency = {others}\n"
    )
    names = []
    for first, second in itertools.product(LATENCIES, others):
        names.append(folder / f"{first}_{second}.toml")
        text = plain.replace("latency = 10\n", f"latency = {second}\n", 1).replace(
            "latency = 1\n", f"latency = {first}\n", 1
        )
        names[-1].write_text(text)
    return names


def alone(program, folder, executable, names, jobs):
    """Times the runs alone."""
    (folder / "names").write_text("".join(f"{name}\n" for name in names))
    words = ["xargs", "-P", str(jobs), "-I", "NAME", program, "run", "NAME", executable]
    with open(folder / "names", encoding="utf-8") as listed:
        return timed(words, stdin=listed, stdout=subprocess.DEVNULL)


def by_tool(program, folder, jobs):
    """Times the sweep."""
    for left in ("table.csv", "table.csv.runs"):
        (folder / left).unlink(missing_ok=True)
    words = [
        TOOL,
        "sweep",
        folder / "sweep.toml",
        "--out",
        folder / "table.csv",
        "--jobs",
        str(jobs),
        "--zsim",
        program,
    ]
    variables = {name: value for name, value in os.environ.items() if name != "PYTHONDONTWRITEBYTECODE"}
    return timed(words, stderr=subprocess.DEVNULL, env=variables)


def main():
    parser = argparse.ArgumentParser(description=__doc__.partition("\n")[0])
    parser.add_argument("--rounds", type=int, default=3, metavar="N", help="so many rounds (3)")
    parser.add_argument("--runs", type=int, default=500, metavar="N", help="so many runs in each (500)")
    parser.add_argument("--jobs", type=int, default=4, metavar="N", help="so many at a time (4)")
    parser.add_argument("--zsim", default=PROGRAM, metavar="PROGRAM", help="the program (this checkout's, proved)")
    parser.add_argument("executables", nargs="*", metavar="EXE", help="what they run (examples/c/sort.elf)")
    words = parser.parse_args()
    executables = words.executables or [str(TOP / "examples/c/sort.elf")]
    if words.zsim == PROGRAM and subprocess.run([TOP / "prove"], check=False).returncode != 0:
        sys.exit("sweeps: zsim could not be proved and built, and nothing else is measured")
    print(
        "| Executable | Runs | Alone, seconds | By the tool, seconds | Quotient | Alone, processor seconds"
        " | Tool's own processor seconds |"
    )
    print("|---|---:|---:|---:|---:|---:|---:|")
    for executable in executables:
        for _ in range(words.rounds):
            with tempfile.TemporaryDirectory() as name:
                folder = Path(name)
                given = executable if executable.startswith("gen:") else os.path.abspath(executable)
                names = write_sweep(folder, given, words.runs)
                seconds, processor = alone(words.zsim, folder, given, names, words.jobs)
                with_tool, processor_with_tool = by_tool(words.zsim, folder, words.jobs)
            cells = [Path(executable).name, len(names), f"{seconds:.2f}", f"{with_tool:.2f}"]
            cells += [f"{with_tool / seconds:.2f}", f"{processor:.2f}", f"{processor_with_tool - processor:.2f}"]
            print(f"| {' | '.join(map(str, cells))} |", flush=True)


if __name__ == "__main__":
    main()
