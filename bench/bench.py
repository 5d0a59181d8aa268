#!/usr/bin/env python3
"""Times zsim on the programs of this folder, and prints tables in the form of docs/performance.md.

    bench/bench.py [--runs N] [--shares] [NAME..]

Each time is the user time of the best of N runs (3, if not given). Instructions and accesses are those of the report.
Programs of one core run on `plain`. Those that share their work run on examples/machines/server.toml, with 1, 4 and 16
of its cores; for each of these runs --shares also prints how its time is shared among the parts of zsim, by perf. Those
for several workers run on 4, 16 and 64 of its cores, and two of them on the 256 cores of many_cores.toml.

Where qemu-riscv64 is installed, it runs the same executable. Where valgrind, make and a C compiler are, cachegrind runs
the native twin of each C program: the same source, compiled for the machine at hand. Of both, the time that they take
for a program that does nothing is subtracted.

Time on a quiet machine: what else runs shares the caches and the clock rate.
"""

import argparse
import datetime
import os
import platform
import re
import shutil
import subprocess
import sys
import tempfile
import time

HERE = os.path.dirname(os.path.abspath(__file__))
TOP = os.path.dirname(HERE)
PROGRAM = os.path.join(TOP, "crates/zsim_main/out/zsim_main")

LOOPS = ["loop8", "loop800", "loop4000"]
C_PROGRAMS = ["bytecode", "sort", "compress", "sat", "hits", "misses"]
PARALLEL = ["sum", "lock", "matrix", "histogram"]
BESIDE = ["private", "reading", "contended", "scattered"]
PROGRAMS = LOOPS + C_PROGRAMS + PARALLEL + BESIDE

SERVER = os.path.join(TOP, "examples/machines/server.toml")
CORES = [1, 4, 16]
CORES_BESIDE = [4, 16, 64]
MANY = os.path.join(TOP, "examples/machines/many_cores.toml")
BESIDE_MANY = ["reading", "scattered"]
WORKERS = [1, 2, 4]
# A memory that is filled at once, so that the time is that of the run.
SMALL_MEMORY = {"size": 0x100000, "stack": 4160}

HEADINGS = [
    "Program", "Instructions", "Accesses", "Seconds", "Million instructions/s", "Million accesses/s",
    "qemu, seconds", "zsim / qemu", "Cachegrind, seconds", "zsim / cachegrind",
]
# What the names of each part's functions begin with: perf shares a run's user time by them. What the compiler builds
# into a caller counts for the caller, as much of the caches for the execution, and much of the weave for the run.
PARTS = {
    "Execution": ("bound_core::", "rv_blocks::", "rv_core::", "rv_decode::", "rv_alu::", "pipe_core::"),
    "Caches": ("shard::", "home::", "l1_cache::", "cache_set::", "lanes::", "mesi_dir::", "flat_memory::"),
    "Recorded order": ("access_log::", "access_record::", "core::slice::sort"),
    "Graph": ("event_graph::",),
    "Weave": ("weave_chains::", "weave_seq::", "component::", "feedback::"),
    "Counters": ("stats::",),
    "Run": ("zsim::", "replay::", "bound_records::"),
}

PARALLEL_HEADINGS = [
    "Program", "Cores", "Instructions", "Accesses", "Seconds", "Million instructions/s", "Million accesses/s",
]
BESIDE_HEADINGS = [
    "Program", "Cores", "Workers", "Intervals", "Instructions", "Accesses", "Seconds on the wall", "User seconds",
    "Million accesses/s", "One worker / these",
]
SHARES_HEADINGS = ["Program", "Cores", *(f"{part}, %" for part in PARTS), "Other, %"]


def timed(words):
    """Runs a command once. Returns its time on the wall and its user time in seconds, its status and its output."""
    with tempfile.TemporaryFile() as out:
        begin = time.monotonic()
        process = subprocess.Popen(words, stdout=out, stderr=subprocess.DEVNULL, stdin=subprocess.DEVNULL)
        _, status, usage = os.wait4(process.pid, 0)
        wall = time.monotonic() - begin
        process.returncode = os.waitstatus_to_exitcode(status)
        out.seek(0)
        return wall, usage.ru_utime, process.returncode, out.read().decode(errors="replace")


def best_time(words, runs):
    """Returns the least user time of some runs, and the standard output. None where the command failed."""
    results = [timed(words) for _ in range(runs)]
    if any(status != 0 for _, _, status, _ in results):
        return None
    return min(seconds for _, seconds, _, _ in results), results[0][3]


def number(report, word):
    return int(re.search(rf"(?m)^{word} (\d+)$", report)[1])


def seconds_of(result):
    return result and result[0]


def by_qemu(name, runs):
    """Times a program under qemu. None where that is not installed."""
    if not shutil.which("qemu-riscv64"):
        return None
    return best_time(["qemu-riscv64", os.path.join(HERE, f"{name}.elf")], runs)


def by_cachegrind(name, runs):
    """Times the native twin of a program under cachegrind. None where that is not installed."""
    if not shutil.which("valgrind"):
        return None
    made = subprocess.run(["make", "-s", "-C", HERE, f"{name}.native"], capture_output=True, check=False)
    if made.returncode != 0:
        return None
    words = ["valgrind", "--tool=cachegrind", "--cache-sim=yes", "--cachegrind-out-file=/dev/null"]
    return best_time([*words, os.path.join(HERE, f"{name}.native")], runs)


def less(seconds, nothing):
    """Returns a time less that of a program that does nothing. None where that is too short to mean something."""
    if seconds is None or nothing is None or seconds - nothing < 0.005:
        return None
    return seconds - nothing


def cells_of(seconds, other):
    """Returns the cells of another tool's time, and of how many times as long zsim takes."""
    return ["", ""] if other is None else [f"{other:.3f}", f"{seconds / other:.1f}"]


def row(name, runs, nothing):
    """Returns the cells of a program's row. `nothing` has the other tools' times for a program that does nothing."""
    result = best_time([PROGRAM, "run", "plain", os.path.join(HERE, f"{name}.elf")], runs)
    if not result:
        return [name, "zsim failed"]
    seconds, report = result
    why = re.search(r"(?m)^core 0 .* halt (.*)$", report)[1]
    if why != "exit 0":
        return [name, f"halts: {why}"]
    qemu = less(seconds_of(by_qemu(name, runs)), nothing[0])
    cachegrind = less(seconds_of(by_cachegrind(name, runs)), nothing[1]) if name in C_PROGRAMS else None
    return [name, *speed_cells(seconds, report), *cells_of(seconds, qemu), *cells_of(seconds, cachegrind)]


def speed_cells(seconds, report):
    """Returns the cells of how much a run did, in which time, and how fast that is."""
    instructions, accesses = number(report, "instructions"), number(report, "accesses")
    speeds = [f"{instructions / seconds / 1e6:.1f}", f"{accesses / seconds / 1e6:.2f}"]
    return [str(instructions), str(accesses), f"{seconds:.2f}", *speeds]


def server_with(cores, folder, **changes):
    """Writes the description of the server with so many cores and other changes, and returns its name."""
    with open(SERVER, encoding="utf-8") as file:
        text = file.read()
    for key, value in {"cores": cores, **changes}.items():
        text = re.sub(rf"(?m)^{key} = \w+$", f"{key} = {value}", text, count=1)
    name = os.path.join(folder, f"server{cores}.toml")
    with open(name, "w", encoding="utf-8") as file:
        file.write(text)
    return name


def failure(report):
    """Returns how a core halts that does not exit with 0. None where each does."""
    wrong = [why for why in re.findall(r"(?m)^core \d+ .* halt (.*)$", report) if why != "exit 0"]
    return f"halts: {wrong[0]}" if wrong else None


def parallel_row(name, cores, runs, folder):
    """Returns the cells of a program's row on so many cores."""
    words = [PROGRAM, "run", server_with(cores, folder), os.path.join(HERE, f"{name}.elf")]
    result = best_time(words, runs)
    if not result:
        return [name, str(cores), "zsim failed"]
    seconds, report = result
    return [name, str(cores), failure(report)] if failure(report) else [name, str(cores), *speed_cells(seconds, report)]


def beside_rows(name, cores, runs, folder):
    """Yields the cells of a program's rows on so many cores, one for each number of workers."""
    alone = None
    for workers in WORKERS:
        machine_file = MANY if cores == 256 else server_with(cores, folder, **SMALL_MEMORY)
        words = [PROGRAM, "run", machine_file, os.path.join(HERE, f"{name}.elf"), "--workers", str(workers)]
        front = [name, str(cores), str(workers)]
        results = [timed(words) for _ in range(runs)]
        failed = [failure(report) if status == 0 else "zsim failed" for _, _, status, report in results]
        if any(failed):
            yield [*front, next(filter(None, failed))]
            continue
        wall, user, _, report = min(results)
        alone = alone or wall
        counts = [number(report, word) for word in ("intervals", "instructions", "accesses")]
        speeds = [f"{wall:.2f}", f"{user:.2f}", f"{counts[2] / wall / 1e6:.2f}", f"{alone / wall:.2f}"]
        yield [*front, *map(str, counts), *speeds]


def shares_row(program, cores, folder):
    """Returns the cells of how a run's time is shared among the parts of zsim, in percent."""
    if not shutil.which("perf"):
        return [program, str(cores), "perf is not installed"]
    data = os.path.join(folder, "perf.data")
    words = [PROGRAM, "run", server_with(cores, folder), os.path.join(HERE, f"{program}.elf"), "--brief"]
    subprocess.run(["perf", "record", "-q", "-F", "999", "-o", data, *words], capture_output=True, check=False)
    report = ["perf", "report", "-i", data, "--stdio", "-q", "-F", "overhead,symbol"]
    lines = subprocess.run(report, capture_output=True, text=True, check=False).stdout.splitlines()
    found = [re.match(r"\s*([0-9.]+)%\s+\[\.\]\s+(\S*)", line) for line in lines]
    samples = [(float(match[1]), match[2]) for match in found if match]
    total = sum(share for share, _ in samples)
    if total == 0:
        return [program, str(cores), "perf found nothing"]
    shares = [sum(share for share, name in samples if name.startswith(fronts)) for fronts in PARTS.values()]
    return [program, str(cores), *(f"{100 * share / total:.0f}" for share in [*shares, total - sum(shares)])]


def machine():
    """Returns the name of the processor."""
    try:
        with open("/proc/cpuinfo", encoding="utf-8") as file:
            return re.search(r"model name\s*: (.*)", file.read())[1]
    except (OSError, TypeError):
        return platform.processor() or platform.machine()


def commit():
    def git(*words):
        return subprocess.run(["git", "-C", TOP, *words], capture_output=True, text=True, check=False).stdout.strip()

    return git("rev-parse", "--short", "HEAD") + (" and changes" if git("status", "--porcelain") else "")


def print_table(headings, left, rows):
    """Prints a table, each row when it is there. The first columns are aligned to the left."""
    print(f"| {' | '.join(headings)} |")
    print("|" + "---|" * left + "---:|" * (len(headings) - left))
    for cells in rows:
        print(f"| {' | '.join(cells + [''] * (len(headings) - len(cells)))} |", flush=True)
    print()


def main():
    parser = argparse.ArgumentParser(description=__doc__.partition("\n")[0])
    parser.add_argument("--runs", type=int, default=3, metavar="N", help="the best of N runs counts (3)")
    parser.add_argument("names", nargs="*", metavar="NAME", help=f"of {', '.join(PROGRAMS)}; all, if none is given")
    parser.add_argument("--shares", action="store_true", help="also prints the shares of the parts of zsim, by perf")
    words = parser.parse_args()
    unknown = [name for name in words.names if name not in PROGRAMS]
    if unknown:
        parser.error(f"no such program: {unknown[0]}")

    if subprocess.run([os.path.join(TOP, "prove")], check=False).returncode != 0:
        sys.exit("bench: zsim could not be proved and built, and nothing else is measured")

    load = os.getloadavg()[0]
    print(f"{datetime.date.today()}, commit {commit()}, {machine()}, {os.cpu_count()} processors, load {load:.1f}\n")
    names = words.names or PROGRAMS
    alone = [name for name in names if name not in PARALLEL + BESIDE]
    together = [name for name in names if name in PARALLEL]
    beside = [name for name in names if name in BESIDE]
    if alone:
        nothing = [seconds_of(tool("nothing", words.runs)) for tool in (by_qemu, by_cachegrind)]
        print_table(HEADINGS, 1, (row(name, words.runs, nothing) for name in alone))
    with tempfile.TemporaryDirectory() as folder:
        runs = [(name, cores) for name in together for cores in CORES]
        if runs:
            print_table(PARALLEL_HEADINGS, 1, (parallel_row(*run, words.runs, folder) for run in runs))
        runs_beside = [(name, cores) for name in beside for cores in CORES_BESIDE]
        runs_beside += [(name, 256) for name in beside if name in BESIDE_MANY]
        if runs_beside:
            rows = (row for run in runs_beside for row in beside_rows(*run, words.runs, folder))
            print_table(BESIDE_HEADINGS, 1, rows)
        if runs and words.shares:
            print_table(SHARES_HEADINGS, 1, (shares_row(*run, folder) for run in runs))


if __name__ == "__main__":
    main()
