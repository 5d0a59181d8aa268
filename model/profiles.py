"""The files of a profile, counted and written from docs/profile-files.md and not from the code."""

import collections
import itertools

LR, SC = 0b00010, 0b00011
KINDS = {"load": "loads", "store": "stores", "fetch": "fetches"}
ACCESSES = ["loads", "stores", "atomics", "fetches", "hits", "upgrades", "l2hits", "misses"]
COSTS = ["executed", *ACCESSES, "cycles", "waited"]
LEFT = ["cold", "coherence", "inclusion", "eviction"]
CHANGES = ["invalidating", "invalidated", "downgrading", "lost", "lowered"]
MASKS = ["read", "written"]
LINES = [*ACCESSES, *LEFT, *CHANGES, "cycles", "missing", "waited", "cost", *MASKS]
SERIES = ["instructions", *ACCESSES, "events", "waited"]
HEAD = """\
# callgrind format
version: 1
creator: zprof
positions: instr
events: Ir Loads Stores Atomics Fetches Hits Upgrades L2hits Misses Cycles Waited
"""


class Profile:
    """What is counted of a run, told as the machine goes. A row is a table of numbers, 0 where nothing was counted."""

    def __init__(self):
        self.instructions = collections.defaultdict(collections.Counter)  # by core and address
        self.lines = collections.defaultdict(collections.Counter)  # by line and core
        self.intervals = []
        self.left = {}  # of each copy, by core, cache and line: how it last left
        self.taken = self.lowered = 0  # copies of other cores that the access in progress took away, or downgraded

    def begin(self):
        """Begins an interval."""
        self.intervals.append(collections.Counter())

    def execute(self, core, pc):
        """Counts an instruction."""
        self.instructions[core, pc]["executed"] += 1
        self.intervals[-1]["instructions"] += 1

    def leave(self, core, cache, line, why):
        """Notes how a copy left."""
        self.left[core, cache, line] = why

    def lose(self, core, line):
        """Counts a copy that the write of another core takes away."""
        self.leave(core, "data", line, "coherence")
        self.lines[line, core]["lost"] += 1
        self.taken += 1

    def lower(self, core, line):
        """Counts a copy whose write permission the read of another core takes away."""
        self.lines[line, core]["lowered"] += 1
        self.lowered += 1

    def access(self, core, pc, kind, address, width, outcome, time):
        """Counts an access, and returns the rows for which its events wait."""
        line = address // 64
        own = self.lines[line, core]
        rows = [self.instructions[core, pc], own, self.intervals[-1]]
        for row in rows:
            row[KINDS.get(kind, "atomics")] += 1
            row[outcome] += 1
            row["cycles"] += time
        if outcome in ("l2hits", "misses"):
            cache = "instructions" if kind == "fetch" else "data"
            own[self.left.get((core, cache, line), "cold")] += 1
        if outcome != "hits":
            own["missing"] += time
        self.change(own)
        self.touch(own, kind, ((1 << width) - 1) << address % 64)
        return rows

    def change(self, own):
        """Counts what an access did to the copies of other cores."""
        own["invalidating"] += self.taken > 0
        own["invalidated"] += self.taken
        own["downgrading"] += self.lowered > 0
        self.taken = self.lowered = 0

    def touch(self, own, kind, mask):
        """Notes which bytes an access reads, and writes or may write. A store-conditional reads none."""
        if kind not in ("fetch", "store", SC):
            own["read"] |= mask
        if kind not in ("fetch", "load", LR):
            own["written"] |= mask

    def wait(self, rows, component, cycles):
        """Counts what an event of an access waited for a component."""
        self.intervals[-1]["events"] += 1
        self.intervals[-1][component] += cycles
        for row in rows:
            row["waited"] += cycles


def files(run, separate, every):
    """Returns the files of a run, by their names."""
    components = [run.name_of(n) for n in range(len(run.free))]
    return {
        "callgrind.out": callgrind(run.profile, separate),
        "lines.csv": lines(run.profile),
        "series.csv": series(run.profile, components, every),
        "halts.txt": halts(run.cores),
    }


def callgrind(profile, separate):
    """Returns the file of the instructions: by core and address, or by address alone."""
    rows, written = collections.defaultdict(collections.Counter), [HEAD]
    for (core, pc), row in profile.instructions.items():
        rows[core if separate else 0, pc].update(row)
    for core, places in itertools.groupby(sorted(rows), key=lambda place: place[0]):
        written += [f"ob=core {core}" if separate else "ob=cores", "fl=???", "fn=???"]
        written += [f"{pc:#x} {numbers(rows[core, pc], COSTS)}" for _, pc in places]
    written.append(f"totals: {numbers(total(rows.values()), COSTS)}")
    return joined(written)


def lines(profile):
    """Returns the file of the lines, those that cost most first."""
    costs = collections.Counter()
    for (line, _), row in profile.lines.items():
        row["cost"] = row["missing"] + row["waited"]
        costs[line] += row["cost"]
    written = [",".join(["line", "core", *LINES])]
    for line, core in sorted(profile.lines, key=lambda key: (-costs[key[0]], key)):
        row = profile.lines[line, core]
        masks = [f"{row[name]:#018x}" for name in MASKS]
        written.append(",".join([f"{64 * line:#x}", f"{core}", numbers(row, LINES[:-2], ","), *masks]))
    return joined(written)


def series(profile, components, every):
    """Returns the file of the intervals, so many in a row."""
    columns = [*SERIES, *components]
    written = [",".join(["interval", "intervals", *columns]).replace(" ", "")]
    for first in range(0, len(profile.intervals), every):
        together = profile.intervals[first : first + every]
        written.append(f"{first},{len(together)},{numbers(total(together), columns, ',')}")
    return joined(written)


def halts(cores):
    """Returns the file of the cores at the end."""
    written = []
    for core in cores:
        written += [f"core {core.number}", f"halt {core.halt or 'running'}", f"pc {core.pc:#x}"]
        written += [f"x{n} {number:#x}" for n, number in enumerate(core.x)]
        written += [f"jump {before:#x} {after:#x}" for before, after in core.jumps]
    return joined(written)


def total(rows):
    """Returns the sums of rows."""
    whole = collections.Counter()
    for row in rows:
        whole.update(row)
    return whole


def numbers(row, columns, between=" "):
    return between.join(str(row[column]) for column in columns)


def joined(written):
    return "".join(line + "\n" for line in written)
