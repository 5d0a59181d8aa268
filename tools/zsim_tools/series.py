"""The events of a run over time: sums over intervals, as tables, as CSV, or as a plot.

An events file is read piece by piece, and what is kept are the sums of the rows that are shown.
"""

import csv
import sys

import numpy

from .derived import quotient
from .errors import ToolError
from .events import open_events
from .parts import KINDS
from .texts import console, print_table, shown_number
from .ticker import Timer
from .timeline import progress_of

# How many rows the tables have at most, and how many components or cores a table or a plot tells of by itself.
ROWS = 24
FEW = 8
# What the events are told apart by, and what each of these is called in the plural.
WAYS = {"component": "components", "core": "cores", "kind": "kinds"}
# The columns of the first table.
OVERALL = ("interval", "cycle", "events", "waited", "wait", "late", "misses", "write_backs", "l2_mpki")
FILL, WRITE = KINDS.index("fill"), KINDS.index("write")


class Sums:
    """The sums over some intervals: of events, of cycles that they waited and were late, and of misses, each as a list by
    the components, by the cores, or by the kinds of events."""

    def __init__(self, source, interval=0, intervals=0):
        self.source, self.interval, self.intervals = source, interval, intervals
        lengths = {"component": len(source.parts), "core": source.machine.values["cores"], "kind": len(KINDS)}
        self.by = {
            way: {name: numpy.zeros(length, "<u8") for name in ("events", "waited", "late", "misses")}
            for way, length in lengths.items()
        }

    def add(self, chunk):
        """Adds the events of a chunk."""
        records = chunk.records
        told = {"events": 1, "waited": chunk.waits, "late": records["start"] - records["min_start"]}
        told["misses"] = (records["kind"] == FILL).astype("<u8")
        for way, sums in self.by.items():
            for name, numbers in told.items():
                numpy.add.at(sums[name], records[way], numbers)

    def merge(self, other):
        for way, sums in self.by.items():
            for name in sums:
                sums[name] += other.by[way][name]
        self.intervals += other.intervals

    def total(self, name):
        return int(self.by["kind"][name].sum())

    def overall(self, instructions):
        """Returns the numbers over all events. `instructions` is how many an interval has in the mean, where it is known."""
        events, waited, misses = map(self.total, ("events", "waited", "misses"))
        numbers = {
            "interval": self.interval,
            "intervals": self.intervals,
            "cycle": self.interval * self.source.machine.values["interval"],
            "events": events,
            "waited": waited,
            "wait": quotient(waited, events),
            "late": self.total("late"),
            "misses": misses,
            "write_backs": int(self.by["kind"]["events"][WRITE]),
        }
        if instructions is not None:
            numbers["l2_mpki"] = quotient(1000 * misses, instructions * self.intervals)
        return numbers

    def row(self, instructions):
        """Returns the numbers of a row, by name: over all, by kind of event, by component, and by core."""
        row = self.overall(instructions)
        for way, sums in self.by.items():
            for number, name in enumerate(names_of(self.source, way)):
                name = name.replace(" ", "")
                row |= {f"{name}_{what}": int(sums[what][number]) for what in ("events", "waited")}
                if way == "core":
                    row[f"{name}_misses"] = int(sums["misses"][number])
        return row


def names_of(source, way):
    """Returns what each component, core or kind is called."""
    if way == "component":
        return [part.name for part in source.parts]
    return list(KINDS) if way == "kind" else [f"core {core}" for core in range(source.machine.values["cores"])]


def sums_of(source, every):
    """Yields the Sums of so many intervals after another, from the first on; the last ones may be fewer."""
    cores = source.machine.values["cores"]
    made = None
    for chunk in source.chunks():
        strange = chunk.records["core"] >= cores
        if strange.any():
            number = int(strange.argmax())
            core, place = chunk.records["core"][number], chunk.place + number
            source.fail(f"event {place} of interval {chunk.interval} is of core {core}, and there are {cores}")
        while made is None or chunk.interval >= made.interval + made.intervals:
            if made:
                yield made
            made = next_sums(source, made, every)
        made.add(chunk)
    while made is None or made.interval + made.intervals < source.intervals:
        if made:
            yield made
        elif not source.intervals:
            return
        made = next_sums(source, made, every)
    yield made


def next_sums(source, before, every):
    first = before.interval + before.intervals if before else 0
    return Sums(source, first, min(every, source.intervals - first))


class Series:
    """The rows of an events file, each of so many intervals that there are at most `most`, or of `every`, and their sums."""

    def __init__(self, path, machine, report=None, every=None, most=ROWS, told=None):
        self.source = source = open_events(path, machine)
        with source.file, Timer(lambda passed: progress_of(source, passed)):
            self.every = every or max(1, -(-source.intervals // most))
            self.instructions = instructions_of(report)
            self.rows, self.all = [], Sums(source)
            for sums in sums_of(source, self.every):
                (told or self.rows.append)(sums)
                self.all.merge(sums)
        if report:
            check_report(source, self.all, report)


def instructions_of(report):
    """Returns how many instructions an interval of a run has in the mean, where its report is given."""
    return quotient(report.summary["instructions"], report.summary["intervals"]) if report else None


def check_report(source, sums, report):
    """Raises ToolError where a report is of another run than an events file."""
    if report.brief:
        raise ToolError(f"{report.name}: a brief report tells nothing of components; give a whole one")
    parts = {"bank": report.bank_list, "controller": report.controller_list, "link": report.link_list}
    for number, part in enumerate(source.parts):
        counters = parts[part.sort][part.number].counters
        for name in ("events", "waited"):
            here = int(sums.by["component"][name][number])
            if counters[name] != here:
                there = f"there {part.name} has {name} {counters[name]}, and here {here}"
                raise ToolError(f"{source.name}: these are not the events of the run of {report.name}: {there}")


def series_csv(path, machine, report, every):
    """Prints a line for each row, as they come."""
    lines = csv.writer(sys.stdout, lineterminator="\n")
    instructions = instructions_of(report)
    headings = []

    def told(sums):
        row = sums.row(instructions)
        if not headings:
            headings.extend(row)
            lines.writerow(headings)
        lines.writerow(["" if value != value else value for value in row.values()])

    Series(path, machine, report, every or 1, told=told)


def series_tables(series):
    """Prints tables: over all events, and then what waited by component and by core."""
    out = console()
    rows = [sums.overall(series.instructions) for sums in series.rows]
    rows.append({**series.all.overall(series.instructions), "interval": "all", "cycle": ""})
    names = [name for name in OVERALL if name in rows[0]]
    shown = [[shown_number(name, row[name]) for name in names] for row in rows]
    length = "" if series.every == 1 else f", {series.every} of them in a row"
    title = f"{series.source.name}: {series.source.intervals} intervals{length}"
    print_table(out, title, names, shown)
    for way in ("component", "core"):
        for name in ("events", "waited", *(["misses"] if way == "core" else [])):
            columns = columns_of(series, way, name)
            table = [[str(sums.interval)] for sums in series.rows] + [["all"]]
            for row, numbers in zip(table, zip(*columns.values())):
                row.extend(str(number) for number in numbers)
            out.print()
            print_table(out, f"{name} by {way}", ["interval", *columns], table)


def columns_of(series, way, name, order=None):
    """Returns the sums of each component, core or kind over the rows, and at the end over all; of more than a few, those
    of the greatest (by `order`, another sum), and of the others together."""
    whole = series.all.by[way][order or name]
    names = names_of(series.source, way)
    greatest = sorted(range(len(names)), key=lambda number: (-int(whole[number]), number))
    # (one more is no others)
    shown = sorted(greatest[:FEW]) if len(names) > FEW + 1 else range(len(names))
    table = [*series.rows, series.all]
    columns = {names[number]: [int(sums.by[way][name][number]) for sums in table] for number in shown}
    left = len(names) - len(shown)
    if left:
        others = [int(sums.by[way][name].sum()) for sums in table]
        told = [sum(numbers) for numbers in zip(*columns.values())]
        columns[f"{left} other {WAYS[way]}"] = [other - shown for other, shown in zip(others, told)]
    return columns
