"""Reads events files (docs/events.md) from front to back, some records at a time, and checks each field as it is read.

An events file can be larger than memory, so nothing of it is kept. What a file says of starts and finishes is checked
only as far as a slice needs it: `zsim check` tells whether they are those of the weave.
"""

import os
import stat
from collections import namedtuple
from typing import NamedTuple

import numpy

from .describe import checked
from .errors import ToolError, told
from .parts import KINDS, parts_of

MAGIC, VERSION = b"ZSEV", 1
RECORD = numpy.dtype(
    [
        ("component", "<u2"),
        ("core", "<u2"),
        ("kind", "u1"),
        ("flags", "u1"),
        ("bank", "<u2"),
        ("row", "<u8"),
        ("min_start", "<u8"),
        ("first", "<u4"),
        ("second", "<u4"),
        ("first_delay", "<u8"),
        ("second_delay", "<u8"),
        ("start", "<u8"),
        ("finish", "<u8"),
    ]
)
LENGTH = RECORD.itemsize
# A record with its numbers by name, which is quicker where one is looked at after the other.
Record = namedtuple("Record", RECORD.names)
# The flags, and the fields of the parent that two of them tell of.
LAST, FIRST, SECOND = 1, 2, 4
PARENTS = ((FIRST, "first", "first_delay"), (SECOND, "second", "second_delay"))
# The kind that names a bank of memory and a row.
ROWREAD = KINDS.index("rowread")
# Cycles and times are below this.
CYCLES = 2**60
# How many records are read at a time: a megabyte of them.
CHUNK = 2**14


class Chunk(NamedTuple):
    """Records that stand one after the other in an interval, the first of which has the number `place` there.

    `floors` has the least cycles of each, and `waits` how many more than these it took.
    """

    interval: int
    place: int
    records: numpy.ndarray
    floors: numpy.ndarray
    waits: numpy.ndarray


class EventsFile:
    """An open events file. `done` is how many of its bytes are read, of `size`."""

    def __init__(self, file, name, machine):
        self.file, self.name, self.machine = file, name, machine
        self.size = os.fstat(file.fileno()).st_size
        self.parts = parts_of(checked(machine).values)
        self.floors = floors_of(self.parts)
        self.done = 0
        self.intervals = self._header()

    def fail(self, what, at=None):
        place = "" if at is None else f"byte {at}: "
        raise ToolError(f"{self.name}: {place}{what}")

    def chunks(self):
        """Yields the records of the file as Chunks. ToolError tells the first byte or record that is wrong."""
        for interval in range(self.intervals):
            (count,) = self._numbers(1, f"the number of events of interval {interval}")
            begin = self.done
            for place in range(0, count, CHUNK):
                yield self._chunk(interval, place, min(CHUNK, count - place), begin)
        if self._read(1):
            self.fail("the file goes on behind its last event", self.done - 1)

    def record(self, chunk, number):
        """Returns the record with a number in the interval of a chunk that was just read, which comes no later."""
        if number >= chunk.place:
            return Record._make(chunk.records[number - chunk.place].item())
        at = self.done - LENGTH * (chunk.place + len(chunk.records) - number)
        with told(f"cannot read: {self.name}"):
            data = os.pread(self.file.fileno(), LENGTH, at)
        if len(data) < LENGTH:
            self.fail("the file changed while it was read", at)
        return Record._make(numpy.frombuffer(data, RECORD)[0].item())

    def _read(self, count):
        with told(f"cannot read: {self.name}"):
            data = self.file.read(count)
        self.done += len(data)
        return data

    def _field(self, count, what):
        """Reads so many bytes, of `what`."""
        begin = self.done
        data = self._read(count)
        if len(data) < count:
            self.fail(f"the file ends within {what}, which begins here", begin)
        return data

    def _numbers(self, count, what):
        return numpy.frombuffer(self._field(4 * count, what), "<u4").tolist()

    def _header(self):
        if self._field(4, "its first word") != MAGIC:
            self.fail("no events file: it does not begin with ZSEV")
        (version,) = self._numbers(1, "its version")
        if version != VERSION:
            self.fail(f"an events file of version {version}; these tools read version {VERSION}", 4)
        (components,) = self._numbers(1, "its number of components")
        if components != len(self.parts):
            has = len(self.parts)
            self.fail(f"it is of a machine of {components} components, and {self.machine.name} has {has}", 8)
        return self._numbers(1, "its number of intervals")[0]

    def _chunk(self, interval, place, count, begin):
        """Reads so many records of an interval, of which the first one begins at this byte."""
        data = self._read(LENGTH * count)
        records = numpy.frombuffer(data, RECORD, len(data) // LENGTH)
        floors = self._known_floors(records)
        banks = self.machine.values.get("dram.banks", 0)
        wrong = wrong_records(records, place, floors, banks)
        self._check(wrong, records, interval, place, begin, self._wrong_field)
        if len(records) < count:
            number = place + len(records)
            self.fail(
                f"the file ends within event {number} of interval {interval}, which begins here", begin + LENGTH * number
            )
        untimely = (records["start"] < records["min_start"]) | (records["finish"] < records["start"] + floors)
        self._check(untimely, records, interval, place, begin, self._wrong_time)
        return Chunk(interval, place, records, floors, records["finish"] - records["start"] - floors)

    def _known_floors(self, records):
        """Returns the least cycles of each record: 0 where its component is not there, or serves no such kind."""
        components = numpy.minimum(records["component"], len(self.parts))
        return self.floors[components, numpy.minimum(records["kind"], len(KINDS))]

    def _check(self, wrong, records, interval, place, begin, reason):
        if wrong.any():
            number = int(wrong.argmax())
            what = reason(Record._make(records[number].item()), place + number)
            at = begin + LENGTH * (place + number)
            self.fail(f"event {place + number} of interval {interval}: {what}", at)

    def _wrong_field(self, record, place):
        """Returns what is wrong with the record of an event."""
        if record.component >= len(self.parts):
            return f"there is no component {record.component}: {self.machine.name} has {len(self.parts)}"
        part = self.parts[record.component]
        if record.kind >= len(KINDS):
            return f"there is no kind {record.kind}"
        if KINDS[record.kind] not in part.floors:
            return f"{part.name} serves no {KINDS[record.kind]}"
        if record.flags >= 2 * SECOND:
            return f"there are no flags {record.flags}"
        if record.kind == ROWREAD and record.bank >= self.machine.values["dram.banks"]:
            return f"{part.name} has no bank {record.bank} of memory"
        numbers = record._asdict()
        for flag, number, _ in PARENTS:
            if record.flags & flag and numbers[number] >= place:
                return f"its {number} parent is event {numbers[number]}, which does not come before it"
        for name in ("min_start", "first_delay", "second_delay", "start", "finish"):
            if numbers[name] >= CYCLES:
                return f"its {name} of {numbers[name]} cycles is not below 2^60"
        return "a field that has no meaning for it is not 0"

    def _wrong_time(self, record, _):
        """Returns in what a record's times are those of no weave."""
        if record.start < record.min_start:
            return f"it starts at {record.start}, before its earliest start, which is {record.min_start}"
        part, kind = self.parts[record.component], KINDS[record.kind]
        took = record.finish - record.start
        return f"it took {took} cycles, and a {kind} of {part.name} takes {part.floors[kind]} at least"


def open_events(path, machine):
    """Opens an events file of a machine, and reads its header. ToolError says what is wrong with it, and where."""
    with told(f"cannot read: {path}"):
        file = open(path, "rb")
    try:
        if not stat.S_ISREG(os.fstat(file.fileno()).st_mode):
            raise ToolError(f"cannot read: {path}: it is no regular file")
        return EventsFile(file, str(path), machine)
    except BaseException:
        file.close()
        raise


def floors_of(parts):
    """Returns the least cycles of each kind of event in each component, 0 where it is not served. Behind the last
    component and the last kind there is one more of each, which serves nothing."""
    floors = numpy.zeros((len(parts) + 1, len(KINDS) + 1), "<u8")
    for number, part in enumerate(parts):
        for kind, cycles in part.floors.items():
            floors[number, KINDS.index(kind)] = cycles
    return floors


def wrong_records(records, place, floors, banks):
    """Returns which records are none of an event: the first has this number, and is to take `floors` cycles at least. A
    controller's memory has so many banks, where it has open rows."""
    numbers = numpy.arange(place, place + len(records))
    wrong = (floors == 0) | (records["flags"] >= 2 * SECOND)
    names_none = (records["bank"] == 0) & (records["row"] == 0)
    wrong |= ~numpy.where(records["kind"] == ROWREAD, records["bank"] < banks, names_none)
    for name in ("min_start", "start", "finish"):
        wrong |= records[name] >= CYCLES
    for flag, number, time in PARENTS:
        there = records["flags"] & flag != 0
        is_parent = (records[number] < numbers) & (records[time] < CYCLES)
        wrong |= numpy.where(there, ~is_parent, (records[number] != 0) | (records[time] != 0))
    return wrong
