"""Writes the events of a run as a timeline: Chrome's trace events, which Perfetto and `chrome://tracing` open.

Each component is a process of the trace, and in it each core has a track for its events there, and one for its writes,
which go on beside its reads. So no two slices of a track overlap. A cycle is a microsecond, the unit of the format.
"""

import json

import numpy

from .events import LAST, PARENTS, ROWREAD, Record, open_events
from .parts import KINDS
from .table import write_whole
from .ticker import Timer, duration

WRITE = KINDS.index("write")
# The entries of which there are many, filled in here since that is ten times as quick as an encoder of JSON.
SLICE = (
    '{"ph":"X","pid":%d,"tid":%d,"ts":%d,"dur":%d,"name":"%s","args":{"core":%d,"interval":%d,"event":%d,"earliest":%d,'
    '"late":%d,"start":%d,"waiting":%d,"service":%d,"finish":%d,"last of its access":%s%s}}'
)
ROW = ',"bank":%d,"row":%d'
SPLIT = '{"ph":"X","pid":%d,"tid":%d,"ts":%d,"dur":%d,"name":"%s"}'
BEGIN = '{"ph":"s","id":%d,"name":"then","cat":"then","pid":%d,"tid":%d,"ts":%d}'
END = '{"ph":"f","bp":"e","id":%d,"name":"then","cat":"then","pid":%d,"tid":%d,"ts":%d}'
MARK = '{"ph":"i","s":"g","pid":%d,"tid":1,"ts":%d,"name":"interval %d"}'


class Cut:
    """Which events are drawn: those of some cores, or of all, that are there at some cycle from `since` to `until`."""

    def __init__(self, since=0, until=None, cores=()):
        self.since, self.until, self.cores = since, until, list(cores)

    def of(self, records):
        """Returns the numbers of the records that are drawn, among these."""
        kept = records["finish"] > self.since
        if self.until is not None:
            kept &= records["start"] < self.until
        if self.cores:
            kept &= numpy.isin(records["core"], self.cores)
        return kept.nonzero()[0].tolist()

    def has(self, record):
        """Whether an event is drawn."""
        is_there = record.finish > self.since and (self.until is None or record.start < self.until)
        return is_there and (not self.cores or record.core in self.cores)

    def has_cycle(self, cycle):
        return self.since <= cycle and (self.until is None or cycle < self.until)


def write_timeline(path, machine, out, cut=None):
    """Writes the timeline of an events file, and returns how many events and how many arrows it has."""
    source = open_events(path, machine)
    with source.file, Timer(lambda passed: progress_of(source, passed)):
        made = Timeline(source, cut or Cut())
        write_whole(out, made.write)
    return made.slices, made.arrows


def progress_of(source, passed):
    """Returns the line of how much of a file is read."""
    return f"{source.name}: {100 * source.done // max(1, source.size)} % are read after {duration(passed)}"


class Timeline:
    """The lines of a timeline. What is kept meanwhile are the tracks that are there."""

    def __init__(self, source, cut):
        self.source, self.cut = source, cut
        self.slices = self.arrows = 0
        self.tracks = set()

    def write(self, file):
        """Writes the whole to an open file, a line for each entry."""
        told = {"machine": self.source.machine.name, "events": self.source.name, "unit": "a microsecond is a cycle"}
        head = json.dumps({"displayTimeUnit": "ns", "otherData": told})
        file.write(head.removesuffix("}").encode("ascii") + b', "traceEvents": [\n')
        file.write(",\n".join(self._intervals_named()).encode("ascii"))
        for entries in self._entries():
            file.write("".join(f",\n{entry}" for entry in entries).encode("ascii"))
        file.write(b"\n]}\n")

    def _intervals_named(self):
        track = len(self.source.parts) + 1, 1
        return [named("process_name", track, name="intervals"), named("process_sort_index", track, sort_index=0)]

    def _entries(self):
        """Yields lists of entries: a mark for each interval, and the slices and arrows of the events."""
        interval, track = self.source.machine.values["interval"], len(self.source.parts) + 1
        for number in range(self.source.intervals):
            if self.cut.has_cycle(number * interval):
                yield [MARK % (track, number * interval, number)]
        for chunk in self.source.chunks():
            places = self.cut.of(chunk.records)
            waits, floors = chunk.waits[places].tolist(), chunk.floors[places].tolist()
            for place, *times, numbers in zip(places, waits, floors, chunk.records[places].tolist()):
                yield self._entries_of(chunk, chunk.place + place, Record._make(numbers), *times)

    def _entries_of(self, chunk, number, record, waiting, service):
        """Returns the entries of an event, behind those of its track where it is the first one there."""
        track = track_of(record)
        entries = [*self._new_track(record, track), *slices_of(chunk.interval, number, record, waiting, service)]
        self.slices += 1
        for flag, field, _ in PARENTS:
            if record.flags & flag:
                parent = self.source.record(chunk, getattr(record, field))
                if self.cut.has(parent):
                    entries += arrow_of(self.arrows, parent, record)
                    self.arrows += 1
        return entries

    def _new_track(self, record, track):
        """Returns the names of a track and of its component, each where it is new."""
        if track in self.tracks:
            return []
        pid, tid = track
        made = []
        if pid not in self.tracks:
            made.append(named("process_name", track, name=self.source.parts[record.component].name))
            made.append(named("process_sort_index", track, sort_index=pid))
        writes = " writes" if record.kind == WRITE else ""
        made.append(named("thread_name", track, name=f"core {record.core}{writes}"))
        made.append(named("thread_sort_index", track, sort_index=tid))
        self.tracks |= {pid, track}
        return made


def track_of(record):
    """Returns the process and the thread of an event. Neither is 0, which viewers take for one of their own."""
    return record.component + 1, 2 * record.core + (2 if record.kind == WRITE else 1)


def named(what, track, **told):
    return json.dumps({"ph": "M", "name": what, "pid": track[0], "tid": track[1], "args": told})


def slices_of(interval, number, record, waiting, service):
    """Returns the slice of an event, and where it waited the two that it consists of: its waiting and its service."""
    track, start = track_of(record), record.start
    times = record.min_start, start - record.min_start, start, waiting, service, record.finish
    is_last = "true" if record.flags & LAST else "false"
    lies = *track, start, record.finish - start
    row = ROW % (record.bank, record.row) if record.kind == ROWREAD else ""
    whole = SLICE % (*lies, KINDS[record.kind], record.core, interval, number, *times, is_last, row)
    if not waiting:
        return [whole]
    split = (start, waiting, "waiting"), (start + waiting, service, "service")
    return [whole, *(SPLIT % (*track, *part) for part in split)]


def arrow_of(number, parent, child):
    """Returns the two ends of an arrow. The first lies in the last cycle of the parent, which is still in its slice."""
    begin = BEGIN % (number, *track_of(parent), parent.finish - 1)
    return [begin, END % (number, *track_of(child), child.start)]
