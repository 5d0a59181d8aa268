"""Events files, written, read and checked from docs/events.md and not from the code."""

import struct

RECORD = struct.Struct("<HHBBHQQIIQQQQ")
LOOKUP, REMOTE, FILL, READ, WRITE, HOP, ROW_READ = range(7)
CRITICAL, FIRST, SECOND = 1, 2, 4
LIMIT = 2**60
MOST = 2**28


class BadEvents(Exception):
    """The number of what is wrong with a file, and what it names."""


class NotWoven(Exception):
    """What is wrong with an event, its interval and its number."""


class Components:
    """The components of a machine, each free from cycle 0 on, and no row open. Where rows are kept open, a read has the
    bank and the row of its line, and nothing else has."""

    def __init__(self, machine):
        banks, controllers, mesh = machine["l2"], machine["controllers"], machine.get("mesh")
        self.dram = machine.get("dram")
        latency = banks["latency"]
        bank = {LOOKUP: latency, REMOTE: latency + banks["remote"], FILL: banks["fill"]}, banks["occupancy"]
        read = {ROW_READ: self.dram["hit"]} if self.dram else {READ: controllers["read"]}
        controller = {**read, WRITE: controllers["write"]}, controllers["occupancy"]
        self.kinds = [bank] * banks["banks"] + [controller] * controllers["count"]
        if mesh:
            self.kinds += [({HOP: mesh["hop"]}, mesh["occupancy"])] * (4 * mesh["width"] * mesh["height"])
        self.free = [0] * len(self.kinds)
        self.open_rows = {}  # of each bank behind each controller the row that was read last

    def serves(self, component, kind, row):
        """Tells whether a component is there and serves a kind of events, with this bank and this row."""
        is_row = row[0] < self.dram["banks"] if self.dram and kind == ROW_READ else row == (0, 0)
        return is_row and component < len(self.kinds) and kind in self.kinds[component][0]

    def latency(self, component, kind):
        """Returns how long an event takes at least."""
        return self.kinds[component][0][kind]

    def finish(self, component, kind, row, start):
        """Serves an event, and returns when it finishes."""
        served = max(start, self.free[component])
        self.free[component] = served + self.kinds[component][1]
        return served + (self.open(component, *row) if kind == ROW_READ else self.latency(component, kind))

    def open(self, controller, bank, row):
        """Opens a row of a bank, and returns how long the read of it takes."""
        before = self.open_rows.get((controller, bank))
        self.open_rows[controller, bank] = row
        return self.dram["closed" if before is None else "hit" if before == row else "conflict"]


def record(component, core, kind, row, critical, min_start, parents, start, finish):
    """Returns the record of an event whose parents are numbers with delays, None where there is none."""
    first, second = parents
    flags = CRITICAL * critical + FIRST * (first is not None) + SECOND * (second is not None)
    (first, first_delay), (second, second_delay) = first or (0, 0), second or (0, 0)
    numbers = component, core, kind, flags, *row, min_start, first, second, first_delay, second_delay, start, finish
    return RECORD.pack(*numbers)


def events_file(components, intervals):
    """Returns the file of these intervals, each of which is a list of records."""
    header = struct.pack("<4sIII", b"ZSEV", 1, components, len(intervals))
    return header + b"".join(struct.pack("<I", len(records)) + b"".join(records) for records in intervals)


def parents_of(place, numbers):
    """Returns the numbers and delays of an event's parents. None where a number has no meaning."""
    flags, (first, second), (first_delay, second_delay) = numbers[3], numbers[7:9], numbers[9:11]
    parents = []
    for flag, number, delay in (FIRST, first, first_delay), (SECOND, second, second_delay):
        if number >= place or delay >= LIMIT if flags & flag else number or delay:
            return None
        if flags & flag:
            parents.append((number, delay))
    return parents


def event_of(place, numbers, components):
    """Returns what serves an event and when it starts and finishes, as a record says: its component, its kind, and its
    bank and its row; and its earliest start, its parents, its start and its finish. None where it is not that of an event."""
    component, _, kind, flags, bank, row, min_start, *_, start, finish = numbers
    served, parents = (component, kind, (bank, row)), parents_of(place, numbers)
    if flags > 7 or max(min_start, start, finish) >= LIMIT or parents is None:
        return None
    return (served, min_start, parents, start, finish) if components.serves(*served) else None


def intervals_of(file, components):
    """Returns the events of each interval of a file for these components."""

    def field(at, count):
        if at + count > len(file):
            raise BadEvents(f"1 {at}")
        return file[at : at + count]

    def number(at):
        return int.from_bytes(field(at, 4), "little")

    if field(0, 4) != b"ZSEV":
        raise BadEvents("2")
    if number(4) != 1:
        raise BadEvents(f"3 {number(4)}")
    if number(8) != len(components.kinds):
        raise BadEvents(f"4 {number(8)}")
    intervals, at = [], 16
    while len(intervals) < number(12):
        events, count = [], number(at)
        at += 4
        while len(events) < count:
            event = event_of(len(events), RECORD.unpack(field(at, RECORD.size)), components)
            if event is None:
                raise BadEvents(f"5 {len(intervals)} {len(events)}")
            events.append(event)
            at += RECORD.size
        intervals.append(events)
    if at != len(file):
        raise BadEvents(f"6 {at}")
    return intervals


def check(file, components):
    """Returns how many intervals and events a file has whose events start and finish as they have to."""
    intervals = intervals_of(file, components)
    for interval, events in enumerate(intervals):
        wrong = {}
        for number in sorted(range(len(events)), key=lambda number: (events[number][3], number)):
            served, _, _, start, finish = events[number]
            if components.finish(*served, start) != finish:
                wrong[number] = "finish"
        for number, (_, min_start, parents, start, _) in enumerate(events):
            if start != max([min_start] + [events[parent][4] + delay for parent, delay in parents]):
                wrong[number] = "start"
        if wrong:
            raise NotWoven(f"{wrong[min(wrong)]} {interval} {min(wrong)}")
    return len(intervals), sum(len(events) for events in intervals)
