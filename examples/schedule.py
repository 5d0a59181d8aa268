#!/usr/bin/env python3
"""Schedule files as text: a line for each interval, with the numbers of the cores in the order of their accesses.

    schedule.py text FILE            writes the text of a schedule file to standard output
    schedule.py file CORES FILE      writes the file of the text on standard input, for so many cores
    schedule.py diff ONE OTHER       names the first interval and place in which two schedule files differ

The form of a file is in docs/schedules.md. What zsim refuses in a file is refused here too, with the number that zsim
gives it. Status: 0 done; 1 the files differ; 2 something is refused, with one line on standard error.
"""

import itertools
import os
import struct
import sys

NUMBER = struct.Struct("<I")
MAGIC = b"ZSCH"
CORES = 256
LONGEST = 2**28


def form_for(cores):
    """Returns the version of a file for so many cores, and the form of a core's number in its lists."""
    return (1, "B") if cores <= 64 else (2, "H")


class Refused(Exception):
    """What is wrong with a file, a text or a word."""


class Fields:
    """The fields of a schedule file, from front to back."""

    def __init__(self, data):
        self.data = data
        self.at = 0

    def take(self, count):
        if self.at + count > len(self.data):
            raise Refused(f"zsim: schedule 1 {self.at}: it ends within the field that begins at byte {self.at}")
        self.at += count
        return self.data[self.at - count : self.at]

    def number(self):
        return NUMBER.unpack(self.take(NUMBER.size))[0]


def lists_of(data):
    """Returns the number of cores, and the list of each interval."""
    fields = Fields(data)
    if fields.take(len(MAGIC)) != MAGIC:
        raise Refused("zsim: schedule 2: it does not begin with ZSCH")
    version, cores = fields.number(), fields.number()
    if version not in (1, 2):
        raise Refused(f"zsim: schedule 3 {version}: it is of version {version}, not of 1 or 2")
    if not 1 <= cores <= CORES:
        raise Refused(f"zsim: schedule 4 {cores}: no machine has {cores} cores")
    wanted, form = form_for(cores)
    if version != wanted:
        raise Refused(f"zsim: schedule 3 {version}: it is of version {version}, and for {cores} cores of {wanted}")
    intervals = fields.number()
    lists = []
    for interval in range(intervals):
        count = fields.number()
        lists.append(struct.unpack(f"<{count}{form}", fields.take(struct.calcsize(f"<{count}{form}"))))
        check(lists[-1], cores, f"zsim: schedule 5 {interval}")
    if fields.at < len(data):
        raise Refused(f"zsim: schedule 6 {fields.at}: it goes on after the last list, which ends at byte {fields.at}")
    return cores, lists


def check(turns, cores, what):
    """Refuses a list that names a core that is not there."""
    for place, core in enumerate(turns):
        if core >= cores:
            raise Refused(f"{what} {place}: it names core {core} of {cores} cores")


def read(name):
    """Returns what a schedule file says."""
    try:
        with open(name, "rb") as file:
            data = file.read(LONGEST + 1)
        if len(data) > LONGEST:
            raise Refused("zsim: too long: schedule")
        return lists_of(data)
    except (OSError, ValueError) as error:
        raise Refused(f"{name}: cannot read: {getattr(error, 'strerror', None) or error}") from None
    except Refused as refusal:
        raise Refused(f"{name}: {refusal}") from None


def text_of(turns):
    return " ".join(map(str, turns))


def file_of(cores, lines):
    """Returns the bytes of the schedule of a text."""
    if not (cores.isascii() and cores.isdigit()) or not 1 <= int(cores) <= CORES:
        raise Refused(f"{cores} is no number of cores from 1 to {CORES}")
    lists = []
    version, form = form_for(int(cores))
    for number, line in enumerate(lines, 1):
        if not all(core.isascii() and core.isdigit() for core in line.split()):
            raise Refused(f"standard input: line {number}: these are no numbers of cores")
        turns = [int(core) for core in line.split()]
        check(turns, int(cores), f"standard input: line {number}: place")
        lists.append(NUMBER.pack(len(turns)) + struct.pack(f"<{len(turns)}{form}", *turns))
    data = MAGIC + b"".join(map(NUMBER.pack, (version, int(cores), len(lists)))) + b"".join(lists)
    if len(data) > LONGEST:
        raise Refused("standard input: zsim: too long: schedule")
    return data


def difference(one, other):
    """Returns the first place in which two schedules differ, in words; None where they are the same."""
    if one[0] != other[0]:
        return f"one is of {one[0]} cores, the other of {other[0]}"
    for interval, lists in enumerate(itertools.zip_longest(one[1], other[1])):
        if None in lists:
            return f"one has {len(one[1])} intervals, the other {len(other[1])}, and they are the same so far"
        for place, (core, instead) in enumerate(itertools.zip_longest(*lists)):
            if core != instead:
                named = ["the end of the list" if turn is None else f"core {turn}" for turn in (core, instead)]
                return f"interval {interval}, place {place}: {named[0]}, and in the other {named[1]}"
    return None


def write(name, data):
    try:
        with open(name, "wb") as file:
            file.write(data)
    except (OSError, ValueError) as error:
        raise Refused(f"{name}: cannot write: {getattr(error, 'strerror', None) or error}") from None


def carry_out(words):
    """Does what the words say, and returns the status."""
    match words:
        case ["text", name]:
            sys.stdout.writelines(text_of(turns) + "\n" for turns in read(name)[1])
        case ["file", cores, name]:
            write(name, file_of(cores, sys.stdin.buffer.read().decode("latin-1").splitlines()))
        case ["diff", name, other]:
            found = difference(read(name), read(other))
            print(found or "they are the same")
            return 1 if found else 0
        case _:
            print(__doc__, file=sys.stderr, end="")
            return 2
    sys.stdout.flush()
    return 0


def main():
    try:
        return carry_out(sys.argv[1:])
    except Refused as refusal:
        print(f"schedule.py: {refusal}", file=sys.stderr)
        return 2
    except BrokenPipeError:  # (as where `head` has enough)
        os.dup2(os.open(os.devnull, os.O_WRONLY), sys.stdout.fileno())
        return 2


if __name__ == "__main__":
    sys.exit(main())
