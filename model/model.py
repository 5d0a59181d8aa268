#!/usr/bin/env python3
"""A model of the machine, written from the documents and not from the code: it computes what the cases must answer.

    model/model.py            compares the stored output with what the model answers
    model/model.py --write    writes what it answers into the stored output

It is plain and slow: flat memory, lists of lines, one core after the other, and one list of events. It takes the words
of a command, checks machines, executables, schedules and events files, runs and replays executables, and writes the
files of their profiles. Cases that several workers answer keep the answers that are stored. Run it at the top of the
repository.
"""

import collections
import heapq
import os
import re
import struct
import sys

import events as events_files
import inputs
import profiles
from inputs import Untold

TESTS = "crates/zsim_tests"
DATA = os.path.join(TESTS, "data")
MACHINE_PAGE = "docs/machine-description.md"

MASK = 2**64 - 1
ECALL, EBREAK = 0x00000073, 0x00100073


def signed(number, bits=64):
    """Returns the low bits as a signed number."""
    number &= (1 << bits) - 1
    return number - (1 << bits) if number >> (bits - 1) else number


def word(number):
    """Returns the low 32 bits, sign-extended to 64."""
    return signed(number, 32) & MASK


# ---- executables


class Image:
    """The segments of an executable, in memory from `base` on."""

    def __init__(self, file, base, size):
        self.base = base
        self.memory = bytearray(size)
        self.executable = []
        self.entry, headers = struct.unpack_from("<QQ", file, 24)
        (count,) = struct.unpack_from("<H", file, 56)
        for i in range(count):
            kind, flags, offset, vaddr, _, filesz, memsz, _ = struct.unpack_from("<IIQQQQQQ", file, headers + 56 * i)
            if kind == 1 and memsz > 0:
                self.memory[vaddr - base : vaddr - base + filesz] = file[offset : offset + filesz]
                if flags & 1:
                    self.executable.append((vaddr, vaddr + memsz))
        self.loaded = bytes(self.memory)

    def word(self, pc):
        """Returns the word at an address as it was loaded. None where no segment is executable there."""
        if any(begin <= pc and pc + 4 <= end for begin, end in self.executable):
            return struct.unpack_from("<I", self.loaded, pc - self.base)[0]
        return None


def elf(words, base=0x10000):
    """Returns an executable of these words, at 0x10000 where no other address is given."""
    code = b"".join(struct.pack("<I", w) for w in words)
    header = struct.pack("<4sBBB9xHHIQQQIHHHHHH", b"\x7fELF", 2, 1, 1, 2, 243, 1, base, 64, 0, 0, 64, 56, 1, 0, 0, 0)
    return header + struct.pack("<IIQQQQQQ", 1, 7, 120, base, base, len(code), len(code), 1) + code


# ---- instructions


def divided(a, b, bits):
    """Returns quotient and remainder of signed numbers, rounded toward zero."""
    if b == 0:
        return -1, a
    quotient = abs(a) // abs(b)
    if (a < 0) != (b < 0):
        quotient = -quotient
    return signed(quotient, bits), a - quotient * b


def multiplied(funct3, a, b, bits):
    """Returns what the instructions of the extension M compute."""
    left, right = signed(a, bits), signed(b, bits)
    return [
        lambda: left * right,
        lambda: left * right >> bits,
        lambda: left * b >> bits,
        lambda: a * b >> bits,
        lambda: divided(left, right, bits)[0],
        lambda: a // b if b else -1,
        lambda: divided(left, right, bits)[1],
        lambda: a % b if b else a,
    ][funct3]()


def computed(funct3, funct7, a, b, bits):
    """Returns the result of an arithmetic instruction on so many bits. None where there is no such instruction."""
    a, b = a & ((1 << bits) - 1), b & ((1 << bits) - 1)
    amount = b % bits
    if funct7 == 1 and (bits == 64 or funct3 in (0, 4, 5, 6, 7)):
        result = multiplied(funct3, a, b, bits)
    elif funct7 == 0x20 and funct3 in (0, 5):
        result = a - b if funct3 == 0 else signed(a, bits) >> amount
    elif funct7 == 0 and (bits == 64 or funct3 in (0, 1, 5)):
        less = signed(a, bits) < signed(b, bits)
        result = [a + b, a << amount, int(less), int(a < b), a ^ b, a >> amount, a | b, a & b][funct3]
    else:
        return None
    return word(result) if bits == 32 else result & MASK


ATOMICS = {
    0b00001: lambda old, value, bits: value,
    0b00000: lambda old, value, bits: old + value,
    0b00100: lambda old, value, bits: old ^ value,
    0b01100: lambda old, value, bits: old & value,
    0b01000: lambda old, value, bits: old | value,
    0b10000: lambda old, value, bits: min(old, value, key=lambda n: signed(n, bits)),
    0b10100: lambda old, value, bits: max(old, value, key=lambda n: signed(n, bits)),
    0b11000: lambda old, value, bits: min(old, value),
    0b11100: lambda old, value, bits: max(old, value),
}
LR, SC = 0b00010, 0b00011


class Halt(Exception):
    """A core halts, for the reason that the report tells."""


class Pace:
    """What a pipeline keeps: the cycle from which on each register is ready, and two-bit counters for the branches."""

    def __init__(self, pipe):
        self.pipe = pipe
        self.ready, self.counters = [0] * 32, [1] * pipe["entries"]

    def issue(self, w, pc, taken, clock):
        """Issues an instruction, and returns the clock behind it."""
        opcode, of_m = w & 0x7F, w >> 25 == 1
        destination = w >> 7 & 31 if opcode not in NO_DESTINATION else 0
        issue = max([clock] + [self.ready[register] for register in self.waits_for(w, destination)])
        if destination:
            latency = self.pipe["div" if w >> 14 & 1 else "mul"] if opcode in (0x33, 0x3B) and of_m else 1
            self.ready[destination] = issue + latency
        wrong = opcode == 0x67 or opcode == 0x63 and self.predicts_wrongly(pc // 4 % len(self.counters), taken)
        return issue + 1 + (self.pipe["penalty"] if wrong else 0)

    def waits_for(self, w, destination):
        """Returns the registers for which an instruction waits."""
        opcode = w & 0x7F
        if w == ECALL:
            return range(32)
        sources = [w >> 15 & 31] if opcode in ONE_SOURCE + TWO_SOURCES else []
        is_lr = opcode == 0x2F and w >> 27 == LR
        return [destination, *sources, *([w >> 20 & 31] if opcode in TWO_SOURCES and not is_lr else [])]

    def predicts_wrongly(self, place, taken):
        """Tells whether a branch goes the other way than its counter says, and moves the counter."""
        counter = self.counters[place]
        self.counters[place] = min(3, counter + 1) if taken else max(0, counter - 1)
        return (counter >= 2) != taken


# Branches, stores, FENCE, ECALL and EBREAK have no destination. LUI, AUIPC and JAL have no source.
NO_DESTINATION = (0x63, 0x23, 0x0F, 0x73)
ONE_SOURCE, TWO_SOURCES = (0x67, 0x13, 0x1B, 0x03), (0x63, 0x23, 0x33, 0x3B, 0x2F)


class Core:
    """A core. Its instructions are generators: each yields the accesses that it makes, and is sent their replies."""

    def __init__(self, number, machine, image, profile):
        memory = machine["memory"]
        self.number, self.image, self.profile = number, image, profile
        self.end = memory["base"] + memory["size"]
        self.x = [0] * 32
        self.x[10], self.x[11], self.x[2] = number, machine["cores"], self.end - number * memory["stack"]
        self.pc = image.entry
        self.clock = self.instructions = self.delay = 0
        self.halt = self.instruction = self.request = None
        self.fetches, self.line = "l1i" in machine, None
        self.pace = Pace(machine["pipe"]) if "pipe" in machine else None
        self.console, self.jumps = bytearray(), collections.deque(maxlen=16)

    def count(self, w, taken=False):
        """Counts an instruction, which costs a cycle or what the pipeline makes of it."""
        self.instructions += 1
        self.profile.execute(self.number, self.pc)
        self.clock = self.pace.issue(w, self.pc, taken, self.clock) if self.pace else self.clock + 1

    def set(self, register, number):
        if register:
            self.x[register] = number & MASK

    def in_memory(self, address, width):
        return self.image.base <= address and address + width <= self.end

    def jump(self, target):
        if target % 4:
            raise Halt(f"misaligned {target:016x}")
        return target

    def execute(self):
        w = self.image.word(self.pc)
        if w is None:
            raise Halt(f"fetch {self.pc:016x}")
        if self.fetches and self.line != self.pc // 64:
            yield "fetch", self.pc, 4, 0
            self.line = self.pc // 64
        opcode, rd, funct3, funct7 = w & 0x7F, w >> 7 & 31, w >> 12 & 7, w >> 25
        a, b = self.x[w >> 15 & 31], self.x[w >> 20 & 31]
        immediate = signed(w >> 20, 12)
        after, result, holds = (self.pc + 4) & MASK, None, False
        illegal = Halt(f"illegal {w:08x}")
        if opcode in (0x37, 0x17):
            result = signed(w & 0xFFFFF000, 32) + (self.pc if opcode == 0x17 else 0)
        elif opcode == 0x6F:
            offset = w >> 31 << 20 | (w >> 12 & 0xFF) << 12 | (w >> 20 & 1) << 11 | (w >> 21 & 0x3FF) << 1
            result, after = after, self.jump((self.pc + signed(offset, 21)) & MASK)
        elif opcode == 0x67 and funct3 == 0:
            result, after = after, self.jump((a + immediate) & MASK & ~1)
        elif opcode == 0x63 and funct3 not in (2, 3):
            low, high = (signed(a), signed(b)) if funct3 in (4, 5) else (a, b)
            holds = [low == high, low != high, None, None, low < high, low >= high, low < high, low >= high][funct3]
            offset = w >> 31 << 12 | (w >> 7 & 1) << 11 | (w >> 25 & 0x3F) << 5 | (w >> 8 & 15) << 1
            if holds:
                after = self.jump((self.pc + signed(offset, 13)) & MASK)
        elif opcode == 0x13:
            if funct3 in (1, 5):
                result = computed(funct3, w >> 26 << 1, a, w >> 20 & 63, 64)
                if result is None or w >> 26 == 0x10 and funct3 == 1 or w >> 26 not in (0, 0x10):
                    raise illegal
            else:
                result = computed(funct3, 0, a, immediate & MASK, 64)
        elif opcode == 0x1B:
            result = word(a + immediate) if funct3 == 0 else None
            if funct3 in (1, 5) and funct7 != 1:
                result = computed(funct3, funct7, a, w >> 20 & 31, 32)
            if result is None:
                raise illegal
        elif opcode in (0x33, 0x3B):
            result = computed(funct3, funct7, a, b, 64 if opcode == 0x33 else 32)
            if result is None:
                raise illegal
        elif opcode == 0x03 and funct3 != 7:
            result = yield from self.load(w, (a + immediate) & MASK, 1 << (funct3 & 3), funct3 < 4)
        elif opcode == 0x23 and funct3 < 4:
            yield from self.store(w, (a + signed(w >> 25 << 5 | rd, 12)) & MASK, 1 << funct3, b)
            rd = 0
        elif opcode == 0x2F and funct3 in (2, 3):
            kind = w >> 27
            if kind not in (LR, SC, *ATOMICS) or kind == LR and w >> 20 & 31:
                raise illegal
            result = yield from self.atomic(w, a, 1 << funct3, b)
        elif w == ECALL:
            yield from self.call()
        elif w == EBREAK:
            raise Halt("break")
        elif not (opcode == 0x0F and funct3 == 0):
            raise illegal
        if opcode not in (0x03, 0x23, 0x2F) and w != ECALL:
            self.count(w, holds)
        if result is not None:
            self.set(rd, result)
        if after != (self.pc + 4) & MASK:
            self.jumps.append((self.pc, after))
        self.pc = after

    def parts(self, w, address, width):
        """Returns the parts of a load or a store, one for each line, after it is counted."""
        if not self.in_memory(address, width):
            raise Halt(f"access {address:016x}")
        self.count(w)
        first = min(width, 64 - address % 64)
        return [(address, first), (address + first, width - first)][: 1 if first == width else 2]

    def load(self, w, address, width, extend):
        number, bits = 0, 0
        for part, size in self.parts(w, address, width):
            number |= (yield "load", part, size, 0) << bits
            bits += 8 * size
        return signed(number, bits) if extend else number

    def store(self, w, address, width, number):
        for part, size in self.parts(w, address, width):
            yield "store", part, size, number & ((1 << 8 * size) - 1)
            number >>= 8 * size

    def atomic(self, w, address, width, number):
        if address % width:
            raise Halt(f"atomic {address:016x}")
        self.parts(w, address, width)
        kind = w >> 27
        reply = yield kind, address, width, number & ((1 << 8 * width) - 1)
        return reply if kind == SC else signed(reply, 8 * width)

    def call(self):
        self.count(ECALL)
        x = self.x
        if x[17] in (93, 94):
            raise Halt(f"exit {x[10]}")
        if x[17] != 64 or x[10] not in (1, 2):
            x[10] = -38 & MASK
            return
        count = min(x[12], 256)
        if count and not self.in_memory(x[11], count):
            x[10] = -14 & MASK
            return
        for i in range(count):
            self.console.append((yield "load", x[11] + i, 1, 0))
        x[10] = count

    def next_request(self, end):
        """Executes up to the next access, and returns it. None where the core halts, or ends its interval."""
        while self.request is None and self.halt is None and self.clock < end:
            self.instruction = self.execute()
            self.go_on(None)
        return self.request

    def go_on(self, reply):
        """Goes on with the instruction in progress, also behind the end: one that was fetched is executed."""
        try:
            self.request = self.instruction.send(reply)
        except StopIteration:
            self.request = None
        except Halt as why:
            self.request, self.halt = None, str(why)


# ---- the machine


# An event: its core, component and kind, the bank and the row that it reads, whether it is the last of its access, how
# long it takes at least, its earliest start, and its parents.
Event = collections.namedtuple("Event", "core component kind row critical latency start parents")


class Trip:
    """An access on its way. Its events begin when it does, and its parents are those of their places. `last`: for which
    events the next one waits; `time`: until when, from the start of the access on."""

    def __init__(self, components, core, head):
        self.components, self.core = components, core
        self.events, self.last, self.time = [], [], head
        self.rows = []  # of the profile: those for which its events wait

    def add(self, component, kind, row, last, time):
        """Has an event at a component, and returns its place and until when it lasts."""
        latency = self.components.latency(component, kind)
        self.events.append(Event(self.core, component, kind, row, False, latency, time, last))
        return [len(self.events) - 1], time + latency

    def stop(self, component, kind, row=(0, 0)):
        """Has an event at a component, behind which the access goes on."""
        self.last, self.time = self.add(component, kind, row, self.last, self.time)

    def wait_for(self, last, time):
        """Goes on behind these events too."""
        self.last, self.time = self.last + last, max(self.time, time)

    def end(self):
        """Is over with its last event."""
        if self.events:
            self.events[-1] = self.events[-1]._replace(critical=True)
        return self


class Machine:
    """Cores, memory, the lists of the caches, and the components."""

    def __init__(self, machine, file):
        self.machine = machine
        self.l1, self.l2, self.controllers = machine["l1"], machine["l2"], machine["controllers"]
        self.l1i = machine.get("l1i")
        self.image = Image(file, machine["memory"]["base"], machine["memory"]["size"])
        self.profile = profiles.Profile()
        self.cores = [Core(number, machine, self.image, self.profile) for number in range(machine["cores"])]
        self.reservations = [None] * len(self.cores)
        self.own = [{} for _ in self.cores]  # of each core: the lines of each set, [line, letter], most recent first
        self.instructions = [{} for _ in self.cores]  # of each core: the lines of each set of its instruction cache
        self.shared = {}  # the lines of each set, [line, dirty]
        self.mesh, self.dram = machine.get("mesh"), machine.get("dram")
        self.nodes = self.mesh["width"] * self.mesh["height"] if self.mesh else 0
        self.components = events_files.Components(machine)
        self.free = self.components.free
        self.served, self.waited = [0] * len(self.free), [0] * len(self.free)
        self.counts = [dict.fromkeys(COUNTS, 0) for _ in self.cores]
        self.accesses = self.events = 0
        self.schedule = []
        self.records = []  # of each interval: those of its events

    # what memory replies

    def reply(self, core, request):
        kind, address, width, value = request
        place, line = address - self.image.base, address // 64
        old = int.from_bytes(self.image.memory[place : place + width], "little")
        if kind == "fetch":
            return 0
        if kind == "load":
            return old
        if kind == LR:
            self.reservations[core] = address, width
            return old
        if kind == SC:
            stores = self.reservations[core] == (address, width)
            self.reservations[core] = None
            if not stores:
                return 1
        elif kind != "store":
            value = ATOMICS[kind](old, value, 8 * width) & ((1 << 8 * width) - 1)
        self.image.memory[place : place + width] = value.to_bytes(width, "little")
        for other, reservation in enumerate(self.reservations):
            if other != core and reservation and reservation[0] // 64 == line:
                self.reservations[other] = None
        return old if kind in ATOMICS else 0

    # how the caches meet an access

    def own_set(self, core, line):
        return self.own[core].setdefault(line % self.l1["sets"], [])

    def copy(self, core, line):
        return next((entry for entry in self.own_set(core, line) if entry[0] == line), None)

    def others(self, core, line):
        """Returns the copies of other cores."""
        return [other for n in range(len(self.cores)) if n != core for other in [self.copy(n, line)] if other]

    def shared_entry(self, line):
        return next((entry for entry in self.shared.setdefault(line % self.l2["sets"], []) if entry[0] == line), None)

    def evict(self, lines):
        """Takes the last line out of a set of the shared cache, and tells whether it was dirty anywhere."""
        line, dirty = lines.pop()
        for core in range(len(self.cores)):
            copy = self.copy(core, line)
            if copy:
                dirty = dirty or copy[1] == "M"
                self.own_set(core, line).remove(copy)
                self.profile.leave(core, "data", line, "inclusion")
            if self.l1i and line in self.instruction_set(core, line):
                self.instruction_set(core, line).remove(line)
                self.profile.leave(core, "instructions", line, "inclusion")
        return dirty

    def instruction_set(self, core, line):
        return self.instructions[core].setdefault(line % self.l1i["sets"], [])

    def fetch(self, core, line):
        """Returns the outcome of a fetch, and whether a dirty line leaves."""
        own, entry = self.instruction_set(core, line), self.shared_entry(line)
        lines = self.shared[line % self.l2["sets"]]
        if line in own:
            outcome = "hits", False
            own.remove(line)
        elif entry:
            outcome = "l2hits", False
            lines.remove(entry)
            lines.insert(0, entry)
        else:
            outcome = "misses", len(lines) == self.l2["ways"] and self.evict(lines)
            lines.insert(0, [line, False])
        if len(own) == self.l1i["ways"]:
            self.profile.leave(core, "instructions", own.pop(), "eviction")
        own.insert(0, line)
        return outcome

    def meet(self, core, line, writes):
        """Returns the outcome of an access, and whether others have to change, or a dirty line leaves."""
        copy, entry = self.copy(core, line), self.shared_entry(line)
        letter = copy[1] if copy else "I"
        is_hit = letter in ("M", "E") or letter == "S" and not writes
        others = [] if is_hit else self.others(core, line)
        lines = self.shared[line % self.l2["sets"]]
        if is_hit:
            outcome = "hits", False
        elif entry is None:
            outcome = "misses", len(lines) == self.l2["ways"] and self.evict(lines)
            entry = [line, False]
            lines.insert(0, entry)
        else:
            changes = bool(others) if writes else any(other[1] != "S" for other in others)
            outcome = "upgrades" if letter == "S" else "l2hits", changes
            lines.remove(entry)
            lines.insert(0, entry)
        if outcome[0] != "hits":
            entry[1] = entry[1] or any(other[1] == "M" for other in others)
            for n in range(len(self.cores)):
                other = n != core and self.copy(n, line)
                if other and writes:
                    self.own_set(n, line).remove(other)
                    self.profile.lose(n, line)
                elif other and other[1] != "S":
                    other[1] = "S"
                    self.profile.lower(n, line)
        own = self.own_set(core, line)
        if copy:
            own.remove(copy)
        elif len(own) == self.l1["ways"]:
            victim = own.pop()
            self.profile.leave(core, "data", victim[0], "eviction")
            if victim[1] == "M":
                self.shared_entry(victim[0])[1] = True
        own.insert(0, [line, "M" if writes else letter if copy else "S" if others else "E"])
        return outcome

    # time

    def head(self, kind):
        """Returns the time that an access takes first, in a cache of the core's own."""
        return (self.l1i if kind == "fetch" else self.l1)["latency"]

    def route(self, node, target):
        """Returns the links from a node of the mesh to another: along x first, and then along y."""
        width, links = self.mesh["width"], []
        while node != target:
            if node % width != target % width:
                direction = 0 if node % width < target % width else 1
            else:
                direction = 2 if node > target else 3
            links.append(4 * node + direction)
            node += [1, -1, -width, width][direction]
        return links

    def cross(self, trip, node, target):
        """Has an event on each link between two nodes, where there is a mesh."""
        for link in self.route(node, target) if self.mesh else []:
            trip.stop(self.l2["banks"] + self.controllers["count"] + link, events_files.HOP)

    def read(self, line):
        """Returns the kind of the read of a line, and its bank behind the controller and its row where rows are open."""
        if not self.dram:
            return events_files.READ, (0, 0)
        row, bank = divmod(line // self.dram["row_lines"], self.dram["banks"])
        return events_files.ROW_READ, (bank, row)

    def trip(self, core, line, head, outcome, flag):
        """Returns the events of an access and its time where nothing else runs."""
        trip = Trip(self.components, core, head)
        if outcome == "hits":
            return trip
        bank, count, nodes = line % self.l2["banks"], self.controllers["count"], self.nodes or 1
        here, there, behind = core % nodes, bank % nodes, nodes - 1 - bank % count % nodes
        self.cross(trip, here, there)
        trip.stop(bank, events_files.REMOTE if flag and outcome != "misses" else events_files.LOOKUP)
        if outcome == "misses":
            self.cross(trip, there, behind)
            controller, asked = self.l2["banks"] + bank % count, (trip.last, trip.time)
            trip.stop(controller, *self.read(line))
            written = trip.add(controller, events_files.WRITE, (0, 0), *asked) if flag else ([], 0)
            self.cross(trip, behind, there)
            trip.wait_for(*written)
            trip.stop(bank, events_files.FILL)
        self.cross(trip, there, here)
        return trip.end()

    # an interval

    def turn(self, core, stamps, entries):
        """Makes the access that a core asks for."""
        request, start = core.request, core.clock
        kind, line = request[0], request[1] // 64
        bank = line % self.l2["banks"]
        if kind == "fetch":
            outcome, flag = self.fetch(core.number, line)
        else:
            outcome, flag = self.meet(core.number, line, kind not in ("load", LR))
        stamp = max(stamps["bank", bank], stamps["core", core.number]) + 1
        stamps["bank", bank] = stamps["core", core.number] = stamp
        trip = self.trip(core.number, line, self.head(kind), outcome, flag)
        trip.rows = self.profile.access(core.number, core.pc, *request[:3], outcome, trip.time)
        entries.append((stamp, core.number, start, trip))
        counts = self.counts[core.number]
        counts[{"load": "loads", "store": "stores", "fetch": "fetches"}.get(kind, "atomics")] += 1
        counts[outcome] += 1
        core.clock += trip.time
        core.go_on(self.reply(core.number, request))

    def bound(self, end, turns):
        """Runs an interval to its end, and returns its accesses. Of turns that are not legal, the place where."""
        entries = []
        self.profile.begin()
        stamps = {("bank", bank): 0 for bank in range(self.l2["banks"])}
        stamps |= {("core", number): 0 for number in range(len(self.cores))}
        if turns is None:
            for core in self.cores:
                while core.next_request(end) is not None:
                    self.turn(core, stamps, entries)
        else:
            for place, number in enumerate(turns):
                if self.cores[number].next_request(end) is None:
                    return place
                self.turn(self.cores[number], stamps, entries)
            if any([core.next_request(end) is not None for core in self.cores]):
                return len(turns)
        return sorted(entries, key=lambda entry: entry[:2])

    def events_of(self, entries):
        """Returns the events, and the last critical one of each core."""
        events, last = [], {}
        for _, core, start, trip in entries:
            first = len(events)
            for event in trip.events:
                parents = [first + place for place in event.parents] if event.parents else [last[core]] if core in last else []
                events.append(event._replace(start=start + event.start, parents=parents))
            if trip.events:
                last[core] = len(events) - 1
        return events, last

    def name_of(self, component):
        """Returns what the report calls a component."""
        for name, count in ("bank", self.l2["banks"]), ("controller", self.controllers["count"]):
            if component < count:
                return f"{name} {component}"
            component -= count
        return f"link {component}"

    def weave(self, entries):
        """Fires the events of an interval, keeps their records, and delays the cores."""
        events, last = self.events_of(entries)
        rows = [trip.rows for *_, trip in entries for _ in trip.events]
        starts, finishes = [event.start for event in events], [0] * len(events)
        waits, children = [len(event.parents) for event in events], [[] for _ in events]
        delays = [[self.delay(events, event, parent) for parent in event.parents] for event in events]
        for number, event in enumerate(events):
            for parent, delay in zip(event.parents, delays[number]):
                children[parent].append((number, delay))
        ready = [(starts[number], number) for number, wait in enumerate(waits) if wait == 0]
        heapq.heapify(ready)
        while ready:
            start, number = heapq.heappop(ready)
            event = events[number]
            finishes[number] = self.components.finish(event.component, event.kind, event.row, start)
            self.served[event.component] += 1
            waited = finishes[number] - start - event.latency
            self.waited[event.component] += waited
            self.profile.wait(rows[number], self.name_of(event.component), waited)
            for child, delay in children[number]:
                starts[child] = max(starts[child], finishes[number] + delay)
                waits[child] -= 1
                if waits[child] == 0:
                    heapq.heappush(ready, (starts[child], child))
        self.records.append([self.record(*told) for told in zip(events, delays, starts, finishes)])
        for core, number in last.items():
            delay = finishes[number] - events[number].start - events[number].latency
            self.cores[core].delay += delay
            self.cores[core].clock += delay
        self.events += len(events)

    def delay(self, events, event, parent):
        """Returns the least time from the finish of a parent to the start of an event."""
        return max(0, event.start - events[parent].start - events[parent].latency)

    def record(self, event, delays, start, finish):
        parents = [*zip(event.parents, delays), None, None][:2]
        served = event.component, event.core, event.kind, event.row
        return events_files.record(*served, event.critical, event.start, parents, start, finish)

    def is_over(self):
        """Tells how the run ends before the next interval: None where it goes on."""
        intervals, interval = len(self.schedule), self.machine["interval"]
        if all(core.halt for core in self.cores):
            return "ran"
        room = len(self.cores) * (interval + 258)
        latest = max([core.clock for core in self.cores] + self.free)
        if intervals == self.machine["intervals"] or self.accesses + room > 2**26 or latest > 2**56:
            return "limit"
        return None

    def run(self, schedule=None):
        """Runs, or replays a schedule. Returns how it ended, or the interval and the place that are not legal."""
        while not self.is_over():
            interval = len(self.schedule)
            if schedule is not None and interval == len(schedule):
                return interval, 0
            entries = self.bound((interval + 1) * self.machine["interval"], schedule and schedule[interval])
            if isinstance(entries, int):
                return interval, entries
            self.schedule.append([entry[1] for entry in entries])
            self.accesses += len(entries)
            self.weave(entries)
        if schedule is not None and len(self.schedule) < len(schedule):
            return len(self.schedule), 0
        return self.is_over()


COUNTS = ["loads", "stores", "atomics", "fetches", "hits", "upgrades", "l2hits", "misses"]


def report(run, brief):
    """Returns the report of a run."""
    cores = run.cores
    summary = {
        "cores": len(cores),
        "intervals": len(run.schedule),
        "instructions": sum(core.instructions for core in cores),
        "cycles": max(core.clock for core in cores),
        "accesses": run.accesses,
        "events": run.events,
    }
    version = run.machine["version"]
    lines = [f"zsim report {version}", *(f"{label} {number}" for label, number in summary.items())]
    if not brief:
        for core in cores:
            told = [label for label in COUNTS if label != "fetches" or version > 1]
            counts = " ".join(f"{label} {run.counts[core.number][label]}" for label in told)
            front = f"core {core.number} instructions {core.instructions} cycles {core.clock} delay {core.delay}"
            lines.append(f"{front} {counts} halt {core.halt or 'running'}")
            lines.append(f'core {core.number} console {len(core.console)} "{escaped(core.console)}"')
        for n, free in enumerate(run.free):
            lines.append(f"{run.name_of(n)} events {run.served[n]} waited {run.waited[n]} free {free}")
    return "".join(line + "\n" for line in lines)


def escaped(text):
    return "".join(chr(byte) if 0x20 <= byte <= 0x7E and byte not in b'"\\' else f"\\x{byte:02x}" for byte in text)


# ---- schedule files


class BadSchedule(Exception):
    """The number of what is wrong with a file, and what it names."""


def version_for(cores):
    """Returns the version of a file for so many cores, which is also how many bytes a core's number has in it."""
    return 1 if cores <= 64 else 2


def schedule_file(cores, lists):
    version = version_for(cores)
    header = struct.pack("<4sIII", b"ZSCH", version, cores, len(lists))
    written = (b"".join(core.to_bytes(version, "little") for core in turns) for turns in lists)
    return header + b"".join(struct.pack("<I", len(turns)) + numbers for turns, numbers in zip(lists, written))


def schedule_of(file, cores):
    """Returns the lists of a schedule file for so many cores."""

    def field(at, count):
        if at + count > len(file):
            raise BadSchedule(f"1 {at}")
        return file[at : at + count]

    def number(at):
        return int.from_bytes(field(at, 4), "little")

    if field(0, 4) != b"ZSCH":
        raise BadSchedule("2")
    width = version_for(cores)
    if number(4) != width:
        raise BadSchedule(f"3 {number(4)}")
    if number(8) != cores:
        raise BadSchedule(f"4 {number(8)}")
    lists, at = [], 16
    while len(lists) < number(12):
        numbers = field(at + 4, width * number(at))
        turns = [int.from_bytes(numbers[k : k + width], "little") for k in range(0, len(numbers), width)]
        strangers = [place for place, core in enumerate(turns) if core >= cores]
        if strangers:
            raise BadSchedule(f"5 {len(lists)} {strangers[0]}")
        lists.append(turns)
        at += 4 + len(numbers)
    if at != len(file):
        raise BadSchedule(f"6 {at}")
    return lists


# ---- cases


def beside(name):
    with open(os.path.join(DATA, name), "rb") as file:
        return file.read()


def built_in():
    """Returns the text of the built-in machine, from its page."""
    with open(MACHINE_PAGE, encoding="utf-8") as file:
        return re.search(r"(?s)```toml\n(version = 1\n.*?)```", file.read())[1]


def changed(changes):
    """Returns the built-in machine with changes."""
    swaps = [change.split("->") for change in changes.split(";") if "->" in change]
    table = {old.strip(): "\n".join(line.strip() for line in new.split("|")) for old, new in swaps}
    return "".join(table.get(line.strip(), line.strip()) + "\n" for line in built_in().splitlines())


def generated(number, base):
    """Returns the program of a number, of which docs/programs.md says what it does."""
    mask = 8 * (2 ** (4 + number % 5) - 1)
    code = [int(w, 16) for w in GENERATED.split()]
    code[13] |= mask << 20
    data = struct.pack("<QQ", number, 100 + number % 9901)
    words = [*code, *[0] * (1024 - len(code)), *struct.unpack("<4I", data)]
    return elf(words, base)


# The 28 instructions, but for the mask in the fourteenth.
GENERATED = """
    00001297 0002b303 0082b383 00a30333 00136313 00100493 00d31413 00834333 00735413 00834333 01131413 00834333 00835413
    00047413 00540433 04040413 00337593 00058863 00959a63 0094362f 0100006f 00643023 0080006f 00043603 fff38393 fa039ae3
    05d00893 00000073
"""


def words_of(text):
    return elf([int(w, 16) for w in text.split()])


SEVEN = "00700513 05D00893 00000073"


def spoiled(text):
    """Returns the executable that exits with seven, with other bytes at these places."""
    file = bytearray(words_of(SEVEN))
    for change in text.split():
        file[int(change[:2], 16)] = int(change[2:], 16)
    return bytes(file)


class Cannot(Exception):
    """What cannot be done with a file: read, or write."""


class Names:
    """What names hold. Reads and writes are counted together, and those with these numbers fail."""

    def __init__(self, fail=()):
        self.held, self.fail, self.calls = {}, fail, 0

    def counted(self, what, is_there=True):
        """Counts a call, which fails where it is to or where what it asks for is not there."""
        self.calls += 1
        if self.calls - 1 in self.fail or not is_there:
            raise Cannot(what)

    def read(self, name):
        self.counted("read", name in self.held)
        return self.held[name]

    def write(self, name, file):
        self.counted("write")
        self.held[name] = file


class Sure(Names):
    """The same, of which no call fails. A name that was never written holds no bytes."""

    def read(self, name):
        return self.held.get(name, b"")


class Beside:
    """The files beside the cases."""

    def read(self, name):
        return beside(name)


class Ended:
    """What a call puts on both streams, and the number of its status."""

    def __init__(self, status, error="", output=""):
        self.status, self.error, self.output = status, error, output

    def text(self):
        return told(self.output) + told(self.error) + f"status {self.status}\n"


def told(text):
    """Returns what is told of a stream: of a long one its length and its ends. Dots stand behind a line without an end."""
    if len(text) > 20_000:
        text = f"{len(text)} bytes: {text[:32]}..{text[-9:]}"
    return text if not text or text.endswith("\n") else text + "..\n"


class Cases:
    """What the cases answer, the names that they hold, and what cuts the streams of the next call."""

    def __init__(self):
        self.names, self.cuts = Names(), {}

    def answer(self, case):
        """Returns what a case answers. None where the model does not tell."""
        kind, _, rest = case.partition(" ")
        if kind == "#":
            return case + "\n"
        if kind == "anew":
            self.names = Names([int(number) for number in rest.split()])
            return ""
        if kind in ("out", "err"):
            self.cuts[kind] = [int(number) for number in rest.split()]
            return ""
        if kind == "hold":
            name, contents = rest.split(" ", 1)
            self.names.held[name] = contents_of(contents)
            return ""
        if kind == "set":
            name, index, byte = rest.split()
            file = bytearray(self.names.held[name])
            file[int(index)] = int(byte)
            self.names.held[name] = bytes(file)
            return ""
        if kind == "cut":
            name, count = rest.split()
            self.names.held[name] = self.names.held[name][: int(count)]
            return ""
        if kind == "text":
            return self.names.held[rest].decode()
        if kind == "show":
            return rest + "".join(f" {byte:02x}" for byte in self.names.held[rest]) + "\n"
        if kind in ("race", "count", "owners", "meet", "again"):
            self.cuts = {}
            return None
        if kind == "rounds":
            self.cuts = {}
            return f"{rest.split()[0]} the same\n"
        ended = self.ended(kind, rest)
        return None if ended is None else ended.text()

    def ended(self, kind, rest):
        """Returns how the call of a case ends. None where the model does not tell."""
        names = Sure()
        if kind == "call":
            return self.cut(called, rest)
        if kind == "profile":
            return self.cut(profiled, rest)
        if kind == "sure":
            names.held.update(self.names.held)
            return call_on(rest, names)
        if kind == "files":
            return call_on(rest, Beside())
        if kind == "example":
            return call_on(f"run plain {rest}", Beside())
        names = Names()
        names.held.update(A=words_of(SEVEN))
        if kind == "words":
            return call_on(rest, names)
        if kind in ("exe", "spoil"):
            if rest == "overlapping":
                return None
            names.held.update(A=contents_of(rest) if kind == "exe" else spoiled(rest))
            return call_on("run plain A", names)
        if kind == "description":
            names.held.update(m=contents_of(rest))
            return call_on("run m A", names)
        if kind == "machine":
            changes, _, code = rest.partition(" : ")
            names.held.update(m=changed(changes).encode(), A=words_of(code or SEVEN))
            return call_on("run m A", names)
        if kind == "code":
            names.held.update(A=words_of(rest))
            return call_on("run plain A", names)
        return None

    def cut(self, call, words):
        """Returns how a call ends on the streams that stand ready. Those of the next one take all."""
        cuts, self.cuts = self.cuts, {}
        ended = call(words.split(), self.names, cuts.get("out", [1]))
        if ended is None:
            return None
        return Ended(ended.status, taken(ended.error, cuts.get("err", [1]))[0], ended.output)


def taken(text, cut):
    """Returns what a stream takes of a text, so many bytes a put, and whether one of its puts fails."""
    most, *fail = cut
    puts = [number for number in fail if number * most < len(text)]
    return (text[: min(puts) * most], True) if puts else (text, False)


def contents_of(text):
    """Returns what a name holds, as a line says it."""
    kind, _, rest = text.partition(" ")
    if kind == "repeat":
        byte, count = rest.split()
        return bytes([int(byte, 16)]) * int(count)
    if kind == "long":
        count, code = rest.split(" ", 1)
        return words_of("00000013 " * int(count) + code)
    return {
        "machine": lambda: changed(rest).encode(),
        "code": lambda: words_of(rest),
        "bytes": lambda: bytes(int(w, 16) for w in rest.split()),
        "text": lambda: rest.encode(),
        "key": lambda: f'"{"é" * int(rest)}" = 1\n{built_in()}'.encode(),
        "file": lambda: beside(rest),
    }[kind]()


def call_on(text, names):
    """Returns how a call on words ends. None where the documents leave that to a library."""
    return called(text.split(), names)


# The number of each status, by what a refusal begins with.
REFUSALS = {"usage": 2, "cannot read": 4, "cannot write": 5, "machine": 6, "elf": 7, "schedule": 9, "too long": 10,
            "events": 11, "not the weave": 12}  # fmt: skip
USAGE = (
    "usage: zsim run MACHINE EXE [--workers N] [--record NAME] [--events NAME] [--brief]"
    " or zsim replay MACHINE EXE --schedule NAME [--brief] or zsim check MACHINE EVENTS"
)
PROFILE_USAGE = "usage: zprof MACHINE EXE [--schedule NAME] --out FOLDER [--separate-cores] [--every N] [--brief]"
LONGEST = {"machine": 2**20, "executable": 2**26, "schedule": 2**28, "events": events_files.MOST}


class Refused(Exception):
    """A call ends with this line on standard error, behind its report where that is given."""

    def ended(self, output=""):
        status = next(number for front, number in REFUSALS.items() if str(self).startswith(front))
        return Ended(status, f"{self}\n", output)


def called(words, names, cut=(1,)):
    """Returns how a call ends whose standard output is cut so. None where the documents leave that to a library."""
    return ended_of("zsim", command_on, words, names, cut)


def profiled(words, names, cut=(1,)):
    """Returns how a call of the profiler ends. None where the documents leave that to a library."""
    return ended_of("zprof", profile_on, words, names, cut)


def ended_of(program, call, words, names, cut):
    """Returns how a call ends, with the name of the program in front of its line on standard error."""
    try:
        ended = call(words, names, cut)
    except Refused as refusal:
        ended = refusal.ended()
    except Untold:
        return None
    return Ended(ended.status, ended.error and f"{program}: {ended.error}", ended.output)


def command_on(words, names, cut):
    """Returns how a call of zsim ends."""
    command = inputs.command_of(words)
    if command is None:
        raise Refused(USAGE)
    return (check_on if command[0] == "check" else run_on)(*command, names, cut)


def profile_on(words, names, cut):
    """Returns how a call of the profiler ends."""
    command = inputs.profile_of(words)
    if command is None:
        raise Refused(PROFILE_USAGE)
    places, options = command
    run, ended = run_of(places, options.get("--schedule"), names)
    made = profiles.files(run, "--separate-cores" in options, int(options.get("--every", "1")))
    written = {f"{options['--out']}/{name}": text.encode() for name, text in made.items()}
    return reported(run, ended, options, written, names, cut)


def contents(name, names, what):
    """Returns what a file holds that is read."""
    try:
        file = names.read(name)
    except Cannot as wrong:
        raise Refused(f"cannot {wrong}") from wrong
    if len(file) > LONGEST[what]:
        raise Refused(f"too long: {what}")
    return file


def run_on(_, places, options, names, cut):
    """Returns how a run or a replay ends."""
    run, ended = run_of(places, options.get("--schedule"), names)
    events = events_files.events_file(len(run.free), run.records)
    if "--events" in options and len(events) > events_files.MOST:
        raise Refused("too long: events")
    made = {"--record": schedule_file(len(run.cores), run.schedule), "--events": events}
    written = {options[option]: file for option, file in made.items() if option in options}
    return reported(run, ended, options, written, names, cut)


def run_of(places, schedule, names):
    """Returns a machine that ran under the schedule of a file, where one is given, and how the run ended."""
    run = machine_of(*places, names)
    try:
        lists = schedule_of(contents(schedule, names, "schedule"), len(run.cores)) if schedule is not None else None
        ended = run.run(lists)
        if isinstance(ended, tuple):
            raise BadSchedule(f"7 {ended[0]} {ended[1]}")
    except BadSchedule as wrong:
        raise Refused(f"schedule {wrong}") from wrong
    return run, ended


def reported(run, ended, options, written, names, cut):
    """Returns how a call ends that reports a run, and then writes files."""
    output = put(report(run, "--brief" in options), cut)
    if isinstance(output, Ended):
        return output
    try:
        for name, file in written.items():
            names.write(name, file)
    except Cannot as what:
        return Refused(f"cannot {what}").ended(output)
    return Ended(*{"ran": (0, ""), "limit": (3, "stopped at the limit\n")}[ended], output)


def check_on(_, places, __, names, cut):
    """Returns how a call ends that checks events."""
    components = events_files.Components(description_of(places[0], names))
    try:
        intervals, events = events_files.check(contents(places[1], names, "events"), components)
    except events_files.BadEvents as wrong:
        raise Refused(f"events {wrong}") from wrong
    except events_files.NotWoven as wrong:
        raise Refused(f"not the weave: {wrong}") from wrong
    output = put(f"zsim check 1\nintervals {intervals}\nevents {events}\nyes\n", cut)
    return output if isinstance(output, Ended) else Ended(0, "", output)


def put(text, cut):
    """Returns a text that standard output took. How the call ends where it did not take it whole."""
    output, fails = taken(text, cut)
    return Refused("cannot write").ended(output) if fails else output


def description_of(machine, names):
    """Returns the description that a word of a command names."""
    try:
        return inputs.description_of(built_in().encode() if machine == "plain" else contents(machine, names, "machine"))
    except inputs.BadMachine as wrong:
        raise Refused(f"machine {wrong}") from wrong


def machine_of(machine, name, names):
    """Returns the machine that a word of a command names, with the executable in its memory."""
    description = description_of(machine, names)
    memory = description["memory"]
    is_made = name.startswith("gen:")
    file = generated(int(name[4:]), memory["base"]) if is_made else contents(name, names, "executable")
    try:
        inputs.check_executable(file, memory["base"], memory["size"])
    except inputs.BadElf as wrong:
        raise Refused(f"elf {wrong}") from wrong
    return Machine(description, file)


# What a case answers in one line, or in none.
IN_LINE = ("#", "describe", "show", "find", "kept", "events", "rounds")
SILENT = ("hold", "set", "cut", "anew", "out", "err")
# How the answer begins that stands behind a text: a comment, a text of a profile, or what a call puts on a stream.
BEHIND_TEXT = re.compile(r"# |line,|interval,|core 0$|zsim[ :]|zprof:")


def stored_answers(cases, text):
    """Returns what is stored for each case."""
    lines, answers = text.splitlines(keepends=True), []
    for case in cases:
        kind, count = case.split(" ", 1)[0], 1
        if kind in SILENT:
            count = 0
        elif kind == "text":
            while count < len(lines) and not BEHIND_TEXT.match(lines[count]):
                count += 1
        elif kind not in IN_LINE and not (kind == "again" and lines[0] == "the same\n"):
            while not lines[count - 1].startswith("status "):
                count += 1
            count += {"count": 2, "meet": 2, "owners": 3}.get(kind, 0)
        answers.append("".join(lines[:count]))
        del lines[:count]
    return answers


def main():
    with open(os.path.join(DATA, "cases"), encoding="utf-8") as file:
        cases = file.read().splitlines()
    stored = os.path.join(TESTS, "stdout")
    with open(stored, encoding="utf-8") as file:
        present = stored_answers(cases, file.read())
    model = Cases()
    answers = [model.answer(case) for case in cases]
    wrong = [n for n, answer in enumerate(answers) if answer not in (None, present[n])]
    for n in wrong:
        print(f"case {n + 1}: {cases[n]}", f"stored:\n{present[n]}", f"model:\n{answers[n]}", sep="\n")
    told = sum(answer is not None for answer in answers)
    print(f"{told} of {len(cases)} cases told by the model, {len(wrong)} of them otherwise than stored")
    if "--write" in sys.argv[1:]:
        with open(stored, "w", encoding="utf-8") as file:
            file.writelines(old if new is None else new for old, new in zip(present, answers))
    return 1 if wrong else 0


if __name__ == "__main__":
    sys.exit(main())
