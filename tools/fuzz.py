#!/usr/bin/env python3
"""Calls zsim on made and on spoiled inputs, and compares each answer with that of the model, and with its own laws.

    tools/fuzz.py                       10,000 cases
    tools/fuzz.py --cases N             so many
    tools/fuzz.py --seed S              from this seed on, 0 if not given; a case has one seed, one more than the last
    tools/fuzz.py --only S              the case of this seed alone; its files stay in a folder, which is printed
    tools/fuzz.py --zsim PROGRAM        this program, else that of the variable ZSIM or of this checkout
    tools/fuzz.py --jobs N              so many at a time, as many as there are processors if not given

A seed decides a case: a machine of version 1, 2 or 3, an executable, and what is done with both. The machine or the
executable may be spoiled; a recorded schedule may be cut, permuted or spoiled before it is replayed, and the events of
a run before they are checked; and the words of a command may be others. `model/` computes the status, both streams and
the files that are written, from the documents alone. And without the model: what a run recorded replays to its report,
a check of its events says yes, and the number of workers changes nothing where one core runs. Where several workers run
several cores, the model replays the schedule that they recorded.

It needs no packages. It prints the seed of each case that differs. Status: 0 none does, 1 one does, 2 the words are
wrong or there is no program.
"""

import argparse
import collections
import concurrent.futures
import contextlib
import os
import random
import struct
import subprocess
import sys
import tempfile
import time
from pathlib import Path

TOP = Path(__file__).resolve().parent.parent
PROGRAM = TOP / "crates/zsim_main/out/zsim_main"

sys.path.insert(0, str(TOP / "model"))

import model  # noqa: E402  (it stands in this checkout)

CASES = 10_000

# A call takes milliseconds. After so many seconds it is taken to wait for ever.
PATIENCE = 60

# After so many cases that differ no further one is begun.
ENOUGH = 20

# What zsim can end with. A signal and the other numbers are faults, whatever the model says.
STATUSES = {0, 2, 3, 4, 5, 6, 7, 9, 10, 11, 12}


class Differs(Exception):
    """What zsim does otherwise than it should."""


# ---- machines


def machine(rng):
    """Returns a description: its keys with their values, and the names of its tables."""
    version, fetches = rng.choice([1, 1, 2, 3, 3, 3, 3]), rng.random() < 0.5
    cores = rng.choice([1, 1, 1, 2, 2, 3, 4, 5]) if rng.random() < 0.97 else rng.choice([8, 16, 64, 65, 256])
    cycles = rng.choice([rng.randint(1, 100), 2000, 6000, 6000, 20000]) // (1 if cores < 8 else 1 + cores // 8)
    interval = max(1, min(rng.choice([7, 50, 100, 400, 400, 1000, 10000, rng.randint(1, 1000)]), cycles))
    banks, controllers, domains = rng.choice([1, 1, 2, 2, 3, 4, 5]), rng.choice([1, 1, 2, 3]), rng.randint(1, 4)
    stack = rng.choice([64, 192, 256, 4096])
    times = (1, 2, 3, 10, 40, 100, rng.randint(1, 300))

    def of(*keys, least=1):
        return {key: max(least, rng.choice(times)) for key in keys}

    def cache(ways):
        return {"sets": banks * rng.choice([1, 1, 2, 4, 8]), "ways": rng.randint(1, ways)}

    size = max(0x4000, 4096 * -(-cores * stack // 4096)) + 4096 * rng.randint(0, 8)
    document = {
        "version": version,
        "cores": cores,
        "interval": interval,
        "intervals": max(1, min(cycles // interval, 200)),
        "memory": {"base": rng.choice([0x10000, 0x10000, 0, 0x1000, 2**40]), "size": size, "stack": stack},
        "l1": {**cache(3), **of("latency")},
        "l2": {"banks": banks, **cache(4), **of("latency", "fill", "occupancy"), "remote": rng.choice([0, 5, 30])},
        "controllers": {"count": controllers, **of("read", "write", "occupancy")},
        "domains": {
            "count": domains,
            "banks": [rng.randrange(domains) for _ in range(banks)],
            "controllers": [rng.randrange(domains) for _ in range(controllers)],
        },
    }
    if version == 2 or version == 3 and fetches:
        document["l1i"] = {**cache(3), **of("latency")}
    if version == 3 and rng.random() < 0.6:
        document["mesh"] = {"width": rng.randint(1, 4), "height": rng.randint(1, 3), "hop": rng.randint(1, 9)}
        document["mesh"]["occupancy"] = rng.choice([1, 2, 30])
    if version == 3 and rng.random() < 0.6:
        hit, more, most = sorted(of("hit", "closed", "conflict").values())
        document["dram"] = {"banks": rng.randint(1, 4), "row_lines": rng.choice([1, 2, 4, 128])}
        document["dram"] |= {"hit": hit, "closed": more, "conflict": most}
    if version == 3 and rng.random() < 0.6:
        document["pipe"] = {"mul": rng.randint(1, 8), "div": rng.randint(1, 40)}
        document["pipe"] |= {"entries": rng.choice([1, 2, 3, 16, 4096]), "penalty": rng.randint(0, 20)}
    return document


def text_of(rng, document):
    """Returns the text of a description, with its tables in any order."""
    tops = [f"{key} = {value}" for key, value in document.items() if not isinstance(value, dict)]
    tables = [(name, keys) for name, keys in document.items() if isinstance(keys, dict)]
    rng.shuffle(tables)
    for name, keys in tables:
        tops += [f"[{name}]", *(f"{key} = {number}" for key, number in keys.items())]
    return "".join(line + "\n" for line in tops)


ODD_VALUES = ["0", "-1", "1", "64", "65", "256", "257", "4097", "65536", "65537", "10001", "268435456", "1.0", "true",
              '"2"', "[]", "[0, 1]", "[0, true]", "{}", "9223372036854775807", "9223372036854775808", "0x10", "1_0",
              "1979-05-27", "''"]  # fmt: skip


def spoiled_text(rng, text):
    """Returns the text with one thing wrong, or another value in it."""
    lines = text.splitlines()
    at = rng.randrange(len(lines))
    kind = rng.randrange(6)
    if kind == 0:
        del lines[at]
    elif kind == 1:
        lines.insert(at, lines[rng.randrange(len(lines))])
    elif kind == 2:
        lines.insert(at, rng.choice(["colour = 1", "[colour]", "[pipe]", "l1i = 1", '"é" = 1', "cores.a = 1", "# é"]))
    elif kind < 5:
        keyed = [number for number, line in enumerate(lines) if " = " in line]
        at = rng.choice(keyed)
        lines[at] = f"{lines[at].partition(' = ')[0]} = {rng.choice(ODD_VALUES)}"
    data = "".join(line + "\n" for line in lines).encode()
    return flipped(rng, data) if kind == 5 else data


# ---- executables


def bits(value, high, low):
    return value >> low & (1 << high - low + 1) - 1


def register(rng):
    """Returns one of few registers. 2 and 5 have addresses."""
    return rng.choice([0, 6, 7, 8, 9, 10, 11, 12, 17])


def memory_word(rng):
    """Returns a load, a store or an atomic near the stack or the words that all cores have."""
    base = rng.choice([2, 5, 5])
    offset = rng.choice([-8, -16, -4, -12, -72, -68, -64, -1, rng.randrange(-256, 0)]) if base == 2 else 0
    offset = offset or rng.choice([0, 8, 64, 128, 60, 61, 192, rng.randrange(0, 512)])
    kind = rng.randrange(6)
    if rng.random() < 0.15:
        return move_word(rng)
    if kind < 2:
        return (offset & 0xFFF) << 20 | base << 15 | rng.randrange(7) << 12 | register(rng) << 7 | 0x03
    if kind < 4:
        low, high = bits(offset, 4, 0), bits(offset, 11, 5)
        return high << 25 | register(rng) << 20 | base << 15 | rng.randrange(4) << 12 | low << 7 | 0x23
    return atomic_word(rng)


def move_word(rng):
    """Returns an addition that moves the address in register 5."""
    return (rng.choice([64, 64, 128, 192, 1024, -64, -128, 8]) & 0xFFF) << 20 | 5 << 15 | 5 << 7 | 0x13


def atomic_word(rng):
    """Returns an atomic at the address in register 5, mostly of eight bytes, and often one of a pair."""
    kind = rng.choice([*model.ATOMICS, *[model.LR, model.SC] * 4])
    second = 0 if kind == model.LR else register(rng)
    front = kind << 27 | rng.randrange(4) << 25 | second << 20
    return front | 5 << 15 | rng.choice([2, 3, 3, 3]) << 12 | register(rng) << 7 | 0x2F


def computing_word(rng):
    """Returns an instruction that computes."""
    front, is_word = register(rng) << 15 | register(rng) << 7, rng.random() < 0.3
    if rng.random() < 0.6:
        funct3, funct7 = rng.choice(OF_WORDS if is_word else OF_DOUBLEWORDS)
        return funct7 << 25 | register(rng) << 20 | front | funct3 << 12 | (0x3B if is_word else 0x33)
    funct3 = rng.choice([0, 1, 5] if is_word else range(8))
    immediate = rng.randrange(32 if is_word else 64) | (funct3 == 5 and rng.choice([0, 0x400]))
    immediate = immediate if funct3 in (1, 5) else rng.randrange(4096)
    return immediate << 20 | front | funct3 << 12 | (0x1B if is_word else 0x13)


def pair(rng):
    """Returns a load-reserved and a store-conditional of its address, which may be of another width."""
    (first, second), (one, other) = rng.choices([2, 3, 3, 3], k=2), (register(rng), register(rng))
    second = first if rng.random() < 0.8 else second
    near = rng.choice([0, 0, 8]) << 7 | rng.randrange(4) << 12 | one << 20 | 5 << 15 | 0x23
    between = [[], [], [near], [computing_word(rng)]][rng.randrange(4)]
    reserved = model.LR << 27 | 5 << 15 | first << 12 | one << 7 | 0x2F
    return [reserved, *between, model.SC << 27 | one << 20 | 5 << 15 | second << 12 | other << 7 | 0x2F]


# What there is of two registers: funct3 and funct7.
OF_WORDS = [(0, 0), (1, 0), (5, 0), (0, 0x20), (5, 0x20), (0, 1), (4, 1), (5, 1), (6, 1), (7, 1)]
OF_DOUBLEWORDS = [*((funct3, funct7) for funct3 in range(8) for funct7 in (0, 1)), (0, 0x20), (5, 0x20)]


def branch_word(rng):
    """Returns a branch to one of the instructions around."""
    offset = 4 * rng.choice([-6, -4, -3, -2, -1, 2, 2, 3, 4])
    where = bits(offset, 12, 12) << 31 | bits(offset, 10, 5) << 25 | bits(offset, 4, 1) << 8 | bits(offset, 11, 11) << 7
    return where | register(rng) << 20 | register(rng) << 15 | rng.choice([0, 1, 4, 5, 6, 7]) << 12 | 0x63


def jump_word(rng):
    """Returns a jump forward, and at times one to anywhere."""
    if rng.random() < 0.05:
        return register(rng) << 15 | register(rng) << 7 | 0x67
    return 4 * rng.randint(1, 4) << 20 | register(rng) << 7 | 0x6F


EXAMPLES = sorted([*TOP.glob("examples/*.elf"), *TOP.glob("examples/c/*.elf")])
# What the registers come to, into x15; the bytes from x14 on, to console 1; and the exit with x15.
MIX = [0x0007C7B3 | it << 20 for it in (6, 7, 8, 9, 10, 11, 12, 17)]  # xor x15, x15, x6; ..
SHOW = [0x04000893, 0x00100513, 0x00070593, 0x0C000613, 0x00000073]
EXIT = [*MIX, *SHOW, 0x00078513, 0x05D00893, 0x00000073]
WRITE = [0x04000893, 0x00100513, 0x00028593, 0x00300613, 0x00000073]  # three bytes from x5 on, to console 1


def words(rng):
    """Returns the words of a program: a loop of a few instructions, and an exit behind it."""
    made = [memory_word] * 8 + [computing_word] * 5 + [branch_word] * 2 + [jump_word]
    body = []
    for _ in range(rng.randint(1, 24)):
        body += WRITE if rng.random() < 0.03 else pair(rng) if rng.random() < 0.05 else [rng.choice(made)(rng)]
        if rng.random() < 0.003:
            body.append(rng.getrandbits(32))
    count = rng.choice([1, 1, 3, 3, 20, 100])
    # x5 and x14: behind the code; x13: how often the loop is made.
    back = -4 * (len(body) + 1)
    where = bits(back, 12, 12) << 31 | bits(back, 10, 5) << 25 | bits(back, 4, 1) << 8 | bits(back, 11, 11) << 7
    start = [0x00000297, 0x20028293 | rng.choice([0, 0, 0, 0, 8, 8, 56, 60]) << 20, 0x00028713, count << 20 | 13 << 7 | 0x13]
    loop = [*body, 0xFFF68693, where | 13 << 15 | 1 << 12 | 0x63]
    return [*start, *loop, *EXIT]


def executable(rng, document):
    """Returns the word for an executable, and its bytes where it is a file. An example has memory where it wants it."""
    kind = rng.random()
    if kind < 0.12:
        return f"gen:{9901 * rng.randrange(1000) + rng.choice([0, 1, 40])}", None
    if kind < 0.2:
        document["memory"] |= {"base": 0x10000, "size": 0x100000}
        return "e", rng.choice(EXAMPLES).read_bytes()
    return "e", model.elf(words(rng), document["memory"]["base"])


def spoiled_executable(rng, data):
    """Returns an executable with other headers, with other bytes, or cut."""
    kind = rng.randrange(4)
    if kind == 0:
        return cut(rng, data)
    if kind == 1:
        return flipped(rng, data)
    file = bytearray(data)
    at, width = rng.choice([(4, 1), (5, 1), (16, 2), (18, 2), (24, 8), (32, 8), (48, 4), (54, 2), (56, 2), (64, 4),
                            (68, 4), (72, 8), (80, 8), (96, 8), (104, 8)])  # fmt: skip
    old = int.from_bytes(file[at : at + width], "little")
    values = [0, 1, 2, 3, old - 1, old + 1, old + 4, old * 2, 128, 129, -1, -4, 1 << 8 * width - 1, rng.getrandbits(64)]
    file[at : at + width] = (rng.choice(values) % (1 << 8 * width)).to_bytes(width, "little")
    if kind == 3:
        return two_headers(rng, bytes(file))
    return bytes(file)


def two_headers(rng, data):
    """Returns the executable with a second program header, of a segment that lies near the first one."""
    header = list(struct.unpack_from("<IIQQQQQQ", data, 64))
    second = header[:]
    second[0] = rng.choice([1, 1, 1, 2, 4])
    second[1] = rng.randrange(8)
    second[3] = (second[3] + rng.choice([-4096, -8, 0, 8, 512, 4096])) % 2**64
    second[5] = min(second[5], rng.choice([0, 8, 64]))
    second[6] = rng.choice([0, 8, 64, 512, 2**64 - 1])
    header[2], second[2] = header[2] + 56, (second[2] + 56) % 2**64
    pack = struct.Struct("<IIQQQQQQ").pack
    front = data[:56] + struct.pack("<H", 2) + data[58:64]
    return front + b"".join(pack(*(number % 2**64 for number in it)) for it in (header, second)) + data[120:]


# ---- files


def cut(rng, data):
    return data[: rng.randrange(len(data) + 1)]


def flipped(rng, data):
    """Returns the bytes with a few of them changed."""
    file = bytearray(data)
    for _ in range(rng.choice([1, 1, 2, 5])):
        if file:
            file[rng.randrange(len(file))] = rng.choice([0, 1, 0xFF, rng.randrange(256)])
    return bytes(file)


def spoiled_file(rng, data):
    """Returns a file that is cut, that goes on, or of which a few bytes or a number are others."""
    kind = rng.randrange(5)
    if kind == 0:
        return cut(rng, data)
    if kind == 1:
        return data + bytes(rng.randrange(1, 70))
    if kind == 2 and len(data) >= 20:
        at = rng.choice([4, 8, 12, 16])
        number = int.from_bytes(data[at : at + 4], "little")
        other = rng.choice([0, 1, 2, number + 1, number - 1, 2**32 - 1, 2**31]) % 2**32
        return data[:at] + other.to_bytes(4, "little") + data[at + 4 :]
    return flipped(rng, data)


def other_schedule(rng, data, cores):
    """Returns a schedule's file with turns in another order, or with another number of them."""
    lists = model.schedule_of(data, cores)
    for turns in rng.sample(lists, min(len(lists), rng.choice([1, 1, 3]))):
        kind = rng.randrange(5)
        if kind == 0:
            rng.shuffle(turns)
        elif kind == 1 and turns:
            del turns[rng.randrange(len(turns))]
        elif kind == 2:
            turns.insert(rng.randint(0, len(turns)), rng.randrange(cores))
        elif kind == 3 and len(turns) > 1:
            at = rng.randrange(len(turns) - 1)
            turns[at], turns[at + 1] = turns[at + 1], turns[at]
        else:
            turns.sort(key=lambda _, order=rng: order.random(), reverse=True)
    if rng.random() < 0.1:
        lists.append([])
    elif lists and rng.random() < 0.1:
        lists.pop()
    return model.schedule_file(cores, lists)


# Where the fields of a record are, and how many bytes they have.
FIELDS = [(0, 2), (2, 2), (4, 1), (5, 1), (6, 2), (8, 8), (16, 8), (24, 4), (28, 4), (32, 8), (40, 8), (48, 8), (56, 8)]


def other_events(rng, data):
    """Returns an events file of which a field of a record is another one."""
    if len(data) < 84:
        return spoiled_file(rng, data)
    file = bytearray(data)
    count = int.from_bytes(file[16:20], "little")
    if count == 0 or 20 + 64 * count > len(file):
        return spoiled_file(rng, data)
    start = 20 + 64 * rng.randrange(count)
    offset, width = rng.choice(FIELDS)
    at = start + offset
    old = int.from_bytes(file[at : at + width], "little")
    new = rng.choice([0, 1, 2, old + 1, old - 1, old + 4, 2**60, 2**60 - 1, 2 ** (8 * width) - 1]) % 2 ** (8 * width)
    file[at : at + width] = new.to_bytes(width, "little")
    return bytes(file)


# ---- calls


class Folder:
    """A folder in which zsim is called, and what the model takes to be in it."""

    def __init__(self, program, place):
        self.program, self.place = program, Path(place)
        self.names = model.Names()

    def hold(self, name, data):
        """Has a file hold these bytes."""
        self.names.held[name] = data
        (self.place / name).write_bytes(data)

    def call(self, *said):
        """Calls zsim, and returns how it ended."""
        streams = {"stdin": subprocess.DEVNULL, "stdout": subprocess.PIPE, "stderr": subprocess.PIPE}
        with subprocess.Popen([self.program, *said], cwd=self.place, **streams) as process:
            try:
                output, error = process.communicate(timeout=PATIENCE)
            except subprocess.TimeoutExpired:
                process.kill()
                raise Differs(f"{' '.join(said)}: it had not ended after {PATIENCE} seconds") from None
        if process.returncode not in STATUSES:
            raise Differs(f"{' '.join(said)}: status {process.returncode}: {error[:200]}")
        return model.Ended(process.returncode, error.decode(), output.decode())

    def compare(self, *said):
        """Calls zsim and the model, compares how both ended and what they wrote, and returns how zsim did."""
        held = dict(self.names.held)
        ended, wanted = self.call(*said), model.called(list(said), self.names)
        if wanted is None:
            return ended
        are_same(said, wanted, ended)
        for name, data in self.names.held.items():
            if data != held.get(name) and self.read(name) != data:
                raise Differs(f"{' '.join(said)}: another file {name}")
        return ended

    def read(self, name):
        with contextlib.suppress(FileNotFoundError):
            return (self.place / name).read_bytes()
        return None

    def take(self, name):
        """Has the model take what a file holds. A file that is not there is none."""
        data = self.read(name)
        if data is not None:
            self.names.held[name] = data
        return data


def are_same(said, wanted, found):
    """Compares how two calls ended."""
    for what in "status", "error", "output":
        one, other = getattr(wanted, what), getattr(found, what)
        if one != other:
            raise Differs(f"{' '.join(said)}: {what}: {shown(other)} where {shown(one)} is right")


def shown(value):
    return repr(value if isinstance(value, int) or len(value) < 400 else value[:400] + "..")


# ---- cases


def brief(rng):
    return ["--brief"] if rng.random() < 0.3 else []


def of_run(rng, folder, document, name):
    """A run as the model has it, its replay, and the check of its events. By more workers where one core runs."""
    said = ["run", "m", name, *brief(rng)]
    outputs = [["--record", "s"], ["--events", "v"], ["--events=v", "--record=s"], []][rng.randrange(4)]
    ended = folder.compare(*said, *outputs)
    if ended.status in (0, 3) and "s" in "".join(outputs).replace("events", "") and folder.take("s") is not None:
        are_same(said, ended, folder.call("replay", *said[1:], "--schedule", "s"))
    if ended.status in (0, 3) and "v" in folder.names.held:
        says_yes(folder)
    if document["cores"] == 1 and ended.status in (0, 3):
        workers = str(rng.randint(2, 4))
        files = folder.read("s"), folder.read("v")
        are_same(said, ended, folder.call(*said, *outputs, "--workers", workers))
        if files != (folder.read("s"), folder.read("v")):
            raise Differs(f"{' '.join(said)}: other files by {workers} workers")


def says_yes(folder):
    """Checks the events of a run."""
    said = ["check", "m", "v"]
    ended = folder.call(*said)
    if ended.status != 0 or not ended.output.endswith("\nyes\n"):
        raise Differs(f"{' '.join(said)}: status {ended.status}: {shown(ended.error)} of a run's own events")


def of_workers(rng, folder, _, name):
    """A run by several workers. The model replays the schedule that they recorded, and has the same events."""
    said = ["run", "m", name, *brief(rng)]
    ended = folder.call(*said, "--workers", str(rng.randint(2, 4)), "--record", "s", "--events", "v")
    if ended.status not in (0, 3):
        folder.compare(*said)
        return
    folder.take("s")
    replay = ["replay", *said[1:], "--schedule", "s"]
    are_same(said, folder.compare(*replay), ended)
    run = model.machine_of("m", name, folder.names)
    run.run(model.schedule_of(folder.names.held["s"], len(run.cores)))
    if model.events_files.events_file(len(run.free), run.records) != folder.read("v"):
        raise Differs(f"{' '.join(said)}: other events than those of its schedule")
    says_yes(folder)


def recorded(folder, name):
    """Returns the run of the model, and its schedule's file."""
    run = model.machine_of("m", name, folder.names)
    run.run()
    return run, model.schedule_file(len(run.cores), run.schedule)


def of_schedule(rng, folder, document, name):
    """A replay of another schedule than that of the run."""
    _, schedule = recorded(folder, name)
    is_spoiled = rng.random() < 0.4
    folder.hold("s", spoiled_file(rng, schedule) if is_spoiled else other_schedule(rng, schedule, document["cores"]))
    folder.compare("replay", "m", name, "--schedule", "s", *brief(rng))


def of_events(rng, folder, _, name):
    """A check of other events than those of the run."""
    run, _ = recorded(folder, name)
    events = model.events_files.events_file(len(run.free), run.records)
    folder.hold("v", (spoiled_file if rng.random() < 0.4 else other_events)(rng, events))
    folder.compare("check", "m", "v")


def of_machine(rng, folder, _, name):
    """A machine of which one thing is another."""
    folder.hold("m", spoiled_text(rng, folder.names.held["m"].decode()))
    folder.compare("run", "m", name, "--brief")


def of_executable(rng, folder, document, _):
    """An executable of which one thing is another."""
    folder.hold("e", spoiled_executable(rng, model.elf(words(rng), document["memory"]["base"])))
    folder.compare("run", "m", "e", *brief(rng))


WORDS = [
    *["run", "replay", "check", "plain", "m", "e", "s", "v", "missing", "missing/s", "é", "1", "64", "65", "--", "-"],
    *["gen:0", "gen:01", "gen:", "gen:18446744073709551616", "--brief", "--brief=1", "--help", "-h", "--version"],
    *["--workers", "--workers=2", "--workers=0", "--workers=١", "--record", "--record=s", "--record=m"],
    *["--events", "--events=s", "--events=v", "--schedule", "--schedule=s"],
]


def of_words(rng, folder, _, name):
    """A command with words more, fewer or others."""
    command = rng.choice([["run", "m", name], ["replay", "m", name, "--schedule", "s"], ["check", "m", "v"]])
    said = [*command, *brief(rng)]
    for _ in range(rng.choice([1, 1, 2, 3])):
        at = rng.randint(0, len(said))
        kind = rng.randrange(3)
        said[at : at + (kind > 0)] = [] if kind == 1 else [rng.choice(WORDS)]
    if any(word in ("--workers", "--workers=2", "64") for word in said) or "missing/s" in "".join(said):
        folder.call(*said)
    else:
        folder.compare(*said)


# How often each comes.
KINDS = [of_words] + [of_machine, of_executable] * 2 + [of_workers, of_events] * 3 + [of_schedule] * 4 + [of_run] * 5


def play(program, seed, place):
    """Makes the case of a seed in a folder, and returns its kind."""
    rng = random.Random(f"zsim {seed}")
    kind, document, folder = rng.choice(KINDS), machine(rng), Folder(program, place)
    name, data = executable(rng, document)
    folder.hold("m", text_of(rng, document).encode())
    if data is not None:
        folder.hold("e", data)
    kind(rng, folder, document, name)
    return kind.__name__


def played(program, seed):
    """Makes a case in a folder of its own. Returns the seed, its kind, and what differs."""
    try:
        with tempfile.TemporaryDirectory(prefix="zsim-fuzz-") as place:
            return seed, play(program, seed, place), None
    except Differs as what:
        return seed, None, str(what)
    except Exception as error:  # (so that the seed is told)
        return seed, None, f"the fuzzer failed: {type(error).__name__}: {error}"


# ---- the command


def parsed():
    parser = argparse.ArgumentParser(description=__doc__, formatter_class=argparse.RawDescriptionHelpFormatter)
    parser.add_argument("--cases", type=int, default=CASES)
    parser.add_argument("--seed", type=int, default=0)
    parser.add_argument("--only", type=int)
    parser.add_argument("--zsim", default=os.environ.get("ZSIM") or str(PROGRAM))
    parser.add_argument("--jobs", type=int, default=len(os.sched_getaffinity(0)))
    return parser.parse_args()


def play_one(program, seed):
    """Makes one case, and leaves its files."""
    place = tempfile.mkdtemp(prefix="zsim-fuzz-")
    print(f"fuzz: the files of seed {seed} are in {place}")
    try:
        print(f"fuzz: {play(program, seed, place)}: as it should be")
    except Differs as what:
        print(f"fuzz: seed {seed}: {what}")
        return 1
    return 0


def play_all(program, seeds, jobs):
    """Makes the cases of these seeds, prints those that differ, and returns how many do."""
    kinds, faults, began = collections.Counter(), 0, time.monotonic()
    with concurrent.futures.ProcessPoolExecutor(jobs) as pool:
        programs = [program] * len(seeds)
        for seed, kind, what in pool.map(played, programs, seeds, chunksize=8):
            kinds[kind] += 1
            if what:
                faults += 1
                print(f"fuzz: seed {seed}: {what}", flush=True)
            if faults == ENOUGH:
                pool.shutdown(cancel_futures=True)
                break
    told = ", ".join(f"{count} {kind}" for kind, count in sorted(kinds.items(), key=str) if kind)
    print(f"fuzz: {sum(kinds.values())} cases in {time.monotonic() - began:.0f} seconds, {faults} otherwise: {told}")
    return faults


def main():
    said = parsed()
    program = os.path.realpath(said.zsim)
    if not os.access(program, os.X_OK):
        print(f"fuzz: nothing was run: there is no program {program}", file=sys.stderr)
        return 2
    os.chdir(TOP)
    if said.only is not None:
        return play_one(program, said.only)
    return 1 if play_all(program, range(said.seed, said.seed + said.cases), max(1, said.jobs)) else 0


if __name__ == "__main__":
    sys.exit(main())
