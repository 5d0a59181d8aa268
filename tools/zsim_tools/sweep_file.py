"""The file of a sweep: which machines are to run which executables. `docs/tools.md` has its keys."""

import hashlib
import itertools
import math
import os
import re
from typing import NamedTuple

from . import inputs
from .errors import ToolError
from .machine import Machine, flat, is_kind, kind_of, parse_toml, read_machine

GENERATED = re.compile("gen:(0|[1-9][0-9]*)")
MOST_RUNS = 2**20
DOMAINS = ("domains.banks", "domains.controllers")
# What zsim takes at most: a machine of more banks is refused for them, whatever the lists have.
MOST_COMPONENTS = 64
MOST_WORKERS = 64


class Executable(NamedTuple):
    """An executable: its name in the file of the sweep, and its bytes; None for a program that zsim generates."""

    name: str
    data: bytes | None
    sha256: str


class Axis(NamedTuple):
    """Keys that vary together: their names, and the points, each with a value for each key."""

    keys: tuple
    points: tuple


class Planned(NamedTuple):
    """A run to be done: the values of the axes by key, the machine with these values, and the executable."""

    values: dict
    machine: Machine
    machine_sha256: str
    executable: Executable
    repeat: int | None = None

    @property
    def label(self):
        """Returns how a message names this run."""
        repeat = [] if self.repeat is None else [f"repeat={self.repeat}"]
        values = [f"{key}={cell(value)}" for key, value in self.values.items()]
        return " ".join([self.executable.name, *values, *repeat])


class SweepFile(NamedTuple):
    """What a sweep's file says."""

    name: str
    machine: Machine
    axes: tuple
    executables: tuple
    workers: int = 1
    repeat: int | None = None
    even_domains: bool = False

    def check_size(self):
        """Raises ToolError where there are more runs than a table can have."""
        runs = math.prod([len(self.executables), self.repeat or 1, *(len(axis.points) for axis in self.axes)])
        if runs > MOST_RUNS:
            raise ToolError(f"{self.name}: these are {runs} runs, and a sweep has at most {MOST_RUNS}")

    def planned(self):
        """Returns all runs: each executable on the machines of all combinations, the last axis varying fastest, and
        each of them as often as it is repeated."""
        self.check_size()
        keys = [key for axis in self.axes for key in axis.keys]
        template = self.machine.template([*keys, *(DOMAINS if self.even_domains else ())])
        machines = []
        for points in itertools.product(*(axis.points for axis in self.axes)):
            values = dict(zip(keys, itertools.chain.from_iterable(points)))
            domains = even_domains({**self.machine.values, **values}) if self.even_domains else {}
            machine = template({**values, **domains})
            machines.append((values, machine, sha256(machine.text.encode("utf-8"))))
        repeats = [None] if self.repeat is None else range(self.repeat)
        return [
            Planned(*machine, executable, repeat)
            for executable in self.executables
            for machine in machines
            for repeat in repeats
        ]


def even_domains(values):
    """Returns the lists of domains of a machine with these values: each domain has as many banks as the next, or one
    less, and so for controllers."""
    count = max(1, values["domains.count"])
    return {
        f"domains.{kind}": [number % count for number in range(min(max(0, values[key]), MOST_COMPONENTS))]
        for kind, key in (("banks", "l2.banks"), ("controllers", "controllers.count"))
    }


def sha256(data):
    return hashlib.sha256(data).hexdigest()


def cell(value):
    """Returns a value of a machine's key as tables have it: a list as its text."""
    return str(value) if isinstance(value, list) else value


def read_sweep(path, workers=None):
    """Reads the file of a sweep, its machine and its executables. ToolError names the file and the line or key.

    `workers` stands for those that the file says, where it is given.
    """
    content = parse_toml(inputs.read_text(path, inputs.SWEEP), path)
    known = {
        "machine": "string",
        "executables": "array of strings",
        "axes": "table",
        "tied": "array of tables",
        "domains": "string",
        "workers": "integer",
        "repeat": "integer",
    }
    for key, value in content.items():
        if key not in known:
            raise ToolError(f"{path}: {key}: no key of a sweep; those are {', '.join(known)}")
        if not is_kind(value, known[key]):
            raise ToolError(f"{path}: {key}: is of kind {kind_of(value)}, and has to be of kind {known[key]}")
    for key in ("machine", "executables"):
        if not content.get(key):
            raise ToolError(f"{path}: {key}: is missing")
    folder = os.path.dirname(path)
    machine = read_base(path, folder, content["machine"])
    axes = read_axes(path, machine, content)
    executables = tuple(read_executable(path, folder, name) for name in content["executables"])
    if len({executable.name for executable in executables}) < len(executables):
        raise ToolError(f"{path}: executables: one stands twice")
    even = read_domains(path, machine, axes, content.get("domains"))
    return SweepFile(str(path), machine, axes, executables, *read_workers(path, content, workers), even)


def read_workers(path, content, workers):
    """Returns how many workers a run has, and how often it is repeated, or None where that is not said."""
    workers = workers or content.get("workers", 1)
    repeat = content.get("repeat")
    if not 1 <= workers <= MOST_WORKERS:
        raise ToolError(f"{path}: workers: {workers} is not from 1 to {MOST_WORKERS}")
    if repeat is not None and repeat < 1:
        raise ToolError(f"{path}: repeat: {repeat} is less than 1")
    if repeat is not None and repeat > 1 and workers == 1:
        raise ToolError(f"{path}: repeat: with one worker all {repeat} runs are the same; give more with workers")
    return workers, repeat


def read_domains(path, machine, axes, rule):
    """Returns whether the lists of domains follow the banks and the controllers."""
    if rule is None:
        return False
    if rule != "even":
        raise ToolError(f'{path}: domains: there is no rule {rule!a}, only "even"')
    for key in DOMAINS:
        machine.check(key, [0], f"{path}: domains")
        if any(key in axis.keys for axis in axes):
            raise ToolError(f"{path}: {key}: stands in an axis, and follows the rule of domains")
    for key in ("l2.banks", "controllers.count", "domains.count"):
        machine.check(key, 0, f"{path}: domains")
    return True


def read_base(path, folder, name):
    """Reads the machine that the axes change. File names are relative to the folder of the sweep's file."""
    if name == "plain":
        return read_machine(name)
    machine = os.path.join(folder, name)
    if not os.path.exists(machine):
        raise ToolError(f"{path}: machine: cannot read: {machine}: No such file or directory")
    return read_machine(machine)


def read_axes(path, machine, content):
    """Returns the axes: one for each key of `axes`, and one for each table of `tied`."""
    tables = [("axes", {key: points}) for key, points in flat(content.get("axes", {})).items()]
    tables += [(f"tied[{place}]", flat(table)) for place, table in enumerate(content.get("tied", []))]
    axes = tuple(read_axis(f"{path}: {where}", machine, table) for where, table in tables)
    keys = [key for axis in axes for key in axis.keys]
    for key in keys:
        if keys.count(key) > 1:
            raise ToolError(f"{path}: {key}: stands in two axes")
    return axes


def read_axis(where, machine, table):
    """Returns the axis of keys that are tied together, after it has checked each value."""
    if not table:
        raise ToolError(f"{where}: has no keys")
    for key, values in table.items():
        if not isinstance(values, list) or not values:
            raise ToolError(f"{where}.{key}: has to be a list of values, with at least one")
        for value in values:
            machine.check(key, value, where)
    lengths = {key: len(values) for key, values in table.items()}
    if len(set(lengths.values())) > 1:
        told = " and ".join(f"{key} has {length}" for key, length in lengths.items())
        raise ToolError(f"{where}: keys that are tied have as many values each: {told}")
    points = tuple(zip(*table.values()))
    for place, point in enumerate(points):
        if point in points[:place]:
            raise ToolError(f"{where}: {' '.join(table)}: {' '.join(map(str, point))} stands twice")
    return Axis(tuple(table), points)


def read_executable(path, folder, name):
    if name.startswith("gen:"):
        if not GENERATED.fullmatch(name):
            raise ToolError(f"{path}: executables: {name}: behind gen: stands a number")
        return Executable(name, None, sha256(name.encode("utf-8")))
    executable = os.path.join(folder, name)
    try:
        data = inputs.read_bytes(executable, inputs.EXECUTABLE)
    except ToolError as error:
        raise ToolError(f"{path}: executables: {error}") from None
    return Executable(name, data, sha256(data))
