"""Reads the reports of zsim: from the text to its counters, or to the first line that is wrong.

The form is that of `docs/report.md`. A report of 64 cores has a few hundred lines, so all is kept as it is read, and
the data frames are made where someone asks for them.
"""

import re
import sys
from typing import NamedTuple

from . import derived, inputs
from .errors import ToolError, told

# The versions of reports, and what the counters of a core are called in each, in the order of the report.
WHAT_IT_DID = ("instructions", "cycles", "delay", "loads", "stores", "atomics")
WHAT_IT_FOUND = ("hits", "upgrades", "l2hits", "misses")
CORE_COUNTERS = {
    "1": (*WHAT_IT_DID, *WHAT_IT_FOUND),
    "2": (*WHAT_IT_DID, "fetches", *WHAT_IT_FOUND),
    "3": (*WHAT_IT_DID, "fetches", *WHAT_IT_FOUND),
}
COMPONENT_COUNTERS = ("events", "waited", "free")
SUMMARY = ("cores", "intervals", "instructions", "cycles", "accesses", "events")

NUMBER = "(0|[1-9][0-9]*)"
FIRST_LINE = re.compile(f"zsim report ({'|'.join(CORE_COUNTERS)})")
HALT = "(exit [0-9]+|illegal [0-9a-f]{8}|(?:misaligned|atomic|fetch|access) [0-9a-f]{16}|break|running)"
CORE_LINES = {
    version: re.compile(" ".join([f"core {NUMBER}", *(f"{name} {NUMBER}" for name in counters), f"halt {HALT}"]))
    for version, counters in CORE_COUNTERS.items()
}
CONSOLE_LINE = re.compile(rf'core {NUMBER} console {NUMBER} "((?:[ !#-\[\]-~]|\\x[0-9a-f]{{2}})*)"')
SUMMARY_LINES = {word: re.compile(f"{word} {NUMBER}") for word in SUMMARY}
COMPONENT_LINE = re.compile(
    " ".join([f"(bank|controller|link) {NUMBER}", *(f"{name} {NUMBER}" for name in COMPONENT_COUNTERS)])
)

# How much of a line a message shows.
LONGEST = 40

# The data frames have integers of 64 bits. No counter of a run comes near: clocks stay below 2^58. (A number of
# thousands of digits would not be read at all.)
GREATEST = 2**63 - 1
MOST_DIGITS = 20


class Core(NamedTuple):
    """What the report says of a core: its counters by name, why it halted, and the bytes of its console."""

    number: int
    counters: dict
    halt: str
    console: bytes

    @property
    def exited(self):
        """Whether the program ended by itself, with whatever number."""
        return self.halt.startswith("exit ")


class Component(NamedTuple):
    """What the report says of a bank, a controller or a link: its counters by name."""

    number: int
    counters: dict


class Report(NamedTuple):
    """A report of zsim. `machine`, where it is known, is the Machine of the run: the busy shares need its occupancies.

    `status` is that of the run, 0 or 3, and `seconds` how long it took, where it was run by these tools. `text` is the
    whole report as zsim wrote it. A brief report has the summary alone.
    """

    name: str
    summary: dict
    core_list: tuple = ()
    bank_list: tuple = ()
    controller_list: tuple = ()
    link_list: tuple = ()
    machine: object = None
    status: int | None = None
    seconds: float | None = None
    text: str = ""

    @property
    def brief(self):
        return not self.core_list

    @property
    def cores(self):
        """A data frame with a row for each core: its counters, why it halted, its console, and derived numbers."""
        rows = [
            {**core.counters, "halt": core.halt, "console": core.console, **derived.of_core(core.counters)}
            for core in self.core_list
        ]
        return frame("core", rows)

    @property
    def banks(self):
        """A data frame with a row for each bank of the shared cache."""
        return self._components("bank", self.bank_list, derived.bank_occupancy(self.machine))

    @property
    def controllers(self):
        """A data frame with a row for each memory controller."""
        return self._components("controller", self.controller_list, derived.controller_occupancy(self.machine))

    @property
    def links(self):
        """A data frame with a row for each link of the mesh: none where the machine has no mesh."""
        return self._components("link", self.link_list, derived.link_occupancy(self.machine))

    @property
    def derived(self):
        """The derived numbers of the whole run, by name."""
        return derived.of_run(self, derived.totals(self))

    def _components(self, kind, components, occupancy):
        cycles = self.summary["cycles"]
        rows = [
            {**component.counters, **derived.of_component(component.counters, cycles, occupancy)}
            for component in components
        ]
        return frame(kind, rows)


def frame(kind, rows):
    """Returns a data frame of rows that are numbered from 0 on."""
    import pandas  # (a sweep of many short runs makes none, and need not wait for it)

    made = pandas.DataFrame(rows)
    made.index.name = kind
    return made


class Lines:
    """The lines of a report, one after the other, with the number of the next."""

    def __init__(self, name, text):
        self.name = name
        self.lines = text.split("\n")
        self.next = 0
        # What stands behind the last newline is a line that was cut off, if it is anything.
        self.rest = self.lines.pop()

    @property
    def at_end(self):
        return self.next == len(self.lines) and not self.rest

    def begins_with(self, text):
        """Whether there is a next line, and begins with this."""
        return self.next < len(self.lines) and self.lines[self.next].startswith(text)

    def fail(self, what, number=None):
        raise ToolError(f"{self.name}: line {number or self.next + 1}: {what}")

    def take(self, pattern, what):
        """Takes the next line, and returns the match."""
        if self.next == len(self.lines):
            if self.rest:
                self.fail(f"the report is cut off in this line, where {what} belongs")
            self.fail(f"the report is cut off before this line, where {what} belongs")
        match = pattern.fullmatch(self.lines[self.next])
        if not match:
            self.fail(f"here belongs {what}, not {shown(self.lines[self.next])}")
        self.next += 1
        return match

    def numbers(self, texts):
        """Returns numbers of the line that was just taken."""
        numbers = [int(text[: MOST_DIGITS + 1]) for text in texts]
        if max(numbers) > GREATEST:
            self.fail(f"the number {shown(max(texts, key=len))[1:-1]} is too large", self.next)
        return numbers


def shown(line):
    """Returns a line as a message has it: between quotes, and not too long."""
    text = ascii(line[:LONGEST])[1:-1]
    return f'"{text}..."' if len(line) > LONGEST else f'"{text}"'


def parse_report(text, name="report", machine=None, status=None, seconds=None):
    """Returns the Report of a text. ToolError names the line that is wrong."""
    lines = Lines(name, text)
    version = take_header(lines, text)
    summary = {}
    for word, pattern in SUMMARY_LINES.items():
        match = lines.take(pattern, f'"{word} N"')
        (summary[word],) = lines.numbers(match.groups())
    if lines.at_end:
        return Report(name, summary, machine=machine, status=status, seconds=seconds, text=text)
    if not summary["cores"]:
        lines.fail("a machine has at least one core", SUMMARY.index("cores") + 2)
    cores = tuple(take_core(lines, number, version) for number in range(summary["cores"]))
    banks = take_components(lines, "bank")
    controllers = take_components(lines, "controller")
    links = take_components(lines, "link") if lines.begins_with("link ") else ()
    if not lines.at_end:
        rest = lines.lines[lines.next] if lines.next < len(lines.lines) else lines.rest
        lines.fail(f"the report ends before this line, not with {shown(rest)}")
    report = Report(name, summary, cores, banks, controllers, links, machine, status, seconds, text)
    check_sums(lines, report)
    check_machine(report)
    return report


def take_header(lines, text):
    """Takes the first line, and returns the version of the report."""
    first = text.partition("\n")[0]
    *others, last = CORE_COUNTERS
    versions = f"{', '.join(others)} or {last}"
    if not text:
        lines.fail("no report: the file is empty")
    if not first.startswith("zsim report "):
        lines.fail(f'no report: it begins with {shown(first)}, not with "zsim report {versions}"')
    if lines.lines and not FIRST_LINE.fullmatch(first):
        version = shown(first.removeprefix("zsim report "))
        lines.fail(f"a report of version {version}; these tools read version {versions}")
    return lines.take(FIRST_LINE, f'"zsim report {versions}"')[1]


def take_core(lines, number, version):
    match = lines.take(CORE_LINES[version], f"the line of core {number}")
    numbers = lines.numbers(match.groups()[:-1])
    if numbers[0] != number:
        lines.fail(f"core {numbers[0]} where core {number} belongs", lines.next)
    console = lines.take(CONSOLE_LINE, f"the console of core {number}")
    written = console_bytes(console[3])
    if int(console[1]) != number or int(console[2]) != len(written):
        lines.fail(
            f"core {console[1]} wrote {console[2]} bytes, but here are {len(written)} of core {number}", lines.next
        )
    return Core(number, dict(zip(CORE_COUNTERS[version], numbers[1:])), match[match.lastindex], written)


def console_bytes(text):
    return re.sub(r"\\x(..)", lambda match: chr(int(match[1], 16)), text).encode("latin-1")


def take_components(lines, kind):
    """Takes the lines of all components of a kind, of which there is at least one."""
    components = []
    while not components or lines.begins_with(f"{kind} "):
        match = lines.take(COMPONENT_LINE, f"the line of {kind} {len(components)}")
        if match[1] != kind or int(match[2]) != len(components):
            lines.fail(f"{match[1]} {match[2]} where {kind} {len(components)} belongs", lines.next)
        numbers = lines.numbers(match.groups()[2:])
        components.append(Component(len(components), dict(zip(COMPONENT_COUNTERS, numbers))))
    return tuple(components)


def check_sums(lines, report):
    """The summary has the sums of what follows: a report that lost its last lines, or was changed, is refused."""
    totals = derived.totals(report)
    events = totals["bank_events"] + totals["controller_events"] + totals.get("link_events", 0)
    made = totals["loads"] + totals["stores"] + totals["atomics"] + totals.get("fetches", 0)
    met = totals["hits"] + totals["upgrades"] + totals["l2hits"] + totals["misses"]
    cycles = max(core.counters["cycles"] for core in report.core_list) if report.core_list else 0
    for word, found, where in (
        ("instructions", totals["instructions"], "the cores"),
        ("cycles", cycles, "the cores"),
        ("accesses", made, "the cores"),
        ("accesses", met, "what the accesses of the cores found"),
        ("events", events, "the banks, controllers and links"),
    ):
        if report.summary[word] != found:
            number = SUMMARY.index(word) + 2
            lines.fail(f"{word} {report.summary[word]}, but {where} below come to {found}: lines are missing", number)


def check_machine(report):
    """The machine, where one is given, has as many parts as the report."""
    if report.machine is None:
        return
    for key, parts in (
        ("cores", report.core_list),
        ("l2.banks", report.bank_list),
        ("controllers.count", report.controller_list),
    ):
        if report.machine.number(key) != len(parts):
            has = report.machine.values.get(key)
            raise ToolError(
                f"{report.name}: this is no report of {report.machine.name}: {key} is {has}, but here are {len(parts)}"
            )
    links = derived.links_of(report.machine)
    if links != len(report.link_list):
        raise ToolError(
            f"{report.name}: this is no report of {report.machine.name}: its links are {links}, but here are "
            f"{len(report.link_list)}"
        )


def read_report(path, machine=None):
    """Reads the report of a file; `-` is standard input. ToolError names the file, and the line that is wrong."""
    name = "standard input" if str(path) == "-" else str(path)
    with told(f"cannot read: {name}"):
        if str(path) == "-":
            data = inputs.read_open(sys.stdin.buffer, name, inputs.REPORT)
        else:
            data = inputs.read_bytes(path, inputs.REPORT)
    # A report is ASCII. Any other byte stands for itself in what is shown of a line that is wrong.
    return parse_report(data.decode("latin-1"), name, machine)
