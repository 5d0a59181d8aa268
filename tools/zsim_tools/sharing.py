"""The lines that several cores share and write, the dearest first: which bytes each core used, and whether they are apart.

Where no byte that a core writes is read or written by another one, the line is shared falsely: data of their own lines
would cost nothing. docs/tools.md tells of all.
"""

import csv
import io
from itertools import groupby, islice
from typing import NamedTuple

from . import inputs
from .errors import ToolError
from .texts import console, print_table

KINDS = ("loads", "stores", "atomics", "fetches")
NUMBERS = ("core", *KINDS, "invalidated", "lost", "cost")
MASKS = ("line", "read", "written")
BYTES = 64


class Row(NamedTuple):
    """What a core did to a line: the masks have bit i for byte i."""

    core: int
    accesses: int
    lost: int
    invalidated: int
    cost: int
    read: int
    written: int


class Line(NamedTuple):
    """A line by its address, with the row of each core that used it."""

    address: int
    rows: tuple

    def total(self, name):
        return sum(getattr(row, name) for row in self.rows)

    @property
    def written(self):
        """The bytes that any core wrote."""
        return union(row.written for row in self.rows)

    @property
    def contended(self):
        """The bytes that a core wrote and another one read or wrote."""
        used = [(row.written, row.read | row.written) for row in self.rows]
        pairs = [(mine, other) for me, (mine, _) in enumerate(used) for it, (_, other) in enumerate(used) if me != it]
        return union(mine & other for mine, other in pairs)


def union(masks):
    """Returns the bytes that are in any mask."""
    all_of_them = 0
    for mask in masks:
        all_of_them |= mask
    return all_of_them


def read_lines(path):
    """Yields the lines of a `lines.csv`, in its order. ToolError names what is wrong."""
    table = csv.DictReader(io.StringIO(inputs.read_text(path, inputs.PROFILE)))
    missing = [name for name in (*MASKS, *NUMBERS) if name not in (table.fieldnames or ())]
    if missing:
        raise ToolError(f"{path}: no lines of a profile: it has no column {missing[0]}")
    rows = (row_of(path, table.line_num, values) for values in table)
    for address, shared in groupby(rows, key=lambda row: row[0]):
        yield Line(address, tuple(row for _, row in shared))


def row_of(path, number, values):
    """Returns the address of a row's line, and the row."""
    try:
        line, read, written = (int(values[name].removeprefix("0x"), 16) for name in MASKS)
        counts = {name: int(values[name]) for name in NUMBERS}
    except (AttributeError, ValueError):
        raise ToolError(f"{path}: line {number}: no row of a line: a number is missing or none") from None
    accesses = sum(counts[name] for name in KINDS)
    return line, Row(counts["core"], accesses, counts["lost"], counts["invalidated"], counts["cost"], read, written)


def is_shared(line):
    """Tells whether several cores used a line, and one wrote to it. What all of them only read costs no more so."""
    return len(line.rows) > 1 and line.written != 0


def ranges(mask, begins=()):
    """Yields the first and the last byte of each run of bytes of a mask. A run ends where one of `begins` comes."""
    first = None
    for byte in range(BYTES + 1):
        is_in = byte < BYTES and mask >> byte & 1
        if first is not None and (not is_in or byte in begins):
            yield first, byte - 1
            first = None
        if is_in and first is None:
            first = byte


def shown_range(first, last):
    return str(first) if first == last else f"{first}-{last}"


def uses_of(row, address, symbols=None):
    """Returns the bytes that a core used, as `0-7 w, 8-15 r`; each with its datum where there are symbols."""
    begins = {byte for byte in range(1, BYTES) if begins_at(symbols, address + byte)} if symbols else ()
    uses = []
    for use, mask in (
        ("rw", row.read & row.written),
        ("r", row.read & ~row.written),
        ("w", row.written & ~row.read),
    ):
        uses += [(first, last, use) for first, last in ranges(mask, begins)]
    return ", ".join(
        f"{shown_range(first, last)} {use}{datum_of(symbols, address + first)}" for first, last, use in sorted(uses)
    )


def begins_at(symbols, address):
    """Tells whether an address belongs to another datum than the one before it."""
    return symbols.datum(address) != symbols.datum(address - 1)


def datum_of(symbols, address):
    """Returns the datum of an address behind a space, as ` total+8`; nothing where none is known."""
    span = symbols.datum(address) if symbols else None
    if span is None:
        return ""
    return f" {span.what}+{address - span.start}" if address > span.start else f" {span.what}"


def verdict_of(line):
    """Returns whether a line is shared falsely, and else which bytes are written and used by several cores."""
    contended = ", ".join(shown_range(*bytes_) for bytes_ in ranges(line.contended))
    return f"truly shared, in bytes {contended}" if contended else "falsely shared"


def title_of(line):
    total = {name: line.total(name) for name in ("cost", "accesses", "lost", "invalidated")}
    return f"0x{line.address:x}: {verdict_of(line)}; " + ", ".join(f"{name} {number}" for name, number in total.items())


def show_sharing(path, most, symbols=None):
    """Prints a table for each of so many lines that several cores share, one of which writes."""
    out = console()
    shown = list(islice(filter(is_shared, read_lines(path)), most))
    if not shown:
        print(f"{path}: no line was written that several cores used")
    for place, line in enumerate(shown):
        if place:
            out.print()
        headings = ["core", "cost", "accesses", "lost", "invalidated", "bytes"]
        rows = [
            [*map(str, (row.core, row.cost, row.accesses, row.lost, row.invalidated)), uses_of(row, line.address, symbols)]
            for row in line.rows
        ]
        print_table(out, title_of(line), headings, rows)
