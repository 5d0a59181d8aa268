"""What an ELF file says of addresses: the function, the file and the line of an instruction, and the datum of a byte.

The package pyelftools reads the file: its symbol table, and its DWARF line tables where there are some.
"""

import bisect
import importlib.util
import io
import os
from typing import NamedTuple

from . import inputs
from .errors import ToolError, one_line

# The flags of a section: it is in memory, and its bytes are instructions.
ALLOCATED, EXECUTABLE = 2, 4
# The sorts of symbols that are read.
SORTS = {"STT_FUNC": "FUNC", "STT_OBJECT": "OBJECT", "STT_NOTYPE": "LABEL"}


class Span(NamedTuple):
    """What the addresses from `start` to before `end` belong to."""

    start: int
    end: int
    what: object


class Spans:
    """Spans by address. Of those that begin at one address the first that was given counts."""

    def __init__(self, spans):
        kept = {}
        for span in spans:
            kept.setdefault(span.start, span)
        self._spans = [kept[start] for start in sorted(kept)]
        self._starts = [span.start for span in self._spans]

    def at(self, address):
        """Returns the span of an address: the one that begins last before it, if it reaches so far; or None."""
        place = bisect.bisect_right(self._starts, address) - 1
        span = self._spans[place] if place >= 0 else None
        return span if span and address < span.end else None


class Place(NamedTuple):
    """A file and a line of it."""

    file: str
    line: int


class Symbol(NamedTuple):
    """A symbol with an address. `sort` is FUNC, OBJECT or LABEL, as those of an assembler."""

    name: str
    start: int
    size: int
    sort: str
    is_global: bool
    section: int


class Section(NamedTuple):
    """Where a section lies in memory, and its flags."""

    start: int
    size: int
    flags: int


class Symbols:
    """The functions, data and lines of an executable, by address."""

    def __init__(self, sections, symbols, lines=()):
        known = sorted(symbols, key=lambda symbol: (symbol.start, not symbol.is_global, -symbol.size))
        labels = labels_of(sections, known)
        self._functions = [Spans(sized(known, "FUNC")), Spans(labels_in(sections, labels, True))]
        self._data = [Spans(sized(known, "OBJECT")), Spans(labels_in(sections, labels, False))]
        self._lines = Spans(lines)

    def function(self, address):
        """Returns the span of the function of an address, with its name; or None."""
        return first_at(self._functions, address)

    def datum(self, address):
        """Returns the span of the datum of an address, with its name; or None."""
        return first_at(self._data, address)

    def place(self, address):
        """Returns the Place of an instruction, or None."""
        span = self._lines.at(address)
        return span.what if span else None


def first_at(sorts, address):
    return next(filter(None, (spans.at(address) for spans in sorts)), None)


def sized(symbols, sort):
    """Returns the spans of the symbols of a sort, which tell their sizes."""
    return [Span(symbol.start, symbol.start + symbol.size, symbol.name) for symbol in symbols if symbol.sort == sort]


def labels_of(sections, symbols):
    """Returns the symbols that tell no size, each with where the next symbol of its section begins, or the section ends."""
    labels = []
    ends = {}
    for symbol in reversed(symbols):
        section = sections[symbol.section]
        end, start = ends.get(symbol.section, (section.start + section.size, None))
        # (those at one address all reach as far)
        end = end if start in (None, symbol.start) else start
        ends[symbol.section] = end, symbol.start
        if symbol.size == 0 or symbol.sort == "LABEL":
            labels.append((symbol, end))
    return labels[::-1]


def labels_in(sections, labels, are_code):
    """Returns the spans of the labels in sections of instructions, or in the others."""
    return [
        Span(symbol.start, end, symbol.name)
        for symbol, end in labels
        if bool(sections[symbol.section].flags & EXECUTABLE) == are_code
    ]


def read_symbols(path):
    """Reads the symbols of an executable, or raises ToolError."""
    if importlib.util.find_spec("elftools") is None:
        raise ToolError(f"{path}: its symbols need the Python package pyelftools (Debian's python3-pyelftools)")
    from elftools.elf.elffile import ELFFile

    content = io.BytesIO(inputs.read_bytes(path, inputs.EXECUTABLE))
    try:
        elf = ELFFile(content)
        sections = [
            Section(section["sh_addr"], section["sh_size"], section["sh_flags"]) for section in elf.iter_sections()
        ]
        table = elf.get_section_by_name(".symtab")
        symbols = table and list(symbols_of(table, sections))
        lines = list(lines_of(elf.get_dwarf_info())) if elf.has_dwarf_info() else []
    except Exception as error:  # (the library has exceptions of many kinds for a file that is damaged)
        raise ToolError(f"{path}: no ELF file that can be read: {one_line(error) or type(error).__name__}") from None
    if not symbols:
        raise ToolError(f"{path}: it has no symbols; link it without -s")
    return Symbols(sections, symbols, lines)


def symbols_of(table, sections):
    """Yields the symbols of a table that name functions, data or labels in memory."""
    for entry in table.iter_symbols():
        sort, number, start = entry["st_info"]["type"], entry["st_shndx"], entry["st_value"]
        # (a section that is no number is none: the symbol is undefined, or has a value that is no address)
        if sort not in SORTS or not isinstance(number, int) or number >= len(sections):
            continue
        section = sections[number]
        is_in = section.flags & ALLOCATED and section.start <= start < section.start + section.size
        # ($x and $d mark where instructions and data begin, and .L a label of a compiler)
        if is_in and entry.name and not entry.name.startswith(("$", ".L")):
            is_global = entry["st_info"]["bind"] != "STB_LOCAL"
            yield Symbol(entry.name, start, entry["st_size"], SORTS[sort], is_global, number)


def lines_of(dwarf):
    """Yields a Span for each row of the line tables, with its Place."""
    for unit in dwarf.iter_CUs():
        program = dwarf.line_program_for_CU(unit)
        if program is None:
            continue
        folder = unit.get_top_DIE().attributes.get("DW_AT_comp_dir")
        names = {}
        before = None
        for entry in program.get_entries():
            state = entry.state
            if state is None:
                continue
            if before and before.address < state.address:
                if before.file not in names:
                    names[before.file] = file_name(program, before.file, text_of(folder.value) if folder else "")
                yield Span(before.address, state.address, Place(names[before.file], before.line))
            before = None if state.end_sequence else state


def file_name(program, number, folder):
    """Returns the name of a file of a line table. Files and folders count from 1 before version 5 of DWARF, where folder 0
    is that of the compiler; from then on it stands in the table."""
    header = program.header
    before_5 = header["version"] < 5
    entry = header["file_entry"][number - 1 if before_5 else number]
    folders = [text_of(name) for name in header["include_directory"]]
    folders = ["", *folders] if before_5 else folders
    return os.path.normpath(os.path.join(folder, folders[entry.dir_index], text_of(entry.name)))


def text_of(name):
    return name.decode("utf-8", "replace")
