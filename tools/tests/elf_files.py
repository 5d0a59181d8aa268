"""Executables for the tests: their symbols, and lines of one file, written by hand."""

import struct

TEXT, DATA = 0x10000, 0x11000
NOTYPE, OBJECT, FUNC = range(3)
LOCAL, GLOBAL = range(2)
# The numbers of the sections in these files, and of none.
UNDEFINED, IN_TEXT, IN_DATA, ABSOLUTE = 0, 1, 2, 0xFFF1

ABBREVIATIONS = bytes([1, 0x11, 0, 0x1B, 0x08, 0x10, 0x17, 0, 0, 0])  # a unit with a folder and a line table


def elf_file(symbols, rows=(), end=TEXT):
    """Returns an executable with 0x100 bytes of instructions and as many of data.

    A symbol is its name, value, size, type, binding and section. With `rows`, which are pairs of an address and a line,
    there is a line table of `/made/by/hand.c`, which ends at the address `end`.
    """
    names, table = b"\0", bytes(24)
    for name, value, size, sort, binding, section in symbols:
        table += struct.pack("<IBBHQQ", len(names), binding << 4 | sort, 0, section, value, size)
        names += name.encode() + b"\0"
    sections = [
        (b".text", 1, 2 | 4, TEXT, bytes(0x100)),
        (b".data", 1, 2 | 1, DATA, bytes(0x100)),
        (b".symtab", 2, 0, 0, table if symbols else bytes(24)),
        (b".strtab", 3, 0, 0, names),
    ]
    if rows:
        sections += [
            (b".debug_abbrev", 1, 0, 0, ABBREVIATIONS),
            (b".debug_info", 1, 0, 0, unit()),
            (b".debug_line", 1, 0, 0, line_table(rows, end)),
        ]
    return linked(sections)


def linked(sections):
    """Returns the file of sections, which are their names, types, flags, addresses and bytes."""
    names = b"\0" + b"".join(name + b"\0" for name, *_ in sections) + b".shstrtab\0"
    sections = [*sections, (b".shstrtab", 3, 0, 0, names)]
    headers, content = bytes(64), b""
    for name, sort, flags, address, data in sections:
        place = names.index(b"\0" + name + b"\0") + 1
        # (the symbols have their names in the section behind their own, and are of 24 bytes)
        link, size = (4, 24) if sort == 2 else (0, 0)
        headers += struct.pack("<IIQQQQIIQQ", place, sort, flags, address, 64 + len(content), len(data), link, 0, 1, size)
        content += data
    ident = b"\x7fELF\x02\x01\x01" + bytes(9)
    numbers = (2, 0xF3, 1, TEXT, 0, 64 + len(content), 0, 64, 56, 0, 64, len(sections) + 1, len(sections))
    return ident + struct.pack("<HHIQQQIHHHHHH", *numbers) + content + headers


def unit():
    """Returns a unit of version 4 of DWARF: its folder is /made, and its line table begins at byte 0."""
    body = struct.pack("<HIB", 4, 0, 8) + b"\x01/made\0" + struct.pack("<I", 0)
    return struct.pack("<I", len(body)) + body


def line_table(rows, end):
    """Returns a line table of version 4, with one file in one folder beside that of the compiler."""
    lengths = bytes([0, 1, 1, 1, 1, 0, 0, 0, 1, 0, 0, 1])
    head = struct.pack("<BBBbBB", 4, 1, 1, -5, 14, 13) + lengths + b"by\0\0" + b"hand.c\0\x01\0\0" + b"\0"
    program = b"\0\x09\x02" + struct.pack("<Q", rows[0][0])  # the address
    address, line = rows[0][0], 1
    for row_address, row_line in rows:
        program += bytes([9]) + struct.pack("<H", row_address - address)  # the address goes on
        program += bytes([3, row_line - line & 0x7F, 1])  # so does the line, and a row is there
        address, line = row_address, row_line
    program += bytes([9]) + struct.pack("<H", end - address) + b"\0\x01\x01"  # the end
    body = struct.pack("<HI", 4, len(head)) + head + program
    return struct.pack("<I", len(body)) + body
