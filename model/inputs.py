"""The checks of words, machine descriptions and executables, written from the documents and not from the code."""

import re
import struct
import tomllib


class Untold(Exception):
    """The documents leave it to a library whether this passes."""


# ---- words

# The options of a command, those with a value and those without.
COMMANDS = {
    "run": ({"--workers", "--record", "--events"}, {"--brief"}),
    "replay": ({"--schedule"}, {"--brief"}),
    "check": (set(), set()),
}
PROFILE = {"--schedule", "--out", "--every"}, {"--separate-cores", "--brief"}
UNSIGNED = re.compile(r"0|[1-9][0-9]*", re.ASCII)


def command_of(words):
    """Returns the command, its two words and its options. None where the words are no command."""
    if not words or words[0] not in COMMANDS:
        return None
    command = words[0]
    divided = places_and_options(words[1:], *COMMANDS[command])
    if divided is None:
        return None
    places, options = divided
    if not are_options(command, options) or command != "check" and not is_executable(places[1]):
        return None
    return command, places, options


def profile_of(words):
    """Returns the two words and the options of a call of the profiler. None where the words are no command."""
    divided = places_and_options(words, *PROFILE)
    if divided is None:
        return None
    places, options = divided
    every = options.get("--every", "1")
    is_number = UNSIGNED.fullmatch(every) and len(every) <= 10 and 1 <= int(every) <= 4294967295
    return divided if is_number and "--out" in options and is_executable(places[1]) else None


def places_and_options(words, with_value, without):
    """Returns the two words that are no options, and the options. None where the words are others."""
    rest, places, options = list(words), [], {}
    while rest:
        word = rest.pop(0)
        if word == "--":
            places += rest
            break
        if not word.startswith("-") or word == "-":
            places.append(word)
            continue
        name, equals, value = word.partition("=")
        if name in options or name not in with_value | without or name in without and equals:
            return None
        if name in with_value and not equals:
            if not rest or rest[0].startswith("-") and rest[0] != "-":
                return None
            value = rest.pop(0)
        if name in with_value and value == "":
            raise Untold
        options[name] = value
    return (places, options) if len(places) == 2 else None


def are_options(command, options):
    """Tells whether the values of the options make sense."""
    workers = options.get("--workers", "1")
    is_number = UNSIGNED.fullmatch(workers) and len(workers) <= 2 and 1 <= int(workers) <= 64
    is_apart = "--record" not in options or options["--record"] != options.get("--events")
    return bool(is_number) and is_apart and (command != "replay" or "--schedule" in options)


def is_executable(word):
    """Tells whether a word can be that of an executable: a name, or a program of a number."""
    number = word[4:]
    return not word.startswith("gen:") or bool(UNSIGNED.fullmatch(number)) and int(number) < 2**64


# ---- machine descriptions

INTEGER, TABLE, ARRAY = "integer", "table", "array"


def table(name, *keys):
    """Returns the rows of a table: its own, and those of its keys with their least and greatest values."""
    return [(name, TABLE, None, None), *((f"{name}.{key}", INTEGER, low, high) for key, low, high in keys)]


TOP = [
    ("version", INTEGER, 1, 3),
    ("cores", INTEGER, 1, 256),
    ("interval", INTEGER, 1, 10000),
    ("intervals", INTEGER, 1, 1048576),
]
MEMORY = table("memory", ("base", 0, 2**40), ("size", 4096, 2**28), ("stack", 16, 2**20))
L1 = table("l1", ("sets", 1, 4096), ("ways", 1, 16), ("latency", 1, 65536))
L1I = table("l1i", ("sets", 1, 4096), ("ways", 1, 16), ("latency", 1, 65536))
L2 = table("l2", ("banks", 1, 64), ("sets", 1, 65536), ("ways", 1, 32), ("latency", 1, 65536), ("remote", 0, 65536),
           ("fill", 1, 65536), ("occupancy", 1, 65536))  # fmt: skip
CONTROLLERS = table("controllers", ("count", 1, 16), ("read", 1, 65536), ("write", 1, 65536), ("occupancy", 1, 65536))
DOMAINS = [
    *table("domains", ("count", 1, 64)),
    ("domains.banks", ARRAY, "l2.banks", None),
    ("domains.controllers", ARRAY, "controllers.count", None),
]
MESH = table("mesh", ("width", 1, 8), ("height", 1, 8), ("hop", 1, 256), ("occupancy", 1, 256))
DRAM = table("dram", ("banks", 1, 16), ("row_lines", 1, 4096), ("hit", 1, 65536), ("closed", 1, 65536),
             ("conflict", 1, 65536))  # fmt: skip
PIPE = table("pipe", ("mul", 1, 64), ("div", 1, 128), ("entries", 1, 4096), ("penalty", 0, 64))

# What a number is a multiple of, and what it is no less than.
MULTIPLES = {"memory.base": 4096, "memory.size": 4096, "memory.stack": 16}
NO_LESS = {"dram.closed": "dram.hit", "dram.conflict": "dram.closed"}


class BadMachine(Exception):
    """The number of what is wrong with a description, and what it names."""


def rows_of(document):
    """Returns the rows that a document is checked for, by its version and its tables."""
    version = document.get("version")
    has = {name for name in ("l1i", "mesh", "dram", "pipe") if version == 3 and name in document}
    fetches = version == 2 or "l1i" in has
    later = [row for name, rows in (("mesh", MESH), ("dram", DRAM), ("pipe", PIPE)) if name in has for row in rows]
    return [*TOP, *MEMORY, *L1, *(L1I if fetches else []), *L2, *CONTROLLERS, *DOMAINS, *later]


def value_of(document, key):
    """Returns the value of a key. None where it is not there."""
    first, _, second = key.partition(".")
    value = document.get(first)
    return value.get(second) if second and value is not None else value


def is_integer(value):
    return isinstance(value, int) and not isinstance(value, bool)


def is_kind(value, kind):
    if kind == ARRAY:
        return isinstance(value, list) and all(is_integer(element) for element in value)
    return isinstance(value, dict) if kind == TABLE else is_integer(value)


def check_key(document, key, kind, low, high):
    """Makes the three checks of a key."""
    value = value_of(document, key)
    if value is None:
        raise BadMachine(f"2 {escaped(key)}")
    if not is_kind(value, kind):
        raise BadMachine(f"3 {key}")
    if kind == ARRAY and len(value) != value_of(document, low):
        raise BadMachine(f"4 {key} {len(value)}")
    if kind == INTEGER:
        no_less = NO_LESS.get(key)
        fits = low <= value <= high and value % MULTIPLES.get(key, 1) == 0
        fits = fits and (no_less is None or value >= value_of(document, no_less))
        if key == "memory.stack":
            fits = fits and document["cores"] * value <= document["memory"]["size"]
        if not fits:
            raise BadMachine(f"4 {key} {value}")


def escaped(text):
    """Returns a key as it is printed."""
    data = text.encode()
    return "".join(chr(byte) if 0x20 <= byte <= 0x7E and byte not in b'"\\' else f"\\x{byte:02x}" for byte in data)


def check_unknown(document, rows):
    """Checks that there are no other keys, first at the top and then in each table."""
    names = {key for key, *_ in rows}
    tables = [key for key, kind, *_ in rows if kind == TABLE]
    for front, keys in ("", document), *((f"{name}.", document[name]) for name in tables):
        unknown = [key for key in keys if front + key not in names or not front and "." in key]
        if unknown:
            raise BadMachine(f"5 {front}{escaped(min(unknown, key=str.encode))}")


def document_of(data):
    """Returns the TOML document that these bytes are, whose integers have 64 bits."""
    try:
        text = data.decode()
        document = tomllib.loads(text, parse_float=str)
    except (UnicodeDecodeError, tomllib.TOMLDecodeError) as wrong:
        raise BadMachine("1") from wrong
    except (RecursionError, ValueError) as wrong:
        raise Untold from wrong
    if any(not -(2**63) <= number < 2**63 for number in integers_of(document)):
        raise BadMachine("1")
    return document


def integers_of(value):
    """Returns all integers of a document."""
    inner = value.values() if isinstance(value, dict) else value if isinstance(value, list) else []
    return [value] if is_integer(value) else [number for part in inner for number in integers_of(part)]


def description_of(data):
    """Returns the description that these bytes are. Raises BadMachine with the first check that fails."""
    document = document_of(data)
    rows = rows_of(document)
    for row in rows:
        check_key(document, *row)
    check_unknown(document, rows)
    for cache in "l1", "l1i", "l2":
        if cache in document and document[cache]["sets"] % document["l2"]["banks"]:
            raise BadMachine(f"6 {cache}.sets")
    domains = document["domains"]
    for component, domain in enumerate(domains["banks"] + domains["controllers"]):
        if not 0 <= domain < domains["count"]:
            raise BadMachine(f"7 {component}")
    return document


# ---- executables


class BadElf(Exception):
    """The number of what is wrong with an executable, and what it names."""


LOAD, DYNAMIC, INTERP = 1, 2, 3


def check_header(file):
    """Makes the checks of the ELF header, and returns where the entry is, and the program headers."""
    if len(file) < 64:
        raise BadElf("1")
    kind, machine = struct.unpack_from("<HH", file, 16)
    entry, place = struct.unpack_from("<QQ", file, 24)
    (flags,) = struct.unpack_from("<I", file, 48)
    size, count = struct.unpack_from("<HH", file, 54)
    is_table = count == 0 or size == 56 and place + 56 * count <= len(file)
    checks = [
        (2, file[:4] == b"\x7fELF"),
        (3, file[4:6] == bytes([2, 1])),
        (4, kind == 2),
        (5, machine == 243),
        (6, flags & 7 == 0),
        (7, count <= 128 and is_table),
    ]
    for number, holds in checks:
        if not holds:
            raise BadElf(f"{number}")
    return entry, [struct.unpack_from("<IIQQQQQQ", file, place + 56 * i) for i in range(count)]


def check_executable(file, base, size):
    """Raises BadElf with the first check that an executable fails for a memory."""
    entry, headers = check_header(file)
    if any(header[0] in (DYNAMIC, INTERP) for header in headers):
        raise BadElf("8")
    segments = [(i, *header) for i, header in enumerate(headers) if header[0] == LOAD and (header[5] or header[6])]
    for i, _, _, offset, _, _, filesz, _, _ in segments:
        if offset + filesz > len(file):
            raise BadElf(f"9 {i}")
    for i, _, _, _, vaddr, _, filesz, memsz, _ in segments:
        if filesz > memsz or vaddr < base or vaddr + memsz > base + size:
            raise BadElf(f"10 {i}")
    spans = [(i, vaddr, vaddr + memsz, flags & 1) for i, _, flags, _, vaddr, _, _, memsz, _ in segments]
    for at, (i, begin, end, _) in enumerate(spans):
        for j, other, other_end, _ in spans[at + 1 :]:
            if begin < other_end and other < end:
                raise BadElf(f"11 {i} {j}")
    if entry % 4 or not any(run and begin <= entry and entry + 4 <= end for _, begin, end, run in spans):
        raise BadElf("12")
