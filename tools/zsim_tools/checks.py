"""The checks of a machine description as zsim makes them, in its order and with its numbers.

They say which line zsim would give (`docs/machine-description.md`), without running it. zsim's own answer is the one that counts.
"""

import tomllib
from typing import NamedTuple

from .machine import flat, kind_of

TEXT, MISSING, KIND, RANGE, UNKNOWN, RATIO, DOMAIN = range(1, 8)


class Allowed(NamedTuple):
    """The integers that a key may have: from the least to the greatest, the multiples of a number."""

    least: int
    most: int
    multiple: int = 1


# The keys of each table, in the order in which they are checked. A list has a text: what it has an element for.
OWN_CACHE = {"sets": Allowed(1, 4096), "ways": Allowed(1, 16), "latency": Allowed(1, 65536)}
TABLES = {
    "": {
        "version": Allowed(1, 3),
        "cores": Allowed(1, 256),
        "interval": Allowed(1, 10000),
        "intervals": Allowed(1, 1048576),
    },
    "memory": {
        "base": Allowed(0, 2**40, 4096),
        "size": Allowed(4096, 2**28, 4096),
        "stack": Allowed(16, 2**20, 16),
    },
    "l1": OWN_CACHE,
    "l1i": OWN_CACHE,
    "l2": {
        "banks": Allowed(1, 64),
        "sets": Allowed(1, 65536),
        "ways": Allowed(1, 32),
        "latency": Allowed(1, 65536),
        "remote": Allowed(0, 65536),
        "fill": Allowed(1, 65536),
        "occupancy": Allowed(1, 65536),
    },
    "controllers": {
        "count": Allowed(1, 16),
        "read": Allowed(1, 65536),
        "write": Allowed(1, 65536),
        "occupancy": Allowed(1, 65536),
    },
    "domains": {"count": Allowed(1, 64), "banks": "l2.banks", "controllers": "controllers.count"},
    "mesh": {
        "width": Allowed(1, 8),
        "height": Allowed(1, 8),
        "hop": Allowed(1, 256),
        "occupancy": Allowed(1, 256),
    },
    "dram": {
        "banks": Allowed(1, 16),
        "row_lines": Allowed(1, 4096),
        "hit": Allowed(1, 65536),
        "closed": Allowed(1, 65536),
        "conflict": Allowed(1, 65536),
    },
    "pipe": {
        "mul": Allowed(1, 64),
        "div": Allowed(1, 128),
        "entries": Allowed(1, 4096),
        "penalty": Allowed(0, 64),
    },
}
ALLOWED = {f"{table}.{key}".lstrip("."): allowed for table, keys in TABLES.items() for key, allowed in keys.items()}
# The tables that a version need not have: those that each has beside the others, and those that it may have.
OPTIONAL = {"l1i", "mesh", "dram", "pipe"}
VERSIONS = {1: (set(), set()), 2: ({"l1i"}, set()), 3: (set(), {"l1i", "mesh", "dram", "pipe"})}
# Keys whose value is at least that of another key, which comes before.
AT_LEAST = {"dram.closed": "dram.hit", "dram.conflict": "dram.closed"}
RATIOS = ("l1.sets", "l1i.sets", "l2.sets")


class Refusal(NamedTuple):
    """A check that fails: its number, and what it names: a key with or without a value, or a component."""

    number: int
    named: tuple = ()

    @property
    def line(self):
        """The line of zsim."""
        return " ".join(["zsim: machine", str(self.number), *map(str, self.named)])


def refusal_of(text):
    """Returns the first check of a description's text that fails, or None."""
    try:
        document = tomllib.loads(text)
    except (ValueError, RecursionError):
        return Refusal(TEXT)
    found = wrong_key(document, "version", ALLOWED["version"])
    if found:
        return found
    tables = tables_of(document)
    wrong = next(filter(None, (wrong_table(document, table) for table in tables)), None)
    return wrong or unknown_key(document, tables) or wrong_ratio(document) or wrong_domain(document)


def tables_of(document):
    """Returns the tables that a document is checked for: those of its version, and of those that it may have the ones
    that it has."""
    needed, possible = VERSIONS[document["version"]]
    there = needed | (possible & set(document))
    return [table for table in TABLES if table not in OPTIONAL or table in there]


def wrong_table(document, table):
    """Returns what is wrong with a table, or with one of its keys; None where nothing is."""
    if table and table not in document:
        return Refusal(MISSING, (table,))
    if table and not isinstance(document[table], dict):
        return Refusal(KIND, (table,))
    for key, allowed in TABLES[table].items():
        found = wrong_key(document, f"{table}.{key}".lstrip("."), allowed)
        if found:
            return found
    return None


def wrong_key(document, name, allowed):
    """Returns what is wrong with the value of a key, or None."""
    table, _, key = name.rpartition(".")
    values = document[table] if table else document
    if key not in values:
        return Refusal(MISSING, (name,))
    value = values[key]
    if isinstance(allowed, str):
        if value != [] and kind_of(value) != "array of integers":
            return Refusal(KIND, (name,))
        return None if len(value) == number_of(document, allowed) else Refusal(RANGE, (name, len(value)))
    if kind_of(value) != "integer":
        return Refusal(KIND, (name,))
    fits = allowed.least <= value <= allowed.most and value % allowed.multiple == 0
    if name == "memory.stack":
        fits = fits and document["cores"] * value <= document["memory"]["size"]
    if name in AT_LEAST:
        fits = fits and value >= number_of(document, AT_LEAST[name])
    return None if fits else Refusal(RANGE, (name, value))


def number_of(document, name):
    table, _, key = name.rpartition(".")
    return document[table][key]


def unknown_key(document, tables):
    """Returns the first key that no description has: at the top, and then in each table."""
    places = [("", [*TABLES[""], *tables], document)]
    places += [(table, TABLES[table], document[table]) for table in tables if table]
    for table, names, values in places:
        unknown = sorted(name.encode("utf-8") for name in values if name not in names)
        if unknown:
            return Refusal(UNKNOWN, (f"{table}.{printed(unknown[0])}".lstrip("."),))
    return None


def printed(name):
    """Returns the bytes of a name as zsim prints them."""
    plain = set(range(0x21, 0x7F)) - {ord('"'), ord("\\")}
    return "".join(chr(byte) if byte in plain else f"\\x{byte:02x}" for byte in name)


def wrong_ratio(document):
    banks = document["l2"]["banks"]
    for key in RATIOS:
        if key.split(".")[0] in document and number_of(document, key) % banks:
            return Refusal(RATIO, (key,))
    return None


def wrong_domain(document):
    domains = document["domains"]
    for component, domain in enumerate([*domains["banks"], *domains["controllers"]]):
        if not 0 <= domain < domains["count"]:
            return Refusal(DOMAIN, (component,))
    return None


def values_of(text):
    """Returns the values of a description by key, as far as it is TOML."""
    try:
        return flat(tomllib.loads(text))
    except (ValueError, RecursionError):
        return {}
