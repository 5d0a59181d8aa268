"""Machine descriptions: reads one, and makes others of it by giving keys other values.

What a description means and which values are in range, zsim says when it runs it. Here a key is a name with dots, as
`l1.ways`, and it has to stand in the description. All else of the text stays, the comments too.
"""

import os
import re
import tomllib
from functools import lru_cache
from typing import NamedTuple

from . import inputs
from .errors import ToolError, one_line

PLAIN = os.path.join(os.path.dirname(os.path.abspath(__file__)), "plain.toml")


class Machine(NamedTuple):
    """A machine description: where it comes from, its text, and the value of each key."""

    name: str
    text: str
    values: dict

    def number(self, key):
        """Returns the integer of a key, or None where there is none."""
        value = self.values.get(key)
        return value if kind_of(value) == "integer" else None

    def check(self, key, value, where):
        """Raises ToolError, which names `where`, if this is no key, or the value is of another kind than the key's."""
        if key not in self.values:
            is_table = any(known.startswith(f"{key}.") for known in self.values)
            what = "is a table, and not a key with a value, of" if is_table else "is no key of"
            raise ToolError(f"{where}: {key} {what} {self.name}")
        wanted = kind_of(self.values[key])
        if not is_kind(value, wanted):
            given = f"{kind_of(value)} {value!a}"
            raise ToolError(f"{where}: {key} has the {given}, and in {self.name} it is of kind {wanted}")

    def changed(self, values):
        """Returns this machine with other values of some keys, which are given as in `{"l1.ways": 4}`."""
        for key, value in values.items():
            self.check(key, value, "changed")
        return self.template(values)(values)

    def template(self, keys):
        """Returns a function from values of these keys to the machine with them. It is quick, and checks nothing."""
        from tomlkit import item  # (what only reads a machine need not load it)

        document = document_of(self.text)
        # Each value is replaced by a number that is nowhere else in the text, at which the text is then cut.
        numbers = (str(number) for number in range(10**17, 2 * 10**17) if str(number) not in self.text)
        marks = dict(zip(keys, numbers))
        before = {key: set_item(document, key, int(mark)) for key, mark in marks.items()}
        rest = document.as_string()
        for key, value in before.items():
            set_item(document, key, value)
        pieces = {}
        for key in sorted(marks, key=lambda key: rest.index(marks[key])):
            pieces[key], _, rest = rest.partition(marks[key])

        def filled(values):
            parts = [piece + item(values[key]).as_string() for key, piece in pieces.items()]
            return Machine(self.name, "".join(parts) + rest, {**self.values, **values})

        return filled


@lru_cache(maxsize=8)
def document_of(text):
    """Returns the document of a machine's text, in which values can be changed while all else stays."""
    import tomlkit

    return tomlkit.parse(text)


def set_item(document, key, value):
    """Gives a key of a document another value, and returns the one before."""
    *tables, last = key.split(".")
    table = document
    for name in tables:
        table = table[name]
    before = table[last]
    table[last] = value
    return before


def kind_of(value):
    """Returns the kind of a value of TOML, in the words of messages."""
    if isinstance(value, bool):
        return "boolean"
    if isinstance(value, list):
        kinds = sorted({kind_of(element) for element in value})
        return f"array of {' and '.join(kinds)}s" if kinds else "empty array"
    names = {int: "integer", float: "float", str: "string", dict: "table"}
    return next((name for kind, name in names.items() if isinstance(value, kind)), type(value).__name__)


def is_kind(value, kind):
    """Whether a value is of a kind. An empty array is an array of anything."""
    return (
        kind_of(value) == kind
        or (value == [] and kind.startswith("array"))
        or (isinstance(value, list) and kind == "empty array")
    )


def flat(table, before=""):
    """Returns the values of a table and of its tables, by their names with dots."""
    values = {}
    for name, value in table.items():
        if isinstance(value, dict):
            values |= flat(value, f"{before}{name}.")
        else:
            values[before + name] = value
    return values


def parse_machine(text, name):
    """Returns the Machine of a text. ToolError names the line where the text is no TOML."""
    return Machine(name, text, flat(parse_toml(text, name)))


def parse_toml(text, name):
    """Returns the content of a text. ToolError names the line where it is no TOML."""
    try:
        return tomllib.loads(text)
    except tomllib.TOMLDecodeError as error:
        line = re.search("at line ([0-9]+)", str(error))
        number = line[1] if line else len(text.splitlines())
        raise ToolError(f"{name}: line {number}: no TOML: {one_line(error)}") from None
    except (ValueError, RecursionError) as error:  # (a number of thousands of digits, or thousands of brackets)
        raise ToolError(f"{name}: no TOML that can be read: {one_line(error)}") from None


def read_machine(path):
    """Reads a machine description. `plain` is the one that is built into zsim."""
    if str(path) == "plain":
        return parse_machine(inputs.read_text(PLAIN, inputs.MACHINE), "plain")
    return parse_machine(inputs.read_text(path, inputs.MACHINE), str(path))
