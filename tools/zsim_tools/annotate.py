"""Adds functions, files and lines to a callgrind.out of zprof, which has addresses alone.

What comes of it is read by `callgrind_annotate` and KCachegrind. No cost is changed: each line of costs has its numbers,
and so has that of the totals.
"""

import re
import sys

from . import inputs
from .errors import ToolError
from .symbols import read_symbols
from .table import write_whole

UNKNOWN = "???"
POSITIONS = "positions: instr"
COSTS = re.compile(r"0x([0-9a-f]{1,16})((?: [0-9]+)+)")
GROUPS = ("fl=", "fn=")


def annotate(path, executable, out=None):
    """Writes the profile of a file with the names of an executable to the file `out`, or to standard output."""
    text = inputs.read_text(path, inputs.PROFILE)
    lines = "".join(f"{line}\n" for line in annotated(path, text.splitlines(), read_symbols(executable)))
    if out:
        write_whole(out, lambda file: file.write(lines.encode("utf-8")))
    else:
        sys.stdout.write(lines)


def annotated(path, lines, symbols):
    """Yields the lines of a profile with the names of symbols."""
    numbered = enumerate(lines, 1)
    events = yield from annotated_head(path, numbered)
    named = Named(symbols)
    for number, line in numbered:
        costs = COSTS.fullmatch(line)
        if costs and len(costs[2].split()) == events:
            yield from named.lines(int(costs[1], 16), costs[2])
        elif line.startswith("ob="):
            named = Named(symbols)
            yield line
        elif line.startswith("totals: "):
            yield line
            return
        elif not line:
            yield line
        elif not line.startswith(GROUPS):
            raise ToolError(f"{path}: line {number}: no line of a profile of zprof: {line[:40]}")
    raise ToolError(f"{path}: the file ends before its totals")


def annotated_head(path, numbered):
    """Yields the lines of a profile's head, which now tells of lines too. Returns how many events it names."""
    positions = False
    for number, line in numbered:
        if line == POSITIONS:
            positions = True
            yield f"{line} line"
        elif line.startswith("events: ") and positions:
            yield line
            return len(line.split()) - 1
        elif not line or line.startswith(("#", "version: ", "creator: ")):
            yield line
        else:
            raise ToolError(f"{path}: line {number}: no line of the head of a profile of zprof: {line[:40]}")
    raise ToolError(f"{path}: no profile of zprof: it has no line `events:` behind its line `{POSITIONS}`")


class Named:
    """Puts names before lines of costs, where they differ from those of the line before."""

    def __init__(self, symbols):
        self.symbols = symbols
        self.function = self.file = None

    def lines(self, address, costs):
        """Yields the lines of the costs of an address."""
        span = self.symbols.function(address)
        place = self.symbols.place(address)
        home = self._home(span, place)
        function = home, span.what if span else UNKNOWN, span and span.start
        if function != self.function:
            self.function, self.file = function, home
            yield f"fl={home}"
            yield f"fn={function[1]}"
        file, line = place or (home, 0)
        if file != self.file:
            # (a function that was put into another one: fe= is the way back)
            self.file = file
            yield f"{'fe' if file == home else 'fi'}={file}"
        yield f"0x{address:x} {line}{costs}"

    def _home(self, span, place):
        """Returns the file of a function: that of its first instruction."""
        first = self.symbols.place(span.start) if span else None
        known = first or place
        return known.file if known else UNKNOWN
