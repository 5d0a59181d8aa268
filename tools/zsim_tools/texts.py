"""What goes to standard output: tables in the terminal and numbers as they stand there, JSON and CSV."""

import csv
import json
import sys
from math import isnan

from rich import box
from rich.console import Console
from rich.table import Table
from rich.text import Text

# Derived numbers that are shares, shown as percent.
SHARES = (
    "waiting",
    "busy",
    "bank_busy",
    "bank_busiest",
    "controller_busy",
    "controller_busiest",
    "link_busy",
    "link_busiest",
    "instructions_spread",
    "cycles_spread",
    "cpi_spread",
    "spread",
)
# Where the output is no terminal, nothing is folded to the width of one.
WIDE = 10_000


def console():
    """Returns the console of standard output."""
    return Console(file=sys.stdout, width=None if sys.stdout.isatty() else WIDE, highlight=False)


def shown_number(name, value):
    """Returns a number as a table has it: whole ones in full, shares in percent, other fractions with 4 digits."""
    if value is None or value != value:
        return "-"
    if isinstance(value, str):
        return value
    if name in SHARES:
        return f"{100 * value:.2f} %"
    return str(value) if isinstance(value, int) else f"{value:.4g}" if value < 10_000 else f"{value:.0f}"


def print_table(out, title, headings, rows):
    """Prints rows of texts under headings, and a title where there is one. Numbers stand to the right."""
    if title:
        out.print(Text(title, style="bold"))
    table = Table(box=box.SIMPLE_HEAD, pad_edge=False, show_edge=False)
    for place, heading in enumerate(headings):
        table.add_column(Text(heading), justify="right" if place else "left", overflow="fold")
    for row in rows:
        table.add_row(*map(Text, row))
    out.print(table)


def print_json(value):
    """Prints a value as JSON."""
    print(json.dumps(value, indent=2))


def print_csv(headings, rows):
    """Prints rows of values under headings. What is no number is left empty."""
    lines = csv.writer(sys.stdout, lineterminator="\n")
    lines.writerow(headings)
    for row in rows:
        lines.writerow(["" if value is None else value for value in row])


def plain_number(value):
    """Returns a number as JSON has it: what is no number is null."""
    return None if isinstance(value, float) and isnan(value) else value
