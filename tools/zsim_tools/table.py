"""Tables: a row for each run of a sweep. `docs/tools.md` has the columns."""

import csv
import importlib.util
import io
import os
from contextlib import suppress
from itertools import chain

from . import inputs
from .derived import PER_THOUSAND
from .errors import ToolError, check_ending_of, ending_of, one_line, told

ENDINGS = (".csv", ".parquet")
SHA256 = ("machine_sha256", "executable_sha256", "zsim_sha256")
TEXTS = ("executable", "line", "halt", "schedule", *SHA256)
# What a table of a sweep has at least.
NEEDED = ("executable", "status", "line", "halt")

# The derived numbers, which may have a fraction. All other numbers of a table are whole.
FRACTIONS = (
    "cpi",
    "waiting",
    *PER_THOUSAND,
    "instructions_spread",
    "cycles_spread",
    "cpi_spread",
    "bank_wait",
    "bank_busy",
    "bank_busiest",
    "controller_wait",
    "controller_busy",
    "controller_busiest",
    "link_wait",
    "link_busy",
    "link_busiest",
    "l1_kib",
    "l1i_kib",
    "l2_kib",
    "seconds",
    "instructions_per_second",
)


def columns_of(rows):
    """Returns the columns of rows of which some may lack columns. The hashes come last."""
    names = dict.fromkeys(chain.from_iterable(rows))
    return [*(name for name in names if name not in SHA256), *SHA256]


def make_table(rows):
    """Returns a data frame of rows."""
    import pandas

    columns = columns_of(rows)
    table = pandas.DataFrame(rows, columns=columns)
    for name in columns:
        values = [row[name] for row in rows if name in row]
        if all(isinstance(value, int) for value in values):
            table[name] = table[name].astype("Int64")
    return table


def write_rows(rows, path):
    """Writes the table of rows. As CSV it is written at once, since pandas takes longer to load than many a sweep."""
    if ending_of(path) != ".csv":
        return write_table(make_table(rows), path)
    text = io.StringIO(newline="")
    columns = columns_of(rows)
    lines = csv.writer(text, lineterminator="\n")
    lines.writerow(columns)
    for row in rows:
        cells = [row.get(name, "") for name in columns]
        lines.writerow(["" if value != value else value for value in cells])
    return write_whole(path, lambda file: file.write(text.getvalue().encode("utf-8")))


def check_ending(path):
    """Raises ToolError where no table can be written under this name: for its ending, or for want of a library."""
    check_ending_of(path, ENDINGS, "table")
    if ending_of(path) == ".parquet" and importlib.util.find_spec("pyarrow") is None:
        raise ToolError(f"{path}: Parquet needs the Python package pyarrow; tables can also be .csv")


def check_output(path):
    """Raises ToolError where a file could not be written, as far as that can be told before."""
    folder = os.path.dirname(path) or "."
    if os.path.exists(path) and not os.path.isfile(path):
        raise ToolError(f"cannot write: {path}: it is no regular file")
    if not os.path.isdir(folder):
        raise ToolError(f"cannot write: {path}: {folder} is no folder")


def write_whole(path, write):
    """Has a file written beside, by `write` with an open file, and then renamed. So it is there whole or not at all."""
    check_output(path)
    target = os.path.realpath(path)
    folder, name = os.path.split(target)
    beside = os.path.join(folder, f".{name}.{os.getpid()}")
    with told(f"cannot write: {path}"):
        try:
            with open(beside, "xb") as file:
                write(file)
            os.replace(beside, target)
        finally:
            with suppress(FileNotFoundError):
                os.unlink(beside)


def write_table(table, path):
    """Writes a table as CSV or Parquet, by the ending of its name."""
    check_ending(path)
    if ending_of(path) == ".parquet":
        write_whole(path, lambda file: table.to_parquet(file, engine="pyarrow", index=False))
    else:
        write_whole(path, lambda file: table.to_csv(file, index=False))


def read_table(path):
    """Reads a table that a sweep wrote, as a data frame. ToolError names the file, and what is wrong with it."""
    import pandas

    check_readable(path)
    content = io.BytesIO(inputs.read_bytes(path, inputs.TABLE))
    try:
        if ending_of(path) == ".parquet":
            table = pandas.read_parquet(content, engine="pyarrow")
        else:
            texts = {name: "string" for name in TEXTS}
            table = pandas.read_csv(
                content, dtype=texts, keep_default_na=False, na_values="", float_precision="round_trip"
            )
    except Exception as error:  # (each library has exceptions of its own for a file that is none of its kind)
        raise ToolError(f"{path}: no table: {one_line(error)}") from None
    for name in NEEDED:
        if name not in table.columns:
            raise ToolError(f"{path}: no table of a sweep: it has no column {name}")
    for name in table.columns:
        column = table[name]
        if name in TEXTS or name.endswith("_halt"):
            table[name] = column.astype("string").fillna("")
        elif name in FRACTIONS:
            table[name] = to_numbers(path, name, column)
        elif pandas.api.types.is_numeric_dtype(column) and (column.dropna() % 1 == 0).all():
            table[name] = column.astype("Int64")
    to_numbers(path, "status", table["status"])
    return table


def check_readable(path):
    if ending_of(path) not in ENDINGS:
        raise ToolError(f"{path}: no table: its name ends neither with {' nor with '.join(ENDINGS)}")
    if ending_of(path) == ".parquet" and os.path.isfile(path):
        check_ending(path)


def to_numbers(path, name, column):
    """Returns a column as numbers with fractions."""
    import pandas

    try:
        return pandas.to_numeric(column).astype("Float64" if column.dtype == "Int64" else "float64")
    except (ValueError, TypeError):
        raise ToolError(f"{path}: column {name}: has a value that is no number") from None
