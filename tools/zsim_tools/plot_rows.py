"""The rows that a plot shows: which ones of a table, what they are compared with, and what several come to."""

import difflib
from math import exp, log

from .errors import ToolError

# How many values a message names.
MOST = 16
GEOMETRIC_MEAN = "geometric mean"
# The number that is made of the cycles and those of the baseline.
SPEEDUP = "speedup"


def good_rows(table, with_limits=False):
    """Returns the rows of runs that ended by their program's exit, and how many others there are.

    `with_limits` takes those too that ended by a limit.
    """
    exits = table["halt"].map(lambda halt: all(part.startswith("exit ") for part in str(halt).split("; ")))
    good = (table["status"] == 0) & exits.astype(bool)
    if with_limits:
        good |= table["status"] == 3
    return table[good], int((~good).sum())


def selected(table, where, name):
    """Returns the rows in which each column of `where` has its value, or one of a list of values."""
    for column, wanted in where.items():
        check_column(table, column, name)
        known = table[column]
        wanted = wanted if isinstance(wanted, list) else [wanted]
        for value in wanted:
            if not (known.astype("string") == str(value)).any():
                values = sorted(set(known.dropna()))
                told = ", ".join(map(str, values[:MOST])) + (", .." if len(values) > MOST else "")
                raise ToolError(f"{name}: no row has {column} = {value}; there are {told}")
        table = table[known.astype("string").isin(list(map(str, wanted)))]
    return table


def check_column(table, column, name, numeric=False):
    if column not in table.columns:
        near = next(iter(difflib.get_close_matches(column, table.columns, 1)), None)
        hint = f"; did you mean {near}?" if near else ""
        raise ToolError(f"{name}: has no column {column}{hint}")
    if numeric and not is_numeric(table[column]):
        raise ToolError(f"{name}: column {column}: is not of numbers")


def is_numeric(column):
    import pandas

    return pandas.api.types.is_numeric_dtype(column)


def axes_of(table):
    """Returns the columns that tell the runs of a sweep apart: its axes, which stand first, the executable, the repeat."""
    columns = list(table.columns)
    axes = columns[: columns.index("executable") + 1]
    return axes + ["repeat"] if "repeat" in columns else axes


def check_single(table, columns, name):
    """Raises ToolError where several rows have the same values in these columns: a plot could only show one."""
    doubled = table[table.duplicated(columns, keep=False)]
    if doubled.empty:
        return
    first = doubled.iloc[0]
    alike = doubled[(doubled[columns] == first[columns]).all(axis=1)]
    told = ", ".join(f"{column} = {first[column]}" for column in columns)
    axes = [column for column in axes_of(table) if column not in columns and alike[column].nunique() > 1]
    mend = f"; pick a value of {' and of '.join(axes)} with --where, or draw --lines of it" if axes else ""
    raise ToolError(f"{name}: {len(alike)} rows have {told}{mend}")


def relative(rows, base, baseline, y, name):
    """Returns rows with y by what y is in the row of the baseline, which has the same values on all other axes.

    `base` are the rows of the baseline. Where y is the speed-up, it is the cycles there by the cycles here. Of several
    repeats of the baseline it is their mean.
    """
    of = "cycles" if y == SPEEDUP else y
    axes = [column for column in axes_of(rows) if column not in (*baseline, "repeat")]
    wholes = {}
    for key, value in zip(keys_in(base, axes), base[of]):
        wholes.setdefault(key, []).append(float(value))
    found = []
    for key in keys_in(rows, axes):
        repeats = wholes.get(key)
        if not repeats or not sum(repeats) > 0:
            told = ", ".join(f"{column} = {value}" for column, value in zip(axes, key))
            what = f"no {of} above 0" if repeats else "no row"
            raise ToolError(f"{name}: --baseline: there is {what} for {told}")
        found.append(sum(repeats) / len(repeats))
    values = [float(value) for value in rows[of]]
    if y == SPEEDUP and 0 in values:
        raise ToolError(f"{name}: {SPEEDUP}: a run has no cycles")
    made = [whole / value if y == SPEEDUP else value / whole for value, whole in zip(values, found)]
    return rows.assign(**{y: made})


def keys_in(rows, columns):
    """Returns the values that each row has in the columns."""
    return list(rows[columns].itertuples(index=False, name=None)) if columns else [()] * len(rows)


def with_geometric_mean(rows, y, keep, name):
    """Returns rows with the geometric mean of y over the executables; beside those of the executables where `keep`."""
    import pandas

    if not (rows[y] > 0).all():
        raise ToolError(f"{name}: {y} has values that are not above 0, of which there is no geometric mean")
    columns = list(rows.columns)
    axes = [column for column in axes_of(rows) if column != "executable"]
    logs = rows.assign(**{y: [log(value) for value in rows[y]]})
    groups = logs.groupby(axes, dropna=False, sort=False)[y].mean() if axes else {(): logs[y].mean()}
    means = [
        {**dict(zip(axes, key if isinstance(key, tuple) else (key,))), "executable": GEOMETRIC_MEAN, y: exp(value)}
        for key, value in groups.items()
    ]
    made = pandas.DataFrame(means).reindex(columns=columns)
    return pandas.concat([rows, made], ignore_index=True) if keep else made


def over_repeats(rows, y, columns, name):
    """Returns a row for each combination of values of the columns, with the mean of y over the repeats, and how far it
    goes down and up from there."""
    repeated = "repeat" in rows.columns and "repeat" not in columns
    check_single(rows, [*columns, "repeat"] if repeated else columns, name)
    groups = rows.assign(**{y: rows[y].astype(float)}).groupby(columns, dropna=False, sort=False)[y]
    made = groups.agg(["mean", "min", "max"]).reset_index()
    return made.assign(**{y: made["mean"], "down": made["mean"] - made["min"], "up": made["max"] - made["mean"]})
