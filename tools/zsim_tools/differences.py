"""Two reports side by side: what changed, by how much, and the heaviest first."""

from dataclasses import asdict, dataclass
from math import inf, isnan, nan

from . import derived
from .show import parts_of
from .texts import SHARES, console, plain_number, print_csv, print_json, print_table, shown_number

# Which whole tells how much a change of a number weighs. A number that is not here is measured by itself.
KINDS = {
    "cycles": ("cycles", "delay", "waited", "free", "bank_waited", "controller_waited", "link_waited"),
    "accesses": ("accesses", "loads", "stores", "atomics", "fetches", "hits", "upgrades", "l2hits", "misses"),
    "events": ("events", "bank_events", "controller_events", "link_events"),
    "instructions": ("instructions",),
    "accesses per thousand instructions": derived.PER_THOUSAND,
    "cycles per event": ("wait", "bank_wait", "controller_wait", "link_wait"),
    "one": SHARES,
}
KIND_OF = {name: kind for kind, names in KINDS.items() for name in names}


@dataclass(frozen=True)
class Change:
    """A number, or a text, that is not the same in both reports. `relative` is the change as a share of `a`.

    `weight` is the change as a share of the whole of its kind (`docs/tools.md`). That of a text is infinite, and that
    of a number that only one report has is 0, since the sums tell of it.
    """

    part: str
    name: str
    a: object
    b: object
    change: object
    relative: float
    weight: float


def wholes_of(report):
    """Returns the whole of each kind."""
    summary = report.summary
    cycles = sum(core.counters["cycles"] for core in report.core_list) or summary["cycles"]
    return {
        "cycles": cycles,
        "accesses": summary["accesses"],
        "events": summary["events"],
        "instructions": summary["instructions"],
        "accesses per thousand instructions": derived.quotient(1000 * summary["accesses"], summary["instructions"]),
        "cycles per event": derived.quotient(cycles, summary["events"]),
        "one": 1,
    }


def numbers_of(report, alone):
    """Returns the numbers of a report by part and name.

    The kinds of parts in `alone` have one part in both reports, and what it has in common with the sums over all parts
    is left out.
    """
    sums = derived.totals(report) if not report.brief else {}
    numbers = {}
    for kind, number, values in parts_of(report):
        if kind == "run":
            values = {**values, **sums}
        elif kind in alone:
            kept = ("halt",) if kind == "core" else ("free",)
            values = {name: value for name, value in values.items() if name in kept}
        part = kind if number is None else f"{kind} {number}"
        numbers |= {(part, name): value for name, value in values.items()}
    for core in report.core_list:
        numbers[f"core {core.number}", "console"] = core.console.decode("latin-1")
    return numbers


def counts(report):
    return {
        "core": len(report.core_list),
        "bank": len(report.bank_list),
        "controller": len(report.controller_list),
        "link": len(report.link_list),
    }


def changes(a, b):
    """Returns what differs between two reports, the heaviest first, and how many numbers are the same."""
    counts_a, counts_b = counts(a), counts(b)
    alone = {kind for kind in counts_a if max(counts_a[kind], counts_b[kind]) <= 1}
    numbers_a, numbers_b = numbers_of(a, alone), numbers_of(b, alone)
    wholes_a, wholes_b = wholes_of(a), wholes_of(b)
    found = []
    same = 0
    for part, name in dict.fromkeys([*numbers_a, *numbers_b]):
        one, other = numbers_a.get((part, name), nan), numbers_b.get((part, name), nan)
        if one == other or (is_missing(one) and is_missing(other)):
            same += 1
            continue
        kind = KIND_OF.get(name)
        whole = greatest(wholes_a[kind], wholes_b[kind]) if kind else None
        found.append(change_of(part, name, one, other, whole))
    found.sort(key=lambda change: -change.weight)
    return found, same


def greatest(one, other):
    """Returns the greater of two numbers; if one of them is no number, the other."""
    return other if is_missing(one) else one if is_missing(other) else max(one, other)


def is_missing(value):
    return isinstance(value, float) and isnan(value)


def change_of(part, name, one, other, whole):
    if isinstance(one, str) or isinstance(other, str):
        return Change(part, name, one, other, nan, nan, inf)
    if is_missing(one) or is_missing(other):
        return Change(part, name, one, other, nan, nan, 0.0)
    change = other - one
    whole = max(abs(one), abs(other)) if whole is None else whole
    return Change(part, name, one, other, change, derived.quotient(change, one), derived.quotient(abs(change), whole))


def diff(a, b):
    """Returns a data frame with a row for each number that differs between two reports, the heaviest first."""
    import pandas

    found, _ = changes(a, b)
    return pandas.DataFrame([asdict(change) for change in found], columns=list(Change.__dataclass_fields__))


def diff_tables(a, b, top):
    """Prints what changed as a table, at most `top` rows of it."""
    found, same = changes(a, b)
    rows = [
        [
            change.part,
            change.name,
            shown_side(change.name, change.a),
            shown_side(change.name, change.b),
            shown_change(change),
            "-" if isnan(change.relative) else f"{100 * change.relative:+.2f} %",
            "text" if change.weight == inf else f"{change.weight:.4f}",
        ]
        for change in found[:top]
    ]
    out = console()
    if rows:
        print_table(out, f"A = {a.name}\nB = {b.name}", ["part", "number", "A", "B", "change", "of A", "weight"], rows)
    more = f"; {len(found) - top} lighter ones are not shown" if top is not None and len(found) > top else ""
    out.print(f"{len(found)} numbers changed{more}, {same} are the same", markup=False)


def shown_side(name, value):
    return ascii(value)[1:-1] if isinstance(value, str) and name == "console" else shown_number(name, value)


def shown_change(change):
    if is_missing(change.change):
        return "-"
    sign = "+" if change.change > 0 else "-"
    return sign + shown_number(change.name, abs(change.change))


def diff_json(a, b):
    """Prints a list with an object for each number that changed. What is no number is null."""
    found, _ = changes(a, b)
    print_json([{name: finite(value) for name, value in asdict(change).items()} for change in found])


def diff_csv(a, b):
    """Prints a line for each number that changed."""
    found, _ = changes(a, b)
    print_csv(Change.__dataclass_fields__, (map(finite, asdict(change).values()) for change in found))


def finite(value):
    return None if value == inf else plain_number(value)
