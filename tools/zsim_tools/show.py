"""Shows reports as tables, and gives them as JSON or CSV."""

from statistics import mean

from . import derived
from .report import WHAT_IT_DID, WHAT_IT_FOUND
from .texts import console, plain_number, print_csv, print_json, print_table, shown_number



def parts_of(report):
    """Returns each part of a report: its kind, its number or None, and its numbers by name, counters and derived."""
    cycles = report.summary["cycles"]
    parts = [("run", None, {**report.summary, **report.derived})]
    for core in report.core_list:
        parts.append(("core", core.number, {**core.counters, **derived.of_core(core.counters), "halt": core.halt}))
    for kind, components, occupancy in derived.components_of(report):
        for part in components:
            numbers = derived.of_component(part.counters, cycles, occupancy)
            parts.append((kind, part.number, {**part.counters, **numbers}))
    return parts


def show_json(reports):
    """Prints a list with an object for each report: its name, and the numbers of each part. No number is null."""
    listed = []
    for report in reports:
        content = {"report": report.name, "run": {}, "cores": [], "banks": [], "controllers": []}
        content |= {"links": []} if report.link_list else {}
        for kind, _, numbers in parts_of(report):
            numbers = {name: plain_number(value) for name, value in numbers.items()}
            if kind == "run":
                content["run"] = numbers
            else:
                content[f"{kind}s"].append(numbers)
        for core, numbers in zip(report.core_list, content["cores"]):
            numbers["console"] = core.console.decode("latin-1")
        listed.append(content)
    print_json(listed)


def show_csv(reports):
    """Prints a line for each number: the report, the part, its number, what is counted, and how much that is."""
    rows = (
        (report.name, kind, number, name, plain_number(value))
        for report in reports
        for kind, number, numbers in parts_of(report)
        for name, value in numbers.items()
    )
    print_csv(("report", "part", "number", "name", "value"), rows)


def show_tables(reports):
    """Prints the tables of each report."""
    out = console()
    for place, report in enumerate(reports):
        if place:
            out.print()
        parts = parts_of(report)
        cores = [numbers for kind, _, numbers in parts if kind == "core"]
        # (one core differs from no other)
        run = {name: value for name, value in parts[0][2].items() if len(cores) > 1 or not name.endswith("_spread")}
        rows = [[name, shown_number(name, value)] for name, value in run.items()]
        print_table(out, report.name, ["run", ""], rows)
        if cores:
            show_cores(out, cores)
            for kind, _, _ in derived.components_of(report):
                show_components(out, kind, [numbers for other, _, numbers in parts if other == kind])


def show_cores(out, cores):
    # Several tables, so that each fits a terminal: what the cores did, what they found, and what follows from that.
    did = tuple(name for name in (*WHAT_IT_DID, "fetches") if name in cores[0])
    for names in (did, WHAT_IT_FOUND, tuple(derived.of_core(cores[0]))):
        rows = [[str(number), *(shown_number(name, core[name]) for name in names)] for number, core in enumerate(cores)]
        if len(cores) > 1:
            rows += summary_rows(names, cores)
        headings = ["core", *names]
        if names == did:
            headings.append("halt")
            halts = [core["halt"] for core in cores] + [""] * 4
            rows = [[*row, halt] for row, halt in zip(rows, halts)]
        out.print()
        print_table(out, "", headings, rows)


def summary_rows(names, cores):
    """Returns the rows of the least, the mean, the greatest and the spread over the cores."""
    columns = [[core[name] for core in cores] for name in names]
    return [
        ["least", *(shown_number(name, min(column)) for name, column in zip(names, columns))],
        ["mean", *(shown_number(name, float(mean(column))) for name, column in zip(names, columns))],
        ["greatest", *(shown_number(name, max(column)) for name, column in zip(names, columns))],
        ["spread", *(shown_number("spread", derived.spread(column)) for column in columns)],
    ]


def show_components(out, kind, components):
    rows = [
        [str(number), *(shown_number(name, value) for name, value in component.items())]
        for number, component in enumerate(components)
    ]
    out.print()
    print_table(out, "", [kind, *components[0]], rows)
