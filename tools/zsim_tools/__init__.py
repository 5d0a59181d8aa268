"""Tools for who compares machines with zsim: tables, comparisons, sweeps and plots of its reports.

    import zsim_tools

    report = zsim_tools.run("examples/machines/laptop.toml", "examples/c/sort.elf")
    report.cores                    a data frame with a row for each core, and so report.banks, report.controllers, report.links
    report.derived                  the derived numbers of the run
    zsim_tools.explain("zsim: elf 6")        what a line of zsim means, and how to mend it
    zsim_tools.sweep("sweep.toml", "sweep.csv")
    zsim_tools.read_table("sweep.csv")

`docs/tools.md` tells of all. What goes wrong is a ToolError with one line; a run without a report is a RunError.
"""

import importlib

_HOMES = {
    "Machine": "machine",
    "Report": "report",
    "RunError": "errors",
    "ToolError": "errors",
    "diff": "differences",
    "explain": "meanings",
    "parse_report": "report",
    "plot": "plots",
    "read_machine": "machine",
    "read_report": "report",
    "read_table": "table",
    "run": "program",
    "sweep": "sweeps",
    "write_table": "table",
}

__all__ = sorted(_HOMES)


def __getattr__(name):
    # Each part is loaded where it is first used: no sweep waits for the library of plots, and a worker of a cluster
    # needs none of them.
    if name not in _HOMES:
        raise AttributeError(f"module {__name__!r} has no attribute {name!r}")
    return getattr(importlib.import_module(f".{_HOMES[name]}", __name__), name)
