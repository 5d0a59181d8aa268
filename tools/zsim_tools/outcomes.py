"""What came of a run: whether it ended as it should, and its row of the table."""

from typing import NamedTuple

from . import derived
from .errors import ToolError
from .program import LIMIT, RAN
from .report import parse_report
from .sweep_file import Planned, cell
from .table import SHA256
from .task import Outcome

# What a run with such a status gave depends on its inputs alone: it ran, or its words, its machine or its executable
# were refused. With any other it is tried again: a disk or the memory was full, or it was killed.
DECIDED = (0, 2, 3, 6, 7, 10)


class Ended(NamedTuple):
    """A run at its end: what was planned, its outcome, and what was not as it should be, or None.

    As it should be is a run whose cores all ended by their program's exit. `columns` is what its report gives to the
    table, where it has one.
    """

    run: Planned
    outcome: Outcome
    failure: str | None
    columns: dict | None = None

    @property
    def done(self):
        """Whether another run would give the same."""
        return self.outcome.status in DECIDED and (self.columns is not None or self.outcome.status not in (RAN, LIMIT))


def judge(run, outcome):
    """Returns a run at its end."""
    if outcome.status not in (RAN, LIMIT):
        return Ended(run, outcome, f"status {outcome.status}: {outcome.line}")
    try:
        report = parse_report(outcome.output, "its output", run.machine, outcome.status, outcome.seconds)
    except ToolError as error:
        return Ended(run, outcome, str(error))
    return Ended(run, outcome, failure_of(report, outcome), {"halt": halts_of(report), **numbers_of(report)})


def failure_of(report, outcome):
    """Returns what was not as it should be in a run with this report, or None."""
    if outcome.status == LIMIT:
        return f"status {LIMIT}: {outcome.line}"
    faults = [core for core in report.core_list if not core.exited]
    return f"core {faults[0].number} halted: {faults[0].halt}" if faults else None


def numbers_of(report):
    """Returns the columns that a report gives: of the run, derived ones, and then of each part."""
    summary = dict(report.summary)
    totals = derived.totals(report)
    numbers = {"cores": summary.pop("cores"), "intervals_run": summary.pop("intervals"), **summary}
    numbers |= {name: total for name, total in totals.items() if name != "instructions"}
    numbers |= derived.of_run(report, totals)
    for core in report.core_list:
        numbers |= {f"core{core.number}_{name}": value for name, value in core.counters.items()}
        numbers[f"core{core.number}_halt"] = core.halt
    for kind, components, _ in derived.components_of(report):
        for part in components:
            numbers |= {f"{kind}{part.number}_{name}": value for name, value in part.counters.items()}
    return numbers


def halts_of(report):
    """Returns why the cores halted: each reason once, in the order of the cores."""
    return "; ".join(dict.fromkeys(core.halt for core in report.core_list))


def row_of(run, ended, zsim_sha256, schedule=None):
    """Returns the row of a run. `schedule` is the name of the file with its schedule, where that is recorded."""
    row = {key: cell(value) for key, value in run.values.items()}
    row |= {"executable": run.executable.name}
    row |= {} if run.repeat is None else {"repeat": run.repeat}
    row |= {"status": ended.outcome.status, "line": ended.outcome.line, "halt": ""}
    row |= {} if schedule is None else {"schedule": schedule if ended.columns else ""}
    if ended.columns:
        row |= {name: value for name, value in ended.columns.items() if name not in run.values}
    elif not row["line"]:
        row["line"] = ended.failure
    return row | dict(zip(SHA256, (run.machine_sha256, run.executable.sha256, zsim_sha256)))
