"""The command line: what each command of zsim-tools does."""

import os
import signal
import sys

from .errors import ToolError, one_line, reason
from .table import check_output
from .words import check_plot, parser

DONE, BAD, NOT_ALL = 0, 2, 3
INTERRUPTED, ENDED = 130, 143


def show_command(words):
    from .machine import read_machine
    from .report import read_report
    from .show import show_csv, show_json, show_tables

    machine = read_machine(words.machine) if words.machine else None
    reports = [read_report(path, machine) for path in words.reports]
    (show_json if words.json else show_csv if words.csv else show_tables)(reports)
    return DONE


def diff_command(words):
    from .differences import diff_csv, diff_json, diff_tables
    from .machine import read_machine
    from .report import read_report

    machine_a, machine_b = (read_machine(name) if name else None for name in (words.machine_a, words.machine_b))
    a, b = read_report(words.a, machine_a), read_report(words.b, machine_b)
    if words.json:
        diff_json(a, b)
    elif words.csv:
        diff_csv(a, b)
    else:
        diff_tables(a, b, words.top)
    return DONE


def sweep_command(words):
    from .progress import Progress
    from .sweeps import carry_out

    watcher = Progress(words.out)
    carry_out(
        words.sweep, words.out, words.jobs, words.scheduler, words.zsim, watcher, words.workers, words.record
    )
    return NOT_ALL if watcher.failures else DONE


def plot_command(words):
    from .plots import plot
    from .table import read_table

    check_plot(words)
    if words.mesh:
        return mesh_command(words)
    where = {}
    for column, value in words.where:
        where.setdefault(column, []).append(value)
    _, left_out = plot(
        read_table(words.table),
        words.out,
        words.x,
        words.y,
        words.lines,
        words.heat,
        where,
        words.title,
        words.log_y,
        words.table,
        bars=words.bars,
        log_x=words.log_x,
        size=words.size,
        baseline=dict(words.baseline),
        geomean=words.geomean,
        with_limits=words.with_limits,
    )
    if left_out:
        say(f"{left_out} of the rows are left out: their runs did not end by the program's exit")
    return DONE


def mesh_command(words):
    from .machine import read_machine
    from .mesh_plot import plot_mesh
    from .report import read_report

    report, machine = words.mesh
    machine = read_machine(machine)
    plot_mesh(read_report(report, machine), machine, words.out, words.y or "waited", words.title, words.size)
    return DONE


def run_command(words):
    from .program import check_apart
    from .run_once import run_once

    if words.out:
        check_output(words.out)
        check_apart(words.out, words.machine, words.executable, words.record, words.schedule)
    return DONE if run_once(words, say) else NOT_ALL


def describe_command(words):
    from .describe import describe_json, describe_tables
    from .machine import read_machine

    machine = read_machine(words.machine)
    if words.out:
        from .drawing import draw

        draw(machine, words.out)
    (describe_json if words.json else describe_tables)(machine)
    return DONE


def explain_command(words):
    from .meanings import explain
    from .machine import read_machine

    line = " ".join(words.line)
    meaning = explain(line, read_machine(words.machine).text if words.machine else None)
    if meaning is None:
        raise ToolError(f"explain: this is no line of zsim: {line}")
    print(meaning)
    return DONE


def timeline_command(words):
    from .machine import read_machine
    from .timeline import Cut, write_timeline

    check_output(words.out)
    cut = Cut(words.since, words.until, words.core)
    slices, arrows = write_timeline(words.events, read_machine(words.machine), words.out, cut)
    say(f"{words.out}: {slices} events and {arrows} arrows between them")
    return DONE


def series_command(words):
    from .machine import read_machine
    from .report import read_report
    from .series import Series, series_csv, series_tables

    machine = read_machine(words.machine)
    report = read_report(words.report, machine) if words.report else None
    if words.csv:
        series_csv(words.events, machine, report, words.every)
    elif words.out:
        from .series_plot import POINTS, plot_series

        series = Series(words.events, machine, report, words.every, POINTS)
        plot_series(series, words.out, words.y, words.by, words.title, words.size)
    else:
        series_tables(Series(words.events, machine, report, words.every))
    return DONE


def annotate_command(words):
    from .annotate import annotate

    annotate(words.profile, words.executable, words.out)
    return DONE


def sharing_command(words):
    from .sharing import show_sharing
    from .symbols import read_symbols

    symbols = read_symbols(words.executable) if words.executable else None
    show_sharing(words.table, words.lines, symbols)
    return DONE


COMMANDS = {
    "show": show_command,
    "diff": diff_command,
    "sweep": sweep_command,
    "plot": plot_command,
    "run": run_command,
    "describe": describe_command,
    "explain": explain_command,
    "timeline": timeline_command,
    "series": series_command,
    "annotate": annotate_command,
    "sharing": sharing_command,
}


def say(line):
    print(f"zsim-tools: {line}", file=sys.stderr)


class Ended(BaseException):
    """The process was told to end."""


def end(*_):
    raise Ended


def main(words=None):
    """Carries out the command that the words name, and returns the status."""
    for told_to_end in (signal.SIGTERM, signal.SIGHUP):
        # (what is ignored stays so: who calls `nohup` wants the work to go on)
        if signal.getsignal(told_to_end) != signal.SIG_IGN:
            signal.signal(told_to_end, end)
    try:
        given = parser().parse_args(words)
        status = COMMANDS[given.command](given)
        sys.stdout.flush()
        return status
    except ToolError as error:
        say(error)
        return BAD
    except OSError as error:
        # The work names the files of its own errors. What has no name is standard output: nothing more goes there.
        if error.filename is None:
            os.dup2(os.open(os.devnull, os.O_WRONLY), sys.stdout.fileno())
        if not isinstance(error, BrokenPipeError):
            say(f"cannot write: {error.filename or 'standard output'}: {reason(error)}")
        return BAD
    except MemoryError:
        say("out of memory")
        return BAD
    except KeyboardInterrupt:
        say("interrupted")
        return INTERRUPTED
    except Ended:
        say("ended")
        return ENDED
    except Exception as error:
        say(f"a fault of these tools: {place_of(error)}: {type(error).__name__}: {one_line(error)}")
        return BAD


def place_of(error):
    """Returns the last place in this package through which an error came, as `plots.py, line 10`."""
    import traceback

    places = traceback.extract_tb(error.__traceback__)
    own = [place for place in places if os.path.dirname(place.filename) == os.path.dirname(__file__)]
    return f"{os.path.basename(own[-1].filename)}, line {own[-1].lineno}"
