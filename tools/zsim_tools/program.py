"""Finds zsim, and runs it once."""

import os
import shutil
from functools import cache

from .errors import RunError, ToolError, told
from .machine import Machine, read_machine
from .task import in_memory, name_of, run_words, run_words_of

# The statuses with a report: every core halted, or a limit was reached.
RAN, LIMIT = 0, 3

REPOSITORY = os.path.dirname(os.path.dirname(os.path.dirname(os.path.realpath(__file__))))


def find_zsim(given=None):
    """Returns the file name of the program.

    It is the one that is given; or that of the variable ZSIM; or, where this package stands in a checkout of zsim, the
    checkout's, which is proved and built first if it has to be; or the command `zsim`.
    """
    named = given or os.environ.get("ZSIM")
    if named:
        found = shutil.which(named)
        if not found:
            raise ToolError(f"cannot run: {named}: {why_not(named)}")
        return os.path.abspath(found)
    if os.path.isfile(f"{REPOSITORY}/prove") and os.path.isdir(f"{REPOSITORY}/crates/zsim_main"):
        return built_here()
    found = shutil.which("zsim")
    if not found:
        raise ToolError("cannot run: zsim: there is no such command; name the program with --zsim")
    return os.path.abspath(found)


def why_not(name):
    return "it is no program that can be executed" if os.path.exists(name) else "No such file or directory"


@cache
def built_here():
    """Returns the proved program of this checkout. The script `prove` makes it where it has to, and says so."""
    script, program = f"{REPOSITORY}/prove", f"{REPOSITORY}/crates/zsim_main/out/zsim_main"
    if status_of(script) != 0 or not os.path.isfile(program):
        raise ToolError(f"cannot run: {program}: {script} could not build it (see above); name another with --zsim")
    return program


def status_of(script):
    """Runs a script to its end, and returns its status. Who ends this process ends the script, and what it started."""
    import subprocess

    with (
        told(f"cannot run: {script}"),
        subprocess.Popen([script], stdin=subprocess.DEVNULL, stdout=subprocess.DEVNULL) as started,
    ):
        try:
            return started.wait()
        except BaseException:
            started.terminate()
            started.wait()
            raise


def run(machine, exe, zsim=None, workers=1, record=None, replay=None):
    """Runs an executable on a machine, and returns the Report.

    `machine` is the name of a description, `plain`, or a Machine; `exe` is a file name or `gen:N`; `zsim` is the
    program, where it is not to be looked for. `workers` is on how many threads it runs the cores, `record` the name of a
    file that gets the schedule, and `replay` that of a file under whose schedule it runs. RunError, with the status and
    the line of standard error, says that there is no report. A run that reached a limit has one, with the status 3.
    """
    from .report import parse_report  # (a sweep loads it when its first runs have begun)

    if replay and (record or workers != 1):
        raise ToolError("a replay has its order from a file: it has no workers, and no schedule to record")
    if record:
        check_apart(record, machine, exe)
    program = find_zsim(zsim)
    with told(f"cannot run: {program}"):
        files = [in_memory(machine.text.encode("utf-8"))] if isinstance(machine, Machine) else []
        named = name_of(files[0]) if files else str(machine)
        outcome = run_words([program, *words_of(named, exe, workers, record, replay)], files)
    if outcome.status not in (RAN, LIMIT):
        raise RunError(outcome.status, outcome.line, meaning_of(outcome.line, machine))
    if not isinstance(machine, Machine):
        machine = read_machine(machine)
    return parse_report(outcome.output, f"the report of {exe}", machine, outcome.status, outcome.seconds)


def check_apart(output, machine, exe, *others):
    """Raises ToolError where an output has the name of an input, which zsim would read and then overwrite."""
    named = [] if isinstance(machine, Machine) or str(machine) == "plain" else [machine]
    named += [] if str(exe).startswith("gen:") else [exe]
    for name in [*named, *filter(None, others)]:
        if is_same_file(output, name):
            raise ToolError(f"cannot write: {output}: it is {name}, which the run reads or writes too")


def is_same_file(one, other):
    """Tells whether two names are of one file, which need not be there."""
    try:
        return os.path.realpath(one) == os.path.realpath(other) or os.path.samefile(one, other)
    except (OSError, ValueError):  # (no file of this name is there, or can be)
        return False


def meaning_of(line, machine):
    """Returns what a line of zsim means, with the values of the machine where it can be read."""
    from .meanings import explain

    if not isinstance(machine, Machine):
        try:
            machine = read_machine(machine)
        except ToolError:
            return explain(line)
    return explain(line, machine.text)


def words_of(machine, exe, workers=1, record=None, replay=None):
    """Returns the words of zsim for a run, or for a replay."""
    if replay:
        return ["replay", machine, str(exe), "--schedule", str(replay)]
    return run_words_of(machine, str(exe), workers, str(record) if record else None)
