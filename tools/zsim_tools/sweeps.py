"""Sweeps: runs every combination that a file names, and makes a table with a row for each run."""

import os
from contextlib import closing

from . import inputs
from .program import find_zsim
from .runners import Cluster, Here
from .store import Schedules, Store
from .sweep_file import read_sweep, sha256
from .table import check_ending, check_output, make_table, write_rows
from .task import Options


class Watcher:
    """Is told how a sweep gets on. This one does nothing with it."""

    def begin(self, runs, before):
        """So many runs were started, and these were done before."""

    def ended(self, ended):
        """A run came to its end."""

    def end(self):
        """No more runs come, for whatever reason; maybe none was begun."""


def sweep(path, out, jobs=None, scheduler=None, zsim=None, watcher=None, workers=None, record=None):
    """Carries out the sweep of a file, writes its table, and returns it as a data frame.

    Runs that the file `OUT.runs` has already are not run again. `jobs` is how many run at a time, one for each
    processor where it is not given; with `scheduler`, the address of a dask cluster, they run on its workers. `workers`
    is on how many threads each run has its cores, and `record` a folder that gets the schedule of each run. If it is
    stopped by an exception, as KeyboardInterrupt, the table has the runs that are done.
    """
    return make_table(carry_out(path, out, jobs, scheduler, zsim, watcher, workers, record))


def carry_out(path, out, jobs=None, scheduler=None, zsim=None, watcher=None, workers=None, record=None):
    """Does what `sweep` does, and returns the rows of the table."""
    check_ending(out)
    check_output(out)
    check_output(f"{out}.runs")
    file = read_sweep(path, workers)
    planned = file.planned()
    schedules = Schedules(record) if record else None
    options = Options(file.workers, bool(record))
    program = find_zsim(zsim)
    zsim_sha256 = hash_of(program)
    watcher = watcher or Watcher()

    def key_of(run):
        hashes = (run.machine_sha256, run.executable.sha256, zsim_sha256)
        # (one worker makes the same run each time, whatever it is called)
        return hashes if file.workers == 1 else (*hashes, f"workers {file.workers}", f"repeat {run.repeat or 0}")

    with closing(Store(f"{out}.runs")) as store:
        kept = {key for key, outcome in store.runs.items() if not schedules or schedules.has(key, outcome)}
        ended = {key_of(run): judge(run, store.runs[key_of(run)]) for run in planned if key_of(run) in kept}
        waiting = {key_of(run): run for run in planned if key_of(run) not in ended}
        before = list(ended.values())
        try:
            if not waiting:
                watcher.begin(0, before)
            else:
                with runner_of(program, jobs, scheduler, options) as runner:
                    runner.start(waiting.values())
                    # (runs go on from here, while modules and a bar are loaded that take longer than a short run)
                    watcher.begin(len(waiting), before)
                    for run, outcome in runner.outcomes():
                        one = ended[key_of(run)] = judge(run, outcome)
                        if one.done:
                            if schedules:
                                schedules.keep(key_of(run), outcome)
                            store.add(key_of(run), outcome)
                        watcher.ended(one)
        finally:
            from .outcomes import row_of

            watcher.end()
            rows = [
                row_of(run, ended[key_of(run)], zsim_sha256, schedules.name_of(key_of(run)) if schedules else None)
                for run in planned
                if key_of(run) in ended
            ]
            if rows:
                write_rows(rows, out)
    return rows


def judge(run, outcome):
    """Returns a run at its end."""
    from . import outcomes  # (which loads what reads reports, so that the first runs have begun before)

    return outcomes.judge(run, outcome)


def runner_of(program, jobs, scheduler, options):
    """Returns what carries out the runs. Where that is not said, those here have a thread for each processor in all."""
    if scheduler:
        return Cluster(program, scheduler, options)
    return Here(program, jobs or max(1, len(os.sched_getaffinity(0)) // options.workers), options)


def hash_of(program):
    return sha256(inputs.read_bytes(program, inputs.PROGRAM))
