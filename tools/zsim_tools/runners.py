"""Carries out the runs of a sweep: several at a time on this machine, or on the workers of a dask cluster.

A runner is a context. `start` has runs begun, and `outcomes` gives each with its outcome, as they come. Leaving the
context ends what still runs.
"""

import os
import selectors
import signal
from collections import deque
from contextlib import contextmanager

from . import inputs
from .errors import ToolError, one_line, told
from .task import in_memory, name_of, run_on_worker, start_machine


class Here:
    """Runs on this machine, at most `jobs` at a time.

    All of it is done in one thread, since threads that hand runs over cost more than the work of a short run.
    """

    def __init__(self, program, jobs, options):
        self.program = program
        self.options = options
        self.jobs = jobs
        self.runs = {}
        self.executables = {}
        self.ends = selectors.DefaultSelector()

    def __enter__(self):
        self.signature = signature(self.program)
        # (as it is handed over: it would be encoded anew for each run)
        self.environment = dict(os.environb)
        return self

    def __exit__(self, *_):
        self.ends.close()
        for closable in (*self.runs, *self.executables.values()):
            closable.close()

    def start(self, runs):
        self.waiting = iter(runs)
        for _ in range(self.jobs):
            self._begin_next()

    def outcomes(self):
        ended = deque()
        while self.runs or ended:
            # The next run is begun before anything is made of an outcome; but outcomes do not pile up either.
            if self.runs and len(ended) < self.jobs:
                for key, _ in self.ends.select(0 if ended else None):
                    self.ends.unregister(key.fileobj)
                    self._begin_next()
                    ended.append((self.runs[key.fileobj], key.fileobj.outcome()))
                    del self.runs[key.fileobj]
            if ended:
                self._check_program()
                yield ended.popleft()

    def _begin_next(self):
        run = next(self.waiting, None)
        if run is None:
            return
        with told(f"cannot run: {self.program}"), undisturbed():
            executable = self._name_of_executable(run.executable)
            started = start_machine(self.program, run.machine.text, executable, self.options, self.environment)
            self.runs[started] = run
            self.ends.register(started, selectors.EVENT_READ)

    def _check_program(self):
        if signature(self.program) != self.signature:
            raise ToolError(f"cannot run: {self.program}: it was changed during the sweep; start the sweep again")

    def _name_of_executable(self, executable):
        if executable.data is None:
            return executable.name
        # A copy, so that what runs is what the hash was taken of.
        if executable.name not in self.executables:
            self.executables[executable.name] = in_memory(executable.data)
        return name_of(self.executables[executable.name])


@contextmanager
def undisturbed():
    """Has interruptions wait until this is done. So a run that was started is one that will be ended."""
    before = signal.pthread_sigmask(signal.SIG_BLOCK, (signal.SIGINT, signal.SIGTERM))
    try:
        yield
    finally:
        signal.pthread_sigmask(signal.SIG_SETMASK, before)


def signature(program):
    """Returns what changes when a file is changed or replaced."""
    with told(f"cannot run: {program}"):
        status = os.stat(program)
    return status.st_dev, status.st_ino, status.st_size, status.st_mtime_ns


# How long a cluster without workers is waited for.
WAIT_FOR_WORKERS = "10s"


class Cluster:
    """Runs on the workers of a dask cluster, which need neither zsim nor this package: both are sent to them."""

    def __init__(self, program, address, options):
        self.program = program
        self.options = options
        self.address = address
        self.futures = {}

    def __enter__(self):
        import logging

        try:
            import distributed
        except ImportError:
            raise ToolError("--scheduler: the Python package distributed is missing (Debian's python3-distributed)")
        logging.getLogger("distributed").setLevel(logging.CRITICAL)
        self.library = distributed
        try:
            self.client = distributed.Client(self.address, timeout="10s", set_as_default=False)
        except (OSError, ValueError, TypeError) as error:
            raise ToolError(f"--scheduler: cannot reach {self.address}: {one_line(error)}") from None
        return self

    def __exit__(self, kind, *_):
        self.client.close()

    def start(self, runs):
        self._await_workers()
        self._send_package()
        program = self.client.scatter(inputs.read_bytes(self.program, inputs.PROGRAM), broadcast=True, hash=False)
        sent = {}
        for run in runs:
            executable = run.executable
            if executable.name not in sent:
                data = executable.data
                sent[executable.name] = executable.name if data is None else self.client.scatter(data, hash=False)
            words = (run.machine.text, sent[executable.name], program, tuple(self.options))
            self.futures[self.client.submit(run_on_worker, *words, pure=False)] = run

    def _await_workers(self):
        try:
            self.client.wait_for_workers(1, timeout=WAIT_FOR_WORKERS)
        except (OSError, self.library.TimeoutError):
            told = f"has no workers; dask-worker {self.address} starts one, on any machine"
            raise ToolError(f"--scheduler: {self.address} {told}") from None

    def _send_package(self):
        import shutil
        import tempfile

        above, name = os.path.split(os.path.dirname(os.path.abspath(__file__)))
        with tempfile.TemporaryDirectory() as folder:
            self.client.upload_file(shutil.make_archive(f"{folder}/zsim_tools", "zip", above, name))

    def outcomes(self):
        for future in self.library.as_completed(list(self.futures), loop=self.client.loop):
            if future.status != "finished":
                raise ToolError(f"--scheduler: a worker failed: {one_line(future.exception())}")
            yield self.futures.pop(future), future.result()
