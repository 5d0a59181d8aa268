"""One run of zsim, on this machine or on a worker of a cluster. Needs nothing beyond Python."""

import os
import signal
import time
from contextlib import suppress
from typing import NamedTuple

# The signals that Python ignores, and that a program it starts has to meet as any other does.
NOT_IGNORED = (signal.SIGPIPE, signal.SIGXFSZ)


class Outcome(NamedTuple):
    """How a run ended: its status, its line on standard error, its standard output, how many seconds it took where that
    is known, and the bytes of its schedule where that was recorded.

    A status below 0 is that of a signal, as Python has it.
    """

    status: int
    line: str
    output: str
    seconds: float | None = None
    schedule: bytes = b""


class Options(NamedTuple):
    """How a run is carried out: on how many threads, and whether its schedule is recorded."""

    workers: int = 1
    record: bool = False


def in_memory(data=b""):
    """Returns an open file with these bytes, which is in memory alone and gone when it is closed."""
    file = open(os.memfd_create("zsim-tools"), "w+b", buffering=0)
    file.write(data)
    return file


def name_of(file):
    """Returns a name under which a program that is started here finds an open file."""
    return f"/proc/{os.getpid()}/fd/{file.fileno()}"


class Started:
    """A run that was started: its process, and what it prints, in files in memory. So nobody has to read along.

    It is a context; leaving it ends the run. A selector can wait for it, beside others: it is readable at its end.
    """

    def __init__(self, words, inputs=(), environment=os.environ, schedule=None):
        """Starts a command. `inputs` are open files that it reads, and `schedule` one to which it writes the schedule.
        OSError where it cannot be started."""
        self.schedule = schedule
        self.files = [*inputs, *filter(None, [schedule]), in_memory(), in_memory()]
        self.began = time.monotonic()
        self.process = self.pidfd = None
        output, said = (file.fileno() for file in self.files[-2:])
        streams = [
            (os.POSIX_SPAWN_DUP2, output, 1),
            (os.POSIX_SPAWN_DUP2, said, 2),
            (os.POSIX_SPAWN_OPEN, 0, os.devnull, os.O_RDONLY, 0),
        ]
        try:
            # A group of its own: a Ctrl-C at the terminal is for the one who started the runs, and who then ends them.
            self.process = os.posix_spawn(
                words[0], words, environment, file_actions=streams, setpgroup=0, setsigmask=(), setsigdef=NOT_IGNORED
            )
            self.pidfd = os.pidfd_open(self.process)
        except OSError:
            self.close()
            raise

    def __enter__(self):
        return self

    def __exit__(self, *_):
        self.close()

    def fileno(self):
        """Returns the number for selectors."""
        return self.pidfd

    def outcome(self):
        """Waits for the end of the run, and returns its outcome."""
        status = self._wait()
        seconds = round(time.monotonic() - self.began, 6)
        output, said = map(content_of, self.files[-2:])
        schedule = content_of(self.schedule) if self.schedule else b""
        self.close()
        lines = said.decode("utf-8", "replace").split("\n")
        line = " ".join(line.strip() for line in lines if line.strip())
        if status < 0:
            line = line or f"ended by signal {-status}"
        return Outcome(status, line, output.decode("latin-1"), seconds, schedule)

    def close(self):
        """Ends the run, if it is still there, and closes its files."""
        if self.process is not None:
            # (an interruption can come when it has ended and that is not noted yet)
            with suppress(ProcessLookupError, ChildProcessError):
                os.kill(self.process, signal.SIGKILL)
                self._wait()
        if self.pidfd is not None:
            os.close(self.pidfd)
            self.pidfd = None
        for file in self.files:
            file.close()

    def _wait(self):
        _, ended = os.waitpid(self.process, 0)
        self.process = None
        return os.waitstatus_to_exitcode(ended)


def content_of(file):
    file.seek(0)
    return file.read()


def run_words(words, inputs=()):
    """Runs a command to its end, and returns its outcome. OSError where it cannot be started."""
    with Started(words, inputs) as started:
        return started.outcome()


def start_machine(program, machine_text, executable, options=Options(), environment=os.environ):
    """Starts a run of an executable on the machine of a text."""
    machine = in_memory(machine_text.encode("utf-8"))
    schedule = in_memory() if options.record else None
    words = run_words_of(name_of(machine), executable, options.workers, name_of(schedule) if schedule else None)
    return Started([program, *words], [machine], environment, schedule)


def run_words_of(machine, executable, workers=1, record=None):
    """Returns the words of zsim for a run. (One worker is what it has where nothing is said.)"""
    words = ["run", machine, executable]
    words += ["--workers", str(workers)] if workers != 1 else []
    return words + (["--record", record] if record else [])


def run_machine(program, machine_text, executable, options=Options()):
    """Runs an executable on the machine of a text."""
    with start_machine(program, machine_text, executable, options) as started:
        return started.outcome()


def run_on_worker(machine_text, executable, program, options):
    """Runs zsim on a worker that has neither the program nor the executable: both come as their bytes.

    `executable` is the word of a generated program, or bytes. They are kept on the worker under their hashes, so each
    is written once.
    """
    if isinstance(executable, bytes):
        executable = str(kept_file(executable))
    return run_machine(str(kept_file(program)), machine_text, executable, Options(*options))


def kept_file(data):
    """Returns a file of this user's with these bytes, that can be executed; writes it where it is not there yet."""
    # (loaded here, since a sweep on this machine needs none of them)
    import hashlib
    import subprocess
    import tempfile
    from pathlib import Path

    folder = Path(tempfile.gettempdir()) / f"zsim-tools-{os.getuid()}"
    folder.mkdir(mode=0o700, exist_ok=True)
    if folder.stat().st_uid != os.getuid():
        raise PermissionError(f"{folder} belongs to another user")
    path = folder / hashlib.sha256(data).hexdigest()
    if not path.exists():
        # (in a process of its own: a file that another thread's child still has open could not be executed)
        writer = 'cat >"$1.$$" && chmod 700 "$1.$$" && mv "$1.$$" "$1"'
        subprocess.run(["sh", "-c", writer, "sh", str(path)], input=data, check=True)
    return path
