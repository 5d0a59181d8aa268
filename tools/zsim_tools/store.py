"""The runs that are done, in a file beside the table of a sweep.

Each run is a line of JSON, appended as the run ends. So a sweep that is stopped, in whatever way, loses no run: what
the last write left of a line that it did not end is dropped. A run is known by three hashes, those of the machine's
text, of the executable and of zsim, and is never run again where these are the same. Where several workers run it, or
where it is repeated, their number and that of the repeat tell it apart too.
"""

import fcntl
import hashlib
import json
import os

from .errors import ToolError, reason, told
from .program import LIMIT, RAN
from .table import write_whole
from .task import Outcome

HEADER = json.dumps({"zsim-tools runs": 1}).encode("ascii")


class Store:
    """The runs that are done, by their hashes. One sweep at a time can have a store open."""

    def __init__(self, path):
        self.path = path
        self.runs = {}
        try:
            self.file = open(path, "a+b")
            fcntl.flock(self.file, fcntl.LOCK_EX | fcntl.LOCK_NB)
        except BlockingIOError:
            raise ToolError(f"cannot write: {path}: another sweep is at work on it") from None
        except OSError as error:
            raise ToolError(f"cannot write: {path}: {reason(error)}") from None
        self._read()

    def _read(self):
        self.file.seek(0)
        # (a file of another kind, and however large, is not read beyond its beginning)
        data = self.file.read(len(HEADER) + 1)
        data += self.file.read() if data == HEADER + b"\n" else b""
        whole = data[: data.rfind(b"\n") + 1]
        first, *lines = whole.splitlines() or [HEADER if HEADER.startswith(data) else data]
        if first != HEADER:
            raise ToolError(f"{self.path}: line 1: this is no file of a sweep's runs")
        for number, line in enumerate(lines, 2):
            try:
                record = json.loads(line)
                self.runs[tuple(record["key"])] = outcome_of(record)
            except (ValueError, TypeError, KeyError):
                raise ToolError(f"{self.path}: line {number}: this is no run of a sweep") from None
        self.file.truncate(len(whole))
        if not whole:
            self._append(HEADER)

    def _append(self, line):
        with told(f"cannot write: {self.path}"):
            self.file.write(line + b"\n")
            self.file.flush()

    def add(self, key, outcome):
        """Keeps a run that is done."""
        # (the schedule, where it is recorded, is a file of its own)
        record = {"key": key, **{name: value for name, value in outcome._asdict().items() if name != "schedule"}}
        self._append(json.dumps(record).encode("ascii"))

    def close(self):
        with told(f"cannot write: {self.path}"):
            os.fsync(self.file.fileno())
            self.file.close()


def outcome_of(record):
    """Returns the outcome of a run as it was kept."""
    return Outcome(record["status"], record["line"], record["output"], record.get("seconds"))


class Schedules:
    """A folder with the schedules of runs, each under a name that is made of what the run is known by."""

    def __init__(self, folder):
        self.folder = folder
        with told(f"cannot write: {folder}"):
            os.makedirs(folder, exist_ok=True)

    def name_of(self, key):
        name = hashlib.sha256(" ".join(key).encode("ascii")).hexdigest()
        return os.path.join(self.folder, f"{name[:16]}.schedule")

    def has(self, key, outcome):
        """Whether the schedule of a run is there, if it has one: it ran to its end or to a limit."""
        return outcome.status not in (RAN, LIMIT) or os.path.exists(self.name_of(key))

    def keep(self, key, outcome):
        if outcome.status in (RAN, LIMIT):
            write_whole(self.name_of(key), lambda file: file.write(outcome.schedule))
