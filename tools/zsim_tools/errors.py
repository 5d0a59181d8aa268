"""What goes wrong and can be mended by the user: one line each, that names the file, the line or the key."""

import os
from contextlib import contextmanager


class ToolError(Exception):
    """Bad words, bad input, or an output that cannot be written."""


class RunError(ToolError):
    """A run of zsim that gave no report: its status, its line on standard error, and what that means, where it is known."""

    def __init__(self, status, line, meaning=None):
        super().__init__(line or f"zsim ended with status {status}")
        self.status = status
        self.line = line
        self.meaning = meaning


def one_line(text):
    """Returns a text with each run of white space as one space."""
    return " ".join(str(text).split())


def reason(error):
    """Returns why the operating system refused, as in `No such file or directory`."""
    return getattr(error, "strerror", None) or one_line(error)


@contextmanager
def told(what):
    """Has a refusal of the operating system told as one line: what could not be done, and why."""
    try:
        yield
    except (OSError, ValueError) as error:  # (a ValueError: the name has a character that no name has)
        raise ToolError(f"{what}: {reason(error)}") from None


def ending_of(path):
    """Returns the ending of a file's name, as `.csv`; nothing where it has none."""
    return os.path.splitext(path)[1]


def check_ending_of(path, endings, what):
    """Raises ToolError where the name of a file has none of these endings."""
    if ending_of(path) not in endings:
        raise ToolError(f"cannot write: {path}: the name of a {what} ends with {' or '.join(endings)}")
