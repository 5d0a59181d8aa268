"""Reads files, up to a limit: what is longer is refused, and so is what has no end, as `/dev/zero`."""

from .errors import ToolError, told

# How many bytes an input has at most. Those of a machine and an executable are zsim's own (docs/command-line.md). A
# report has a console of 2^26 bytes at most, each of which it prints with up to four characters.
MACHINE = 2**20
SWEEP = 2**20
EXECUTABLE = 2**26
REPORT = 2**28
TABLE = 2**30
PROGRAM = 2**30
PROFILE = 2**30


def read_bytes(path, most):
    """Reads a file of so many bytes at most, or raises ToolError."""
    with told(f"cannot read: {path}"), open(path, "rb") as file:
        return read_open(file, path, most)


def read_open(file, name, most):
    """Reads the rest of an open file, or raises ToolError."""
    data = file.read(most + 1)
    if len(data) > most:
        raise ToolError(f"{name}: too long: it has more than {most} bytes")
    return data


def read_text(path, most):
    """Reads a file in UTF-8, or raises ToolError."""
    try:
        return read_bytes(path, most).decode("utf-8")
    except UnicodeDecodeError as error:
        line = error.object[: error.start].count(b"\n") + 1
        raise ToolError(f"{path}: line {line}: no UTF-8") from None
