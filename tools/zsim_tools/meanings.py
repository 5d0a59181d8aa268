"""What a line of zsim on standard error means, or why a core halted, and how to mend it, in words."""

import difflib
import re
import tomllib

from .checks import ALLOWED, AT_LEAST, DOMAIN, KIND, MISSING, RANGE, RATIO, TABLES, TEXT, UNKNOWN, values_of
from .errors import one_line
from .labels import KEYS

LINKED = "link it with `-T plain.ld` of examples/c, as `make NAME.elf` does there"

# Of an executable, by the number of the check.
ELF = {
    1: "The executable has fewer than 64 bytes: it is empty or cut off. Link it again.",
    2: "The executable is no ELF file: a source, a script, or what `objcopy -O binary` made. Give what the linker made.",
    3: "The executable is for 32 bits, or big-endian. Compile it with `-march=rv64ima -mabi=lp64`.",
    4: "The executable is not linked (a `.o`), or it is position-independent. Link it with `-static`, without `-pie`.",
    5: "The executable is for another processor. Compile it with `riscv64-unknown-elf-gcc`.",
    6: "The executable has compressed or floating-point instructions, as compilers make them where nothing is said. "
    "Compile it, its start code and its libraries with `-march=rv64ima -mabi=lp64`.",
    7: "The executable is cut off within its program headers, or has more than 128 of them. Link it again.",
    8: "The executable wants a dynamic linker. Link it with `-static`.",
    9: "The executable is cut off: segment {0} passes its end. Copy or link it again.",
    10: "Segment {0} of the executable is not in memory: it was linked for other addresses, or memory is too small. "
    f"Have a larger `memory.size`, or {LINKED}.",
    11: "The segments {0} and {1} of the executable have an address in common. Mend the linker script: each section "
    "needs addresses of its own.",
    12: "The first instruction is in no executable segment, or its address is no multiple of 4. The start code belongs "
    "into `.text`, and the linker must find `_start`.",
}

# Of a schedule, by the number of the check.
SCHEDULE = {
    1: "The schedule's file ends within the field that begins at byte {0}: it was cut off. Record it again.",
    2: "The schedule's file does not begin with ZSCH: it is of another kind. Give one that `--record` wrote.",
    3: "The schedule's file is of version {0}, and zsim reads version 1.",
    4: "The schedule is for {0} cores, and the machine has another number. Replay it on the machine that recorded it.",
    5: "The schedule names a core that the machine does not have, in interval {0} at place {1}. Replay it on the machine "
    "that recorded it.",
    6: "The schedule's file goes on after its last list, at byte {0}. Record it again.",
    7: "The schedule is not one of this executable on this machine: in interval {0}, at place {1}, it names a core that "
    "has no access left, or ends where one has. Replay what was recorded with the same machine and executable.",
}

# Of an events file, by the number of the check.
EVENTS = {
    1: "The events file ends within the field that begins at byte {0}: it was cut off. Have it written again.",
    2: "The events file does not begin with ZSEV: it is of another kind. Give one that `--events` wrote.",
    3: "The events file is of version {0}, and zsim reads version 1.",
    4: "The events file is of a machine of {0} components (banks, controllers and links), and this one has another number. "
    "Check it with the machine of its run.",
    5: "Event {1} of interval {0} is none of this machine: its component is not there or serves no such kind, or a field has "
    "a number that it cannot have. Check the file with the machine of its run.",
    6: "The events file goes on behind its last event, at byte {0}. Have it written again.",
}

# Of an event that is not as the weave gives it, by what is wrong with it.
NOT_THE_WEAVE = {
    "start": "Event {1} of interval {0} does not start when it could first: at its earliest start, or when what it waits for "
    "has finished. The file was changed, or it is of another machine.",
    "finish": "Event {1} of interval {0} does not finish when its component, which serves one event after the other, would "
    "finish it. The file was changed, or it is of another machine.",
}

# All other lines.
LINES = {
    "usage": "The words are no command of zsim. docs/command-line.md has all of them.",
    "stopped at the limit": "The run reached a limit with a core that had not halted: `intervals` of the machine, or 2^26 "
    "accesses. The report is there, and is that of the run so far. Have a smaller input or more `intervals`; or the "
    "program waits for ever, as for a lock that nobody gives back.",
    "cannot read": "The machine, the executable or the schedule cannot be read: there is no such file, or it may not be "
    "read. Names are relative to the current directory.",
    "cannot write": "Standard output or the file of `--record` cannot be written: the disk is full, the reader is gone, "
    "or the folder is not there.",
    "out of memory": "Memory ran out. A run takes the machine's `memory.size` and a few hundred megabytes: have fewer "
    "runs at a time (`--jobs`), or a smaller `memory.size`.",
    "too long: machine": "The machine description has more than 2^20 bytes, so it is none.",
    "too long: executable": "The executable has more than 2^26 bytes. Strip it: link it with `-s`.",
    "too long: schedule": "The schedule's file has more than 2^28 bytes, so no run wrote it.",
    "too long: events": "The events file has, or would have, more than 2^28 bytes, which are four million events. Have a "
    "smaller input, or fewer `intervals`.",
}

# Why a core halted, by the first word.
HALTS = {
    "illegal": "The word {0} is no instruction of RV64IMA: one of floating point, of CSRs such as `rdcycle`, `unimp`, or "
    "data. Look for it in `riscv64-unknown-elf-objdump -d`; compile for rv64ima.",
    "misaligned": "A jump to {0}, which is no multiple of 4: a broken function pointer or return address. Look for a "
    "stack that overflowed.",
    "fetch": "There is no code at {0}. At 0 a null pointer was called; right after the code the last function did not "
    "return. Use start.s of examples/c, and return from main.",
    "access": "A load or a store at {0}, which is outside memory. Near 0 it is a null pointer; else look for an index "
    "that is too large, or a stack that overflowed.",
    "atomic": "An atomic at {0}, which is no multiple of its width. Align the variable.",
    "break": "A breakpoint: `__builtin_trap()` of the compiler, or an assertion.",
    "running": "The core had not halted when the run reached a limit.",
    "exit": "The program ended with the number {0}.",
}


def explain(line, text=None):
    """Returns what a line of zsim means and how to mend it; None where it is no line of zsim.

    `text` is the text of the machine description, where it is known: then the words have its values and lines.
    """
    line = line.strip().removeprefix("zsim: ")
    words = line.split()
    tables = {"elf": ELF, "schedule": SCHEDULE, "events": EVENTS}
    if len(words) > 1 and words[1].isascii() and words[1].isdigit():
        if words[0] == "machine":
            return explain_machine(int(words[1]), words[2:], text)
        if int(words[1]) in tables.get(words[0], ()):
            return filled(tables[words[0]][int(words[1])], words[2:])
    if words[:3] == ["not", "the", "weave:"] and "".join(words[3:4]) in NOT_THE_WEAVE:
        return filled(NOT_THE_WEAVE[words[3]], words[4:])
    for begin, meaning in LINES.items():
        if line == begin or line.startswith(f"{begin}: "):
            return meaning
    return filled(HALTS[words[0]], words[1:]) if words and words[0] in HALTS else None


def filled(meaning, numbers):
    """Returns a meaning with the numbers of the line; a question mark for those that are not there."""
    return meaning.format(*numbers, *"??")


def explain_machine(number, named, text):
    """Returns what it means that a check of a machine description fails."""
    values = values_of(text) if text else {}
    meanings = {
        TEXT: lambda: no_text(text),
        MISSING: lambda: missing(*named),
        KIND: lambda: wrong_kind(*named),
        RANGE: lambda: out_of_range(*named, values),
        UNKNOWN: lambda: unknown(*named),
        RATIO: lambda: no_multiple(*named, values),
        DOMAIN: lambda: no_domain(*named, values),
    }
    try:
        meaning = meanings[number]()
    except (KeyError, TypeError, ValueError):  # (what is named is not what zsim names)
        return None
    line = line_of(text, named[0]) if text and named else None
    return f"{meaning} It stands in line {line} of the description." if line else meaning


def no_text(text):
    try:
        tomllib.loads(text or "")
    except (ValueError, RecursionError) as error:
        return f"The machine description is no TOML: {one_line(error)}."
    return "The machine description is no TOML document in UTF-8."


def is_table(key):
    return key in TABLES


def wanted(key):
    """Returns what a key has to be."""
    if is_table(key):
        return f"a table, with the keys {', '.join(TABLES[key])}"
    allowed = ALLOWED[key]
    if isinstance(allowed, str):
        return f"a list of integers, one for each of `{allowed}`: the domain of each"
    multiple = f", a multiple of {allowed.multiple}" if allowed.multiple > 1 else ""
    return f"an integer from {allowed.least} to {allowed.most}{multiple}"


def meaning_of(key):
    """Returns what a key is, without its unit, as ` (ways of the L1)`."""
    return f" ({KEYS[key].partition(' (')[0]})" if key in KEYS else ""


def missing(key):
    mends = {
        "l1i": " (or have `version = 1`, which has none)",
        "l1i.": " (or have no table `l1i`: with `version = 1`, or taken out of one of version 3)",
        "mesh.": " (or take the table `mesh` out)",
        "dram.": " (or take the table `dram` out)",
        "pipe.": " (or take the table `pipe` out)",
    }
    table, dot, _ = key.partition(".")
    mend = mends.get(table + dot, "")
    return f"`{key}`{meaning_of(key)} is missing. Add it: {wanted(key)}{mend}."


def wrong_kind(key):
    return f"`{key}`{meaning_of(key)} is of another kind than it has to be: {wanted(key)}."


def out_of_range(key, value, values):
    number = int(value)
    allowed = ALLOWED[key]
    if isinstance(allowed, str):
        which = f", which is {values[allowed]}" if allowed in values else ""
        return f"`{key}` has {number} elements, and needs one for each of `{allowed}`{which}."
    fits = allowed.least <= number <= allowed.most and number % allowed.multiple == 0
    if key == "memory.stack" and fits:
        stacks = f" {values['cores']} of {number} bytes are" if "cores" in values else " They are"
        return f"The stacks of all cores do not fit in memory:{stacks} more than `memory.size`."
    if key in AT_LEAST and fits:
        other = AT_LEAST[key]
        which = f", which is {values[other]}" if other in values else ""
        return f"`{key}`{meaning_of(key)} is {number}, and has to be at least `{other}`{which}."
    return f"`{key}`{meaning_of(key)} is {number}, and has to be {wanted(key)}."


def unknown(key):
    if key == "l1i":
        return "Version 1 has no instruction caches. Take out the table `l1i`, or have `version = 2`."
    if key == "mesh":
        return "Meshes are of version 3. Take out the table `mesh`, or have `version = 3`."
    if key == "dram":
        return "Open rows are of version 3. Take out the table `dram`, or have `version = 3`."
    if key == "pipe":
        return "Pipelines are of version 3. Take out the table `pipe`, or have `version = 3`."
    near = difflib.get_close_matches(key, [*ALLOWED, *filter(None, TABLES)], 1)
    hint = f"is it `{near[0]}`?" if near else "take it out."
    return f"`{key}` is no key of a description; {hint}"


def no_multiple(key, values):
    banks = values.get("l2.banks")
    if banks is None or key not in values:
        return f"`{key}`{meaning_of(key)} is no multiple of `l2.banks`, and has to be one."
    below = values[key] // banks * banks
    near = " or ".join(str(number) for number in (below, below + banks) if number)
    return (
        f"`{key}`{meaning_of(key)} is {values[key]}, which is no multiple of `l2.banks`, which is {banks}. "
        f"The nearest are {near}."
    )


def no_domain(component, values):
    number, banks = int(component), values.get("l2.banks")
    if banks is None:
        return f"The domain of component {number} is not below `domains.count`. (The banks come first, from 0 on.)"
    kind, place = ("banks", number) if number < banks else ("controllers", number - banks)
    return (
        f"Element {place} of `domains.{kind}` is {values[f'domains.{kind}'][place]}, and has to be from 0 to "
        f"{values['domains.count'] - 1}, since `domains.count` is {values['domains.count']}."
    )


def line_of(text, key):
    """Returns the number of the line in which a key or a table stands, if it is written in the usual way."""
    table = ""
    for number, line in enumerate(text.splitlines(), 1):
        header = re.match(r"\s*\[([A-Za-z0-9_.-]+)\]", line)
        if header:
            table = f"{header[1]}."
        name = re.match(r"\s*([A-Za-z0-9_.-]+)\s*=", line)
        if (header and header[1] == key) or (name and table + name[1] == key):
            return number
    return None
