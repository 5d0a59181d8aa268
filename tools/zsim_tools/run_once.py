"""Runs zsim once for a person at a terminal: says how much time has passed, and then shows what came of it."""

from .errors import RunError
from .program import LIMIT, run
from .show import show_csv, show_json, show_tables
from .table import write_whole
from .ticker import Timer, duration


def run_once(words, say):
    """Runs zsim on the words, shows the consoles and the report, and returns whether the program ended by its exit.

    `say` prints a line on standard error.
    """
    try:
        with Timer(lambda passed: f"zsim has run for {duration(passed)}"):
            report = run(words.machine, words.executable, words.zsim, words.workers, words.record, words.schedule)
    except RunError as error:
        say(f"status {error.status}: {error}")
        if error.meaning:
            say(error.meaning)
        return False
    if words.out:
        write_whole(words.out, lambda file: file.write(report.text.encode("latin-1")))
    if words.json or words.csv:
        (show_json if words.json else show_csv)([report])
    else:
        show_consoles(report)
        show_tables([report])
    return tell_ends(report, say)


def tell_ends(report, say):
    """Says why cores halted that did not end by the program's exit, each reason once, and returns whether none is."""
    from .meanings import LINES, explain

    if report.status == LIMIT:
        say("zsim: stopped at the limit")
        say(LINES["stopped at the limit"])
    faults = {core.halt: core.number for core in reversed(report.core_list) if not core.exited}
    for halt, number in faults.items():
        if halt != "running":
            say(f"core {number} halted: {halt}")
            say(explain(halt))
    return not faults and report.status != LIMIT


def show_consoles(report):
    """Prints what the cores wrote, as text: control characters but tabs and newlines as zsim's report has them."""
    for core in report.core_list:
        if core.console:
            text = printable(core.console.decode("utf-8", "backslashreplace"))
            print(f"console of core {core.number}:", *text.splitlines(), sep="\n    ")
            print()


def printable(text):
    return "".join(
        letter if letter.isprintable() or letter in "\n\t" else "".join(f"\\x{byte:02x}" for byte in letter.encode())
        for letter in text
    )
