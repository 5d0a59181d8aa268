"""The words of the command line: what each command takes, and its help."""

import argparse

from .errors import ToolError

DESCRIPTION = """\
Runs, tables, comparisons, sweeps and plots of zsim, and what its machines and refusals mean.

  zsim-tools show REPORT...                  the counters and derived numbers of reports
  zsim-tools diff A B                        what changed from one report to another
  zsim-tools run MACHINE EXE                 runs zsim once, and shows what came of it
  zsim-tools sweep SWEEP.toml --out TABLE    runs each combination of machines and executables
  zsim-tools plot TABLE --x AXIS --y NUMBER --out PLOT
                                             a curve for each executable, bars, or a heat map
  zsim-tools describe MACHINE                what the numbers of a machine come to, and a drawing
  zsim-tools explain LINE                    what a line of zsim means, and how to mend it
  zsim-tools timeline EVENTS --machine MACHINE --out FILE.json
                                             the events of a run, for Perfetto or chrome://tracing
  zsim-tools series EVENTS --machine MACHINE events and waiting over time, as tables or a plot
  zsim-tools annotate CALLGRIND ELF          a profile with functions, files and lines
  zsim-tools sharing LINES.csv [ELF]         the dearest lines that cores share, falsely or truly

Each has a --help of its own. docs/tools.md tells of all, with examples and formulas."""

ENDING = """\
Status: 0 done; 2 the words, an input or an output is bad, with one line on standard error that names the
file, the line or the key; 130 or 143 interrupted or ended."""

SWEEP_ENDING = """\
Status: 0 done, and every run ended by its program's exit; 3 done, but a run was refused, reached a limit or
halted by a fault; 2 the words, an input or an output is bad, with one line on standard error that names the
file, the line or the key; 130 or 143 interrupted or ended, and the table has the runs that are done."""

SHOW = """\
Shows reports as tables: the counters of the run, of each core, bank, controller and link, and what follows from
them, as the cycles per instruction. A REPORT is a file with the output of zsim run; - is standard input:

  ./zsim run plain examples/load.elf | zsim-tools show -

With several cores, the least, the mean, the greatest and the spread over them come below. The shares of time
for which banks and controllers were busy need the machine (--machine), since a report does not have it."""

DIFF = """\
Shows what differs between two reports, one line a number, the heaviest change first. The weight of a change
is its size as a share of the whole of its kind: cycles and waiting as a share of all cycles, hits and misses
as a share of all accesses, and so on (docs/tools.md). So the top of the table tells what made the difference.
A halt or a console that differs stands before all numbers."""

SWEEP = """\
Runs every combination of a sweep's file, several at a time, and writes a table with a row for each run: its
axes, its status, its counters, derived numbers, and the hashes of machine, executable and zsim.

  machine = "../machines/laptop.toml"            the base, of which the axes change keys
  executables = ["sort.elf", "gen:5"]            file names are relative to this file

  [axes]                                         each key with each value
  l1.sets = [16, 32, 64]
  l1.ways = [1, 2, 4, 8]

  [[tied]]                                       keys that vary together: the first values, the second ones, ..
  l2.banks = [1, 2]
  controllers.count = [1, 2]

  domains = "even"                               the lists of domains follow the banks and the controllers
  workers = 4                                    the cores run on so many threads, and their races can differ,
  repeat = 10                                    so each run is made so many times

Each run is kept in TABLE.runs as it ends. A sweep that was stopped goes on where it was, and a run is not run
again while its machine, its executable and zsim are the same. A machine that zsim refuses is a row with its
refusal, and stops nothing."""

PLOT = """\
Plots a number of a sweep's table against an axis, as PNG, SVG or PDF: one line for each executable, or for
each value of another column; bars, in a group for each executable; or a heat map of two axes.

  zsim-tools plot l1.csv --x l1.ways --y l1_mpki --where l1.sets=64 --out l1.png
  zsim-tools plot l1.csv --x l1.ways --y l1_mpki --lines l1.sets --where executable=sort.elf --out l1.png
  zsim-tools plot l1.csv --x l1.ways --y l1_mpki --heat l1.sets --where executable=sort.elf --out l1.svg
  zsim-tools plot l1.csv --bars l1.ways --y speedup --baseline l1.ways=1 --where l1.sets=64 --out l1.pdf

AXIS and NUMBER are columns of the table (docs/tools.md has all): keys of the machine, as l1.ways, counters, as
cycles, and derived numbers, as cpi. speedup is the cycles of the baseline by the cycles. Where a sweep repeats
its runs, it is the mean over the repeats, with a bar from the least to the greatest. Runs that did not end by
their program's exit are left out.

With --mesh it draws the links of a machine with a mesh, the darker the more was waited for them:

  zsim-tools plot --mesh sum.txt tiles.toml --y wait --out mesh.png"""


DESCRIBE = """\
Says what the numbers of a machine description come to: the sizes of its caches, the cycles of each kind of
access where nothing waits, through how many banks and controllers it goes (hops) and for how many cycles it
keeps them busy, the bytes a cycle of each controller, and what is worth a second look:

  zsim-tools describe examples/machines/desktop.toml --out desktop.svg

A description that zsim refuses is explained, with the line of its file."""

RUN = """\
Runs zsim once, says on standard error how much time has passed, and shows the consoles as text and the tables
of show. (Nothing else is known before the end: zsim says nothing meanwhile.)

  zsim-tools run examples/machines/laptop.toml examples/c/sort.elf
  zsim-tools run examples/machines/desktop.toml examples/c/lock.elf --workers 4 --record lock.schedule
  zsim-tools run examples/machines/desktop.toml examples/c/lock.elf --schedule lock.schedule --out lock.txt"""

RUN_ENDING = """\
Status: 0 done, and the program ended by its exit; 3 the run was refused, reached a limit or halted by a fault,
which is explained; 2 the words, an input or an output is bad, with one line on standard error that names the
file, the line or the key; 130 or 143 interrupted or ended."""

EXPLAIN = """\
Says what a line of zsim on standard error means, or why a core halted, and how to mend it:

  zsim-tools explain zsim: elf 6
  zsim-tools explain zsim: machine 6 l1.sets --machine desktop.toml
  zsim-tools explain illegal c0002573

With the machine (--machine) the words have its values, and the line of its file."""


TIMELINE = """\
Writes the events of a run as a timeline, which Perfetto (ui.perfetto.dev) and chrome://tracing open. EVENTS
is an events file, and FILE the machine of its run:

  zsim-tools timeline lock.events --machine desktop.toml --out lock.json
  zsim-tools timeline lock.events --machine desktop.toml --from 20000 --to 30000 --core 1 --out lock.json

There is a group for each bank, controller and link, and in it a track for each core, with a slice for each of
its events there; arrows lead from each event to those that wait for it, and marks stand where intervals
begin. A cycle is a microsecond. A long run makes a large file: --from, --to and --core cut it."""


SERIES = """\
Shows how many events a run had over time, how long they waited, and for what: a row for each interval, or for
several where there would be many rows; by component, and by core. EVENTS is an events file, and FILE the
machine of its run:

  zsim-tools series lock.events --machine desktop.toml --report lock.txt
  zsim-tools series lock.events --machine desktop.toml --csv
  zsim-tools series lock.events --machine desktop.toml --y waited --by core --out lock.png

With the report of the run (--report) the sums are compared with it, and there are misses per 1000 instructions,
as if each interval had as many instructions as any other."""


ANNOTATE = """\
Adds functions, files and lines to the callgrind.out of a profile, which has addresses alone. They are those of
the symbols of the executable and of its DWARF line tables; without line tables there are functions alone:

  zsim-tools annotate lock/callgrind.out lock.symbols -o named.out
  callgrind_annotate named.out

KCachegrind opens it too. ELF is the executable with its symbols, as `make lock.symbols` of examples/c links
it."""


SHARING = """\
Shows the dearest lines of the lines.csv of a profile that several cores used and one of them wrote: what they
cost, how many copies were lost, and which bytes each core read (r) and wrote (w):

  zsim-tools sharing lock/lines.csv lock.symbols

A line is shared falsely where no byte that a core wrote was read or written by another one. With the
executable, if it has its symbols, the bytes have the names of their data."""


class Words(argparse.ArgumentParser):
    """A parser that says in one line what is wrong with the words."""

    def error(self, message):
        raise ToolError(f"usage: {message} (see {self.prog} --help)")


def parser():
    """Returns the parser of the words. What it gives has the name of the command in `command`."""
    words = Words(usage="zsim-tools COMMAND ..", **common("zsim-tools", DESCRIPTION, ENDING))
    commands = words.add_subparsers(dest="command", required=True, metavar="COMMAND", help=argparse.SUPPRESS)
    for name, description, ending, add in (
        ("show", SHOW, ENDING, add_show),
        ("diff", DIFF, ENDING, add_diff),
        ("sweep", SWEEP, SWEEP_ENDING, add_sweep),
        ("plot", PLOT, ENDING, add_plot),
        ("run", RUN, RUN_ENDING, add_run),
        ("describe", DESCRIBE, ENDING, add_describe),
        ("explain", EXPLAIN, ENDING, add_explain),
        ("timeline", TIMELINE, ENDING, add_timeline),
        ("series", SERIES, ENDING, add_series),
        ("annotate", ANNOTATE, ENDING, add_annotate),
        ("sharing", SHARING, ENDING, add_sharing),
    ):
        add(commands.add_parser(name, **common(f"zsim-tools {name}", description, ending)))
    return words


def common(name, description, ending):
    """Returns what all parsers have in common. Options are not to be shortened: a later one may begin alike."""
    form = argparse.RawDescriptionHelpFormatter
    return {"prog": name, "description": description, "epilog": ending, "formatter_class": form, "allow_abbrev": False}


def add_show(show):
    show.add_argument("reports", nargs="+", metavar="REPORT", help="a file with a report, or - for standard input")
    show.add_argument(
        "--machine", metavar="FILE", help="the machine of the reports, for the busy shares; plain is the built-in one"
    )
    add_form(show)


def add_diff(diff):
    diff.add_argument("a", metavar="A", help="a report, or - for standard input")
    diff.add_argument("b", metavar="B", help="the report to compare with it")
    diff.add_argument("--top", type=count, metavar="N", help="show the N heaviest changes (all)")
    diff.add_argument("--machine-a", metavar="FILE", help="the machine of A, for the busy shares; plain is built in")
    diff.add_argument("--machine-b", metavar="FILE", help="the machine of B")
    add_form(diff)


def add_form(command):
    form = command.add_mutually_exclusive_group()
    form.add_argument("--json", action="store_true", help="as JSON")
    form.add_argument("--csv", action="store_true", help="as CSV, one line a number")


def add_sweep(sweep):
    sweep.add_argument("sweep", metavar="SWEEP.toml", help="the file of the sweep")
    sweep.add_argument("--out", required=True, metavar="TABLE", help="the table to write, .csv or .parquet by its name")
    where = sweep.add_mutually_exclusive_group()
    where.add_argument("--jobs", type=count, metavar="N", help="run N at a time on this machine (one a processor)")
    cluster = "run on a dask cluster, as tcp://host:8786, to whose workers zsim and the executables are sent"
    where.add_argument("--scheduler", metavar="ADDRESS", help=cluster)
    sweep.add_argument("--workers", type=count, metavar="N", help="run the cores of each run on N threads (1)")
    record = "write the schedule of each run to a file in this folder, whose name is in the table"
    sweep.add_argument("--record", metavar="FOLDER", help=record)
    add_program(sweep)


def add_program(command):
    program = "the program to run (that of this checkout, or the command zsim; the variable ZSIM names another)"
    command.add_argument("--zsim", metavar="PROGRAM", help=program)


def add_run(run):
    run.add_argument("machine", metavar="MACHINE", help="a machine description; plain is built in")
    run.add_argument("executable", metavar="EXE", help="an executable, or gen:N")
    run.add_argument("--workers", type=count, default=1, metavar="N", help="run the cores on N threads (1)")
    run.add_argument("--record", metavar="FILE", help="write the schedule of the run to this file")
    run.add_argument("--schedule", metavar="FILE", help="run under the schedule of this file: a replay")
    run.add_argument("--out", metavar="REPORT", help="also write the report as zsim wrote it to this file")
    add_program(run)
    add_form(run)


def add_describe(describe):
    describe.add_argument("machine", metavar="MACHINE", help="a machine description; plain is built in")
    describe.add_argument("--out", metavar="DRAWING", help="also draw it, to a file .svg, .png or .pdf by its name")
    describe.add_argument("--json", action="store_true", help="as JSON")


def add_explain(explain):
    explain.add_argument("line", nargs="+", metavar="LINE", help="the line, in one word or in several")
    explain.add_argument("--machine", metavar="FILE", help="the machine description that zsim refused")


def add_events(command):
    command.add_argument("events", metavar="EVENTS", help="an events file")
    machine = "the machine of its run; plain is the built-in one"
    command.add_argument("--machine", required=True, metavar="FILE", help=machine)


def add_timeline(timeline):
    add_events(timeline)
    since = "draw what is there at this cycle or later (0)"
    timeline.add_argument("--from", dest="since", type=cycle, default=0, metavar="CYCLE", help=since)
    timeline.add_argument("--to", dest="until", type=cycle, metavar="CYCLE", help="draw what starts before this cycle")
    core = "draw the events of this core alone; can be given again"
    timeline.add_argument("--core", action="append", default=[], type=cycle, metavar="N", help=core)
    timeline.add_argument("--out", required=True, metavar="FILE.json", help="the file to write")


def add_series(series):
    add_events(series)
    series.add_argument("--report", metavar="REPORT", help="the report of the run, or - for standard input")
    every = "have N intervals in a row (one in CSV, else so many that there are few rows)"
    series.add_argument("--every", type=count, metavar="N", help=every)
    form = series.add_mutually_exclusive_group()
    form.add_argument("--csv", action="store_true", help="as CSV, with all columns of docs/tools.md")
    form.add_argument("--out", metavar="PLOT", help="plot it to this file, .png, .svg or .pdf by its name")
    numbers = ("waited", "events", "wait", "misses", "l2_mpki")
    series.add_argument("--y", choices=numbers, default="waited", help="the number that is plotted (waited)")
    ways = ("component", "core", "kind")
    series.add_argument("--by", choices=ways, default="component", help="a line for each of what (component)")
    series.add_argument("--title", metavar="TEXT", help="the title of the plot (the names of both files)")
    add_size(series)


def add_annotate(annotate):
    annotate.add_argument("profile", metavar="CALLGRIND", help="a callgrind.out of zprof")
    annotate.add_argument("executable", metavar="ELF", help="its executable, with symbols")
    annotate.add_argument("-o", "--out", metavar="OUT", help="the file to write (standard output)")


def add_sharing(sharing):
    sharing.add_argument("table", metavar="LINES.csv", help="a lines.csv of zprof")
    sharing.add_argument("executable", nargs="?", metavar="ELF", help="its executable, with symbols")
    sharing.add_argument("--lines", type=count, default=10, metavar="N", help="show at most N lines (10)")


def check_plot(given):
    """Raises ToolError where a plot has no table, no number, or nothing along the bottom; and where a mesh has these."""
    if given.mesh:
        of_tables = (given.x, given.lines, given.bars, given.heat, given.where, given.baseline, given.geomean)
        if given.table or any(of_tables) or given.log_x or given.log_y or given.with_limits:
            raise ToolError("usage: --mesh draws a report: with --y, --title, --size and --out (see zsim-tools plot --help)")
        return
    needed = {"TABLE": given.table, "--y": given.y, "--x": given.x or given.bars}
    missing = ", ".join(name for name, value in needed.items() if not value)
    if missing:
        raise ToolError(f"usage: the following arguments are required: {missing} (see zsim-tools plot --help)")


def add_plot(plot):
    plot.add_argument("table", nargs="?", metavar="TABLE", help="a table that a sweep wrote")
    mesh = "in place of a table: draw the mesh of a machine, its links coloured by what a report says of them"
    plot.add_argument("--mesh", nargs=2, metavar=("REPORT", "MACHINE"), help=mesh)
    plot.add_argument("--x", metavar="AXIS", help="the column along the bottom (of bars: executable)")
    numbers = "the column that is plotted (of a mesh: waited, wait, events or busy)"
    plot.add_argument("--y", metavar="NUMBER", help=numbers)
    kind = plot.add_mutually_exclusive_group()
    lines = "a line for each value of COLUMN (executable); can be given again"
    kind.add_argument("--lines", action="append", default=[], metavar="COLUMN", help=lines)
    bars = "bars for the values of COLUMN, in a group for each value of AXIS; can be given again"
    kind.add_argument("--bars", action="append", default=[], metavar="COLUMN", help=bars)
    kind.add_argument("--heat", metavar="AXIS", help="a map of both axes, with the number in each field")
    where = "plot these rows alone; can be given again, also for another value of COLUMN"
    plot.add_argument("--where", action="append", default=[], type=condition, metavar="COLUMN=VALUE", help=where)
    base = "NUMBER relative to what it is in the row with this value; can be given again, for another column"
    plot.add_argument("--baseline", action="append", default=[], type=condition, metavar="COLUMN=VALUE", help=base)
    plot.add_argument("--geomean", action="store_true", help="the geometric mean over the executables too")
    plot.add_argument("--with-limits", action="store_true", help="also runs that reached a limit")
    plot.add_argument("--log-x", action="store_true", help="a logarithmic scale for AXIS (where its values double)")
    plot.add_argument("--log-y", action="store_true", help="a logarithmic scale for NUMBER")
    plot.add_argument("--title", metavar="TEXT", help="the title (what all rows have in common)")
    add_size(plot)
    plot.add_argument("--out", required=True, metavar="PLOT", help="the file to write, .png, .svg or .pdf by its name")


def add_size(plot):
    plot.add_argument("--size", type=size, default=(7.0, 4.5), metavar="WxH", help="width and height in inches (7x4.5)")


def count(text):
    """Returns a whole number of at least 1."""
    if not (text.isascii() and text.isdigit()) or int(text) < 1:
        raise argparse.ArgumentTypeError(f"{text} is no whole number of at least 1")
    return int(text)


def cycle(text):
    """Returns a whole number, as a cycle or a core."""
    if not (text.isascii() and text.isdigit()) or int(text) >= 2**60:
        raise argparse.ArgumentTypeError(f"{text} is no whole number")
    return int(text)


def size(text):
    """Returns a width and a height in inches."""
    width, times, height = text.partition("x")
    try:
        inches = float(width), float(height)
    except ValueError:
        inches = (0.0, 0.0)
    if not all(1 <= length <= 40 for length in inches):
        raise argparse.ArgumentTypeError(f"{text} is not WxH, as 7x4.5, from 1 to 40 inches each")
    return inches


def condition(text):
    column, equals, value = text.partition("=")
    if not (column and equals):
        raise argparse.ArgumentTypeError(f"{text} is not COLUMN=VALUE")
    return column, value
