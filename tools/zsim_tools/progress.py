"""Says on standard error how a sweep gets on: a bar and the time that is left, and failures as they come."""

import sys
import threading

from . import ticker
from .sweeps import Watcher
from .ticker import Ticker, duration


class Progress(Watcher):
    """Where standard error is no terminal, there is no bar: failures, a line each minute, and one in the end."""

    def __init__(self, out):
        self.out = out
        self.bar = None
        self.loading = None
        self.ticker = None
        self.begun = False
        self.failures = 0
        self.done = 0
        self.explained = set()

    def begin(self, runs, before):
        self.runs = runs
        self.before = len(before)
        self.failures = sum(ended.failure is not None for ended in before)
        if sys.stderr.isatty():
            # (in a thread, since the bar's library takes longer to load than many a run)
            self.loading = threading.Thread(target=self._show_bar)
            self.loading.start()
        else:
            self.ticker = Ticker(ticker.MINUTE, self._tell)
            self.ticker.start()
        self.begun = True

    def _show_bar(self):
        bar = started_bar()
        self.task = bar.add_task("sweep", total=self.runs, completed=self.done)
        self.bar = bar

    def _tell(self, passed):
        left = f", about {duration(passed / self.done * (self.runs - self.done))} left" if self.done else ""
        self.say(f"{self.out}: {self.done} of {self.runs} runs in {duration(passed)}{left}")

    def ended(self, ended):
        self.done += 1
        if ended.failure:
            self.failures += 1
            self.say(f"{ended.run.label}: {ended.failure}")
            self._explain(ended)
        if self.bar:
            self.bar.update(self.task, completed=self.done)

    def _explain(self, ended):
        """Says what a line of zsim means, or why a core halted, the first time that it comes."""
        line = ended.outcome.line or ended.failure.rpartition("halted: ")[2]
        if line not in self.explained:
            from .meanings import explain  # (which most sweeps need not load)

            self.explained.add(line)
            meaning = explain(line, ended.run.machine.text)
            if meaning:
                self.say(f"    {meaning}")

    def end(self):
        if not self.begun:
            return
        if self.ticker:
            self.ticker.stop()
        if self.loading:
            self.loading.join()
        if self.bar:
            self.bar.update(self.task, completed=self.done)
            self.bar.stop()
        noun = "run" if self.done == 1 else "runs"
        before = f", {self.before} were done before" if self.before else ""
        failed = f"; {self.failures} did not end by their program's exit" if self.failures else ""
        left = f"; {self.runs - self.done} are left, and the next call goes on there" if self.done < self.runs else ""
        self.say(f"{self.out}: {self.done} {noun}{before}{failed}{left}")

    def say(self, line):
        """Prints a line; where there is a bar, above it."""
        if self.bar:
            self.bar.console.print(f"zsim-tools: {line}", markup=False, emoji=False)
        else:
            print(f"zsim-tools: {line}", file=sys.stderr)


def started_bar():
    # (loaded here, where the runs have begun already)
    from rich.console import Console
    from rich.progress import (
        BarColumn,
        MofNCompleteColumn,
        Progress,
        TextColumn,
        TimeElapsedColumn,
        TimeRemainingColumn,
    )

    columns = (TextColumn("{task.description}"), BarColumn(), MofNCompleteColumn(), TextColumn("runs"))
    times = (TimeElapsedColumn(), TextColumn("left"), TimeRemainingColumn())
    bar = Progress(*columns, *times, console=Console(stderr=True, highlight=False, soft_wrap=True))
    bar.start()
    return bar
