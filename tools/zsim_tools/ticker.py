"""Tells again and again how much time has passed, while other work goes on."""

import sys
import threading
import time

# How often it is said where nobody watches a terminal, in seconds.
MINUTE = 60
# And how often where somebody does.
SECOND = 1


class Ticker(threading.Thread):
    """Calls `tell` with the seconds since it was made, each time that so many seconds have passed, until it is stopped."""

    def __init__(self, every, tell):
        super().__init__(daemon=True)
        self.every = every
        self.tell = tell
        self.began = time.monotonic()
        self.over = threading.Event()

    def run(self):
        while not self.over.wait(self.every):
            self.tell(time.monotonic() - self.began)

    def stop(self):
        self.over.set()
        self.join()


def duration(seconds):
    """Returns a time as `2:05:00`, in hours, minutes and seconds."""
    minutes, seconds = divmod(int(seconds), 60)
    return f"{minutes // 60}:{minutes % 60:02d}:{seconds:02d}"


class Timer:
    """Has what `told` says of the seconds passed stand on standard error while work goes on: at a terminal each second, in
    one line that then goes away, else a line each minute."""

    def __init__(self, told):
        self.told = told

    def __enter__(self):
        self.shown = sys.stderr.isatty()
        self.ticker = Ticker(SECOND, self._show) if self.shown else Ticker(MINUTE, self._say)
        self.ticker.start()
        return self

    def __exit__(self, *_):
        self.ticker.stop()
        if self.shown:
            print("\r\x1b[K", end="", file=sys.stderr, flush=True)

    def _show(self, passed):
        print(f"\r\x1b[K{self.told(passed)}", end="", file=sys.stderr, flush=True)

    def _say(self, passed):
        print(f"zsim-tools: {self.told(passed)}", file=sys.stderr)
