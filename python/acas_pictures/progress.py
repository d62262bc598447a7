"""How far a long reading is, for who waits at a terminal."""
import sys
import time

EVERY = 0.5


class Progress:
    """Says on the error output how many lines of how many are read, where that is a terminal, twice a second."""

    def __init__(self, name: str) -> None:
        self.name = name
        self.next = time.monotonic() + EVERY
        self.is_shown = False

    def __call__(self, done: int, total: int) -> None:
        if done % 1000 and done != total:
            return
        if done == total:
            self._end()
        elif sys.stderr.isatty() and time.monotonic() >= self.next:
            self.next = time.monotonic() + EVERY
            self.is_shown = True
            print(f"\racas_plot: {self.name}: line {done} of {total}", end="", file=sys.stderr, flush=True)

    def _end(self) -> None:
        if self.is_shown:
            print("\r\033[K", end="", file=sys.stderr, flush=True)
