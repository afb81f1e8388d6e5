"""How far a trace is read, told a person at a terminal where that takes longer than a second: the line that `check` tells too."""
import sys
import time

# seconds for which nothing is told, and for which what is told stands
FIRST, STANDS = 1, 0.2
CLEARED = '\r\x1b[K'


class Progress:
    """The line that tells it, which goes when the answer comes; none where nobody sees it."""

    def __init__(self, size):
        self.size, self.rows, self.bytes = size, 0, 0
        self.is_seen = sys.stderr.isatty()
        self.begun, self.told = time.monotonic(), None

    def note(self, piece):
        """Notes a piece that was read, and tells of it once it is time."""
        if not self.is_seen:
            return
        self.rows += piece.count(b'\n')
        self.bytes += len(piece)
        now = time.monotonic()
        if now - self.begun >= FIRST if self.told is None else now - self.told >= STANDS:
            rate = int(self.rows / (now - self.begun))
            print(f'{CLEARED}{self.rows} rows, {self.bytes // 10 ** 6} of {self.size // 10 ** 6} MB, {rate} rows a second', end='', file=sys.stderr, flush=True)
            self.told = now

    def end(self):
        """Clears the line, where one was told."""
        if self.told is not None:
            print(CLEARED, end='', file=sys.stderr, flush=True)
