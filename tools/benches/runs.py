"""Runs of a driver against `xhcitrace bench`: two processes, each one's output the other one's input, and nothing of ours between."""
import os
import selectors
import subprocess
import time
from dataclasses import dataclass, replace

MOST_TOLD = 1 << 16


@dataclass(frozen=True)
class Run:
    """How a run ended: the bench's lines on standard error and its status, the driver's status and the end of what it told there."""
    seed: int
    told: tuple
    status: int
    driver_status: int
    driver_told: str
    is_late: bool


@dataclass(frozen=True)
class Bench:
    """A driver and how it is run; the steps and the policy are None where the program's own count."""
    program: str
    driver: tuple
    errors: int = 0
    policy: str | None = None
    steps: int | None = None
    seconds: float = 60

    def but(self, **changes):
        return replace(self, **changes)

    def words(self, seed, out=None):
        options = {'--seed': seed, '--errors': self.errors, '--policy': self.policy, '--steps': self.steps, '--out': out}
        return [self.program, 'bench', *(str(word) for name, value in options.items() if value is not None for word in (name, value))]

    def run(self, seed, out=None):
        """One run; `out` is where the bench leaves its rows and steps."""
        to_bench, to_driver, bench_tells, driver_tells = os.pipe(), os.pipe(), os.pipe(), os.pipe()
        try:
            bench = started(self.words(seed, out), to_bench[0], to_driver[1], bench_tells[1])
            try:
                driver = started(self.driver, to_driver[0], to_bench[1], driver_tells[1])
            except OSError:
                ended(bench)
                raise
        finally:
            for end in (*to_bench, *to_driver, bench_tells[1], driver_tells[1]):
                os.close(end)
        with os.fdopen(bench_tells[0], 'rb') as first, os.fdopen(driver_tells[0], 'rb') as second:
            is_late, (told, driver_told) = heard([first, second], self.seconds)
        if is_late:
            bench.kill()
            driver.kill()
        return Run(seed, tuple(told.splitlines()), bench.wait(), driver.wait(), driver_told, is_late)


def started(words, given, says, tells):
    # what we hold is closed in it all the same, as Python opens it so
    return subprocess.Popen(words, stdin=given, stdout=says, stderr=tells, close_fds=False)


def ended(process):
    process.kill()
    process.wait()


def heard(files, seconds):
    """Whether it took longer than that, and the last bytes that each says until all are closed, as texts."""
    texts, until = {file: b'' for file in files}, time.monotonic() + seconds
    with selectors.DefaultSelector() as waiting:
        for file in files:
            waiting.register(file, selectors.EVENT_READ)
        while waiting.get_map() and time.monotonic() < until:
            for key, _ in waiting.select(until - time.monotonic()):
                piece = os.read(key.fd, MOST_TOLD)
                texts[key.fileobj] = (texts[key.fileobj] + piece)[-MOST_TOLD:]
                if not piece:
                    waiting.unregister(key.fileobj)
        is_late = bool(waiting.get_map())
    return is_late, [text.decode(errors='replace') for text in texts.values()]
