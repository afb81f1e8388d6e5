"""What the checker's program says of a trace: its verdict, its leases, and what a replay shows. Nothing here judges a row itself."""
import contextlib
import os
import re
import struct
import subprocess
import sys
import tempfile
from dataclasses import dataclass

sys.path.append(os.path.join(os.path.dirname(os.path.dirname(os.path.abspath(__file__))), 'recorder'))
import verdict
from progress import Progress

BLOCK, LINK, RANGE = 0, 1, 2
WITHOUT_END = 0xffffffff
MAGIC_BYTES = 8
PIECE = 1 << 16
LEASE = struct.Struct('<IIQII')


class BadInput(Exception):
    """The program can't read the trace or the schedule; the text is what it says of it."""


class NoProgram(Exception):
    """There is no program to ask, or it can't be run."""


@dataclass(frozen=True)
class Lease:
    """Memory that the controller owns from one row to another, as a certificate's 24 bytes tell it."""
    kind: int
    ring: int
    position: int
    begin: int
    end: int

    @property
    def length(self):
        """Of a range, how many bytes it has; the field of the ring holds it."""
        return self.ring

    @property
    def address(self):
        """Of a range, where it begins; the field of the position holds it."""
        return self.position

    @property
    def is_open(self):
        return self.end == WITHOUT_END


@dataclass(frozen=True)
class Certificate:
    """The bytes that the program writes, of which the leases are made that are asked for: a long trace has very many."""
    content: bytes

    def between(self, first, last):
        """The leases that aren't over before the first of some rows and begin up to the last, in the certificate's order."""
        fields = LEASE.iter_unpack(self.content[MAGIC_BYTES:])
        return [Lease(*of_lease) for of_lease in fields if of_lease[3] <= last and of_lease[4] >= first]


@dataclass(frozen=True)
class Verdict:
    """The program's answer to a trace; `refused` is the row that breaks a rule, None where the trace is accepted."""
    answer: str
    explained: str
    refused: int | None

    @property
    def rule(self):
        return self.answer.partition(': ')[2]


@dataclass(frozen=True)
class Take:
    """A TRB that the controller took, as a replay prints it."""
    ring: int
    address: int
    words: tuple


@dataclass(frozen=True)
class Ending:
    """How a replay ends: the step that does harm and its number, the step that isn't possible, or neither."""
    step: int | None = None
    harm: int | None = None


@dataclass(frozen=True)
class Replay:
    """What a replay prints: a line `took ID ADDR W W W W` for each take, of which those are read that are asked for, and the ending."""
    lines: list
    ending: Ending

    @property
    def count(self):
        return len(self.lines)

    def ring(self, number):
        return int(self.lines[number].split(' ', 2)[1], 16)

    def take(self, number):
        _, ring, address, *words = self.lines[number].split()
        return Take(int(ring, 16), int(address, 16), tuple(int(word, 16) for word in words))


class Program:
    """The checker at a path."""

    def __init__(self, path=None):
        self.path = os.path.abspath(path) if path else verdict.program()
        if not self.path:
            raise NoProgram('no program of these sources; bin/xhcitrace builds it, and --program names another')

    def run(self, *words, given=b'', folder=None):
        """The answer to these arguments, in a folder from which their paths are told."""
        try:
            return subprocess.run([self.path, *words], input=given, capture_output=True, cwd=folder)
        except OSError as fault:
            raise NoProgram(f'{self.path}: {fault.strerror}') from fault

    def watched(self, *words, given):
        """The answer to these arguments, which is short, and how far the input is read, told at a terminal."""
        progress = Progress(len(given))
        try:
            ran = subprocess.Popen([self.path, *words], stdin=subprocess.PIPE, stdout=subprocess.PIPE, stderr=subprocess.PIPE)
        except OSError as fault:
            raise NoProgram(f'{self.path}: {fault.strerror}') from fault
        # a trace that is refused isn't read to its end
        with contextlib.suppress(BrokenPipeError):
            for begin in range(0, len(given), PIECE):
                ran.stdin.write(given[begin:begin + PIECE])
                ran.stdin.flush()
                progress.note(given[begin:begin + PIECE])
        with contextlib.suppress(BrokenPipeError):
            ran.stdin.close()
        ran.stdin = None
        told = ran.communicate()
        progress.end()
        return subprocess.CompletedProcess(words, ran.returncode, *told)

    def answered(self, *words, given=b'', is_watched=False):
        """What the program prints where it can read its input."""
        ran = self.watched(*words, given=given) if is_watched else self.run(*words, given=given)
        if ran.returncode not in (0, 1):
            raise BadInput(ran.stderr.decode(errors='replace').strip())
        return ran.stdout.decode(), ran.stderr.decode(errors='replace').strip()

    def check(self, text):
        """The verdict on a trace, and its certificate: that of the rows before the refused one, where a row is refused."""
        with tempfile.TemporaryDirectory() as folder:
            path = os.path.join(folder, 'leases')
            answer, explained = self.answered('check', '--explain', '--cert', path, '-', given=text, is_watched=True)
            found = re.match(r'row (\d+): ', answer)
            if found:
                self.answered('check', '--cert', path, '-', given=lines_before(text, int(found[1])))
            with open(path, 'rb') as file:
                return Verdict(answer.strip(), explained, found and int(found[1])), Certificate(file.read())

    def schedule(self, trace_path):
        """The schedule that the program makes of an accepted trace."""
        return self.answered('schedule', trace_path)[0].encode()

    def replay(self, trace_path, schedule):
        """What a schedule's steps show beside a trace; the schedule is its lines."""
        printed, _ = self.answered('replay', trace_path, '-', given=b'\n'.join([*schedule, b'']))
        *takes, last = printed.splitlines()
        found = re.match(r'step (\d+): (?:harm (\d+)|not possible)', last)
        ending = Ending(int(found[1]), found[2] and int(found[2])) if found else Ending()
        return Replay(takes, ending)


def lines_before(text, row):
    """The lines of a text before a row, each with its line feed."""
    return b'\n'.join([*text.split(b'\n')[:row - 1], b''])
