"""A trace's text: its header, its rows by number, and which row last wrote a word. Nothing is read that isn't asked for."""
from bisect import bisect_right
from dataclasses import dataclass
from functools import cached_property
from itertools import accumulate


@dataclass(frozen=True)
class Segment:
    """Some TRBs in a row; `first` is the index of its first place among the ring's."""
    base: int
    count: int
    first: int

    @property
    def end(self):
        return self.base + 16 * self.count


class Ring:
    """A ring of the header or of a row. The last TRB of each segment is its Link, but for an Event Ring."""

    def __init__(self, number, kind, segments):
        self.number, self.kind = number, kind
        self.links = 0 if kind == 'evt' else 1
        self.segments, first = [], 0
        for base, count in segments:
            self.segments.append(Segment(base, count, first))
            first += count - self.links
        self.place_count = first
        self.firsts = [segment.first for segment in self.segments]

    def segment_of(self, position):
        place = position % self.place_count
        return self.segments[bisect_right(self.firsts, place) - 1]

    def address(self, position):
        segment = self.segment_of(position)
        return segment.base + 16 * (position % self.place_count - segment.first)

    def link_behind(self, position):
        """The address of the Link of the segment in which a position lies."""
        return self.segment_of(position).end - 16

    def is_link(self, segment, address):
        return bool(self.links) and address >= segment.end - 16

    @property
    def name(self):
        return {'cmd': 'Command Ring', 'evt': 'Event Ring'}.get(self.kind, f'ring {self.number:02x}')


def ring_of(line):
    _, number, kind, *segments = line.split()
    pairs = (segment.split(b':') for segment in segments)
    return Ring(int(number, 16), kind.decode(), [(int(base, 16), int(count, 16)) for base, count in pairs])


@dataclass(frozen=True)
class Written:
    """A row that wrote a word."""
    row: int
    word: int


class TraceText:
    """A text that the program has read as a trace. Rows are its lines, from 1 on."""

    def __init__(self, text):
        self.text = text.lower()
        self.lines = self.text.split(b'\n')[:-1]
        self.context_bytes = int(self.lines[1].split()[1], 16)
        self.rings = []
        for line in self.lines[2:]:
            if not line.startswith(b'ring '):
                break
            self.rings.append(ring_of(line))
        self.first = 3 + len(self.rings)
        self.last = len(self.lines)
        self.rings += self.later_rings()

    def later_rings(self):
        """Those that come between the rows."""
        rings, at = [], self.text.find(b'\nring ', self.offset(self.first))
        while at >= 0:
            end = self.text.index(b'\n', at + 1)
            rings.append(ring_of(self.text[at + 1:end]))
            at = self.text.find(b'\nring ', end)
        return rings

    def row(self, number):
        return self.lines[number - 1].decode()

    @cached_property
    def rings_by_number(self):
        return {ring.number: ring for ring in self.rings}

    def ring(self, number):
        return self.rings_by_number.get(number)

    @cached_property
    def segments(self):
        """All rings' segments, by their addresses; of two that begin at one the later one stands last."""
        return sorted(((segment.base, ring.number, segment) for ring in self.rings for segment in ring.segments), key=lambda one: one[0])

    def segment_at(self, address):
        """The ring and the segment that have an address; None and None where none has it."""
        found = bisect_right(self.segments, address, key=lambda one: one[0]) - 1
        _, number, segment = self.segments[found] if found >= 0 else (0, None, None)
        return (self.ring(number), segment) if segment and address < segment.end else (None, None)

    def has_event_ring(self, row):
        """Whether an Event Ring is there behind a row."""
        before = self.text[:self.offset(row + 1)]
        rings = [ring.number for ring in self.rings if ring.kind == 'evt']
        return any(b'\nring %02x ' % number in before and b'\nfree %02x\n' % number not in before for number in rings)

    @cached_property
    def ends(self):
        """Where each line ends in the text, its line feed included."""
        return list(accumulate(len(line) + 1 for line in self.lines))

    def offset(self, row):
        return self.ends[row - 2] if row > 1 else 0

    def last_write(self, address, before):
        """The last row before a given one that writes the word at an address, or None."""
        found = self.text.rfind(b'\nw %016x ' % address, 0, self.offset(before))
        if found < 0:
            return None
        row = bisect_right(self.ends, found + 1) + 1
        return Written(row, int(self.row(row).split()[2], 16))

    def word(self, address, before):
        """The word at an address as the rows before a given one leave it; memory counts as 0 at first."""
        written = self.last_write(address, before)
        return written.word if written else 0

    def words(self, address, before):
        return tuple(self.word(address + 4 * number, before) for number in range(4))

    def values(self, name):
        """The rows that write a register, and their values, in their order."""
        wanted = b'\nreg %s ' % name.encode()
        at = self.text.find(wanted)
        while at >= 0:
            end = self.text.index(b'\n', at + 1)
            yield Written(bisect_right(self.ends, at + 1) + 1, int(self.text[at + len(wanted):end], 16))
            at = self.text.find(wanted, end)

    def register(self, name):
        """The value of a register's first write, or None."""
        return next((written.word for written in self.values(name)), None)

    @cached_property
    def start(self):
        """The row that starts the controller, or None."""
        return next((written.row for written in self.values('usbcmd') if written.word & 3 == 1), None)
