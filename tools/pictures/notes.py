"""What a fold holds, in the standard's words: TDs and laps by ring, commands and events. Counted in one pass over its rows."""
from collections import Counter

# each of so many rings has its own numbers, so many are named, and more are counted
MOST_APART, MOST_NAMED, LEAST_LAPS = 2, 4, 2
# in a `sub` row a TRB is four words, each with a space before it
TRB_LENGTH = 36
OTHER_ROWS = ((b'w', 'write of memory', 'writes of memory'), (b'reg', 'write of a register', 'writes of registers'), (b'rd', 'read of a register', 'reads of registers'), (b'db', 'doorbell', 'doorbells'),
              (b'nop', 'withdrawn TD', 'withdrawn TDs'), (b'ring', 'ring that comes', 'rings that come'), (b'free', 'ring that goes', 'rings that go'))


def note_of(trace, first, last):
    """The note that stands for the rows from one to another."""
    where = f'row {first:,}' if first == last else f'rows {first:,} to {last:,}'
    counts = Counts(trace, first, last)
    set_up = ['set-up'] if trace.start and first < trace.start else []
    told = set_up + counts.work() or counts.other_rows()
    return f'{where}: {", ".join(told)}'


class Counts:
    """How many TDs and TRBs of each ring, and how many rows of other kinds, some rows have."""

    def __init__(self, trace, first, last):
        self.trace, self.begin, self.end = trace, trace.offset(first) - 1, trace.offset(last + 1)
        self.tds, self.trbs = Counter(), Counter()
        submitted = (line for line in trace.lines[first - 1:last] if line.startswith(b'sub '))
        for (ring, length), count in Counter((line[4:6], len(line)) for line in submitted).items():
            self.tds[int(ring, 16)] += count
            self.trbs[int(ring, 16)] += count * (length // TRB_LENGTH)

    def rows(self, word):
        return self.trace.text.count(b'\n%s ' % word, self.begin, self.end)

    def work(self):
        """TDs, commands and events, those that there are."""
        transfers = [ring for ring in sorted(self.tds) if not self.is_commands(ring)]
        commands = [counted(self.tds[ring], 'command', 'commands') + self.laps_text(ring) for ring in sorted(self.tds) if self.is_commands(ring)]
        events = self.rows(b'ev')
        return self.transfers(transfers) + commands + ([counted(events, 'event', 'events')] if events else [])

    def transfers(self, rings):
        if len(rings) <= MOST_APART:
            return [f'{counted(self.tds[ring], "TD", "TDs")} on {self.name(ring)}{self.laps_text(ring)}' for ring in rings]
        numbers, laps = [f'{ring:02x}' for ring in rings], max(map(self.laps, rings))
        names = f'rings {", ".join(numbers[:-1])} and {numbers[-1]}' if len(rings) <= MOST_NAMED else f'{len(rings)} rings'
        told = f'{sum(self.tds[ring] for ring in rings):,} TDs on {names}'
        return [told + (f' (up to {laps:,} laps of a ring)' if laps >= LEAST_LAPS else '')]

    def other_rows(self):
        return [counted(self.rows(word), one, many) for word, one, many in OTHER_ROWS if self.rows(word)]

    def is_commands(self, number):
        ring = self.trace.ring(number)
        return bool(ring) and ring.kind == 'cmd'

    def name(self, number):
        ring = self.trace.ring(number)
        return ring.name if ring else f'ring {number:02x}'

    def laps(self, number):
        """How often the TRBs that were submitted fill the ring's places, of which a Link is none."""
        ring = self.trace.ring(number)
        return self.trbs[number] // ring.place_count if ring and ring.place_count > 0 else 0

    def laps_text(self, number):
        laps, name = self.laps(number), self.name(number) if self.is_commands(number) else 'ring'
        return f' ({laps:,} laps of the {name})' if laps >= LEAST_LAPS else ''


def counted(count, one, many):
    return f'{count:,} {one if count == 1 else many}'
