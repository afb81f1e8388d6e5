"""Long inputs, made in a second or two: traces whose rows repeat, with the schedules that fit them, plans, and traces of very many leases."""
import os
import sys

sys.path.insert(0, os.path.join(os.path.dirname(os.path.abspath(__file__)), '..', '..', 'tools'))

import long_replays
from long_replays import EVENT, FIRST_RING, NO_OP, Ring

MOST_LINES, MOST_STEPS = 1 << 20, 1 << 22
# of a line before its line feed, and of a `sub` row, by the version of a trace; those of a plan are those of version 3
MOST_BYTES, MOST_TRBS = {3: 1 << 14, 4: 10 << 14}, {3: 256, 4: 4096}
# a ring that has room for such a row
ROOM = b'ring 02 xfer 0000000000030000:1000 0000000000040000:1000\n'
# TDs until the rows repeat: two laps of 15 TRBs, and two of 16 events, each of which changes the Cycle bit
PERIOD = 480
SUB = b'sub 02 00000000 00000000 00000000 00002020\n'
PLAN = b'xplan 1\nring 02 xfer 0000000000030000:0004\n'


class Run(long_replays.Run):
    """A run with one ring of 16 TRBs and an event ring of 16, and ERDP written behind each eighth event."""

    def __init__(self):
        super().__init__(0, 0)
        self.events = Ring(self, EVENT, 0x2000_0000, 1, 16)
        self.rings = [Ring(self, FIRST_RING, 0x8000_0000, 1, 16)]

    def post(self, step, address, code, low):
        super().post(step, address, code, low)
        if self.events.enqueued % 8 == 0:
            self.row('reg erdp %016x' % self.events.address(self.events.enqueued))

    def head(self):
        return ''.join(line + '\n' for line in ('xtrace 1', 'ctx 20', *(ring.declaration() for ring in (self.commands, self.events, *self.rings))))

    def report_some(self, slot, index, count):
        """So many TDs, each given, taken, reported, and its event read."""
        ring, = self.rings
        for _ in range(count):
            ring.give((0, 0, 0, NO_OP | 1 << 5))
            self.report(ring.take(), slot, index)


def pieces_of(run):
    """Each row as a line, and beside it the lines of the steps behind the row before, the row's own last."""
    steps = [[]]
    for step in run.steps:
        steps[-1].append(step + '\n')
        if step == 'row':
            steps.append([])
    return [(row.encode() + b'\n', ''.join(its).encode()) for row, its in zip(run.rows, steps)]


def repeating():
    """What a trace begins with, and rows that can stand behind it any number of times; with each row its steps."""
    run = Run()
    run.start()
    (slot, index, _), = run.bind_all()
    # in the first laps the Links' pointers are written too
    run.report_some(slot, index, PERIOD)
    start = len(run.rows)
    run.report_some(slot, index, PERIOD)
    pieces = pieces_of(run)
    return run.head().encode(), pieces[:start], pieces[start:]


def trace_of(lines):
    """A trace of so many lines, and its lazy schedule."""
    head, start, unit = repeating()
    wanted = lines - head.count(b'\n') - len(start)
    times, rest = divmod(wanted, len(unit))
    texts = (b''.join(row for row, _ in start), b''.join(steps for _, steps in start))
    units = (b''.join(row for row, _ in unit), b''.join(steps for _, steps in unit))
    ends = (b''.join(row for row, _ in unit[:rest]), b''.join(steps for _, steps in unit[:rest]))
    trace, schedule = (text + one * times + end for text, one, end in zip(texts, units, ends))
    return head + trace, b'xsched 1\n' + schedule


def leased(tds):
    """A trace of so many TDs of 255 TRBs, at most 1,023 on a ring, which are all given and stay the controller's."""
    rings = range(2, 3 + (tds - 1) // 1023)
    lines = [b'xtrace 1', b'ctx 20']
    for ring in rings:
        lines.append(b'ring %02x xfer ' % ring + b' '.join(b'%016x:0ff1' % (ring << 32 | segment << 16) for segment in range(64)))
    blocks = b' '.join([b'00000000 00000000 00000000 00000410'] * 254)
    for number in range(tds):
        ring, place = 2 + number // 1023, number % 1023
        base = ring << 32 | place // 16 << 16 | place % 16 * 255 * 16
        lines.append(b'sub %02x %s 00000000 00000000 00000000 00000420' % (ring, blocks))
        lines.extend(b'w %016x 00000411' % (base + 16 * block + 12) for block in range(1, 254))
        lines.append(b'w %016x 00000421' % (base + 16 * 254 + 12))
        lines.append(b'w %016x 00000411' % (base + 12))
    return b''.join(line + b'\n' for line in lines)


def declaration(trbs):
    """A `sub` row of so many TRBs."""
    return b'sub 02 ' + b'00000000 00000000 00000000 00000410 ' * (trbs - 1) + b'00000000 00000000 00000000 00000420\n'


def longest_lines(version):
    """The longest `sub` row of a version, and a line of as many bytes as it may have; each one longer besides. With each what is told of it, where that is a
    fault."""
    trbs, most = MOST_TRBS[version], MOST_BYTES[version]
    row = lambda count: b'w ' + b'0' * (count - 2) + b'\n'
    return [(declaration(trbs), None), (declaration(trbs + 1), b'4 Limit'), (row(most), b'2 Row'), (row(most + 1), b'4 Limit')]


def plan_of(lines):
    """A plan of so many lines, TDs of one TRB that are reported at once."""
    both = (lines - 2) // 2
    text = PLAN + b''.join(SUB + b'ret %016x\n' % number for number in range(1, both + 1))
    return text + SUB * ((lines - 2) % 2)
