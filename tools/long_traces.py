#!/usr/bin/env python3
"""Writes a long trace that is accepted: long_traces.py KIND FILE [LINES]

FILE, standard output where it is `-`, gets about LINES lines, 1,046,000 where that is left out. Lines are written as they are made. KIND
says what most rows are:

    ring       No Ops on one ring of 64 segments of 4,096 blocks, declared, given, reported, and their events read
    four       the same, in turn on four rings of 16 blocks, with a doorbell and a write of ERDP each
    rings      the same, in turn on 250 rings of 16 blocks
    laps       the same on one ring of 64 segments of 4 blocks, one lap after another
    contexts   Evaluate Context commands, each with an input context of its own among 64
    areas      the same, beside 250 rings of 64 segments
    devices    slots that are enabled, addressed and disabled: 31 by turns
    devices40  the same of 40, of which 20 by turns have a device context that overlaps two of the others'
    bound      No Ops on one ring, while 252 Configure Endpoint commands are unfinished, which each add one endpoint: they fail in turn, and are given again
    bound30    the same while 8 are unfinished, which each add 30
    moves      Set TR Dequeue commands, each past a block that was given on a ring of 64 segments
    soiled     writes to words that a controller has soiled
    cancels    Normal TRBs, eight at a time, of which the last seven are withdrawn once the endpoint is stopped (version 3)
    rounds     as `four`, with an Event Ring of 64 TRBs (version 3): the rows are the same again and again, so that a trace of millions is made at once
    comes      No Ops on one ring after the other, 250 in all, each of which comes for an endpoint and goes with it, in the same memory (version 3)
    linux      TDs of one to three TRBs, in turn on seven rings of two pages side by side, as Linux gives and reads them: all words are stored, and USBSTS
               and ERDP are written for each event (version 3)
    tds        TDs of 256 TRBs on one ring of 64 segments of 4,096 TRBs, given in the same way (version 3)
    long       TDs of 1,000 TRBs on one ring of eight pages side by side, given in the same way (version 4)
    sound      isochronous TDs of one TRB, eight at a time on a ring of two pages, given in the same way, of which one is missed and one fails (version 4)
    values     TDs of a Normal and an Event Data TRB, 32 at a time on a ring of two pages, given in the same way, each told by its value (version 4)
"""
import io, sys

import long_replays
from long_replays import (ADDRESS_DEVICE, CHAIN, COMMAND_COMPLETION, CONFIGURE_ENDPOINT, CONTEXTS, DCBAAP, ENABLE_SLOT, EVENT, FIRST_RING, NO_OP, SEGMENT, SET_TR_DEQUEUE, STOP_ENDPOINT, TRANSFER_EVENT, Ring)

DISABLE_SLOT, EVALUATE_CONTEXT = 10, 13
NORMAL, ISOCH, EVENT_DATA = 1 << 10, 5 << 10, 7 << 10
ED = 1 << 2  # in a Transfer Event: it tells the value of an Event Data TRB
COMING = 250  # rings: a trace may name 256
PAGE = 0x1000
IOC = 1 << 5


class Run(long_replays.Run):
    """A run with rings of some blocks, and ERDP written behind each few events. Its rows are written to a file as they come, and kept nowhere."""

    def __init__(self, file, rings, segments, blocks, erdp_after=65536, version=1):
        super().__init__(0, 0)
        self.file, self.count, self.version = file, 0, version
        self.rings = [self.ring(number, segments, blocks, 0x8000_0000 + number * segments * SEGMENT) for number in range(rings)]
        self.erdp_after = erdp_after

    def ring(self, number, segments, blocks, base):
        return Ring(self, FIRST_RING + number, base, segments, blocks)

    def row(self, line):
        """The header stands before the first row: it has the rings that are known then."""
        if self.count == 0:
            declared = [ring.declaration() for ring in (self.commands, self.events, *self.rings)]
            self.file.writelines(line + '\n' for line in (f'xtrace {self.version}', 'ctx 20', *declared))
        self.file.write(line + '\n')
        self.count += 1

    def step(self, line):
        """What the controller does stands in no trace."""

    def post(self, step, address, code, low):
        words = '%08x %08x %08x %08x' % (address & 0xffffffff, address >> 32, code << 24, low | self.events.cycle(self.events.enqueued))
        self.row(f'ev {words}')
        self.events.enqueued += 1
        if self.events.enqueued % self.erdp_after == 0:
            self.row('reg erdp %016x' % self.events.address(self.events.enqueued))

    def command(self, kind, slot, pointer=0, endpoint=0, done_slot=None):
        super().command(kind, slot, pointer, endpoint, done_slot)
        if self.commands.taken % 4096 == 0:
            self.row('db 00 00')

    def failed(self, slot):
        """The next command fails, which is for this slot."""
        self.post('finish', self.commands.take(), 4, slot << 24 | COMMAND_COMPLETION << 10)

    def fails(self, kind, slot, pointer):
        """Gives a command that fails."""
        self.give_command(kind, slot, pointer)
        self.failed(slot)


def on_rings(file, rings, segments, blocks, lines, rung, erdp_after):
    run = Run(file, rings, segments, blocks, erdp_after)
    run.start()
    holders = run.bind_all()
    while run.count < lines:
        for slot, index, ring in holders:
            ring.give((0, 0, 0, NO_OP | 1 << 5))
            if rung:
                run.row('db %02x %02x' % (slot, index))
            run.report(ring.take(), slot, index)


def contexts(file, rings, segments, blocks, lines):
    run = Run(file, rings, segments, blocks)
    run.start()
    slot = run.bind_all()[0][0]
    at = [CONTEXTS + 0x100_0000 + number * 0x1000 for number in range(64)]
    for address in at:
        run.write(address + 4, 2)
    while run.count < lines:
        for address in at:
            run.command(EVALUATE_CONTEXT, slot, address)


def devices(file, lines):
    run = Run(file, 0, 0, 0)
    run.rings = [run.ring(number, 1, 16, 0x8000_0000 + number * SEGMENT) for number in range(31)]
    bound = run.rings[:]
    fresh = FreshRings(run, range(1, 32))
    run.start()
    # Address Device that fails takes a device context too, and binds no ring
    for slot in range(1, 32):
        run.new_slot()
    inputs = [run.input_context(slot, [bound[slot - 1]], 1) for slot in range(1, 32)]
    for slot in range(1, 32):
        run.command(ADDRESS_DEVICE, slot, inputs[slot - 1])
    while run.count < lines:
        for slot in range(1, 32):
            run.command(DISABLE_SLOT, slot)
            run.command(9, 0, done_slot=slot)
            run.fails(ADDRESS_DEVICE, slot, fresh.context(slot))


class FreshRings:
    """For each of some slots a ring which nothing was bound to, and an input context that names it."""

    def __init__(self, run, slots):
        self.run, self.rings = run, {slot: run.ring(31 + slot, 1, 16, 0x9000_0000 + slot * SEGMENT) for slot in slots}
        run.rings += self.rings.values()

    def context(self, slot):
        at = CONTEXTS + 0x100_0000 + slot * 0x1000
        if self.run.memory.get(at + 4) is None:
            self.run.write(at + 4, 3)
            self.run.write(at + 32 * 2 + 4, 4 << 3)
            self.run.write(at + 32 * 2 + 8, self.rings[slot].bases[0] & 0xffffffff | 1)
        return at


def devices40(file, lines):
    run = Run(file, 0, 0, 0)
    turns = [range(first, 41, 2) for first in (1, 2)]
    fresh = FreshRings(run, [slot for turn in turns for slot in turn])
    run.start()
    while run.count < lines:
        for turn in turns:
            for slot in turn:
                run.command(ENABLE_SLOT, 0, done_slot=slot)
                run.write(DCBAAP + 8 * slot, (CONTEXTS + slot * 0x200) & 0xffffffff)
                run.write(DCBAAP + 8 * slot + 4, CONTEXTS >> 32)
                run.fails(ADDRESS_DEVICE, slot, fresh.context(slot))
            for slot in turn:
                run.command(DISABLE_SLOT, slot)


def bound(file, commands, added, lines):
    run = Run(file, 1 + commands * added, 1, 16)
    run.start()
    ring, *others = run.rings
    slot = run.new_slot()
    run.command(ADDRESS_DEVICE, slot, run.input_context(slot, [ring], 1))
    run.row('db %02x 01' % slot)
    unfinished = []
    for first in range(0, commands * added, added):
        waiting = run.new_slot()
        unfinished.append((waiting, run.input_context(waiting, others[first:first + added], 2)))
    for waiting, context in unfinished:
        run.give_command(CONFIGURE_ENDPOINT, waiting, context)
    while run.count < lines:
        for waiting, context in unfinished:
            run.failed(waiting)
            run.give_command(CONFIGURE_ENDPOINT, waiting, context)
            ring.give((0, 0, 0, NO_OP | 1 << 5))
            run.report(ring.take(), slot, 1)


def moves(file, lines):
    run = Run(file, 1, 64, 4096)
    run.start()
    (slot, index, ring), = run.bind_all()
    run.stop(slot, index, ring)
    while run.count < lines:
        ring.give((0, 0, 0, NO_OP | 1 << 5))
        if ring.enqueued % ring.data:
            run.command(SET_TR_DEQUEUE, slot, ring.address(ring.enqueued) | ring.cycle(ring.enqueued), index)


def soiled(file, lines):
    run = Run(file, 1, 1, 16)
    fresh = FreshRings(run, [1])
    bound = run.rings[:1]
    run.start()
    slot = run.new_slot()
    run.command(ADDRESS_DEVICE, slot, run.input_context(slot, bound, 1))
    run.row('db %02x 01' % slot)
    context = CONTEXTS + slot * SEGMENT
    while run.count < lines:
        run.command(DISABLE_SLOT, slot)
        for number in range(256):
            run.write(context + 4 * number, 0)
        run.command(9, 0, done_slot=slot)
        run.fails(ADDRESS_DEVICE, slot, fresh.context(slot))


def cancels(file, lines):
    run = Run(file, 1, 4, 16, 1, 3)
    run.start()
    (slot, index, ring), = run.bind_all()
    while run.count < lines:
        first = ring.enqueued
        for number in range(8):
            ring.give((number << 12, 0, 512, NORMAL | 1 << 5))
        run.row('db %02x %02x' % (slot, index))
        run.give_command(STOP_ENDPOINT, slot, 0, index)
        run.commands.take()
        run.report(ring.address(first), slot, index, 27)
        run.post('finish', run.commands.address(run.commands.taken - 1), 1, slot << 24 | COMMAND_COMPLETION << 10)
        run.row('db 00 00')
        for position in range(first + 1, ring.enqueued):
            run.row('nop %02x %016x' % (ring.ring, position))
            run.write_block(ring.address(position), (0, 0, 0, NO_OP | ring.cycle(position)))
        run.row('db %02x %02x' % (slot, index))
        run.report(ring.address(ring.enqueued - 1), slot, index)


def rounds(file, lines):
    run = Run(file, 4, 1, 16, 1, 3)
    run.events = Ring(run, EVENT, run.events.bases[0], 1, 64)
    run.start()
    holders = run.bind_all()
    turns = 480  # both laps of each ring, and of the Event Ring

    def once():
        for _ in range(turns):
            for slot, index, ring in holders:
                ring.give((0, 0, 0, NO_OP | 1 << 5))
                run.row('db %02x %02x' % (slot, index))
                run.report(ring.take(), slot, index)

    once()
    before, run.file = run.count, io.StringIO()
    once()
    rows, text = run.count - before, run.file.getvalue()
    for _ in range(max(0, (lines - before) // rows)):
        file.write(text)


def comes(file, lines):
    run = Run(file, 1, 1, 16, 1, 3)
    run.start()
    (slot, _, _), = run.bind_all()
    context = CONTEXTS + slot * SEGMENT + 0x8000
    for number in range(COMING):
        ring = run.ring(1 + number, 2, 256, 0x9000_0000)
        run.row(ring.declaration())
        configured(run, slot, run.input_context(slot, [ring], 3), 0)
        run.row('db %02x 03' % slot)
        while run.count < lines * (number + 1) // COMING:
            ring.give((0, 0, 0, NO_OP | 1 << 5))
            run.report(ring.take(), slot, 3)
        configured(run, slot, context, 1 << 3)
        run.row(f'free {ring.ring:02x}')
        cleared(run, ring)


class WordRing(Ring):
    """A ring as Linux fills it: each word is stored, and the first TRB's control word with the other Cycle bit, until all else stands."""

    def give(self, *blocks):
        words = ' '.join('%08x' % word for block in blocks for word in block)
        self.run.row(f'sub {self.ring:02x} {words}')
        first = self.enqueued
        for block in blocks:
            if self.is_crossed(self.enqueued):
                self.give_link(self.enqueued)
            at, cycle = self.address(self.enqueued), self.cycle(self.enqueued) ^ (self.enqueued == first)
            for number, word in enumerate((*block[:3], block[3] | cycle)):
                self.run.write(at + 4 * number, word)
            self.enqueued += 1
        self.run.write(self.address(first) + 12, blocks[0][3] | self.cycle(first))
        return at


def normal_td(trbs):
    """A TD of so many Normal TRBs, of which the last interrupts."""
    return [(number * PAGE, 0, PAGE, NORMAL | (CHAIN if number + 1 < trbs else IOC)) for number in range(trbs)]


def on_word_rings(file, rings, segments, blocks, apart, sizes, lines, version=3):
    """TDs of these sizes in turn, on rings whose segments lie so far apart."""
    run = Run(file, 0, 0, 0, 1, version)
    run.rings = [WordRing(run, FIRST_RING + number, 0x8000_0000 + number * segments * apart, segments, blocks, apart) for number in range(rings)]
    run.start()
    holders, given = run.bind_all(), 0
    while run.count < lines:
        for slot, index, ring in holders:
            at = ring.give(*normal_td(sizes[given % len(sizes)]))
            run.row('db %02x %02x' % (slot, index))
            run.row('reg usbsts 0000000000000008')
            run.report(at, slot, index)
            given += 1


def sound(file, lines):
    """The events of a missed TD and of one that fails stop nothing; what was missed comes back with the event behind it."""
    run = Run(file, 0, 0, 0, 1, 4)
    run.type_above_control = 1
    run.rings = [WordRing(run, FIRST_RING + number, 0x8000_0000 + number * 2 * PAGE, 2, 256, PAGE) for number in range(2)]
    run.start()
    slot, index, ring = run.bind_all()[1]
    while run.count < lines:
        given = [ring.give((number * PAGE, 0, 192, ISOCH | IOC)) for number in range(8)]
        run.row('db %02x %02x' % (slot, index))
        for at, code in zip(given, (1, 1, 23, 1, 4, 1, 1, 1)):
            run.report(at, slot, index, code)


def values(file, lines):
    """Each TD has a value of its own, as a driver that names its requests so."""
    run = Run(file, 0, 0, 0, 1, 4)
    run.rings = [WordRing(run, FIRST_RING, 0x8000_0000, 2, 256, PAGE)]
    run.start()
    [(slot, index, ring)] = run.bind_all()
    value = 0xffff_8880_0000_0000
    while run.count < lines:
        told = [value + 0x100 * number for number in range(32)]
        for word in told:
            ring.give((0, 0, PAGE, NORMAL | CHAIN), (word & 0xffffffff, word >> 32, 0, EVENT_DATA | IOC))
        run.row('db %02x %02x' % (slot, index))
        for word in told:
            run.post('report', word, 1, slot << 24 | index << 16 | TRANSFER_EVENT << 10 | ED)
        value += 0x2000


def configured(run, slot, context, dropped):
    """A Configure Endpoint, which drops these endpoints where there are some."""
    if dropped:
        run.write(context, dropped)
    run.command(CONFIGURE_ENDPOINT, slot, context)
    run.row('db 00 00')


def cleared(run, ring):
    """The control words of a ring that is gone, Links too, that show the Cycle bit of the first lap."""
    for base in ring.bases:
        for control in range(base + 12, base + 16 * ring.blocks, 16):
            if run.memory.get(control, 0) % 2 == 1:
                run.write(control, 0)


KINDS = {'ring': lambda file, lines: on_rings(file, 1, 64, 4096, lines, False, 65536), 'four': lambda file, lines: on_rings(file, 4, 1, 16, lines, True, 1),
         'rings': lambda file, lines: on_rings(file, 250, 1, 16, lines, True, 1), 'laps': lambda file, lines: on_rings(file, 1, 64, 4, lines, True, 1),
         'contexts': lambda file, lines: contexts(file, 1, 1, 4096, lines), 'areas': lambda file, lines: contexts(file, 250, 64, 16, lines),
         'devices': devices, 'devices40': devices40, 'bound': lambda file, lines: bound(file, 252, 1, lines),
         'bound30': lambda file, lines: bound(file, 8, 30, lines), 'moves': moves, 'soiled': soiled, 'cancels': cancels, 'rounds': rounds, 'comes': comes,
         'linux': lambda file, lines: on_word_rings(file, 7, 2, 256, PAGE, (1, 2, 3), lines), 'tds': lambda file, lines: on_word_rings(file, 1, 64, 4096, SEGMENT, (256,), lines),
         'long': lambda file, lines: on_word_rings(file, 1, 8, 256, PAGE, (1000,), lines, 4), 'sound': sound, 'values': values}


def main(words):
    if len(words) not in (2, 3) or words[0] not in KINDS:
        print(__doc__)
        return 2
    lines = int(words[2]) if len(words) == 3 else 1046000
    if words[1] == '-':
        KINDS[words[0]](sys.stdout, lines)
    else:
        with open(words[1], 'w') as file:
            KINDS[words[0]](file, lines)
    return 0


if __name__ == '__main__':
    sys.exit(main(sys.argv[1:]))
