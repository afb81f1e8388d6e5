#!/usr/bin/env python3
"""Writes a long trace and a schedule beside it: long_replays.py KIND FOLDER [STEPS]

FOLDER gets the files `trace` and `schedule`, the latter of about STEPS steps, a million where that is left out; a replay of them ends
with `no harm`. KIND says what most steps are:

    waits      looks that wait, while a command with an input context is under way
    writes     rows that write words far off, while such a command is under way
    rewrites   rows that write that command's control word again
    takes      descriptors on one ring of 64 segments, declared, given, taken, and reported once a lap
    reports    the same, each reported and its event read at once
    rings      the same, in turn on 250 rings
    inside     looks that wait, while 250 rings are within a descriptor
    moves      Set TR Dequeue commands, which move one ring of 64 segments to and fro
    scribs     words that the controller writes to the device context of a slot, one after the other
    configures Configure Endpoint commands, each of which drops 30 endpoints and adds them again (version 3)
"""
import os, sys

COMMAND, EVENT, FIRST_RING = 0, 1, 2
DCBAAP, SEGMENT_TABLE, CONTEXTS, FAR = 0x1_0000_0000, 0x1_0001_0000, 0x2_0000_0000, 0x4_0000_0000
SEGMENT = 0x10000
NO_OP, LINK = 8 << 10, 6 << 10
ENABLE_SLOT, ADDRESS_DEVICE, CONFIGURE_ENDPOINT, STOP_ENDPOINT, SET_TR_DEQUEUE = 9, 11, 12, 15, 16
TRANSFER_EVENT, COMMAND_COMPLETION = 32, 33
CHAIN = 1 << 4


class Ring:
    """A ring with its Links, as a driver fills it."""

    def __init__(self, run, ring, base, segments, blocks, apart=SEGMENT):
        self.run, self.ring = run, ring
        self.bases = [base + apart * segment for segment in range(segments)]
        self.blocks = blocks
        self.data = blocks - (ring != EVENT)
        self.places = segments * self.data
        self.enqueued = self.taken = 0

    def declaration(self):
        kind = {COMMAND: 'cmd', EVENT: 'evt'}.get(self.ring, 'xfer')
        return f'ring {self.ring:02x} {kind} ' + ' '.join('%016x:%04x' % (base, self.blocks) for base in self.bases)

    def address(self, position):
        place = position % self.places
        return self.bases[place // self.data] + 16 * (place % self.data)

    def cycle(self, position):
        return 1 - position // self.places % 2

    def is_crossed(self, position):
        """Whether a Link is followed on the way to a position."""
        return position > 0 and position % self.data == 0

    def give_link(self, position):
        segment = (position - 1) % self.places // self.data
        at = self.bases[segment] + 16 * self.data
        toggles = segment + 1 == len(self.bases)
        target = self.bases[(segment + 1) % len(self.bases)]
        self.run.write_block(at, (target & 0xffffffff, target >> 32, 0, LINK | toggles << 1 | self.cycle(position - 1)))

    def give(self, *blocks):
        """Declares a descriptor and gives its blocks, in their order; the address of the last one."""
        words = ' '.join('%08x' % word for block in blocks for word in block)
        self.run.row(f'sub {self.ring:02x} {words}')
        for block in blocks:
            if self.is_crossed(self.enqueued):
                self.give_link(self.enqueued)
            at = self.address(self.enqueued)
            self.run.write_block(at, (*block[:3], block[3] | self.cycle(self.enqueued)))
            self.enqueued += 1
        return at

    def look(self):
        self.run.step(f'look {self.ring:02x}')

    def take(self):
        """The next block is taken; its address."""
        if self.is_crossed(self.taken):
            self.look()
        self.look()
        self.taken += 1
        return self.address(self.taken - 1)


class Run:
    """The rows of a trace, and the steps beside them."""

    version = 1
    type_above_control = 4  # the EP Type of the endpoints behind the first one

    def __init__(self, rings, segments):
        self.rows, self.steps, self.memory = [], [], {}
        self.commands = Ring(self, COMMAND, 0x1000_0000, 1 if rings > 1 else 8, 4096)
        self.events = Ring(self, EVENT, 0x2000_0000, 64, 4096)
        self.rings = [Ring(self, FIRST_RING + number, 0x8000_0000 + number * segments * SEGMENT, segments, 4096) for number in range(rings)]
        self.slots = self.bindings = 0

    def row(self, line):
        self.rows.append(line)
        self.steps.append('row')

    def step(self, line):
        self.steps.append(line)

    def write(self, at, word):
        self.memory[at] = word
        self.row('w %016x %08x' % (at, word))

    def write_block(self, at, words):
        """Writes what differs of the first three words, and then the control word."""
        for number, word in enumerate(words[:3]):
            if self.memory.get(at + 4 * number, 0) != word:
                self.write(at + 4 * number, word)
        self.write(at + 12, words[3])

    def start(self):
        for segment, base in enumerate(self.events.bases):
            self.write(SEGMENT_TABLE + 16 * segment, base & 0xffffffff)
            self.write(SEGMENT_TABLE + 16 * segment + 8, self.events.blocks)
        for name, value in (('erstsz', len(self.events.bases)), ('erstba', SEGMENT_TABLE), ('erdp', self.events.bases[0]),
                            ('crcr', self.commands.bases[0] | 1), ('dcbaap', DCBAAP), ('config', 255), ('usbcmd', 1)):
            self.row('reg %s %016x' % (name, value))
        self.row('db 00 00')

    def post(self, step, address, code, low):
        """Posts an event, which the driver reads at once."""
        words = '%08x %08x %08x %08x' % (address & 0xffffffff, address >> 32, code << 24, low | self.events.cycle(self.events.enqueued))
        self.step(f'{step} {words}')
        self.row(f'ev {words}')
        self.events.enqueued += 1
        if self.events.enqueued % 65536 == 0:
            self.row('reg erdp %016x' % self.events.address(self.events.enqueued))

    def give_command(self, kind, slot, pointer=0, endpoint=0):
        return self.commands.give((pointer & 0xffffffff, pointer >> 32, 0, slot << 24 | endpoint << 16 | kind << 10))

    def command(self, kind, slot, pointer=0, endpoint=0, done_slot=None):
        """Gives a command, which is taken and finished."""
        self.give_command(kind, slot, pointer, endpoint)
        at = self.commands.take()
        self.post('finish', at, 1, (slot if done_slot is None else done_slot) << 24 | COMMAND_COMPLETION << 10)

    def report(self, at, slot, endpoint, code=1):
        self.post('report', at, code, slot << 24 | endpoint << 16 | TRANSFER_EVENT << 10)

    def stop(self, slot, endpoint, ring):
        """A Stop Endpoint is given, taken and finished, with nothing taken of the ring."""
        self.give_command(STOP_ENDPOINT, slot, 0, endpoint)
        self.commands.take()
        self.report(ring.address(0), slot, endpoint, 27)
        self.post('finish', self.commands.address(self.commands.taken - 1), 1, slot << 24 | COMMAND_COMPLETION << 10)

    def new_slot(self):
        self.slots += 1
        self.command(ENABLE_SLOT, 0, done_slot=self.slots)
        self.write(DCBAAP + 8 * self.slots, (CONTEXTS + self.slots * SEGMENT) & 0xffffffff)
        self.write(DCBAAP + 8 * self.slots + 4, (CONTEXTS + self.slots * SEGMENT) >> 32)
        return self.slots

    def input_context(self, slot, rings, first, drops=False):
        """An input context that adds endpoints from an index on with these rings, and drops them first, where that is asked."""
        at = CONTEXTS + slot * SEGMENT + 0x4000 + first * 0x1000
        flags = 1
        for number, ring in enumerate(rings):
            index = first + number
            flags |= 1 << index
            self.write(at + 32 * (index + 1) + 4, (4 if index == 1 else self.type_above_control) << 3)
            self.write(at + 32 * (index + 1) + 8, ring.bases[0] & 0xffffffff | 1)
            if ring.bases[0] >> 32:
                self.write(at + 32 * (index + 1) + 12, ring.bases[0] >> 32)
        if drops:
            self.write(at, flags - 1)
        self.write(at + 4, flags)
        return at

    def bind_all(self):
        """Each ring gets an endpoint, whose doorbell rings; who has it."""
        holders, left = [], self.rings
        while left:
            slot = self.new_slot()
            self.command(ADDRESS_DEVICE, slot, self.input_context(slot, left[:1], 1))
            if left[1:]:
                self.command(CONFIGURE_ENDPOINT, slot, self.input_context(slot, left[1:31], 2))
            for number, ring in enumerate(left[:31]):
                holders.append((slot, number + 1, ring))
                self.row('db %02x %02x' % (slot, number + 1))
            left = left[31:]
        return holders

    def begin_command(self):
        """A command with an input context is taken, and stays under way; the address of its control word."""
        slot = self.new_slot() if self.rings else 1
        at = self.give_command(ADDRESS_DEVICE, slot, self.input_context(slot, self.rings[:1], 1))
        self.commands.take()
        return at + 12

    def save(self, folder):
        declared = [ring.declaration() for ring in (self.commands, self.events, *self.rings)]
        for name, lines in (('trace', [f'xtrace {self.version}', 'ctx 20', *declared, *self.rows]), ('schedule', ['xsched 1', *self.steps])):
            with open(os.path.join(folder, name), 'w') as file:
                file.writelines(line + '\n' for line in lines)


def waits(steps):
    run = Run(0, 0)
    run.start()
    run.begin_command()
    while len(run.steps) < steps:
        run.commands.look()
    return run


def writes(steps):
    run = Run(0, 0)
    run.start()
    run.begin_command()
    at = FAR
    while len(run.steps) < steps:
        run.write(at, 1)
        at += 4
    return run


def rewrites(steps):
    run = Run(0, 0)
    run.start()
    at = run.begin_command()
    while len(run.steps) < steps:
        run.write(at, run.memory[at])
    return run


def takes(steps):
    run = Run(1, 64)
    run.start()
    (slot, index, ring), = run.bind_all()
    while len(run.steps) < steps:
        ring.give((0, 0, 0, NO_OP | 1 << 5))
        at = ring.take()
        if ring.taken % ring.places == 0:
            run.report(at, slot, index)
    return run


def on_rings(rings, segments, steps):
    run = Run(rings, segments)
    run.start()
    holders = run.bind_all()
    while len(run.steps) < steps:
        for slot, index, ring in holders:
            ring.give((0, 0, 0, NO_OP | 1 << 5))
            run.report(ring.take(), slot, index)
    return run


def inside(steps):
    run = Run(250, 1)
    run.start()
    for slot, index, ring in run.bind_all():
        ring.give((0, 0, 0, NO_OP | CHAIN), (0, 0, 0, NO_OP | 1 << 5))
        ring.take()
    while len(run.steps) < steps:
        run.commands.look()
    return run


def moves(steps):
    run = Run(1, 64)
    run.start()
    (slot, index, ring), = run.bind_all()
    run.stop(slot, index, ring)
    while len(run.steps) < steps:
        for place in (ring.places - 1, 0):
            run.command(SET_TR_DEQUEUE, slot, ring.address(place) | 1, index)
    return run


def scribs(steps):
    run = Run(1, 1)
    run.start()
    (slot, _, _), = run.bind_all()
    while len(run.steps) < steps:
        for number in range(256):
            run.step('scrib %016x %08x' % (CONTEXTS + slot * SEGMENT + 4 * number, len(run.steps)))
    return run


def configures(steps):
    run = Run(31, 1)
    run.version = 3
    run.start()
    slot = run.bind_all()[0][0]
    again = run.input_context(slot, run.rings[1:], 2, drops=True)
    while len(run.steps) < steps:
        run.command(CONFIGURE_ENDPOINT, slot, again)
    return run


KINDS = {'waits': waits, 'writes': writes, 'rewrites': rewrites, 'takes': takes, 'reports': lambda steps: on_rings(1, 64, steps),
         'rings': lambda steps: on_rings(250, 1, steps), 'inside': inside, 'moves': moves, 'scribs': scribs, 'configures': configures}


def main(words):
    if len(words) not in (2, 3) or words[0] not in KINDS:
        print(__doc__)
        return 2
    run = KINDS[words[0]](int(words[2]) if len(words) == 3 else 1000000)
    run.save(words[1])
    return 0


if __name__ == '__main__':
    sys.exit(main(sys.argv[1:]))
