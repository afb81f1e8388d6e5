"""Declares descriptors: finds the row that gives each block (xHCI 4.9.2) and puts a `sub` row before a descriptor's first one."""
from collections import namedtuple

import blocks
from commands import placed_by
from registers import RESET
from rows import MOST_BLOCKS, Row

# Where the rows have to end: the first row that gives a block of a descriptor that can't be declared; and why
Left = namedtuple('Left', 'row why')


class Producer:
    """What is known of one ring while the rows pass: the blocks that were given, by position, the floor, and what was withdrawn."""

    def __init__(self, ring, version):
        self.ring, self.floor, self.given, self.version, self.most = ring, 0, {}, version, MOST_BLOCKS[version]
        self.withdrawn, self.withdrawals = set(), []  # positions; pairs of a row number and a descriptor's first position
        self.latest = []  # numbers of the rows that are version 4's: a descriptor withdrawn midway, a Link that loses its Chain bit beside a withdrawn block

    def write(self, number, at, words):
        """A write of the control word of the block at `at`: gives its current position where the Cycle bit is that one's."""
        position = self.ring.least(at, self.floor)
        if at in self.ring.place and position not in self.given and blocks.cycle(words) == self.ring.cycle(position):
            self.given[position] = (number, words)

    def changed(self, number, at):
        """A word of the block at `at` is changed while its endpoint is stopped: where the controller has the block, its descriptor is withdrawn."""
        position = self.ring.least(at, self.floor) if at in self.ring.place else None
        if position not in self.given or position in self.withdrawn:
            return
        positions = self.descriptor_with(position)
        if not positions or positions[0] < self.floor and self.version < 4:
            return
        self.withdrawn.update(positions)
        self.withdrawals.append((number, positions[0]))
        if positions[0] < self.floor:
            self.latest.append(number)

    def unchains(self, number, at, word):
        """The Chain bit alone of a Link's word is cleared while its endpoint is stopped: told where the controller has it and a block beside it is withdrawn."""
        crossing = self.ring.least(at, self.floor) if at in self.ring.crossing else None
        if crossing is not None and word & 1 == self.ring.cycle(crossing - 1) and not self.withdrawn.isdisjoint((crossing - 1, crossing)):
            self.latest.append(number)

    def descriptor_with(self, position):
        """The positions of the descriptor that has a given one; None where it wasn't given whole."""
        first = last = position
        while first - 1 in self.given and blocks.chained(self.given[first - 1][1]):
            first -= 1
        while last in self.given and blocks.chained(self.given[last][1]):
            last += 1
        return list(range(first, last + 1)) if last in self.given else None

    def passed(self, at, beyond):
        """The controller was at the block at `at`, or beyond it."""
        if at in self.ring.place or at in self.ring.crossing:
            self.floor = self.ring.least(at, self.floor) + (1 if beyond and at in self.ring.place else 0)

    def told(self, event):
        """The controller passed the block that an event names by its value: the first one from the floor on."""
        position = self.floor
        while position in self.given and (position in self.withdrawn or not blocks.has_value(self.given[position][1], event)):
            position += 1
        self.floor = position + 1 if position in self.given else self.floor

    def moved(self, at, cycle):
        if at not in self.ring.place and at not in self.ring.crossing:
            return
        position = self.ring.least(at, self.floor)
        of = position if at in self.ring.place else position - 1
        self.floor = position if self.ring.cycle(of) == cycle else position + len(self.ring.data)

    def descriptors(self):
        """Lists of (row number, words) in order; and what has to be left out behind them, or None."""
        whole, open_one, position = [], [], 0
        while position in self.given:
            open_one.append(self.given[position])
            position += 1
            if not blocks.chained(open_one[-1][1]) or self.ring.kind == 'cmd':
                if len(open_one) > self.most:
                    break
                whole.append(open_one)
                open_one = []
        left = open_one + [given for place, given in self.given.items() if place >= position]
        return whole, Left(min(number for number, words in left), why_left(open_one, self.most)) if left else None


def why_left(descriptor, most):
    """Why no `sub` row says this descriptor, of which these blocks were given."""
    if len(descriptor) <= most:
        return 'a TD was not given whole'
    least = 'at least ' if blocks.chained(descriptor[-1][1]) else ''
    return f'a TD has {least}{len(descriptor)} TRBs, and a `sub` row may have {most}'


class Follower:
    """Follows rows: which rings are there, which endpoints have stopped, and what is given and withdrawn on each ring."""

    def __init__(self, rings, commands, version):
        self.producers = [Producer(ring, version) for ring in rings if ring.kind != 'evt']
        self.by_ring = {producer.ring: producer for producer in self.producers}
        self.by_completion = {command.read: command for command in commands if command.read}
        self.owner = {}       # by the address of a block: the producer
        self.memory = {}
        self.stopped = set()  # slots and DCIs
        for producer in self.producers:
            if producer.ring.comes is None:
                self.come(producer)

    def come(self, producer):
        self.owner.update((at, producer) for at in producer.ring.data + producer.ring.links)

    def row(self, number, row):
        if row.kind == 'w':
            self.store(number, row)
        elif row.kind == 'ev':
            self.read_event(row)
        elif row.kind == 'db':
            self.stopped.discard(row.fields)
        elif row.kind == 'reg' and row.fields[0] == 'usbcmd' and row.fields[1] & RESET:
            self.stopped.clear()
        elif row.kind == 'ring' and row.fields[0] in self.by_ring:
            self.come(self.by_ring[row.fields[0]])
        elif row.kind == 'free':
            self.owner = {at: producer for at, producer in self.owner.items() if producer.ring is not row.fields[0]}

    def store(self, number, row):
        at, word = row.fields
        earlier = self.memory.get(at, 0)
        self.memory[at] = word
        block = at - at % 16
        producer = self.owner.get(block)
        if producer and word != earlier and producer.ring.is_had_by(self.stopped, row.key):
            producer.changed(number, block)
            if at % 16 == 12 and earlier & blocks.CHAIN and word == earlier - blocks.CHAIN:
                producer.unchains(number, block, word)
        if producer and at % 16 == 12:
            producer.write(number, block, tuple(self.memory.get(block + 4 * i, 0) for i in range(4)))

    def read_event(self, row):
        words, at = row.fields, blocks.pointer(row.fields)
        if blocks.kind(words) == blocks.TRANSFER_EVENT and blocks.tells_value(words):
            for producer in self.producers:
                if producer.ring.is_had_by({(blocks.slot(words), blocks.endpoint(words))}, row.key):
                    producer.told(words)
        elif blocks.kind(words) == blocks.TRANSFER_EVENT and at in self.owner and blocks.code(words) not in blocks.SERVICE_CODES:
            self.owner[at].passed(at, blocks.code(words) not in blocks.STOPPED_CODES)
        if blocks.kind(words) == blocks.COMMAND_COMPLETION and at in self.owner:
            self.owner[at].passed(at, True)
            command = self.by_completion.get(row.key)
            if command and blocks.code(words) == blocks.SUCCESS:
                self.finished(command.words)

    def finished(self, words):
        if blocks.kind(words) == blocks.SET_TR_DEQUEUE and blocks.target(words) in self.owner:
            self.owner[blocks.target(words)].moved(blocks.target(words), words[0] & 1)
        if blocks.kind(words) in blocks.STOPPING:
            self.stopped.add((blocks.slot(words), blocks.endpoint(words)))
        else:
            self.stopped -= {(blocks.slot(words), index) for index in placed_by(words, self.memory)}


def follow(rows, rings, commands, version):
    """What the rows give on each ring, and withdraw."""
    follower = Follower(rings, commands, version)
    for number, row in enumerate(rows):
        follower.row(number, row)
    return follower.producers


def is_latest(producers, cut):
    """Whether a descriptor is withdrawn midway before the rows end, or a Link that the controller has loses its Chain bit beside a withdrawn block."""
    return any(cut is None or number < cut.row for producer in producers for number in producer.latest)


def declared(rows, producers, version):
    """The rows with their `sub` rows, and the `nop` rows of later versions than 1; and, where they end before a descriptor that can't be declared, its `Left`."""
    before, cut = {}, None
    for producer in producers:
        whole, left = producer.descriptors()
        cut = min(filter(None, (cut, left)), default=None)
        due = len(rows)
        placed = []
        for descriptor in reversed(whole):
            due = min([due] + [number for number, words in descriptor])
            joined = tuple(word for number, words in descriptor for word in words[:3] + (words[3] & ~1,))
            placed.append((due, Row(rows[due].key, 'sub', (producer.ring.number, joined))))
        for due, row in reversed(placed):
            before.setdefault(due, []).append(row)
        for number, position in producer.withdrawals if version > 1 else []:
            before.setdefault(number, []).append(Row(rows[number].key, 'nop', (producer.ring.number, position)))
    out = []
    for number, row in enumerate(rows[:cut and cut.row]):
        out += before.get(number, []) + [row]
    return out, cut
