"""What is known after the first rows of a trace.

Each question is answered from the last of these rows and from what was known before it, or from what the same question was answered
then. What was answered once is kept; nothing else is.
"""
from functools import cached_property, lru_cache, wraps

import effects
import runs
from blocks import NO_OP, SET_TR_DEQUEUE, endpoint, has_value, is_set, pointer, slot, tells_value
from commands import command_of
from rings import Data, RingList
from trace import Comes, Declare, Doorbell, Event, Goes, Register, Withdraws, Write


def kept(question):
    """The question, answered once for each of its arguments."""
    @wraps(question)
    def answer(known, *arguments):
        asked = (question.__name__, *arguments)
        if asked not in known.answers:
            known.answers[asked] = question(known, *arguments)
        return known.answers[asked]
    return answer


def carried(beginning):
    """A question with this answer before all rows, and else the one that the last row makes of the answer before it."""
    def of(change):
        @wraps(change)
        def answer(known, *arguments):
            asked, later = (change.__name__, *arguments), []
            while asked not in known.answers and known.previous is not None:
                later.append(known)
                known = known.previous
            value = known.answers.setdefault(asked, beginning)
            for known in reversed(later):
                value = known.answers[asked] = change(known, value, *arguments)
            return value
        return answer
    return of


@lru_cache(maxsize=2)
def histories(trace):
    """What is known after none, one, two .. of a trace's rows."""
    known = [Known(trace)]
    for row in trace.rows:
        known.append(Known(trace, known[-1], row))
    return known


class Memory:
    """The words that were written, in pages: a later memory shares those in which nothing was written."""
    PAGE = 256

    def __init__(self, pages):
        self.pages = pages

    def word(self, address):
        return self.pages.get(address // Memory.PAGE, {}).get(address, 0)

    def written(self, address, word):
        page = {**self.pages.get(address // Memory.PAGE, {}), address: word}
        return Memory({**self.pages, address // Memory.PAGE: page})


class Declared:
    """The declared descriptors of a ring, each a list of blocks, in order."""

    def __init__(self, descriptors, withdrawn=frozenset()):
        self.descriptors = descriptors
        # the positions whose blocks were put there by withdrawals
        self.withdrawn = withdrawn
        self.queue = [block for blocks in descriptors for block in blocks]

    def and_one(self, blocks):
        return Declared([*self.descriptors, blocks], self.withdrawn)

    def without(self, position):
        """The descriptor that begins at a position becomes as many No Ops."""
        length = self.lengths.get(position, 0)
        if length == 0:
            return self
        at = list(self.lengths).index(position)
        no_ops = [((0, 0, 0, NO_OP << 10),)] * length
        return Declared([*self.descriptors[:at], *no_ops, *self.descriptors[at + 1:]], self.withdrawn.union(range(position, position + length)))

    @cached_property
    def lengths(self):
        """The number of blocks of the descriptor that begins at a position."""
        begins = [0]
        for blocks in self.descriptors:
            begins.append(begins[-1] + len(blocks))
        return {begin: len(blocks) for begin, blocks in zip(begins, self.descriptors)}


def rings_behind(rings, row):
    """The rings that are there behind a row."""
    if isinstance(row, Comes):
        return [*rings, row.ring]
    return [ring for ring in rings if ring.number != row.ring] if isinstance(row, Goes) else rings


class Known(RingList):
    """`row` is the last row, `previous` what was known before it; both None before all rows. `rings` are there now."""

    def __init__(self, trace, previous=None, row=None):
        self.trace = trace
        self.previous = previous
        self.row = row
        self.rings = rings_behind(previous.rings, row) if previous else trace.rings
        self.answers = {}

    @kept
    def told_by(self, row):
        """What a row that comes now tells: facts and their values, in order."""
        return list(effects.of_row(self, row))

    @carried({})
    def facts(self, facts):
        """What the rows told last, by the facts: since the last reset, of most."""
        told = self.previous.told_by(self.row)
        if self.previous.is_reset(self.row):
            facts = {fact: value for fact, value in facts.items() if fact[0] in runs.OF_RINGS}
        return {**facts, **dict(told)} if told else facts

    def last(self, fact, otherwise):
        """The value that the last row that tells a fact gives it."""
        return self.facts().get(fact, otherwise)

    # ---- registers and memory

    @carried({})
    def registers(self, values):
        row = self.row
        if self.previous.is_reset(row):
            return {}
        if isinstance(row, Goes) and self.trace.has_runs and self.previous.is_command_ring(row.ring):
            return {name: value for name, value in values.items() if name != 'crcr'}
        return {**values, row.name: row.value} if isinstance(row, Register) else values

    def is_command_ring(self, number):
        return self.command_ring is not None and self.command_ring.number == number

    def register(self, name):
        """The last value written; None where none was since the last reset, to CRCR since the command ring came that is there."""
        return self.registers().get(name)

    def is_written(self, name):
        return self.register(name) is not None

    # ---- runs of the controller

    @property
    def is_started(self):
        return self.last(('started',), False)

    @property
    def is_stopped(self):
        """It was stopped or reset, in a version in which it doesn't run again."""
        return self.last(('stopped',), False)

    @property
    def is_halting(self):
        """In a run R/S 0 was written."""
        return self.last(('halting',), False)

    @property
    def is_halted(self):
        """It is known to have halted."""
        return self.last(('halted',), False)

    @property
    def state(self):
        """What became of its state since it halted: 'saved', 'restoring' or 'restored'; None where it wasn't saved."""
        return self.last(('state',), None)

    def is_reset(self, row):
        """The row ends a run by a reset."""
        is_written = isinstance(row, Register) and row.name == 'usbcmd' and is_set(row.value, runs.RESET)
        return is_written and self.trace.has_runs and self.is_started and self.is_halted

    @carried(Memory({}))
    def memory(self, memory):
        row = self.row
        return memory.written(row.address, row.word) if isinstance(row, Write) else memory

    def word(self, address):
        return self.memory().word(address)

    def long(self, address):
        return self.word(address) + (self.word(address + 4) << 32)

    def block_at(self, address):
        return tuple(self.word(a) for a in range(address, address + 16, 4))

    def block_with(self, write, address):
        """The block at an address, a word of memory being written now."""
        addresses = range(address, address + 16, 4)
        return tuple(write.word if write.address == a else self.word(a) for a in addresses)

    # ---- one ring

    @carried(Declared([]))
    def declarations(self, declared, ring):
        row = self.row
        if isinstance(row, Declare) and row.ring == ring.number:
            return declared.and_one(row.blocks)
        return declared.without(row.position) if isinstance(row, Withdraws) and row.ring == ring.number else declared

    def queue(self, ring):
        return self.declarations(ring).queue

    def declared(self, ring):
        return len(self.queue(ring))

    def is_border(self, ring, position):
        """The sum of whole descriptors."""
        return position in self.declarations(ring).lengths or position == self.declared(ring)

    def descriptor_length(self, ring, position):
        """How many blocks the descriptor has that begins at a position; 0 where none begins there."""
        return self.declarations(ring).lengths.get(position, 0)

    def floor(self, ring):
        """The spot that the controller's dequeue pointer has surely reached."""
        return self.last(('floor', ring.number), Data(0))

    def due_positions(self, ring):
        """Of each place the position that is next there."""
        least = self.floor(ring).number
        return range(least, least + ring.place_count)

    def due_crossings(self, ring):
        """Of each Link the crossing that is next there; at floor 0 that of the first lap's end is due at once."""
        least = self.floor(ring).number
        return ring.crossings(least, least + ring.place_count - (0 if least == 0 else 1))

    @kept
    def positions_written(self, write, ring):
        """The positions that are due and whose control word a write writes now with their Cycle bit: of a ring that is there."""
        due = ring.next_position(self.floor(ring).number, write.address - 12) if ring in self.rings else None
        return [] if due is None or write.word % 2 != ring.cycle(due) else [due]

    @kept
    def crossings_written(self, write, ring):
        """The same of Links: the cycle is that of the position before."""
        if ring not in self.rings or not ring.touches(write.address, 4):
            return []
        due = [q for q in self.due_crossings(ring) if write.address == ring.link_address(q) + 12]
        return [q for q in due if write.word % 2 == ring.cycle(q - 1)]

    @carried(frozenset())
    def given_positions(self, given, ring):
        written = self.previous.positions_written(self.row, ring) if isinstance(self.row, Write) else []
        return given.union(written) if written else given

    @carried(frozenset())
    def given_crossings(self, given, ring):
        written = self.previous.crossings_written(self.row, ring) if isinstance(self.row, Write) else []
        return given.union(written) if written else given

    def is_given(self, ring, position):
        return position in self.given_positions(ring)

    def is_crossing_given(self, ring, number):
        return number in self.given_crossings(ring)

    def given_and_due(self, ring):
        """The positions that were given and that the controller may not have passed, in order."""
        return sorted(self.given_positions(ring).intersection(self.due_positions(ring)))

    # ---- withdrawn descriptors

    def was_withdrawn(self, ring, position):
        return position in self.declarations(ring).withdrawn

    @kept
    def restored_by(self, row):
        """The ring that a row gives back to the controller, with what was withdrawn of it: that of a doorbell, or that of the endpoint for which it gives a Set TR Dequeue."""
        if isinstance(row, Doorbell):
            return self.ring_of(row.slot, row.target)
        command = self.command_given_by(row) if isinstance(row, Write) else None
        return self.ring_of(command.slot, command.endpoint) if command is not None and command.type == SET_TR_DEQUEUE else None

    @carried(frozenset())
    def freed_positions(self, freed, ring):
        """The positions that were given when they were withdrawn, and that weren't restored since."""
        row, before = self.row, self.previous
        if isinstance(row, Withdraws) and row.ring == ring.number:
            length = before.descriptor_length(ring, row.position)
            return freed.union(p for p in range(row.position, row.position + length) if before.is_given(ring, p))
        return frozenset() if freed and before.restored_by(row) is ring else freed

    def unrestored(self, ring):
        """Those of them that the controller may not have passed: the driver writes them as it likes."""
        freed = self.freed_positions(ring)
        return sorted(freed.intersection(self.due_positions(ring))) if freed else []

    @kept
    def positions_given_by(self, write, ring):
        """The positions that a write gives now: those that weren't given."""
        return [p for p in self.positions_written(write, ring) if not self.is_given(ring, p)]

    @kept
    def crossings_given_by(self, write, ring):
        return [q for q in self.crossings_written(write, ring) if not self.is_crossing_given(ring, q)]

    def is_way_given(self, ring, number):
        """The crossing to a position, if there is one, was given."""
        return not ring.is_crossing(number) or self.is_crossing_given(ring, number)

    @carried(0)
    def given_count(self, number, ring):
        """The greatest number below which all positions, and the crossings to them, were given."""
        while self.is_given(ring, number) and self.is_way_given(ring, number):
            number += 1
        return number

    def held(self, ring):
        """The number at which the ring is held; None where it is open."""
        return self.last(('held', ring.number), 0)

    def is_open(self, ring):
        return self.held(ring) is None

    def ceiling(self, ring):
        """Up to which number the controller may have gone."""
        return self.given_count(ring) if self.is_open(ring) else self.held(ring)

    def named_spot(self, ring, address):
        """The spot that an event names: the least from the floor on, up to what is declared; None where there is none."""
        spots = ring.spots_from(self.floor(ring), self.declared(ring))
        return next((spot for spot in spots if ring.spot_address(spot) == address), None)

    def spot_with_value(self, ring, value):
        """The spot that an event names by a value: the least from the floor on, up to what is declared, with an Event Data block of this value."""
        positions = range(self.floor(ring).number, self.declared(ring))
        return next((Data(p) for p in positions if has_value(self.queue(ring)[p], value)), None)

    # ---- commands

    @property
    def next_command(self):
        """The position of the command that is finished next."""
        return self.floor(self.command_ring).number if self.command_ring else 0

    def command_at(self, position):
        queue = self.queue(self.command_ring) if self.command_ring else []
        return command_of(queue[position]) if position < len(queue) else None

    @cached_property
    def unfinished_positions(self):
        """The commands that were given and whose completion wasn't read."""
        ring = self.command_ring
        return self.given_and_due(ring) if ring else []

    @property
    def unfinished(self):
        commands = [self.command_at(position) for position in self.unfinished_positions]
        return [command for command in commands if command is not None]

    @kept
    def command_given_by(self, write):
        """The command that a write gives; None where it gives none."""
        ring = self.command_ring
        positions = self.positions_given_by(write, ring) if ring else []
        return self.command_at(positions[0]) if positions else None

    # ---- slots and endpoints

    def slot_state(self, slot_number):
        return self.last(('slot', slot_number), 'Disabled')

    def endpoint_state(self, slot_number, index):
        return self.last(('endpoint', slot_number, index), 'Disabled')

    def ring_of(self, slot_number, index):
        """The ring of an endpoint, or None."""
        return self.ring(self.last(('ring of', slot_number, index), None))

    def is_isochronous(self, slot_number, index):
        """By the context that added the endpoint last."""
        return self.last(('isochronous', slot_number, index), False)

    def endpoints_with(self, ring):
        """The slots and indexes of the endpoints that have a ring."""
        return [fact[1:] for fact, number in self.facts().items() if fact[0] == 'ring of' and number == ring.number]

    def was_bound(self, ring):
        return self.last(('bound', ring.number), False)

    def must_move(self, slot_number, index):
        """The endpoint halted, and its ring wasn't moved since."""
        return self.last(('must move', slot_number, index), False)

    def was_stop_seen(self, slot_number, index):
        """A Stopped event was read, and the completion of its Stop Endpoint not yet."""
        return self.last(('stop seen', slot_number, index), False)

    def spot_of_event(self, block):
        """The ring and the spot that a Transfer Event names, or None."""
        ring = self.ring_of(slot(block), endpoint(block))
        find = self.spot_with_value if tells_value(block) else self.named_spot
        spot = find(ring, pointer(block)) if ring else None
        return (ring, spot) if spot else None

    # ---- device contexts

    def slot_entry(self, slot_number):
        """The address of a slot's entry in the array that DCBAAP names."""
        base = self.register('dcbaap') or 0
        return base - base % 64 + 8 * slot_number

    def device_named(self, slot_number):
        return self.long(self.slot_entry(slot_number))

    def device(self, slot_number):
        """The address of the device context under lease, or None."""
        return self.last(('device', slot_number), None)

    @property
    def slots_with_device(self):
        """The slots with a device context under lease."""
        return sorted(fact[1] for fact, device in self.facts().items() if fact[0] == 'device' and device is not None)

    @kept
    def taken_device(self, write):
        """The slot and the address of the device context that comes under lease by a write, or None."""
        command = self.command_given_by(write)
        if command is None or not effects.takes_device(self, command):
            return None
        return command.slot, self.device_named(command.slot)

    @carried(frozenset())
    def soiled(self, soiled):
        """The words that the controller may have changed, and that the driver hasn't written since."""
        if isinstance(self.row, Goes) and self.trace.has_runs:
            return soiled.union(self.previous.event_words(self.row.ring))
        if not isinstance(self.row, Write):
            return soiled
        taken = self.previous.taken_device(self.row)
        words = range(taken[1] + -taken[1] % 4, taken[1] + self.trace.device_context_bytes, 4) if taken else []
        is_changed = taken or self.row.address in soiled
        return soiled.difference([self.row.address]).union(words) if is_changed else soiled

    def event_words(self, number):
        """The words of the event ring, where that has this number."""
        ring = self.event_ring
        return [word for place in ring.places for word in range(place, place + 16, 4)] if ring and ring.number == number else []

    def is_soiled(self, address):
        return address in self.soiled()

    # ---- events

    @carried(0)
    def events_read(self, count):
        """Since the last reset."""
        return 0 if self.previous.is_reset(self.row) else count + isinstance(self.row, Event)

    @property
    def reads(self):
        return self.events_read()

    @property
    def dequeue(self):
        """The event position that ERDP names."""
        return self.last(('dequeue',), 0)
