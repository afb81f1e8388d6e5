"""Traces of random drivers beside random controllers, picked by a seed.

A driver makes one step after another: a command with its contexts, a descriptor, a write, a doorbell, an event, ERDP; from version 2 on
rings come and go besides, and descriptors are withdrawn, and in version 4 endpoints are isochronous, descriptors have Event Data, and the
controller is stopped, reset and runs again (drivers_of_runs.py). A row that breaks no rule, by the plain rules, stands in the trace. One that
breaks a rule is dropped; the trace up to it is remembered.
"""
import random

import contexts
from blocks import (ADDRESS_DEVICE, CHAIN, CONFIGURE_ENDPOINT, COMMAND_COMPLETION, DATA_STAGE, DISABLE_SLOT, ED, ENABLE_SLOT, EVALUATE_CONTEXT,
                    EVENT_DATA, ISOCH, LINK, NORMAL, NO_OP, NO_OP_COMMAND, RESET_DEVICE, RESET_ENDPOINT, SETUP_STAGE, SET_TR_DEQUEUE, STATUS_STAGE,
                    STOP_ENDPOINT, TRANSFER_EVENT, pointer, type_of, with_cycle)
from drivers_of_runs import TABLES, DriverOfRuns
from known import Known
from rings import Ring, Segment, is_shape
from rings_that_come import may_be_told
from rules import least_broken
from trace import Comes, Declare, Doorbell, Event, Goes, Read, Register, Trace, Withdraws, Write

ARRAY, TABLE, INPUT_CONTEXTS, DEVICE_CONTEXTS = 0x50000, TABLES[0], 0x60000, 0x70000
SLOTS = (1, 2)
COMMANDS = [ENABLE_SLOT, ADDRESS_DEVICE, CONFIGURE_ENDPOINT, EVALUATE_CONTEXT, STOP_ENDPOINT, SET_TR_DEQUEUE, RESET_ENDPOINT,
            RESET_DEVICE, DISABLE_SLOT, NO_OP_COMMAND]
# what a driver mostly asks for, by the state of the slot, and of the endpoint
FITTING = {
    'Disabled': [ENABLE_SLOT], 'Enabled': [ADDRESS_DEVICE], 'Default': [ADDRESS_DEVICE],
    'Addressed': [CONFIGURE_ENDPOINT] * 6 + [EVALUATE_CONTEXT, DISABLE_SLOT, RESET_DEVICE],
    'Configured': [CONFIGURE_ENDPOINT] * 2 + [RESET_DEVICE, DISABLE_SLOT],
    'Running': [STOP_ENDPOINT], 'Halted': [RESET_ENDPOINT], 'Stopped': [SET_TR_DEQUEUE], 'Error': [SET_TR_DEQUEUE],
}
# lists of block types that a driver declares, and those of version 4 besides: isochronous ones, with Event Data, and such as are no form of it
FORMS = [[NO_OP], [NORMAL], [NORMAL] * 2, [NORMAL] * 3, [SETUP_STAGE], [DATA_STAGE, NORMAL], [STATUS_STAGE]]
ISOCHRONOUS_FORMS = [[ISOCH], [ISOCH, NORMAL], [ISOCH, NORMAL, NORMAL]] * 3 + [[ISOCH, EVENT_DATA]]
DATA_FORMS = [[NORMAL, EVENT_DATA], [NORMAL, NORMAL, EVENT_DATA], [NORMAL, EVENT_DATA, NORMAL], [NORMAL, EVENT_DATA, EVENT_DATA],
              [DATA_STAGE, NORMAL, EVENT_DATA], [STATUS_STAGE, EVENT_DATA], [ISOCH, NORMAL, EVENT_DATA]]
NO_FORMS = [[ISOCH, ISOCH], [NORMAL, ISOCH], [EVENT_DATA], [EVENT_DATA, NORMAL], [SETUP_STAGE, EVENT_DATA], [STATUS_STAGE, EVENT_DATA, EVENT_DATA],
            [STATUS_STAGE, NORMAL], [NO_OP, EVENT_DATA], [NORMAL, EVENT_DATA, NO_OP]]
FORMS_OF_FOUR = FORMS + ISOCHRONOUS_FORMS + DATA_FORMS + NO_FORMS
# codes of Transfer Events, and those of isochronous endpoints
CODES = [1, 1, 1, 1, 13, 6, 5, 26, 27]
ISOCHRONOUS_CODES = [1, 1, 13, 2, 3, 4, 18, 20, 31, 36, 14, 15, 23, 23, 6, 5, 26, 27]
# how often a step of which a row was dropped is taken back whole
TAKEN_BACK = 0.97


class Dropped(Exception):
    """A row that breaks a rule was dropped, or one that no trace can have: the step ends."""


def halves(number):
    return number & 0xffffffff, number >> 32


class Driver(DriverOfRuns):
    VERSIONS = [1, 2, 3, 4, 4]
    # among how many spots from the floor on an event names one
    REACH = [1, 2, 3, 20]

    def __init__(self, seed, unmade):
        self.pick = random.Random(seed)
        self.unmade = unmade
        self.trace = Trace(self.pick.choice(self.VERSIONS), self.pick.choice([32, 64]), self.some_rings(), 0, [])
        self.trace.first = 3 + len(self.trace.rings)
        self.before = []
        self.known = Known(self.trace)
        self.array = ARRAY if self.pick.random() < 0.9 else self.odd_address(64)
        # (rows, rule): traces whose last row breaks a rule, and no earlier one does
        self.refused = []
        # by the number of a ring: the position behind the last descriptor that was withdrawn midway
        self.behind = {}

    def some_rings(self):
        def ring(number, kind, base, counts):
            return Ring(number, kind, [Segment(base + 0x1000 * i, count) for i, count in enumerate(counts)])
        counts = lambda: [self.pick.randint(3, 6) for _ in range(self.pick.choice([1, 1, 2, 3]))]
        events = [16] * self.pick.choice([1, 1, 2])
        transfers = [ring(number, 'xfer', 0x100000 + 0x10000 * number, counts()) for number in range(2, self.pick.choice([5, 8, 12]))]
        return [ring(0, 'cmd', 0x10000, counts()), ring(1, 'evt', 0x20000, events), *transfers]

    def ring_there(self, kind):
        """The ring of a kind; where there is none the step ends."""
        ring = self.known.ring_of_kind(kind)
        if ring is None:
            raise Dropped
        return ring

    def one_of(self, rings):
        """Some ring; where there is none the step ends."""
        if not rings:
            raise Dropped
        return self.pick.choice(rings)

    @property
    def command_ring(self):
        return self.ring_there('cmd')

    @property
    def event_ring(self):
        return self.ring_there('evt')

    def make(self, row):
        """The row comes next, if it breaks no rule, and is one that this driver makes."""
        if isinstance(row, self.unmade):
            raise Dropped
        broken = least_broken(self.known, row)
        if broken is not None:
            self.refused.append(([*self.trace.rows, row], broken))
            raise Dropped
        self.before.append(self.known)
        self.trace.rows.append(row)
        self.known = Known(self.trace, self.known, row)

    def go_back(self, count):
        """To the trace's first rows."""
        if count < len(self.trace.rows):
            self.known = self.before[count]
            del self.before[count:], self.trace.rows[count:]

    def some_address(self, area, boundary):
        """That of one of the contexts in an area, mostly."""
        return area + 0x1000 * self.pick.randrange(3) if self.pick.random() < 0.85 else self.odd_address(boundary)

    def odd_address(self, boundary):
        """Near something that may be under lease, or the end of memory."""
        near = [TABLE, ARRAY, INPUT_CONTEXTS, DEVICE_CONTEXTS, (1 << 64) - 0x1000, *(ring.address(0) for ring in self.known.rings)]
        address = self.pick.choice(near) + self.pick.choice([0, 64, 0x800, 0xfc0]) - self.pick.choice([0, 0, 0x400, 0x800])
        return address - address % boundary

    def write(self, address, *words):
        if address + 4 * len(words) > 1 << 64:
            raise Dropped
        for i, word in enumerate(words):
            if self.known.word(address + 4 * i) != word:
                self.make(Write(address + 4 * i, word))

    # ---- the set-up

    def start(self):
        if self.trace.version >= 3 and self.pick.random() < 0.3:
            ring = self.event_ring
            self.make(Register('erstsz', self.pick.choice([0, len(ring.segments), len(ring.segments) + 1])))
            self.make(Register('erdp', self.pick.choice([0, 8, ring.address(0), TABLE])))
        self.set_up()
        self.make(Register('usbcmd', 1))

    # ---- giving what is declared

    def give(self, ring):
        """Gives what is declared and isn't given, mostly the first blocks of descriptors last."""
        waiting = [p for p in range(self.known.floor(ring).number, self.known.declared(ring)) if not self.known.is_given(ring, p)]
        crossings = [q for q in self.known.due_crossings(ring) if not self.known.is_crossing_given(ring, q)]
        near = [q for q in crossings if q <= max(waiting, default=0) + 1]
        for crossing in near[:self.pick.choice([0, 1, 1, 1, 2])]:
            self.give_link(ring, crossing)
        begins = [p for p in waiting if self.known.descriptor_length(ring, p)]
        order = [p for p in waiting if p not in begins] + begins
        self.give_blocks(ring, order[:self.pick.choice([1, 3, 8])])

    def give_all(self, ring):
        """Gives what is declared and isn't given, the last block first, the Links before that."""
        waiting = [p for p in range(self.known.floor(ring).number, self.known.declared(ring)) if not self.known.is_given(ring, p)]
        for crossing in self.known.due_crossings(ring):
            if crossing <= self.known.declared(ring) and not self.known.is_crossing_given(ring, crossing):
                self.give_link(ring, crossing)
        self.give_blocks(ring, waiting[::-1])

    def give_blocks(self, ring, positions):
        for position in positions:
            block = with_cycle(self.known.queue(ring)[position], ring.cycle(position))
            self.write(ring.address(position), *block[:3])
            self.make(Write(ring.address(position) + 12, block[3]))
            if self.trace.version >= 3 and self.pick.random() < 0.2:
                self.store_again(ring.address(position), block)

    def give_link(self, ring, crossing):
        self.write(ring.link_address(crossing), *halves(ring.link_target(crossing)))
        toggle = 2 if ring.toggles(crossing) else 0
        is_inside = crossing < self.known.declared(ring) and not self.known.is_border(ring, crossing)
        chain = 1 << CHAIN if is_inside != (self.pick.random() < 0.2) else 0
        self.make(Write(ring.link_address(crossing) + 12, LINK << 10 | chain | toggle | ring.cycle(crossing - 1)))

    def store_again(self, address, words):
        """What stands there already, as a driver does that stores each command twice."""
        for i, word in enumerate(words):
            self.make(Write(address + 4 * i, word))

    def give_some(self):
        self.give(self.one_of(self.known.driver_rings))

    # ---- commands

    def command(self):
        slot, endpoint = self.some_enabled_endpoint() if self.pick.random() < 0.5 else (self.pick.choice(SLOTS), self.some_endpoint())
        self.declare_command(self.some_kind(slot, endpoint), slot, endpoint)
        if self.pick.random() < 0.9:
            self.give(self.command_ring)
        if self.pick.random() < 0.9:
            self.make(Doorbell(0, 0))
        if self.pick.random() < 0.5:
            self.completion()

    def declare_command(self, kind, slot, endpoint, alone=()):
        """Its input context, from version 4 on, tells nothing of the endpoints `alone`."""
        option = 1 if kind in (ADDRESS_DEVICE, CONFIGURE_ENDPOINT) and self.pick.random() < (0.5 if alone == [1] else 0.2) else 0
        number = 0
        if kind in (ADDRESS_DEVICE, CONFIGURE_ENDPOINT, EVALUATE_CONTEXT):
            number = self.some_address(INPUT_CONTEXTS, 16)
            self.write_context(kind, slot, endpoint, number, alone)
        if kind == SET_TR_DEQUEUE:
            number = self.some_target(slot, endpoint)
        if kind == ADDRESS_DEVICE and self.known.device(slot) is None:
            self.write(self.array + 8 * slot, *halves(self.some_address(DEVICE_CONTEXTS, 64)))
        low = kind << 10 | option << 9 | slot << 24 | (endpoint << 16 if kind in (STOP_ENDPOINT, SET_TR_DEQUEUE, RESET_ENDPOINT) else 0)
        self.make(Declare(self.command_ring.number, ((*halves(number), 0, low),)))

    def suspend(self):
        """Endpoint commands of a slot side by side, with one doorbell, as a driver gives them that suspends a device; then their ends."""
        self.finish_all()
        slot, _ = self.some_enabled_endpoint()
        endpoints = [index for index in (1, 2, 3) if self.known.endpoint_state(slot, index) != 'Disabled']
        for index in endpoints:
            self.declare_command(self.pick.choice(FITTING[self.known.endpoint_state(slot, index)]), slot, index)
        if self.pick.random() < 0.1:
            self.declare_command(self.pick.choice(COMMANDS), slot, self.some_endpoint())
        self.give_all(self.command_ring)
        self.make(Doorbell(0, 0))
        for index in endpoints[:self.pick.choice([0, 1, 3, 3])]:
            if self.pick.random() < 0.5:
                self.try_step(Driver.stopped)
            self.try_step(Driver.completion)

    def reconfigure(self):
        """Commands of endpoints beside a Configure Endpoint or Evaluate Context of their slot that mostly leaves them alone, in any order; then their ends, and
        more of them."""
        self.finish_all()
        slot, _ = self.some_enabled_endpoint()
        endpoints = [index for index in (1, 2, 3) if self.known.endpoint_state(slot, index) != 'Disabled']
        named = self.pick.sample(endpoints, min(len(endpoints), self.pick.choice([1, 1, 2])))
        alone = named if self.pick.random() < 0.7 else named[1:]
        of_slot = lambda driver: driver.add_command(driver.pick.choice([CONFIGURE_ENDPOINT] * 2 + [EVALUATE_CONTEXT]), slot, 0, alone)
        of_endpoint = lambda index: lambda driver: driver.add_command(driver.pick.choice(FITTING[driver.known.endpoint_state(slot, index)]), slot, index)
        steps = [of_slot, *map(of_endpoint, named)]
        for step in self.pick.sample(steps, len(steps)) + ([of_slot] if self.pick.random() < 0.1 else []):
            self.try_step(step)
        for _ in range(self.pick.choice([1, 2, 4])):
            self.try_step(lambda driver: driver.give_all(driver.command_ring))
            self.try_step(lambda driver: driver.make(Doorbell(0, 0)))
            if self.pick.random() < 0.5:
                self.try_step(Driver.stopped)
            self.try_step(lambda driver: driver.completion([1, 1, 1, 1, 1, 11]))
            if named and self.pick.random() < 0.6:
                self.try_step(of_endpoint(self.pick.choice(named)))
            if named and self.pick.random() < 0.4:
                self.try_step(lambda driver: driver.make(Doorbell(slot, driver.pick.choice(named))))

    def add_command(self, kind, slot, endpoint, alone=()):
        """It is declared, and mostly given at once, with what wasn't given before it."""
        self.declare_command(kind, slot, endpoint, alone)
        if self.pick.random() < 0.7:
            self.give_all(self.command_ring)

    def stopped(self):
        """A Stopped event of the Stop Endpoint that is finished next, from version 4 on often inside a descriptor."""
        command = self.known.command_at(self.known.next_command)
        if command and command.type == STOP_ENDPOINT:
            inside = self.spots_inside(command.slot, command.endpoint)
            self.transfer_of(command.slot, command.endpoint, [26, 27, 28], inside if self.trace.version >= 4 and self.pick.random() < 0.8 else [])

    def spots_inside(self, slot, endpoint):
        """Where an endpoint's controller may stand inside a descriptor that was given: at a block, or at a Link between two."""
        ring = self.known.ring_of(slot, endpoint)
        spots = ring.spots_from(self.known.floor(ring), self.known.given_count(ring) - 1) if ring else []
        return [spot for spot in spots if not self.known.is_border(ring, spot.number)]

    def bind_anew(self):
        """An endpoint is dropped and added, mostly where its own ring stands, or where one stands that no endpoint has; before that it is mostly stopped."""
        self.finish_all()
        slot, index = self.some_enabled_endpoint()
        if self.pick.random() < 0.6:
            self.try_step(lambda driver: driver.end_all(slot, index))
        if self.known.endpoint_state(slot, index) == 'Running' and self.pick.random() < 0.5:
            self.try_step(lambda driver: driver.whole_command(STOP_ENDPOINT, slot, index))
        self.whole_command(CONFIGURE_ENDPOINT, slot, index)

    def finish_all(self):
        """Mostly what is declared on the command ring is given, and the completions of all commands are read."""
        if self.pick.random() < 0.8:
            self.try_step(lambda driver: driver.give_all(driver.command_ring))
            self.try_step(lambda driver: driver.make(Doorbell(0, 0)))
            for _ in 2 * self.known.unfinished_positions:
                self.try_step(lambda driver: driver.completion([1, 1, 1, 1, 1, 11]))
        self.try_step(Driver.read_all)

    def whole_command(self, kind, slot, index):
        self.declare_command(kind, slot, index)
        self.give_all(self.command_ring)
        self.make(Doorbell(0, 0))
        if self.pick.random() < 0.9:
            self.try_step(Driver.stopped)
            self.completion()
            self.read_all()

    def some_kind(self, slot, endpoint):
        if self.pick.random() < 0.1:
            return self.pick.choice(COMMANDS)
        state = self.known.endpoint_state(slot, endpoint)
        if state == 'Disabled' or self.pick.random() < 0.2:
            state = self.known.slot_state(slot)
        return self.pick.choice(FITTING[state])

    def some_endpoint(self):
        return self.pick.choice([1, 1, 2, 3])

    def some_enabled_endpoint(self):
        """A slot and an endpoint, mostly one that isn't Disabled."""
        endpoints = [(slot, endpoint) for slot in SLOTS for endpoint in (1, 2, 3)]
        enabled = [at for at in endpoints if self.known.endpoint_state(*at) != 'Disabled']
        return self.pick.choice(enabled if enabled and self.pick.random() < 0.95 else endpoints)

    def standing(self, ring, spot):
        """The pointer and cycle state of a spot, from version 3 on rarely with another cycle state."""
        other = 1 if self.trace.version >= 3 and self.pick.random() < 0.05 else 0
        return ring.spot_address(spot) | ring.spot_cycle(spot) ^ other

    def some_target(self, slot, endpoint):
        """A pointer and a cycle state on the endpoint's ring; where that stands inside a descriptor withdrawn midway mostly past it."""
        ring = self.known.ring_of(slot, endpoint) or self.one_of(self.known.driver_rings)
        spots = ring.spots(self.known.floor(ring).number, self.known.declared(ring))
        least = self.behind.get(ring.number, 0) if self.pick.random() < 0.8 else 0
        spot = self.pick.choice([spot for spot in spots if spot.number >= least] or spots)
        return ring.spot_address(spot) | ring.spot_cycle(spot)

    def write_context(self, kind, slot, endpoint, context, alone):
        added = [1] if kind == ADDRESS_DEVICE else [i for i in (2, 3) if self.pick.random() < 0.6]
        if self.trace.version >= 3 and kind == CONFIGURE_ENDPOINT and endpoint > 1 and self.pick.random() < 0.6:
            added = [endpoint]
        dropped = [i for i in (2, 3) if kind != ADDRESS_DEVICE and self.pick.random() < self.drops(slot, i, i in added)]
        if self.trace.version >= 4 and kind != ADDRESS_DEVICE:
            added = [i for i in added + self.default_control_flag(kind) if i not in alone]
            dropped = [i for i in dropped + self.default_control_flag(kind) if i not in alone]
        self.write(context, sum(1 << i for i in dropped), sum(1 << i for i in [0, *added]))
        for index in added:
            address = contexts.endpoint_context(self.known, context, index)
            pointer = self.some_ring_for(slot, index) if self.pick.random() < 0.9 else self.some_target(slot, index)
            kind_of_endpoint = 4 if index == 1 else self.pick.choice([2, 3, 6, 7, 2, 3, 6, 7, 0, 1] + ([1, 5] * 4 if self.trace.has_isoch else []))
            self.write(address + 4, kind_of_endpoint << 3)
            self.write(address + 8, *halves(pointer))

    def default_control_flag(self, kind):
        """A flag of the default control endpoint, which Evaluate Context may have."""
        return [1] if self.pick.random() < (0.3 if kind == EVALUATE_CONTEXT else 0.03) else []

    def drops(self, slot, index, is_added):
        """How often an endpoint is dropped: from version 3 on mostly where it is there and added again."""
        if self.trace.version < 3:
            return 0.4
        is_there = self.known.endpoint_state(slot, index) != 'Disabled'
        return 0.9 if is_added and is_there else 0.2

    def some_ring_for(self, slot, index):
        ring = self.known.ring_of(slot, index)
        if index == 1 and ring and self.pick.random() < 0.7:
            return self.standing(ring, self.known.floor(ring))
        if self.trace.version >= 3 and self.pick.random() < 0.8:
            left = [other for other in self.known.rings if self.known.was_bound(other) and not self.known.endpoints_with(other)]
            ring = self.pick.choice(left) if left and (ring is None or self.pick.random() < 0.2) else ring
            if ring:
                spots = ring.spots(self.known.floor(ring).number, self.known.ceiling(ring))
                return self.standing(ring, self.known.floor(ring) if self.pick.random() < 0.7 else self.pick.choice(spots))
        unused = [ring for ring in self.known.rings if ring.kind == 'xfer' and not self.known.was_bound(ring)]
        return self.one_of(unused or self.known.driver_rings).address(0) | 1

    # ---- descriptors, doorbells, writes

    def descriptor(self):
        used = [ring for ring in self.known.rings if ring.kind == 'xfer' and self.known.was_bound(ring)]
        ring = self.one_of(used or self.known.driver_rings) if self.pick.random() < 0.9 else self.one_of(self.known.rings)
        self.declare_some(ring)
        if self.pick.random() < 0.8:
            self.give(ring)

    def declare_some(self, ring):
        self.declare_form(ring, self.pick.choice(FORMS_OF_FOUR if self.trace.is_full else FORMS))

    def declare_form(self, ring, kinds):
        """In words of which the first two are often those of another block: values of Event Data too."""
        def block(i, kind):
            upper = self.pick.choice([0, 0, 1]) if kind == EVENT_DATA else 0
            return self.pick.randrange(4) << 12, upper, 8, kind << 10 | (16 if i + 1 < len(kinds) else 0) | (64 if kind == SETUP_STAGE else 0)
        self.declare(ring, [block(i, kind) for i, kind in enumerate(kinds)])

    def declare(self, ring, blocks):
        self.make(Declare(ring.number, tuple(blocks)))

    def declare_long(self, ring):
        kinds = [NORMAL, NORMAL, NORMAL, EVENT_DATA] if self.trace.has_event_data else [NORMAL]
        self.declare_form(ring, [NORMAL, *self.pick.choices(kinds, k=self.pick.choice([1, 1, 2, 3]))])

    def doorbell(self):
        self.make(self.pick.choice([Doorbell(0, 0), *[Doorbell(*self.some_enabled_endpoint())] * 4]))

    def stray_write(self):
        """A word of a block, a context, the array or the table."""
        ring = self.one_of(self.known.rings)
        context = 0x1000 * self.pick.randrange(3)
        areas = [self.pick.choice(ring.places), self.array, TABLE, INPUT_CONTEXTS + context, DEVICE_CONTEXTS + context]
        address = self.pick.choice(areas) + 4 * self.pick.randrange(8)
        self.make(Write(address, self.pick.choice([0, 1, self.known.word(address), self.known.word(address) ^ 1, self.pick.getrandbits(32)])))

    def clear_device_context(self):
        address = DEVICE_CONTEXTS + 0x1000 * self.pick.randrange(3)
        for at in range(address, address + self.trace.device_context_bytes, 4):
            if self.known.is_soiled(at):
                self.make(Write(at, 0))

    # ---- events

    def event(self, number, code, low):
        self.make(Event((*halves(number), code << 24, low | self.event_ring.cycle(self.known.reads))))

    def completion(self, codes=(*[1] * 9, 11)):
        ring = self.command_ring
        command = self.known.command_at(self.known.next_command)
        slot = command.slot if command and command.type != ENABLE_SLOT else self.pick.choice(SLOTS)
        self.event(ring.address(self.known.next_command), self.pick.choice(codes), COMMAND_COMPLETION << 10 | slot << 24)

    def transfer(self):
        slot, endpoint = self.some_enabled_endpoint()
        is_isochronous = self.trace.has_isoch and (self.known.is_isochronous(slot, endpoint) or self.pick.random() < 0.1)
        tell = self.value_of if self.trace.has_event_data and self.pick.random() < 0.3 else self.transfer_of
        tell(slot, endpoint, ISOCHRONOUS_CODES if is_isochronous else CODES)

    def transfer_of(self, slot, endpoint, codes, spots=()):
        """An event of an endpoint: it names one of these spots, where there are any, else one from the floor on."""
        ring = self.known.ring_of(slot, endpoint)
        if ring is None:
            return
        spots = spots or ring.spots_from(self.known.floor(ring), self.known.declared(ring))
        spot = self.pick.choice(spots[:self.pick.choice(self.REACH)])
        self.event(ring.spot_address(spot), self.pick.choice(codes), TRANSFER_EVENT << 10 | slot << 24 | endpoint << 16)

    # ---- Event Data

    def value_of(self, slot, endpoint, codes):
        """An event of an endpoint tells the value of one of its next Event Data blocks; sometimes one that only another block has, or none."""
        ring = self.known.ring_of(slot, endpoint)
        if ring is None:
            return
        blocks = self.known.queue(ring)[self.known.floor(ring).number:]
        values = [pointer(block) for block in blocks if type_of(block) == EVENT_DATA]
        if values and self.pick.random() < 0.9:
            value = self.pick.choice(values[:self.pick.choice(self.REACH)])
        else:
            value = self.pick.choice([pointer(block) for block in self.known.queue(ring)[-5:]] + [self.pick.randrange(4) << 12])
        self.event(value, self.pick.choice(codes), TRANSFER_EVENT << 10 | slot << 24 | endpoint << 16 | 1 << ED)

    def tell(self):
        """An endpoint gets descriptors with Event Data; events tell their values, mostly in order, or of their blocks, sometimes at last an error; else it is
        sometimes stopped, mostly with an event that names where, and descriptors of it are withdrawn."""
        self.finish_all()
        slot, index = self.some_endpoint_with_work()
        ring = self.known.ring_of(slot, index) or self.one_of(self.known.driver_rings)
        self.try_step(lambda driver: driver.end_all(slot, index))
        for _ in range(self.pick.choice([1, 2, 3])):
            self.try_step(lambda driver: driver.declare_form(ring, driver.pick.choice(DATA_FORMS * 4 + NO_FORMS)))
        self.try_step(lambda driver: driver.give_all(ring))
        self.try_step(lambda driver: driver.make(Doorbell(slot, index)))
        for _ in range(self.pick.randrange(4)):
            tell = self.pick.choice([Driver.value_of, Driver.value_of, Driver.value_of, Driver.transfer_of])
            self.try_step(lambda driver: tell(driver, slot, index, driver.pick.choice([[1], [1, 13], CODES, ISOCHRONOUS_CODES])))
            self.try_step(lambda driver: driver.stray_block_of(ring))
        if self.pick.random() < 0.3:
            self.try_step(lambda driver: driver.value_of(slot, index, [3, 4, 5, 6, 36]))
        elif self.pick.random() < 0.6:
            self.try_step(lambda driver: driver.whole_command(STOP_ENDPOINT, slot, index))
            for withdraw in self.pick.choices([Driver.withdraw, Driver.withdraw_told], k=self.pick.choice([1, 2, 3])):
                self.try_step(lambda driver: withdraw(driver, ring))
            self.try_step(lambda driver: driver.value_of(slot, index, [1, 1, 13]))
            self.go_on(slot, index, ring)
        self.try_step(Driver.read_all)

    def withdraw_told(self, ring):
        """A descriptor of which a value may still be told."""
        told = lambda p: any(may_be_told(self.known, ring, q) for q in range(p, p + self.known.descriptor_length(ring, p)))
        self.make(Withdraws(ring.number, self.one_of([p for p in range(self.known.declared(ring)) if told(p)])))

    # ---- isochronous endpoints

    def play(self):
        """An isochronous endpoint, where there is one or can be made one, gets descriptors; events tell of them, of errors and of its service."""
        found = lambda: [at for at in self.resting_endpoints() if self.known.is_isochronous(*at)]
        if not found():
            self.enable_endpoints(5)
        slot, index = self.pick.choice(found() or [self.some_enabled_endpoint()])
        ring = self.known.ring_of(slot, index) or self.one_of(self.known.driver_rings)
        for _ in range(self.pick.randrange(4)):
            self.try_step(lambda driver: driver.declare_form(ring, driver.pick.choice(ISOCHRONOUS_FORMS + NO_FORMS[:2])))
        self.try_step(lambda driver: driver.give_all(ring))
        self.try_step(lambda driver: driver.make(Doorbell(slot, index)))
        for _ in range(self.pick.randrange(6)):
            tell = self.pick.choice([Driver.transfer_of] * 4 + [Driver.value_of])
            self.try_step(lambda driver: tell(driver, slot, index, ISOCHRONOUS_CODES))
            self.try_step(lambda driver: driver.stray_block_of(ring))
        self.try_step(lambda driver: driver.event(0, driver.pick.choice([14, 15, 23]), TRANSFER_EVENT << 10 | slot << 24 | index << 16))
        self.read_all()

    def stray_block_of(self, ring):
        """A bit of a word of some block changes, sometimes: also of one that was missed."""
        if self.pick.random() < 0.2:
            address = self.pick.choice(ring.places) + 4 * self.pick.randrange(4)
            self.make(Write(address, self.known.word(address) ^ 1 << self.pick.randrange(32)))

    def other_event(self):
        self.event(0, 1, self.pick.randrange(34, 40) << 10)

    def read_on(self):
        """ERDP goes to some event position up to the next one."""
        position = self.pick.choice([self.known.reads, self.pick.randint(self.known.dequeue, self.known.reads + 1)])
        self.make(Register('erdp', self.event_ring.address(position) | self.pick.choice([0, 8])))

    # ---- descriptors that are withdrawn

    def cancel(self):
        """An endpoint is stopped while it has work, mostly, from version 4 on often a long descriptor; of its ring descriptors are withdrawn, and mostly No Ops put
        there; then it is rung, or its ring moved."""
        self.finish_all()
        slot, index = self.some_endpoint_with_work() if self.pick.random() < 0.9 else self.some_enabled_endpoint()
        ring = self.known.ring_of(slot, index) or self.one_of(self.known.rings)
        if self.known.endpoint_state(slot, index) == 'Running':
            is_long = self.trace.version >= 4 and self.pick.random() < 0.7
            if is_long:
                self.try_step(lambda driver: driver.end_all(slot, index))
                self.try_step(lambda driver: driver.declare_long(ring))
            for _ in range(self.pick.randrange(2 if is_long else 4)):
                self.try_step(lambda driver: driver.declare_some(ring))
            self.try_step(lambda driver: driver.give_all(ring))
            self.try_step(lambda driver: driver.make(Doorbell(slot, index)))
            if self.pick.random() < 0.95:
                self.try_step(lambda driver: driver.whole_command(STOP_ENDPOINT, slot, index))
        if self.pick.random() < 0.1:
            self.try_step(lambda driver: driver.command_beside(slot, index))
        for _ in range(self.pick.choice([1, 1, 2, 3])):
            self.try_step(lambda driver: driver.withdraw(ring))
            self.try_step(lambda driver: driver.scribble_freed(ring))
            self.try_step(lambda driver: driver.unchain(ring))
        if self.pick.random() < (0.5 if self.trace.version >= 4 else 0.3):
            self.try_step(lambda driver: driver.withdraw_passed(ring))
        self.go_on(slot, index, ring)

    def command_beside(self, slot, index):
        """A command stays unfinished that touches an endpoint; in version 4 half of the time one that leaves it alone."""
        if self.trace.version >= 4 and self.pick.random() < 0.5:
            self.declare_command(self.pick.choice([CONFIGURE_ENDPOINT, EVALUATE_CONTEXT]), slot, 0, [index])
        else:
            self.declare_command(self.pick.choice([SET_TR_DEQUEUE, SET_TR_DEQUEUE, DISABLE_SLOT, RESET_DEVICE, CONFIGURE_ENDPOINT]), slot, index)
        self.give_all(self.command_ring)

    def some_endpoint_with_work(self):
        """One that runs or is stopped, where there is one, or can be made one."""
        if not self.resting_endpoints():
            self.enable_endpoints(5)
        return self.pick.choice(self.resting_endpoints() or [self.some_enabled_endpoint()])

    def resting_endpoints(self):
        return [at for at in ((slot, index) for slot in SLOTS for index in (1, 2, 3)) if self.known.endpoint_state(*at) in ('Running', 'Stopped')]

    def withdraw(self, ring):
        """A descriptor, mostly one that the controller can't have come to, or from version 3 on isn't known to have passed; from version 4 on mostly one that
        it is known to have passed in part, where there is one; often one over a Link."""
        floor = self.known.floor(ring).number
        least = self.known.ceiling(ring) if self.pick.random() < 0.6 else floor
        begins = [p for p in range(self.known.declared(ring)) if self.known.descriptor_length(ring, p) > 0 and not self.known.was_withdrawn(ring, p)]
        ends = {p: p + self.known.descriptor_length(ring, p) for p in begins}
        begun = [p for p in begins if p < floor < ends[p]]
        if begun and self.pick.random() < (0.9 if self.trace.version >= 4 else 0.1):
            self.make(Withdraws(ring.number, begun[0]))
            self.behind[ring.number] = ends[begun[0]]
            return
        fitting = [p for p in begins if p >= least]
        over_a_link = [p for p in fitting if ring.crossings(p + 1, ends[p] - 1)]
        if fitting and self.pick.random() < 0.9:
            self.make(Withdraws(ring.number, self.pick.choice(over_a_link if over_a_link and self.pick.random() < 0.5 else fitting)))
        else:
            self.make(Withdraws(self.pick.choice([ring.number, ring.number, self.pick.randrange(14)]), self.pick.randrange(self.known.declared(ring) + 2)))

    def withdraw_passed(self, ring):
        """A descriptor that the controller is known to have passed whole."""
        floor = self.known.floor(ring).number
        self.make(Withdraws(ring.number, self.one_of([p for p in range(floor) if 0 < self.known.descriptor_length(ring, p) <= floor - p])))

    def scribble_freed(self, ring):
        """Writes into a withdrawn block, of which any is let be; sometimes of its control word."""
        freed = self.known.unrestored(ring)
        for _ in range(self.pick.randrange(3) if freed else 0):
            address = ring.address(self.pick.choice(freed)) + 4 * self.pick.choice([0, 1, 2, 3, 3, 3])
            self.make(Write(address, self.pick.choice([0, 1, self.known.word(address) ^ 1, self.known.word(address) ^ 1, self.pick.getrandbits(32)])))

    def unchain(self, ring):
        """Links beside what is withdrawn lose their Chain bit, from version 4 on mostly; sometimes another bit changes with it, or another Link's word does."""
        freed = self.known.unrestored(ring)
        for crossing in self.known.due_crossings(ring):
            is_beside = crossing in freed or crossing - 1 in freed
            if self.pick.random() < (0.9 if is_beside and self.trace.version >= 4 else 0.1):
                control = ring.link_address(crossing) + 12
                word = self.known.word(control) & ~(1 << CHAIN) if self.pick.random() < 0.95 else self.known.word(control) ^ 1 << CHAIN
                self.make(Write(control, word ^ (1 << self.pick.randrange(32) if self.pick.random() < 0.05 else 0)))

    def restore(self, ring, how_often):
        """No Ops where descriptors were withdrawn."""
        for position in self.known.unrestored(ring):
            if self.pick.random() < how_often:
                self.write(ring.address(position), *with_cycle(self.known.queue(ring)[position], ring.cycle(position)))

    def go_on(self, slot, index, ring):
        """The endpoint is rung or moved, mostly with No Ops in place, and moved more often where it stands inside a descriptor withdrawn midway; what was
        withdrawn before it was given is mostly given first, or behind."""
        self.try_step(lambda driver: driver.restore(ring, driver.pick.choice([1, 1, 1, 1, 0.7])))
        if self.pick.random() < 0.5:
            self.try_step(lambda driver: driver.give_all(ring))
        if self.pick.random() < 0.4:
            self.try_step(lambda driver: driver.transfer_of(slot, index, [1, 1, 13]))
        if self.pick.random() < (0.6 if self.known.floor(ring).number < self.behind.get(ring.number, 0) else 0.4):
            self.try_step(lambda driver: driver.whole_command(SET_TR_DEQUEUE, slot, index))
        if self.pick.random() < 0.8:
            self.try_step(lambda driver: driver.make(Doorbell(slot, index)))
        self.try_step(lambda driver: driver.stray_freed(ring))
        self.try_step(lambda driver: driver.stray_link(ring))

    def stray_link(self, ring):
        """The Chain bit of a Link changes, sometimes: behind what started or moved the ring."""
        crossings = self.known.due_crossings(ring)
        if crossings and self.pick.random() < 0.2:
            control = ring.link_address(self.pick.choice(crossings)) + 12
            self.make(Write(control, self.known.word(control) ^ 1 << CHAIN))

    def stray_freed(self, ring):
        """A write into a No Op that was put where a descriptor was withdrawn."""
        withdrawn = [p for p in self.known.due_positions(ring) if self.known.was_withdrawn(ring, p)]
        if withdrawn and self.pick.random() < 0.3:
            address = ring.address(self.pick.choice(withdrawn)) + 4 * self.pick.randrange(4)
            self.make(Write(address, self.known.word(address) ^ 1 << self.pick.randrange(32)))

    # ---- rings that come and go

    def ring_goes(self):
        """A ring, mostly one that no endpoint has any more."""
        left = [ring for ring in self.known.rings if self.known.was_bound(ring) and not self.known.endpoints_with(ring)]
        unused = [ring for ring in self.known.rings if ring.kind == 'xfer' and not self.known.was_bound(ring)]
        if (left or unused) and self.pick.random() < 0.8:
            self.make(Goes(self.pick.choice(left * 3 + unused).number))
        else:
            self.make(Goes(self.pick.choice([*(ring.number for ring in self.known.rings), self.pick.randrange(14)])))

    def ring_comes(self):
        """A ring with a new number, mostly in memory of one that is gone, or in none's; mostly that is cleared."""
        ring = self.new_ring('xfer', self.some_segments())
        for segment in ring.segments if self.pick.random() < 0.9 else []:
            for control in range(segment.base + 12, segment.base + 16 * segment.count, 16):
                if self.known.word(control) % 2 == 1 and self.pick.random() < 0.95:
                    self.make(Write(control, self.pick.choice([0, self.known.word(control) ^ 1])))
        self.make(Comes(ring))

    def new_ring(self, kind, segments):
        """With a number that none had; the step ends where no line can say it."""
        ring = Ring(1 + max(ring.number for ring in self.trace.ever), kind, segments)
        if not is_shape(ring) or ring.number > 255 or any(segment.base >> 64 for segment in segments):
            raise Dropped
        return ring

    def some_segments(self):
        gone = [ring for ring in self.trace.ever if ring not in self.known.rings]
        if gone and self.pick.random() < 0.65:
            segments = self.pick.choice(gone[-3:]).segments
            return segments[:self.pick.randint(1, len(segments))] if self.pick.random() < 0.3 else segments
        if self.pick.random() < 0.5:
            return [Segment(0x400000 + 0x10000 * self.pick.randrange(4) + 0x100 * i, self.pick.randint(3, 6)) for i in range(self.pick.choice([1, 1, 2]))]
        area = self.some_address(self.pick.choice([INPUT_CONTEXTS, DEVICE_CONTEXTS, DEVICE_CONTEXTS, ARRAY]), 16)
        return [Segment(area + 16 * self.pick.randrange(24), self.pick.randint(3, 20))]

    def replace_ring(self):
        """A ring goes, its endpoint dropped for it mostly, and another one comes, which is mostly bound."""
        self.finish_all()
        slot, index = self.some_enabled_endpoint()
        if self.pick.random() < 0.6 and index > 1:
            self.try_step(lambda driver: driver.whole_command(CONFIGURE_ENDPOINT, slot, index))
        elif self.pick.random() < 0.4:
            self.try_step(lambda driver: driver.whole_command(driver.pick.choice([RESET_DEVICE, DISABLE_SLOT]), slot, index))
        self.try_step(Driver.ring_goes)
        self.try_step(Driver.stray_write)
        self.try_step(Driver.ring_comes)
        if self.pick.random() < 0.8:
            self.try_step(lambda driver: driver.whole_command(driver.some_kind(slot, index), slot, index))

    # ---- what stands at the beginning of most traces of versions 2 to 4

    def prepare(self):
        """A slot with endpoints, whose rings have gone round up to twice."""
        self.enable_endpoints(20)
        for slot, index in [(slot, index) for slot in SLOTS for index in (1, 2, 3)]:
            ring = self.known.ring_of(slot, index)
            for _ in range(self.pick.randrange(2 * ring.place_count) if ring else 0):
                self.try_step(lambda driver: driver.whole_transfer(slot, index))

    def enable_endpoints(self, tries):
        for _ in range(tries):
            self.finish_all()
            slot = max(SLOTS, key=lambda number: self.known.slot_state(number) != 'Disabled')
            kind = {'Disabled': ENABLE_SLOT, 'Enabled': ADDRESS_DEVICE, 'Default': ADDRESS_DEVICE}.get(self.known.slot_state(slot), CONFIGURE_ENDPOINT)
            if any(self.known.endpoint_state(slot, index) == 'Disabled' for index in (1, 2, 3)):
                self.try_step(lambda driver: driver.whole_command(kind, slot, 1))

    def whole_transfer(self, slot, index):
        ring = self.known.ring_of(slot, index)
        self.declare_some(ring)
        self.give_all(ring)
        self.make(Doorbell(slot, index))
        self.event(ring.address(self.known.declared(ring) - 1), 1, TRANSFER_EVENT << 10 | slot << 24 | index << 16)
        self.read_all()

    def end_all(self, slot, index):
        """The last block that was given is done."""
        ring = self.known.ring_of(slot, index)
        if ring and self.known.floor(ring).number < self.known.given_count(ring):
            self.event(ring.address(self.known.given_count(ring) - 1), 1, TRANSFER_EVENT << 10 | slot << 24 | index << 16)

    def read_all(self):
        self.make(Register('erdp', self.event_ring.address(self.known.reads) | 8))

    # ---- all of it

    STEPS = [(command, 30), (descriptor, 20), (give_some, 8), (doorbell, 12), (stray_write, 4), (clear_device_context, 1),
             (completion, 25), (transfer, 30), (other_event, 1), (read_on, 8)]
    # from version 2 on besides, from version 3 on, and from version 4 on
    STEPS_OF_TWO = [(cancel, 40), (replace_ring, 16), (ring_goes, 2), (ring_comes, 6)]
    STEPS_OF_THREE = [(suspend, 14), (bind_anew, 30)]
    STEPS_OF_FOUR = [(play, 40), (tell, 40), (cancel, 20), (reconfigure, 40)]
    STEPS_OF_RUNS = [(DriverOfRuns.rest, 30), (DriverOfRuns.next_of_rest, 15), (DriverOfRuns.stray_register, 8), (DriverOfRuns.stray_ring, 4)]

    def try_step(self, step):
        """A step one of whose rows is dropped is mostly dropped whole."""
        count = len(self.trace.rows)
        try:
            step(self)
        except Dropped:
            if self.pick.random() < TAKEN_BACK:
                self.go_back(count)

    def drive(self, steps):
        self.try_step(Driver.start)
        if self.trace.version > 1 and self.pick.random() < 0.8:
            self.prepare()
        later = [self.STEPS_OF_TWO, self.STEPS_OF_THREE, self.STEPS_OF_FOUR][:self.trace.version - 1]
        if self.trace.has_runs:
            later.append(self.STEPS_OF_RUNS)
        for step in self.pick.choices(*zip(*self.STEPS, *(step for steps_of in later for step in steps_of)), k=steps):
            self.try_step(step)


def fields_of(row):
    if isinstance(row, Declare):
        return ['sub', '%02x' % row.ring, *('%08x' % word for block in row.blocks for word in block)]
    if isinstance(row, Write):
        return ['w', '%016x' % row.address, '%08x' % row.word]
    if isinstance(row, (Register, Read)):
        return ['reg' if isinstance(row, Register) else 'rd', row.name, '%016x' % row.value]
    if isinstance(row, Doorbell):
        return ['db', '%02x' % row.slot, '%02x' % row.target]
    if isinstance(row, Comes):
        return ring_fields(row.ring)
    if isinstance(row, Goes):
        return ['free', '%02x' % row.ring]
    if isinstance(row, Withdraws):
        return ['nop', '%02x' % row.ring, '%016x' % row.position]
    return ['ev', *('%08x' % word for word in row.block)]


def ring_fields(ring):
    return ['ring', '%02x' % ring.number, ring.kind, *('%016x:%04x' % segment for segment in ring.segments)]


def text_of(trace):
    rings = [ring_fields(ring) for ring in trace.rings]
    lines = [['xtrace', str(trace.version)], ['ctx', '20' if trace.context_bytes == 32 else '40'], *rings, *(fields_of(row) for row in trace.rows)]
    return ''.join(' '.join(line) + '\n' for line in lines).encode()


def driven(seed, steps, most_refused, unmade=(), of=Driver):
    """The text of one driver's clean trace; and some texts whose last row breaks a rule, each with that rule's number. It makes no rows of
    the types `unmade`."""
    driver = of(seed, unmade)
    driver.drive(steps)
    # of each rule first the traces that were refused last
    by_rule = {}
    for rows, number in reversed(driver.refused):
        by_rule.setdefault(number, []).append((rows, number))
    picked = sorted((i, number) for number, refused in by_rule.items() for i in range(len(refused)))[:most_refused]
    refused = [by_rule[number][i] for i, number in picked]
    with_rows = lambda rows: text_of(Trace(driver.trace.version, driver.trace.context_bytes, driver.trace.rings, driver.trace.first, rows))
    return with_rows(driver.trace.rows), [(with_rows(rows), number) for rows, number in refused]
