"""The model of a controller beside the rows of a trace: which steps it may make, and what they do (xHCI 4.2, 4.5.3, 4.6, 4.7, 4.8.3, 4.9.2 to 4.9.4, 4.10.2,
4.11.5.2, 5.4).
"""
from collections import namedtuple
from functools import wraps

import contexts
from blocks import (ADDRESS_DEVICE, COMMAND_COMPLETION, CONFIGURE_ENDPOINT, DISABLE_SLOT, ENABLE_SLOT, LINK, RESET_DEVICE, RESET_ENDPOINT, SET_TR_DEQUEUE,
                    STOP_ENDPOINT, SUCCESS, TRANSFER_EVENT, aligned, bits, code, cycle, endpoint, is_set, pointer, slot, type_of)
from codes import ERROR, HALTED, OF_SERVICE, PASSED, STOPPED, has_fitting_name, said_by
from commands import command_of, endpoint_after_success, is_stop_of, named_context, names_slot, slot_after_success
from effects import disabled_by
from harms import Takes
from known import Declared
from rings import RingList
from runs import HALTED as HCHALTED
from runs import RESET, RUN, is_run
from trace import Comes, Declare, Doorbell, Event, Goes, Read, Register, Withdraws, Write

# a command that was taken and isn't finished: where it lies, its words then, and whether its Stopped event was posted
UnderWay = namedtuple('UnderWay', 'address block has_stopped')


class Memory:
    """Words, and the steps in which each was written and changed."""

    def __init__(self):
        self.words = {}
        self.written = {}
        # pairs of a step and an address
        self.changes = []

    def store(self, address, word, step):
        if self.words.get(address, 0) != word:
            self.changes.append((step, address))
        self.words[address] = word
        self.written[address] = step

    def is_changed_since(self, step, start, length):
        """A word of an area was changed after a step."""
        for at, address in reversed(self.changes):
            if at <= step:
                return False
            if start <= address < start + length:
                return True
        return False


def a_step(make):
    """A step is counted where it is possible."""
    @wraps(make)
    def made(controller, *arguments):
        controller.now += 1
        shown = make(controller, *arguments)
        controller.now -= 0 if shown else 1
        return shown
    return made


class Controller(RingList):
    """`rings` are there now, `declared` tells what was declared of each that ever was. Each step answers something true where it is possible."""

    def __init__(self, trace):
        self.trace = trace
        # the step that is made, or was made last
        self.now = 0
        self.memory = Memory()
        self.registers = {}
        self.is_started = self.is_stopped = self.is_halting = self.is_halted = False
        self.rings, self.ever = [], []
        # by ring number: what is declared, what was taken, the dequeue pointer and the Consumer Cycle State
        self.declared, self.takes, self.at = {}, {}, {}
        self.active = set()
        self.nothing_enabled()
        self.posted = self.reads = self.dequeue = 0
        self.looked_outside = self.posted_nowhere = False
        for ring in trace.rings:
            self.comes(ring)

    def nothing_enabled(self):
        """All slots and endpoints are Disabled; nothing is under way."""
        self.slots, self.endpoints, self.had, self.isochronous = {}, {}, {}, {}
        self.scribbles = set()
        self.under_way = None

    # ---- what is there

    def word(self, address):
        return self.memory.words.get(address, 0)

    def long(self, address):
        return self.word(address) + (self.word(address + 4) << 32)

    def block(self, address):
        return tuple(self.word(address + 4 * i) for i in range(4))

    def newest(self, kind):
        """The ring of a kind that was declared last, though it may have gone."""
        return next((ring for ring in reversed(self.ever) if ring.kind == kind), None)

    def endpoint_state(self, number, index):
        return self.endpoints.get((number, index), 'Disabled')

    def slot_state(self, number):
        return self.slots.get(number, 'Disabled')

    def is_isochronous(self, number, index):
        return self.isochronous.get((number, index), False)

    # ---- harm

    def waits_inside(self):
        """An active ring's controller waits with a descriptor half taken."""
        def waits(number):
            address, state = self.at[number]
            return self.takes[number].is_inside and self.word(address + 12) % 2 != state
        return any(waits(number) for number in self.active)

    def posts_wrongly(self):
        """As many events are unread as the event ring has places, or one was posted while no event ring was there."""
        ring = self.newest('evt')
        return self.posted_nowhere or ring is not None and self.posted - self.reads >= ring.place_count

    def has_changed_context(self):
        """The input context of the command under way was changed since that was given."""
        command = command_of(self.under_way.block) if self.under_way else None
        context = named_context(command) if command else None
        if context is None:
            return False
        given = self.memory.written.get(self.under_way.address + 12, 0)
        return self.memory.is_changed_since(given, context, self.trace.input_context_bytes)

    # ---- rows

    @a_step
    def row(self, row):
        makes = {Declare: self.declares, Write: self.writes, Register: self.register, Read: self.reads_register, Doorbell: self.rung, Event: self.reads_event,
                 Comes: lambda row: self.comes(row.ring), Goes: self.goes, Withdraws: self.withdraws}
        return makes[type(row)](row) is not False

    def declares(self, row):
        if row.ring in self.declared:
            self.declared[row.ring] = self.declared[row.ring].and_one(row.blocks)

    def withdraws(self, row):
        if row.ring in self.declared:
            self.declared[row.ring] = self.declared[row.ring].without(row.position)

    def writes(self, row):
        self.memory.store(row.address, row.word, self.now)

    def comes(self, ring):
        """Where a ring that is there has its number or touches it, nothing comes of it."""
        if any(other.number == ring.number or ring.touches(segment.base, 16 * segment.count) for other in self.rings for segment in other.segments):
            return
        self.rings, self.ever = [*self.rings, ring], [*self.ever, ring]
        self.declared[ring.number], self.takes[ring.number], self.at[ring.number] = Declared([]), Takes(), (0, 0)

    def goes(self, row):
        self.rings = [ring for ring in self.rings if ring.number != row.ring]

    def reads_event(self, row):
        ring = self.newest('evt')
        if ring is None or self.reads >= self.posted or self.block(ring.address(self.reads)) != row.block:
            return False
        self.reads += 1

    def reads_register(self, row):
        """HCHalted shows whether the controller runs."""
        return row.name != 'usbsts' or is_set(row.value, HCHALTED) == (self.is_halted or not self.is_started)

    def rung(self, row):
        if row.slot == 0:
            number = self.newest('cmd').number if row.target == 0 and self.is_started and self.newest('cmd') else None
        elif self.endpoint_state(row.slot, row.target) in ('Running', 'Stopped'):
            number = self.had.get((row.slot, row.target))
        else:
            number = None
        if number is not None:
            self.active.add(number)
            self.endpoints.update({(row.slot, row.target): 'Running'} if row.slot > 0 else {})

    def register(self, row):
        self.registers[row.name] = row.value
        if row.name == 'usbcmd':
            self.runs_or_halts(row.value)
        elif row.name == 'crcr':
            self.placed_by_crcr(row.value)
        elif row.name == 'erdp' and self.newest('evt'):
            ring, address = self.newest('evt'), aligned(row.value, 16)
            positions = range(self.dequeue, self.dequeue + ring.place_count)
            self.dequeue = next((p for p in positions if ring.address(p) == address), self.dequeue)

    def runs_or_halts(self, value):
        if not self.is_started:
            self.is_started = is_run(value)
        elif not self.trace.has_runs:
            self.is_stopped |= not is_run(value)
        elif is_set(value, RESET):
            if self.is_halted:
                self.reset()
        else:
            self.is_halting = not is_set(value, RUN)
            self.is_halted &= self.is_halting

    def reset(self):
        self.nothing_enabled()
        self.active, self.registers = set(), {}
        self.posted = self.reads = self.dequeue = 0
        self.is_started = self.is_halting = self.is_halted = False

    def placed_by_crcr(self, value):
        """Where the controller isn't started or has halted, the newest command ring is placed."""
        ring = self.newest('cmd')
        if ring is None or self.is_started and not self.is_halted:
            return
        self.at[ring.number] = aligned(value, 64), value % 2
        self.active.difference_update(other.number for other in self.ever if other.kind == 'cmd')

    # ---- looks

    @property
    def is_at_work(self):
        return not self.is_halted and not self.is_stopped

    @a_step
    def look(self, number):
        """What a look shows; None where it isn't possible."""
        if number not in self.active or not self.is_at_work:
            return None
        ring = next(ring for ring in self.ever if ring.number == number)
        address, state = self.at[number]
        block = self.block(address)
        if cycle(block) == state and type_of(block) != LINK and ring.kind == 'cmd' and self.under_way:
            return None
        self.looked_outside |= ring not in self.rings or not ring.touches(address, 1)
        if cycle(block) != state:
            return 'waits'
        if type_of(block) == LINK:
            self.at[number] = aligned(pointer(block), 16), state ^ is_set(block[3], 1)
            return 'crosses'
        self.takes[number].take(ring, self.declared[number], address, block)
        self.at[number] = (address + 16) % 2**64, state
        if ring.kind == 'cmd':
            self.begins(address, block)
        return 'takes'

    def begins(self, address, block):
        self.under_way = UnderWay(address, block, False)
        command = command_of(block)
        if command and command.type == ADDRESS_DEVICE:
            self.scribbles.add(command.slot)

    # ---- posts

    def can_post(self, block, types):
        ring = self.newest('evt')
        return (ring is not None and self.is_started and self.is_at_work and (self.posted + 1 - self.dequeue) % ring.place_count != 0
                and cycle(block) == ring.cycle(self.posted) and type_of(block) in types)

    def post(self, block):
        ring = self.newest('evt')
        self.posted_nowhere |= self.trace.has_runs and all(other.kind != 'evt' for other in self.rings)
        for i, word in enumerate(block):
            self.memory.store(ring.address(self.posted) + 4 * i, word, self.now)
        self.posted += 1
        return 'posts'

    @a_step
    def other(self, block):
        return self.can_post(block, range(34, 40)) and self.post(block)

    @a_step
    def report(self, block):
        number = self.had.get((slot(block), endpoint(block)))
        if not self.can_post(block, [TRANSFER_EVENT]) or not has_fitting_name(self, block) or number is None:
            return None
        reports = {PASSED: self.reports_success, HALTED: self.reports_error, ERROR: self.reports_error, STOPPED: self.reports_stop, OF_SERVICE: lambda *_: True}
        said = said_by(self, block)
        return said in reports and reports[said](block, number, said) and self.post(block)

    def reports_success(self, block, number, said):
        """It names an unreported take, the oldest there."""
        takes = self.takes[number]
        before = takes.named_by(block)
        if before is None:
            return False
        takes.reported += before + 1
        return True

    def is_working(self, block, number):
        return self.endpoint_state(slot(block), endpoint(block)) == 'Running' and number in self.active

    def reports_error(self, block, number, said):
        """It names the last take, which wasn't reported yet."""
        takes = self.takes[number]
        if not self.is_working(block, number) or not takes.is_last(block):
            return False
        takes.reported = len(takes.taken)
        self.active.discard(number)
        self.endpoints[slot(block), endpoint(block)] = 'Error' if said == ERROR else 'Halted'
        return True

    def reports_stop(self, block, number, said):
        """For the Stop Endpoint under way it names the last take, if that wasn't reported yet, else the dequeue pointer."""
        takes = self.takes[number]
        is_stopping = self.under_way and is_stop_of(command_of(self.under_way.block), slot(block), endpoint(block))
        if not is_stopping or not self.is_working(block, number):
            return False
        is_last = takes.is_last(block)
        if not is_last and pointer(block) != self.at[number][0]:
            return False
        takes.reported = len(takes.taken) - is_last
        self.active.discard(number)
        self.under_way = self.under_way._replace(has_stopped=True)
        return True

    # ---- completions

    @a_step
    def finish(self, block):
        if not self.can_post(block, [COMMAND_COMPLETION]) or code(block) == 0 or not self.under_way or pointer(block) != self.under_way.address:
            return None
        command = command_of(self.under_way.block)
        if command and names_slot(command) and slot(block) != command.slot:
            return None
        if code(block) != SUCCESS and self.under_way.has_stopped:
            return None
        if code(block) == SUCCESS and not self.succeeds(command, slot(block)):
            return None
        self.under_way = None
        return self.post(block)

    def can_succeed(self, command, number):
        context = named_context(command)
        if context is not None and context + self.trace.input_context_bytes > 1 << 64:
            return False
        if command.type == ENABLE_SLOT and not 1 <= number <= bits(self.registers.get('config', 0), 0, 8):
            return False
        return (slot_after_success(command, self.slot_state(number)) is not None
                and endpoint_after_success(command, self.endpoint_state(number, command.endpoint)) is not None)

    def places_of(self, command):
        """The endpoints whose rings a success sets, with pointers and cycle states."""
        if command.type == SET_TR_DEQUEUE:
            return [(command.endpoint, command.pointer, command.cycle)]
        return [(index, *contexts.binding_in(self, command.pointer, index)) for index in contexts.endpoints_added_by(self, command)]

    def may_place(self, command, dropped):
        """Each pointer names a transfer ring that is there and that no other endpoint has then."""
        had = {at: number for at, number in self.had.items() if at not in dropped}
        for index, address, _ in self.places_of(command):
            ring, at = self.ring_having(address), (command.slot, index)
            if ring is None or any(other != at and number == ring.number for other, number in had.items()):
                return False
            had[at] = ring.number
        return True

    def succeeds(self, command, slot_of_event):
        """The effect of a success, where it is possible."""
        if command is None:
            return False
        number = command.slot if names_slot(command) else slot_of_event
        dropped = [(number, index) for index in disabled_by(self, command)]
        if not self.can_succeed(command, number) or not self.may_place(command, dropped):
            return False
        self.slot_goes_on(command, number)
        for at in dropped:
            self.active.discard(self.had.pop(at, None))
            self.endpoints[at] = 'Disabled'
        for index, address, state in self.places_of(command):
            self.place(number, index, address, state, 'Stopped' if command.type == SET_TR_DEQUEUE else 'Running')
        if command.type in (STOP_ENDPOINT, RESET_ENDPOINT):
            self.endpoints[number, command.endpoint] = 'Stopped'
        if command.type == STOP_ENDPOINT:
            self.active.discard(self.had.get((number, command.endpoint)))
        return True

    def slot_goes_on(self, command, number):
        if command.type in (ENABLE_SLOT, DISABLE_SLOT, ADDRESS_DEVICE, CONFIGURE_ENDPOINT, RESET_DEVICE):
            self.slots[number] = slot_after_success(command, self.slot_state(number))
        if command.type == DISABLE_SLOT:
            self.scribbles.discard(number)
        for index in contexts.endpoints_added_by(self, command):
            self.isochronous[number, index] = contexts.is_isochronous(self, command.pointer, index)

    def place(self, number, index, address, state, endpoint_state):
        """An endpoint gets the ring there, from there on; it is inactive, and all its takes count as reported."""
        ring = self.ring_having(address)
        self.active -= {ring.number, self.had.get((number, index))}
        self.endpoints[number, index], self.had[number, index] = endpoint_state, ring.number
        self.at[ring.number] = address, state
        takes = self.takes[ring.number]
        takes.reported = len(takes.taken)
        takes.place(ring, address)

    # ---- other steps

    @a_step
    def scribble(self, address, word):
        """A word of a device context changes that the controller may write."""
        base = aligned(self.registers.get('dcbaap', 0), 64)
        starts = [self.long(base + 8 * number) for number in self.scribbles]
        if self.is_stopped or not any(start <= address < start + self.trace.device_context_bytes for start in starts):
            return None
        self.memory.store(address, word, self.now)
        return 'scribbles'

    @a_step
    def halt(self):
        if not self.is_halting or self.is_halted:
            return None
        self.is_halted = True
        return 'halts'


def posted(block):
    kind = {TRANSFER_EVENT: 'report', COMMAND_COMPLETION: 'finish'}.get(type_of(block), 'other')
    return ' '.join([kind, *(f'{word:08x}' for word in block)])
