"""The rules, each a function named by its rule: whether a row breaks it, `known` being what is known after the earlier rows."""
from blocks import (ADDRESS_DEVICE, COMMAND_COMPLETION, EVENT_TYPES, LINK, SET_TR_DEQUEUE, TRANSFER_EVENT, aligned, cycle,
                    is_bad_command, is_bad_transfer, is_left_out_command, is_left_out_transfer, is_set, pointer, type_of, with_cycle)
from events import is_impossible_completion, is_impossible_transfer, is_in_profile
from given_commands import adds_left_out_endpoint, changes_endpoint, is_in_the_way, is_refused, moves_ring
from leases import device_contexts, event_segments, is_touched, open_leases, open_ranges
from moves import is_bad_binding, is_bad_dequeue, is_bad_stay, is_being_bound
from registers import SET_UP, is_bad_set_up, is_bad_usbcmd
from rings_that_come import flips_passed, has_stopped, is_bad_segment, is_left, may_be_withdrawn, may_come, may_go, unchains_link
from runs import HALTED
from trace import Comes, Declare, Doorbell, Event, Goes, Read, Register, Withdraws, Write


# ---- what a write gives

def positions_given(known, write):
    return [(ring, p) for ring in known.driver_rings for p in known.positions_given_by(write, ring)]


def links_given(known, write):
    """The crossings that a write gives, each with its Link as it stands then."""
    crossings = [(ring, q) for ring in known.driver_rings for q in known.crossings_given_by(write, ring)]
    return [(ring, q, known.block_with(write, ring.link_address(q))) for ring, q in crossings]


# ---- 10 to 14: writes of blocks and Links

def write_to_owned(known, row):
    """The word is under lease, or it flips the Cycle bit of a withdrawn block that may have been passed. Version 3 lets a word under lease be written as it
    stands, but in event segments and device contexts; version 4 besides lets a Link beside a withdrawn block lose its Chain bit, but in a leased range."""
    has = lambda leases: any(is_touched(leased, row.address, 4) for leased in leases)
    is_stored_again = known.word(row.address) == row.word and not has([*event_segments(known), *device_contexts(known)])
    is_unchained = known.trace.version >= 4 and unchains_link(known, row) and not has(open_ranges(known))
    is_let_be = known.trace.version >= 3 and is_stored_again or is_unchained
    return has(open_leases(known)) and not is_let_be or flips_passed(known, row)


def not_as_submitted(known, row):
    """A block is given with other words than the declared ones with its position's cycle."""
    def differs(ring, position):
        declared = known.queue(ring)[position:position + 1]
        stands = known.block_with(row, ring.address(position))
        return any(with_cycle(block, ring.cycle(position)) != stands for block in declared)
    return any(differs(ring, position) for ring, position in positions_given(known, row))


def not_declared(known, row):
    """A declaration is for no command or transfer ring; a position is given that isn't declared."""
    if isinstance(row, Declare):
        return known.ring(row.ring) not in known.driver_rings
    return any(position >= known.declared(ring) for ring, position in positions_given(known, row))


def not_whole(known, row):
    """The first block of a descriptor is given before its other blocks, and the Links between."""
    def is_part(ring, position):
        others = range(position + 1, position + known.descriptor_length(ring, position))
        return not all(known.is_given(ring, other) and known.is_way_given(ring, other) for other in others)
    return any(is_part(ring, position) for ring, position in positions_given(known, row))


def link_fault(known, row):
    """A Link is given that is none, leads elsewhere than to the next segment, or toggles the cycle elsewhere than at the end."""
    def is_wrong(ring, crossing, link):
        leads = aligned(pointer(link), 16) == ring.link_target(crossing)
        return not leads or type_of(link) != LINK or is_set(link[3], 1) != ring.toggles(crossing)
    return any(is_wrong(*given) for given in links_given(known, row))


# ---- 15 and 16: declarations

def ring_full(known, row):
    """No place would stay free of blocks that the controller may not have passed."""
    ring = known.ring(row.ring)
    return known.declared(ring) + len(row.blocks) > ring.place_count - 1 + known.floor(ring).number


def bad_descriptor(known, row):
    """The blocks have no form of a descriptor of this ring."""
    is_command = known.ring(row.ring).kind == 'cmd'
    return is_bad_command(row.blocks) if is_command else is_bad_transfer(row.blocks, known.trace.is_full)


# ---- 17 and 22: registers

def bad_register(known, row):
    """A set-up register is written too late, too early, with a wrong value or, before version 3, twice."""
    if row.name == 'usbcmd':
        return is_bad_usbcmd(known, row.value)
    return row.name in SET_UP and row.name != 'erdp' and is_bad_set_up(known, row.name, row.value)


def bad_erdp(known, row):
    """ERDP names no event place up to the one read next; before the start another than the first, but in version 3 also none."""
    ring = known.event_ring
    if row.name != 'erdp':
        return False
    if ring is None:
        return True
    address, last = aligned(row.value, 16), known.reads if known.is_started else known.dequeue
    if known.trace.version >= 3 and not known.is_started and address not in [ring.address(p) for p in range(ring.place_count)]:
        return False
    return address not in [ring.address(p) for p in range(known.dequeue, last + 1)]


# ---- 18: doorbells

def is_bad_bell(known, number, index):
    return (not 1 <= index <= 31
            or known.endpoint_state(number, index) not in ('Running', 'Stopped')
            or known.must_move(number, index)
            or any(changes_endpoint(known, command, number, index) for command in known.unfinished))


def bad_doorbell(known, row):
    """Outside of a run, for a target that there is none, or for an endpoint that may not be rung now."""
    if not known.is_started or known.is_halting:
        return True
    return row.target != 0 if row.slot == 0 else is_bad_bell(known, row.slot, row.target)


# ---- 19, 20, 23 and 25: commands that are given

def bad_command(known, row):
    """A command is given that names a Disabled slot or endpoint, or has contexts in a wrong place or with wrong content."""
    command = known.command_given_by(row)
    return command is not None and is_refused(known, command)


def busy(known, row):
    """An unfinished command of the slot is in the way; or something is given on a ring that an unfinished command moves, or, where it is open, binds."""
    command = known.command_given_by(row)
    if command is not None and any(is_in_the_way(known, command, other) for other in known.unfinished):
        return True
    blocks, links = [ring for ring, _ in positions_given(known, row)], [ring for ring, _, _ in links_given(known, row)]
    is_moved = any(moves_ring(known, other, ring) for ring in blocks for other in known.unfinished)
    return is_moved or any(known.is_open(ring) and is_being_bound(known, ring) for ring in [*blocks, *links])


def not_in_profile(known, row):
    """Blocks are declared, an endpoint is added, a Link is given, or an event is read that the profile leaves out."""
    if isinstance(row, Declare):
        is_command = known.ring(row.ring).kind == 'cmd'
        return any(is_left_out_command(block) for block in row.blocks) if is_command else is_left_out_transfer(row.blocks, known.trace.is_full)
    if isinstance(row, Event):
        return type_of(row.block) == TRANSFER_EVENT and not is_in_profile(known, row.block)
    command = known.command_given_by(row)
    interrupts = any(is_set(link[3], 5) for _, _, link in links_given(known, row))
    return interrupts or (command is not None and adds_left_out_endpoint(known, command))


def bad_move(known, row):
    """A command is given that binds a ring, or moves one, where it may not."""
    command = known.command_given_by(row)
    if command is None:
        return False
    tests = {SET_TR_DEQUEUE: is_bad_dequeue, ADDRESS_DEVICE: is_bad_stay}
    return is_bad_binding(known, command) or (command.type in tests and tests[command.type](known, command))


# ---- 21: events

def impossible_event(known, row):
    """No controller can have posted this event now."""
    block, ring = row.block, known.event_ring
    if not known.is_started or known.reads - known.dequeue > ring.place_count - 2:
        return True
    if cycle(block) != ring.cycle(known.reads) or type_of(block) not in EVENT_TYPES:
        return True
    if type_of(block) == TRANSFER_EVENT:
        return is_in_profile(known, block) and is_impossible_transfer(known, block)
    return type_of(block) == COMMAND_COMPLETION and is_impossible_completion(known, block)


# ---- 24: all rows

def after_stop(known, row):
    """The controller was stopped or reset by an earlier row, and doesn't run again."""
    return known.is_stopped


# ---- 32 to 36: descriptors that are withdrawn, rings that come and go, registers that are read

def bad_withdraw(known, row):
    """No endpoint that has the ring has stopped; or no descriptor may be withdrawn there."""
    ring = known.ring(row.ring)
    return ring is None or not has_stopped(known, ring) or not may_be_withdrawn(known, ring, row.position)


def not_restored(known, row):
    """A ring is started or moved before what was withdrawn of it stands there as No Ops."""
    ring = known.restored_by(row)
    return ring is not None and is_left(known, ring)


def bad_free(known, row):
    """No ring that is there, or one that an endpoint has, an unfinished command binds, or the controller uses, goes."""
    return not may_go(known, known.ring(row.ring))


def bad_ring(known, row):
    """A segment of a ring that comes touches a ring that is there or what is leased, has a soiled word, or shows the first lap's Cycle bit; or the controller
    has another ring of this kind, or runs."""
    return not may_come(known, row.ring.kind) or any(is_bad_segment(known, segment) for segment in row.ring.segments)


def impossible_read(known, row):
    """HCHalted shows 1 while the controller runs, or 0 where it isn't started or known to have halted."""
    if row.name != 'usbsts':
        return False
    if is_set(row.value, HALTED):
        return known.is_started and not known.is_halting
    return not known.is_started or known.is_halted


# ---- all rules, by the numbers that are printed

RULES = {
    10: write_to_owned, 11: not_as_submitted, 12: not_declared, 13: not_whole, 14: link_fault, 15: ring_full, 16: bad_descriptor,
    17: bad_register, 18: bad_doorbell, 19: bad_command, 20: busy, 21: impossible_event, 22: bad_erdp, 23: not_in_profile,
    24: after_stop, 25: bad_move, 32: bad_withdraw, 33: not_restored, 34: bad_free, 35: bad_ring, 36: impossible_read,
}

# those of each kind of row, in ascending order: one may rest on those before it
RULES_OF = {
    Declare: [12, 15, 16, 23],
    Write: [10, 11, 12, 13, 14, 19, 20, 23, 25, 33],
    Register: [17, 22],
    Doorbell: [18, 33],
    Event: [21, 23],
    Withdraws: [32],
    Goes: [34],
    Comes: [35],
    Read: [36],
}


def name_of(number):
    """The name that is printed, as WriteToOwned."""
    return ''.join(word.capitalize() for word in RULES[number].__name__.split('_'))


def least_broken(known, row):
    """The least rule that a row breaks; None where it breaks none. After the stop nothing else is looked at."""
    if after_stop(known, row):
        return 24
    return next((number for number in RULES_OF[type(row)] if RULES[number](known, row)), None)


def all_broken(known, row):
    """All rules that a row breaks, in ascending order. After the stop nothing else is looked at, nor of a declaration for no ring."""
    if after_stop(known, row):
        return [24]
    if isinstance(row, Declare) and not_declared(known, row):
        return [12]
    return [number for number in RULES_OF[type(row)] if RULES[number](known, row)]
