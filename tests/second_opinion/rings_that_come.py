"""Where a ring may come, where one may go, and which descriptors may be withdrawn (xHCI 4.6.9, 4.6.10, 4.9, 4.11.5.1, 4.11.5.2)."""
from areas import is_in_range_lease, is_soiled
from blocks import CHAIN, EVENT_DATA, is_set, type_of, with_cycle
from events import may_be_taken
from given_commands import changes_endpoint
from moves import is_being_bound


def shows_first_lap(known, segment):
    """A control word shows the Cycle bit of the first lap."""
    return any(known.word(segment.base + 16 * i + 12) % 2 == 1 for i in range(segment.count))


def is_bad_segment(known, segment):
    area = segment.base, 16 * segment.count
    return (known.touches_ring(*area) or is_in_range_lease(known, *area) or is_soiled(known, *area)
            or shows_first_lap(known, segment))


def may_come(known, kind):
    """A transfer ring; or, where the controller has none of this kind, an event ring while it isn't started, a command ring also while it is known halted."""
    if kind == 'xfer':
        return True
    return known.ring_of_kind(kind) is None and (not known.is_started or kind == 'cmd' and known.is_halted)


def may_go(known, ring):
    """A transfer ring that no endpoint has, and that no unfinished command binds; or one that the controller doesn't use."""
    if ring is None:
        return False
    if ring.kind == 'xfer':
        return not known.endpoints_with(ring) and not is_being_bound(known, ring)
    return known.trace.has_runs and is_out_of_use(known, ring)


def is_out_of_use(known, ring):
    """An event ring before ERSTSZ tells of it; a command ring without a run, or where the controller is known to have halted and all commands are finished."""
    if ring.kind == 'evt':
        return not known.is_started and not known.is_written('erstsz')
    return not known.is_started or known.is_halted and not may_be_taken(known)


def has_stopped(known, ring):
    """An endpoint that has the ring is Stopped, and no unfinished command touches it."""
    def rests(number, index):
        is_touched = any(changes_endpoint(known, command, number, index) for command in known.unfinished)
        return known.endpoint_state(number, index) == 'Stopped' and not is_touched
    return any(rests(*at) for at in known.endpoints_with(ring))


def may_be_withdrawn(known, ring, position):
    """A descriptor begins there, not put there by a withdrawal, that the version doesn't count as passed, and of which no value may still be told."""
    blocks = range(position, position + known.descriptor_length(ring, position))
    return len(blocks) > 0 and not any(known.was_withdrawn(ring, p) or may_be_told(known, ring, p) for p in blocks) and not is_passed(known, ring, blocks)


def may_be_told(known, ring, position):
    """It is an Event Data block that the controller may have taken, and whose event may be unread: that names it by its value."""
    is_between = known.floor(ring).number <= position < known.ceiling(ring)
    return is_between and type_of(known.queue(ring)[position]) == EVENT_DATA


def is_passed(known, ring, blocks):
    """The controller may have come to the descriptor; in version 3 it is known to have passed its first block, from version 4 on its last one."""
    floor = known.floor(ring).number
    if known.trace.version >= 4:
        return blocks[-1] < floor
    return blocks[0] < (floor if known.trace.version == 3 else known.ceiling(ring))


def stands_as_declared(known, ring, position):
    return known.block_at(ring.address(position)) == with_cycle(known.queue(ring)[position], ring.cycle(position))


def is_left(known, ring):
    """A block of the ring that was withdrawn doesn't stand in memory as it is declared now."""
    return not all(stands_as_declared(known, ring, p) for p in known.unrestored(ring))


def flips_passed(known, write):
    """The Cycle bit of a block that was withdrawn, and that the controller may have passed, becomes the other one."""
    def is_flipped(ring, p):
        return p < known.ceiling(ring) and write.address == ring.address(p) + 12 and write.word % 2 != ring.cycle(p)
    return any(is_flipped(ring, p) for ring in known.driver_rings for p in known.unrestored(ring))


def unchains_link(known, write):
    """The Chain bit of a Link under lease is cleared, and nothing else changes, while a block before or behind that Link is withdrawn and not restored."""
    stands = known.word(write.address)
    if not is_set(stands, CHAIN) or write.word != stands - (1 << CHAIN):
        return False

    def is_beside(ring, crossing):
        free = known.unrestored(ring)
        return write.address == ring.link_address(crossing) + 12 and (crossing - 1 in free or crossing in free)
    return any(is_beside(ring, q) for ring in known.driver_rings for q in known.due_crossings(ring) if known.is_crossing_given(ring, q))
