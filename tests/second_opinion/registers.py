"""Which values of a register are wrong in the set-up of a controller, and where it halted (xHCI 4.2, 4.23.2, 5.4.1, 5.4.5, 5.5.2.3, 6.5)."""
from areas import is_bad_area
from blocks import aligned, bits, is_set
from events import may_be_taken
from runs import RESET, RESTORE, RUN, SAVE

SET_UP = ('crcr', 'dcbaap', 'config', 'erstsz', 'erstba', 'erdp')


def is_right_size(known, value):
    return bits(value, 0, 16) == len(known.event_segments) > 0


def is_event_ring_named(known):
    """The last ERSTSZ and ERDP are those of the event ring, from its first block on."""
    ring = known.event_ring
    return ring is not None and is_right_size(known, known.register('erstsz')) and aligned(known.register('erdp'), 16) == ring.address(0)


def is_late_reset(known):
    return any(known.is_written(name) for name in SET_UP)


def is_early_start(known):
    """Not all is set up, or the event ring is named wrongly."""
    return not all(known.is_written(name) for name in ('crcr', 'erstsz', 'erstba', 'erdp')) or not is_event_ring_named(known)


def has_gap(known):
    """Behind a block of the command ring that wasn't given one was."""
    ring = known.command_ring
    return ring is not None and any(p >= known.given_count(ring) for p in known.given_and_due(ring))


def may_go_on(known):
    """A halting controller is known to have halted, and to have restored what it saved; CRCR names the command ring that is there, and nothing of it may be taken that
    isn't finished."""
    return known.is_halted and known.state in (None, 'restored') and known.is_written('crcr') and not may_be_taken(known)


def saves_badly(known, value):
    """The state is saved or restored before the halt is known, beside R/S 1, HCRST 1 or each other; saved where a command may be taken that isn't finished; or
    restored where none was saved."""
    saves, restores = is_set(value, SAVE), is_set(value, RESTORE)
    if not known.trace.has_runs or not saves and not restores:
        return False
    if not known.is_halted or is_set(value, RUN) or is_set(value, RESET) or saves and restores:
        return True
    return may_be_taken(known) if saves else known.state is None


def is_bad_usbcmd(known, value):
    """A reset or a start comes too early or too late, or the state is saved or restored where it can't be."""
    if saves_badly(known, value):
        return True
    if is_set(value, RESET):
        return is_late_reset(known) if not known.is_started else known.trace.has_runs and (not known.is_halted or has_gap(known))
    if not is_set(value, RUN):
        return False
    return is_early_start(known) if not known.is_started else known.is_halting and not may_go_on(known)


def is_bad_crcr(known, value):
    """The pointer isn't the first block of a command ring whose doorbell wasn't rung, RCS isn't 1, or CS or CA is."""
    ring = known.command_ring
    return ring is None or aligned(value, 64) != ring.address(0) or bits(value, 0, 3) != 1 or known.held(ring) != 0


def is_bad_erstsz(known, value):
    """There is no event ring; before version 3 a second write, or another value than the number of its segments."""
    if known.trace.version >= 3:
        return not known.event_segments
    return known.is_written('erstsz') or not is_right_size(known, value)


def lists(known, base, segments):
    """The segment table at an address lists these segments."""
    def is_entry(address, segment):
        return aligned(known.long(address), 64) == segment.base and bits(known.word(address + 8), 0, 16) == segment.count
    return all(is_entry(base + 16 * i, segment) for i, segment in enumerate(segments))


def is_bad_erstba(known, value):
    segments, base = known.event_segments, aligned(value, 64)
    is_sized = known.is_written('erstsz') and is_right_size(known, known.register('erstsz'))
    is_in_turn = is_sized and not known.is_written('erstba')
    return not is_in_turn or is_bad_area(known, base, 16 * len(segments)) or not lists(known, base, segments)


TESTS = {'crcr': is_bad_crcr, 'erstsz': is_bad_erstsz, 'erstba': is_bad_erstba}


def is_bad_set_up(known, name, value):
    """A register of the set-up, but ERDP, is written in a run that isn't known to have halted, with a wrong value, or while halted with another than stands."""
    if known.is_started and not known.is_halted:
        return True
    if known.is_started and name != 'crcr':
        return known.register(name) != value
    return name in TESTS and TESTS[name](known, value)
