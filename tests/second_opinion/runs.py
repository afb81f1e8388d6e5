"""What rows tell of the controller's runs: it starts, halts, saves and restores its state, goes on or is reset (xHCI 4.2, 4.23.2, 5.4.1, 5.4.2)."""
from blocks import bits, is_set
from rings import Data

# bits of USBCMD, and of USBSTS
RUN, RESET, SAVE, RESTORE = 0, 1, 8, 9
HALTED, RESTORES = 0, 9

# what is known of these stays over a reset
OF_RINGS = {'floor', 'bound'}


def is_run(value):
    """R/S is 1, and HCRST 0."""
    return is_set(value, RUN) and not is_set(value, RESET)


def of_command(known, value):
    """USBCMD is written."""
    if not known.is_started:
        if is_run(value):
            yield ('started',), True
    elif not known.trace.has_runs:
        if not is_run(value):
            yield ('stopped',), True
    elif is_set(value, RESET):
        if known.is_halted:
            yield from of_reset(known)
    elif is_set(value, RUN):
        yield ('halting',), False
        yield ('halted',), False
        yield ('state',), None
    else:
        yield ('halting',), True
        yield from of_state(known, value)


def of_state(known, value):
    """In a halt that is known the controller is to save its state, or to restore what it saved."""
    if not known.is_halted:
        return
    if is_set(value, SAVE):
        yield ('state',), 'saved'
    elif is_set(value, RESTORE) and known.state is not None:
        yield ('state',), 'restoring'


def of_reset(known):
    """All that was given of the command ring is over; each other ring is held behind what was given without a gap, but behind nothing that is the driver's again."""
    for ring in known.driver_rings:
        given = known.given_count(ring)
        if ring.kind == 'cmd':
            yield ('floor', ring.number), Data(0) if given == 0 else ring.after(given - 1)
            yield ('held', ring.number), None
        else:
            free = [p for p in range(known.ceiling(ring), given) if p in known.freed_positions(ring)]
            yield ('held', ring.number), min(free, default=max(given, known.ceiling(ring)))


def of_read(known, row):
    """A register is read: USBSTS alone says something, while the controller halts; of a state that is being restored by RSS and SRE, the two bits from RSS on."""
    if row.name != 'usbsts' or not is_set(row.value, HALTED) or not known.is_halting:
        return
    yield ('halted',), True
    if known.state == 'restoring' and bits(row.value, RESTORES, 2) == 0:
        yield ('state',), 'restored'
