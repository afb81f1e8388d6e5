"""Where a command may let an endpoint's ring begin, and where it may set its dequeue pointer (xHCI 4.6.5, 4.6.6, 4.6.10)."""
import contexts
from blocks import ADDRESS_DEVICE
from effects import disabled_by
from standing import spots_named


def bindings_of(known, command):
    """The pointers and cycle states of the rings that a command binds."""
    added = contexts.endpoints_added_by(known, command)
    if command.type == ADDRESS_DEVICE and known.endpoint_state(command.slot, 1) != 'Disabled':
        return []
    return [contexts.binding_in(known, command.pointer, index) for index in added]


def rings_bound(known, command):
    """For each the transfer ring that has the block at its pointer, or None."""
    return [known.ring_having(binding.pointer) for binding in bindings_of(known, command)]


def is_being_bound(known, ring):
    """An unfinished command binds the ring."""
    return any(ring in rings_bound(known, other) for other in known.unfinished)


def is_kept(known, command, ring):
    """An endpoint has the ring, and the command doesn't drop it."""
    dropped = [(command.slot, index) for index in disabled_by(known, command)]
    return any(at not in dropped for at in known.endpoints_with(ring))


def is_bad_place(known, command, ring, binding):
    """The ring is another's, or it doesn't stand still where it is bound."""
    if ring is None or is_kept(known, command, ring) or is_being_bound(known, ring):
        return True
    was_used = known.trace.version < 3 and known.was_bound(ring)
    return was_used or not is_move(known, ring, binding, known.ceiling(ring), known.floor(ring).number)


def is_bad_binding(known, command):
    rings = rings_bound(known, command)
    return len(set(rings)) != len(rings) or any(is_bad_place(known, command, *at) for at in zip(rings, bindings_of(known, command)))


def is_move(known, ring, binding, least, most):
    """Pointer and cycle state name a spot, with a number from least to most, to which the ring may be moved."""
    return bool(spots_named(known, ring, binding, least, most))


def is_bad_dequeue(known, command):
    """Set TR Dequeue goes to a border from the ceiling up to what is declared, of an endpoint at rest."""
    ring = known.ring_of(command.slot, command.endpoint)
    if known.endpoint_state(command.slot, command.endpoint) not in ('Stopped', 'Error') or ring is None:
        return True
    return not is_move(known, ring, (command.pointer, command.cycle), known.ceiling(ring), known.declared(ring))


def is_bad_stay(known, command):
    """A second Address Device leaves the pointer where it is, with nothing left on the ring."""
    ring = known.ring_of(command.slot, 1)
    if known.endpoint_state(command.slot, 1) == 'Disabled':
        return False
    if ring is None or known.declared(ring) != known.floor(ring).number:
        return True
    return not is_move(known, ring, contexts.binding_in(known, command.pointer, 1), known.declared(ring), known.declared(ring))
