"""The leases of a trace: which memory the controller may read or change, and between which rows (xHCI 4.9.2, 4.9.4, 6.1)."""
from collections import namedtuple
from functools import lru_cache

from commands import named_context
from known import histories
from rings import overlap

# A lease of a certificate. Kind 0: the block of a ring's position; 1: the Link that is crossed behind a position; 2: a range, with
# its length in `ring` and its first address in `position`
Lease = namedtuple('Lease', 'kind ring position start end')

# What is leased, of these kinds, the bytes that it covers, and for a range what it is for
Leased = namedtuple('Leased', 'kind ring position address length use')

WITHOUT_END = 0xffffffff


def area(address, length, use):
    return Leased(2, length, address, address, length, use)


def is_touched(leased, address, length):
    return overlap(address, length, leased.address, leased.length)


# ---- what is leased after the earlier rows

def blocks_of(known, ring):
    """The blocks that were given and that the controller may not have passed, but for those that were withdrawn and not restored."""
    unrestored = set(known.unrestored(ring))
    return [Leased(0, ring.number, p, ring.address(p), 16, None) for p in known.given_and_due(ring) if p not in unrestored]


def links_of(known, ring):
    crossings = [q for q in known.due_crossings(ring) if known.is_crossing_given(ring, q)]
    return [Leased(1, ring.number, q - 1, ring.link_address(q), 16, None) for q in crossings]


def event_segments(known):
    return [area(segment.base, 16 * segment.count, 'event segment') for segment in known.event_segments]


def segment_table(known):
    """From the write of ERSTBA on."""
    base = known.register('erstba')
    if base is None:
        return []
    return [area(base - base % 64, 16 * len(known.event_segments), 'segment table')]


def input_contexts(known):
    """Those of the unfinished commands."""
    named = [(p, named_context(command)) for p in known.unfinished_positions if (command := known.command_at(p))]
    return [area(context, known.trace.input_context_bytes, ('input context', p)) for p, context in named if context is not None]


def slot_entries(known):
    """The entries of the DCBAA that name a device context under lease."""
    return [area(known.slot_entry(s), 8, ('slot entry', s)) for s in known.slots_with_device]


def device_contexts(known):
    return [area(known.device(s), known.trace.device_context_bytes, ('device context', s)) for s in known.slots_with_device]


def open_ranges(known):
    return [*event_segments(known), *segment_table(known), *input_contexts(known), *slot_entries(known), *device_contexts(known)]


def open_leases(known):
    rings = known.driver_rings
    blocks = [leased for ring in rings for leased in blocks_of(known, ring)]
    links = [leased for ring in rings for leased in links_of(known, ring)]
    return [*blocks, *links, *open_ranges(known)]


# ---- the leases of a trace

@lru_cache(maxsize=2)
def leases_of(trace):
    """All leases of a trace, by their first row, then kind, ring and position: what is open after a row and wasn't before, up to where it isn't."""
    begun, leases, before = {}, [], set()
    line = lambda count: trace.first + count - 1 if count > 0 else 0
    ended = lambda leased, end: Lease(leased.kind, leased.ring, leased.position, line(begun[leased]), end)
    for count, known in enumerate(histories(trace)):
        now = set(open_leases(known))
        leases += [ended(leased, line(count)) for leased in before - now]
        begun.update((leased, count) for leased in now - before)
        before = now
    leases += [ended(leased, WITHOUT_END) for leased in before]
    return sorted(leases, key=lambda lease: (lease.start, lease.kind, lease.ring, lease.position))
