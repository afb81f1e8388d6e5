"""Where a word of memory lies: a TRB or a Link of a ring, an entry or a context that the controller reads. A place is a column."""
from dataclasses import dataclass

import standard
from program import BLOCK, RANGE

TRB, LINK_TRB, EVENT_RING, ERST, DCBAA_ENTRY, DEVICE_CONTEXT, INPUT_CONTEXT = range(7)
OTHER_MEMORY = 'other memory'


@dataclass(frozen=True)
class Place:
    """What lies at an address; `group` heads the columns that stand together, `index` orders them there."""
    kind: int
    group: str
    index: tuple
    start: int
    length: int
    label: str

    def has(self, address):
        return self.start <= address < self.start + self.length


def trb_place(ring, segment, address):
    number = (address - segment.base) // 16
    order = {'cmd': 0, 'evt': 2}.get(ring.kind, 1)
    index = (order, ring.number, segment.first + ring.segments.index(segment) + number)
    start = segment.base + 16 * number
    if ring.is_link(segment, address):
        return Place(LINK_TRB, ring.name, index, start, 16, 'Link')
    return Place(TRB, ring.name, index, start, 16, f'TRB at {start:x}')


class MemoryMap:
    """The places of a trace's memory: its rings', and those that its registers, its commands and its leases name."""

    def __init__(self, trace, leases, commands):
        self.trace = trace
        self.dcbaa = trace.register('dcbaap')
        self.dcbaa = None if self.dcbaa is None else self.dcbaa & ~63
        self.ranges = {}
        for segment in (segment for ring in trace.rings if ring.kind == 'evt' for segment in ring.segments):
            self.add(EVENT_RING, segment.base, 16 * segment.count)
        table = trace.register('erstba')
        if table is not None:
            self.add(ERST, table & ~63, 16 * max(1, (trace.register('erstsz') or 0) & 0xffff))
        for words in commands:
            if standard.type_of(words[3]) in standard.WITH_INPUT_CONTEXT:
                self.add(INPUT_CONTEXT, standard.pointer_of(words), 33 * trace.context_bytes)
        for lease in leases:
            self.of_lease(lease)

    def add(self, kind, start, length):
        index = (3, kind, start)
        label = {EVENT_RING: 'Event Ring', ERST: 'ERST', DEVICE_CONTEXT: 'Device Context', INPUT_CONTEXT: 'Input Context'}.get(kind)
        if kind == DCBAA_ENTRY:
            label = f'DCBAA entry {(start - self.dcbaa) // 8}'
        place = Place(kind, OTHER_MEMORY, index, start, length, label)
        return self.ranges.setdefault((kind, start), place)

    def of_lease(self, lease):
        """The place that a lease is of."""
        if lease.kind != RANGE:
            ring = self.trace.ring(lease.ring)
            return trb_place(ring, ring.segment_of(lease.position), self.start_of(lease))
        return self.add(self.kind_of_range(lease), lease.address, lease.length)

    def start_of(self, lease):
        """Where the memory of a lease begins."""
        if lease.kind == RANGE:
            return lease.address
        ring = self.trace.ring(lease.ring)
        return ring.address(lease.position) if lease.kind == BLOCK else ring.link_behind(lease.position)

    def kind_of_range(self, lease):
        if lease.begin == 0 or self.trace.row(lease.begin).startswith('ring '):
            return EVENT_RING
        if self.trace.row(lease.begin).startswith('reg erstba '):
            return ERST
        if lease.length == 8:
            return DCBAA_ENTRY
        return INPUT_CONTEXT if lease.length == 33 * self.trace.context_bytes else DEVICE_CONTEXT

    def place_at(self, address):
        """The place at an address, or None: a ring's before any other, an Input Context's before those that it overlaps."""
        ring, segment = self.trace.segment_at(address)
        if ring and ring.kind != 'evt':
            return trb_place(ring, segment, address)
        found = [place for place in self.ranges.values() if place.has(address)]
        if found:
            return max(found, key=lambda place: place.kind)
        if self.dcbaa is not None and 0 <= address - self.dcbaa < 8 * 256:
            return self.add(DCBAA_ENTRY, address & ~7, 8)
        return None

    def trb_text(self, address):
        """A TRB by its ring and its address, for example as an event names it."""
        ring, segment = self.trace.segment_at(address)
        return f'{trb_place(ring, segment, address).label} of {ring.name}' if ring else f'{address:x}'
