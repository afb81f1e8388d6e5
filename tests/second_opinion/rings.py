"""One ring: its segments, where positions and Links lie, and where a dequeue pointer may stand (xHCI 4.9.2, 4.11.5.1, 6.5)."""
from collections import namedtuple
from dataclasses import dataclass
from functools import cached_property

Segment = namedtuple('Segment', 'base count')


@dataclass(frozen=True)
class Data:
    """A spot: a dequeue pointer stands at the block of position `number`."""
    number: int


@dataclass(frozen=True)
class Link:
    """A spot: it stands at the Link that is crossed on the way to position `number`."""
    number: int


def is_data(spot):
    return isinstance(spot, Data)


def overlap(a, length_of_a, b, length_of_b):
    """Both areas have a byte in common."""
    return a < b + length_of_b and b < a + length_of_a


class Ring:
    """A ring; kind is 'cmd', 'evt' or 'xfer'."""

    def __init__(self, number, kind, segments):
        self.number = number
        self.kind = kind
        self.segments = segments

    @cached_property
    def places(self):
        """The addresses of the data blocks; the last block of each segment is its Link, but for an event ring."""
        links = 0 if self.kind == 'evt' else 1
        return [segment.base + 16 * i for segment in self.segments for i in range(segment.count - links)]

    @cached_property
    def place_count(self):
        return len(self.places)

    def address(self, position):
        return self.places[position % self.place_count]

    @cached_property
    def place_at(self):
        """By the addresses of the data blocks: their places in a lap."""
        return {address: place for place, address in enumerate(self.places)}

    def next_position(self, least, address):
        """The first position from a least one on whose block lies at an address; None where no data block does."""
        place = self.place_at.get(address)
        return None if place is None else least + (place - least) % self.place_count

    def cycle(self, position):
        """The Cycle bit of a position: 1 in the first lap, and flipped from lap to lap."""
        return 1 - position // self.place_count % 2

    @cached_property
    def ends(self):
        """By the last block before each Link, counted from the lap's first one: the segment's number."""
        if self.kind == 'evt':
            return {}
        last = {segment.base + 16 * (segment.count - 2): i for i, segment in enumerate(self.segments)}
        return {place: last[address] for place, address in enumerate(self.places) if address in last}

    def segment_crossed(self, number):
        """The segment whose Link is crossed on the way from position number - 1 to number; None where none is."""
        return None if number == 0 else self.ends.get((number - 1) % self.place_count)

    def is_crossing(self, number):
        return self.segment_crossed(number) is not None

    def crossings(self, least, most):
        """The numbers from least to most to which a Link is crossed."""
        behind = [range(least + (end + 1 - least) % self.place_count, most + 1, self.place_count) for end in self.ends]
        return sorted(number for numbers in behind for number in numbers if number > 0)

    def link_address(self, number):
        segment = self.segments[self.segment_crossed(number)]
        return segment.base + 16 * (segment.count - 1)

    def link_target(self, number):
        """Where the Link that is crossed to a position must lead."""
        return self.segments[(self.segment_crossed(number) + 1) % len(self.segments)].base

    def toggles(self, number):
        """The Link that is crossed to a position is that of the last segment."""
        return self.segment_crossed(number) == len(self.segments) - 1

    def touches(self, start, length):
        return any(overlap(start, length, segment.base, 16 * segment.count) for segment in self.segments)

    # ---- spots

    def is_spot(self, spot):
        return is_data(spot) or self.is_crossing(spot.number)

    def spot_address(self, spot):
        return self.address(spot.number) if is_data(spot) else self.link_address(spot.number)

    def spot_cycle(self, spot):
        """The Consumer Cycle State with which a controller stands there."""
        return self.cycle(spot.number if is_data(spot) else spot.number - 1)

    def after(self, position):
        """The spot behind a block: the Link there, if there is one, else the next block."""
        return Link(position + 1) if self.is_crossing(position + 1) else Data(position + 1)

    def spots(self, least, most):
        """All spots with a number from least to most, in order."""
        spots = [spot for number in range(least, most + 1) for spot in (Link(number), Data(number))]
        return [spot for spot in spots if self.is_spot(spot)]

    def spots_from(self, first, most):
        """All spots from a first one on with a number up to most, in order."""
        spots = self.spots(first.number, most)
        return [spot for spot in spots if not (spot == Link(first.number) and is_data(first))]


class RingList:
    """What is asked of `rings`, the rings that are there."""

    def ring(self, number):
        return next((ring for ring in self.rings if ring.number == number), None)

    def ring_of_kind(self, kind):
        return next((ring for ring in self.rings if ring.kind == kind), None)

    @property
    def driver_rings(self):
        """The command ring and the transfer rings: those on which the driver declares descriptors."""
        return [ring for ring in self.rings if ring.kind != 'evt']

    @property
    def command_ring(self):
        return self.ring_of_kind('cmd')

    @property
    def event_ring(self):
        return self.ring_of_kind('evt')

    @property
    def event_segments(self):
        return self.event_ring.segments if self.event_ring else []

    def ring_having(self, address):
        """The transfer ring that has the block at an address, or None."""
        return next((ring for ring in self.rings if ring.kind == 'xfer' and ring.touches(address, 1)), None)

    def touches_ring(self, start, length):
        return any(ring.touches(start, length) for ring in self.rings)


# ---- which segments make a ring

def is_segment(kind, segment):
    return (segment.base % (16 if kind == 'xfer' else 64) == 0
            and (16 if kind == 'evt' else 2) <= segment.count <= 4096
            and segment.base >> 16 == segment.base + 16 * segment.count - 1 >> 16)


def segments_overlap(s, t):
    return overlap(s.base, 16 * s.count, t.base, 16 * t.count)


def is_shape(ring):
    """The ring's segments make a ring."""
    segments = ring.segments
    return (len(segments) <= 64
            and all(is_segment(ring.kind, segment) for segment in segments)
            and ring.place_count >= 2
            and not any(segments_overlap(s, t) for i, s in enumerate(segments) for t in segments[:i]))


def clash(ring, other):
    """The two rings can't stand in one trace."""
    return (ring.number == other.number
            or any(other.touches(segment.base, 16 * segment.count) for segment in ring.segments)
            or ring.kind == other.kind != 'xfer')
