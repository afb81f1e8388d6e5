"""Where a ring may be placed: the spots that a pointer and a cycle state name, behind nothing that wasn't given (xHCI 4.9.2, 4.6.10)."""
from rings import is_data


def is_reached(known, ring, spot):
    """Everything before the spot was given; for a block the crossing to it too."""
    ways = range(1, spot.number + 1 if is_data(spot) else spot.number)
    return all(known.is_given(ring, p) for p in range(spot.number)) and all(known.is_way_given(ring, q) for q in ways)


def spots_named(known, ring, binding, least, most):
    """The spots, with a number from least to most, that pointer and cycle state name and to which the ring may be moved."""
    named = [spot for spot in ring.spots(least, most) if (ring.spot_address(spot), ring.spot_cycle(spot)) == binding]
    return [spot for spot in named if known.is_border(ring, spot.number) and is_reached(known, ring, spot)]
