"""Where input contexts, entries, tables and device contexts may lie (xHCI 6.1, 6.2.1, 6.2.5, 6.5)."""
from leases import device_contexts, is_touched, open_ranges


def is_bad_area(known, start, length):
    """It ends above 2^64, or touches a declared segment or a device context under lease."""
    return (start + length > 1 << 64 or known.touches_ring(start, length)
            or any(is_touched(leased, start, length) for leased in device_contexts(known)))


def is_in_range_lease(known, start, length):
    return any(is_touched(leased, start, length) for leased in open_ranges(known))


def is_soiled(known, start, length):
    """The controller may have changed a word of it, and the driver hasn't written that since."""
    return any(known.is_soiled(address) for address in range(start, start + length, 4))
