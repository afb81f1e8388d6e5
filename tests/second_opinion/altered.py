"""Lists of leases that differ from another one at a single record."""
from leases import WITHOUT_END


def moved_rows(lease):
    """The lease with one of its rows one later or earlier."""
    start, end = lease.start, lease.end
    for start, end in ((start + 1, end), (start - 1, end), (start, end + 1), (start, end - 1)):
        if start >= 0 and end <= WITHOUT_END:
            yield lease._replace(start=start, end=end)


def altered_at(leases, i):
    """Pairs of a name and a list, each another list than this one: record i is left out, doubled, swapped with the next, or has another row."""
    before, lease, rest = leases[:i], leases[i], leases[i + 1:]
    lists = [(f'without record {i}', before + rest),
             (f'with record {i} twice', before + [lease, lease] + rest),
             (f'with record {i} behind the next', before + rest[:1] + [lease] + rest[1:])]
    lists += [(f'with record {i} from {moved.start} to {moved.end}', before + [moved] + rest) for moved in moved_rows(lease)]
    return [(what, other) for what, other in lists if other != leases]
