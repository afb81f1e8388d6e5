"""Which rows of a trace are shown, and which are folded into a note."""
from dataclasses import dataclass

from notes import note_of

MOST_ROWS_BEFORE, MOST_ROWS_BEHIND = 60, 60
MOST_EARLIER, MOST_BYTES = 24, 64
MOST_SHOWN = 2000
WORTH_A_FOLD = 2


@dataclass(frozen=True)
class Rows:
    """The rows from one to another, both of them among these; where they are folded, `note` stands in their place."""
    first: int
    last: int
    note: str | None = None

    @property
    def count(self):
        return self.last - self.first + 1

    def has(self, row):
        return self.first <= row <= self.last


def rows_asked(trace, verdict, end):
    """Where no rows are asked for: the last ones up to the refused row, without the set-up, and those behind it up to where a run ends."""
    judged = verdict.refused or end
    begin = max(trace.first, judged - MOST_ROWS_BEFORE)
    if trace.start and trace.start < judged:
        begin = max(begin, trace.start)
    if end - judged <= MOST_ROWS_BEHIND:
        return [Rows(begin, end)]
    return [Rows(begin, judged + MOST_ROWS_BEHIND // 2), Rows(end - MOST_ROWS_BEHIND // 2, end)]


def rows_near(trace, ranges, most):
    """The numbers of the rows of some ranges, and of at most so many before and behind each, in order."""
    near = set()
    for rows in ranges:
        near.update(range(max(trace.first, rows.first - most), min(trace.last, rows.last + most) + 1))
    return sorted(near)


def earlier_rows(trace, memory, leases, ranges, refused):
    """The rows before the first that is shown that are about the same memory: those that handed over what the shown rows write, and those
    that wrote the refused row's place last. The latest ones, where these are many."""
    begin = min(rows.first for rows in ranges)
    written = {place.start for rows in ranges for place in written_places(trace, memory, rows)}
    rows = {lease.begin for lease in leases if 0 < lease.begin < begin and memory.start_of(lease) in written}
    if refused and any(one.has(refused) for one in ranges):
        for place in written_places(trace, memory, Rows(refused, refused)):
            words = range(place.start, place.start + min(place.length, MOST_BYTES), 4)
            writes = (trace.last_write(address, begin) for address in words)
            rows |= {one.row for one in writes if one}
    return sorted(rows)[-MOST_EARLIER:]


def written_places(trace, memory, rows):
    fields = (trace.row(row).split() for row in range(rows.first, rows.last + 1))
    places = (memory.place_at(int(one[1], 16)) for one in fields if one[0] == 'w')
    return [place for place in places if place]


def with_folds(trace, ranges, end):
    """The ranges in order, and between them what is folded."""
    told, next_row = [], trace.first
    for rows in joined(ranges):
        if rows.first > next_row:
            told.append(Rows(next_row, rows.first - 1, note_of(trace, next_row, rows.first - 1)))
        told.append(rows)
        next_row = rows.last + 1
    if next_row <= end:
        told.append(Rows(next_row, end, note_of(trace, next_row, end)))
    return told


def joined(ranges):
    """The ranges in order, those that overlap or leave less between them than a fold is worth made one."""
    told = []
    for rows in sorted(ranges, key=lambda rows: rows.first):
        if told and rows.first - told[-1].last <= WORTH_A_FOLD:
            told[-1] = Rows(told[-1].first, max(told[-1].last, rows.last))
        else:
            told.append(rows)
    return told
