"""What a picture shows: its lines from top to bottom, its columns from left to right, and the leases that are its bars."""
import os
from bisect import bisect_left
from dataclasses import dataclass

from lines import BACK, Lines
from meanings import Meanings
from other_rings import OtherRings
from places import MemoryMap, Place
from program import RANGE, BadInput
from shown import MOST_SHOWN, Rows, earlier_rows, rows_asked, rows_near, with_folds
from steps import run_of
from traces import TraceText

MOST_COLUMNS, MOST_UNTOUCHED = 64, 40
MANY_LEASES = 1000
COMMANDS_NEAR = 200
MOST_UNFOLDED = 400


@dataclass
class Section:
    """Rows that stand together. Where they are folded, their lines are those that are there to be unfolded, or none."""
    rows: Rows
    lines: list


@dataclass(frozen=True)
class Bar:
    lease: object
    place: Place


@dataclass
class Picture:
    name: str
    verdict: object
    sections: list
    columns: list
    bars: list
    left_out: str
    has_steps: bool


class Scene:
    """A trace, what the program says of it, and the run beside it, where there is a schedule: its text."""

    def __init__(self, program, trace_path, schedule=None):
        self.name = os.path.basename(trace_path)
        with open(trace_path, 'rb') as file:
            text = file.read()
        self.verdict, self.certificate = program.check(text)
        self.trace = TraceText(text)
        if self.trace.last < self.trace.first:
            raise BadInput('the trace has no rows')
        self.run = run_of(program, trace_path, schedule) if schedule is not None else None

    def end(self):
        """The last row that there is something to show of: the refused one, or the one that the run has reached."""
        reached = self.trace.first - 1 + self.run.lines.count(b'row') if self.run else 0
        return min(max(self.verdict.refused or self.trace.last, reached), self.trace.last)

    def picture(self, asked=None, with_folded=False, is_chosen=False, has_notes=True):
        """The rows that are asked for, or those that the trace's length and its verdict call for, and the earlier ones about their memory,
        but where the rows are chosen by hand; with the lines of folds where these can be opened, and without a note on what isn't shown
        where the text around the picture tells that. Rows that are asked for are folded only where they can be unfolded."""
        ranges = self.ranges(asked)
        self.look_around(ranges)
        others = None if is_chosen or asked and not with_folded else self.other_rings(ranges)
        earlier = [] if is_chosen else self.earlier_rows(ranges, others)
        if earlier:
            ranges = ranges + [Rows(row, row) for row in earlier]
            self.look_around(ranges)
        told = with_folds(self.trace, ranges, max(max(rows.last for rows in ranges), self.end() if self.run else 0))
        if with_folded:
            self.look_around([rows for rows in told if is_seen(rows)])
        sections = self.sections(told, with_folded, others)
        return self.composed(sections if has_notes else [section for section in sections if not section.rows.note])

    def ranges(self, asked):
        if not asked:
            return rows_asked(self.trace, self.verdict, self.end())
        ranges = [Rows(max(rows.first, self.trace.first), min(rows.last, self.trace.last)) for rows in asked]
        if any(rows.count < 1 for rows in ranges) or sum(rows.count for rows in ranges) > MOST_SHOWN:
            raise BadInput(f'--rows: from 1 to {MOST_SHOWN} rows of the trace, which has the rows {self.trace.first} to {self.trace.last}')
        return ranges

    def look_around(self, ranges):
        """Finds the places of memory and the leases that the rows may be about."""
        self.open_leases = self.certificate.between(min(rows.first for rows in ranges), max(rows.last for rows in ranges))
        self.memory = MemoryMap(self.trace, [lease for lease in self.open_leases if lease.kind == RANGE], self.commands(ranges))
        begun, ended = {}, {}
        for lease in self.open_leases:
            begun.setdefault(lease.begin, []).append(lease)
            ended.setdefault(lease.end, []).append(lease)
        self.lines = Lines(self.trace, self.verdict, self.memory, Meanings(self.trace, self.memory, begun), begun, ended)

    def other_rings(self, ranges):
        """The rows of rings that the refused row has nothing to do with; None where no row that is shown is refused."""
        refused = self.verdict.refused
        return OtherRings(self.trace, ranges, refused) if refused and any(rows.has(refused) for rows in ranges) else None

    def earlier_rows(self, ranges, others):
        earlier = earlier_rows(self.trace, self.memory, self.open_leases, ranges, self.verdict.refused)
        return [row for row in earlier if not others or not others.has(row)]

    def commands(self, ranges):
        """The commands that are submitted near some rows, as their words."""
        rings = tuple(f'sub {ring.number:02x} ' for ring in self.trace.rings if ring.kind == 'cmd')
        texts = map(self.trace.row, rows_near(self.trace, ranges, COMMANDS_NEAR)) if rings else ()
        return [[int(field, 16) for field in text.split()[2:6]] for text in texts if text.startswith(rings)]

    def sections(self, told, with_folded, others):
        wanted = {row for rows in told if is_seen(rows) for row in range(rows.first, rows.last + 1)}
        beside = self.lines.beside_rows(self.run, wanted) if self.run else {}
        sections = []
        for rows in told:
            parts = others.folded_apart(rows, beside) if others and not rows.note else [rows]
            shown = [not part.note or with_folded and is_seen(rows) for part in parts]
            sections += [Section(part, self.lines.of_rows(part, beside) if is_shown else []) for part, is_shown in zip(parts, shown)]
        return sections

    # ---- columns and bars

    def composed(self, sections):
        lines = [line for section in sections for line in section.lines]
        shown = [line.row for line in lines if line.is_row]
        marks = [mark for line in lines for mark in line.marks]
        touching = [lease for lease in self.open_leases if touches(lease, shown)]
        bars = [Bar(lease, self.memory.of_lease(lease)) for lease in self.worth_a_bar(touching, marks, set(shown))]
        folded = folded_groups(sections)
        columns = chosen_columns(bars, marks, set(shown), unfolded_places(bars, sections))
        drawn = [bar for bar in bars if bar.place in columns]
        for line in lines:
            line.marks = [mark for mark in line.marks if mark.place in columns]
        left_out = len(touching) - len(drawn)
        told = f'not drawn: {left_out} more leases' if left_out else ''
        in_order = sorted(columns, key=lambda place: (place.group in folded, place.index))
        return Picture(self.name, self.verdict, sections, in_order, drawn, told, bool(self.run))

    def worth_a_bar(self, leases, marks, shown):
        """All of some leases; where they are very many, those that begin or end at a shown row, or are of memory with a mark."""
        if len(leases) < MANY_LEASES:
            return leases
        marked = {mark.place.start for mark in marks}
        return [lease for lease in leases if lease.begin in shown or lease.end in shown or self.memory.start_of(lease) in marked]


def is_seen(rows):
    """Rows that are shown, or can be: where a fold has too many it doesn't open."""
    return not rows.note or rows.count <= MOST_UNFOLDED


def folded_groups(sections):
    """The groups of columns that have marks of folded rows alone: they come last."""
    groups = {True: set(), False: set()}
    for section in sections:
        groups[bool(section.rows.note)].update(mark.place.group for line in section.lines for mark in line.marks)
    return groups[True] - groups[False]


def unfolded_places(bars, sections):
    """The places that have marks at rows that aren't folded, or bars that begin or end there."""
    lines = [line for section in sections if not section.rows.note for line in section.lines]
    rows = {line.row for line in lines if line.is_row}
    return {mark.place for line in lines for mark in line.marks} | {bar.place for bar in bars if bar.lease.begin in rows or bar.lease.end in rows}


def chosen_columns(bars, marks, shown, unfolded):
    """The places of the bars and marks. Where these are very many, those of rows that aren't folded come first; then what rows write and
    the controller takes, what is handed over, what is given back; and what is the controller's all the while is left out."""
    ranks = {mark.place: 0 for mark in marks if mark.shape != BACK}
    for bar in bars:
        rank = 1 if bar.lease.begin in shown else 2 if bar.lease.end in shown else 3
        ranks[bar.place] = min(ranks.get(bar.place, 3), rank)
    if len(ranks) > MOST_UNTOUCHED:
        ranks = {place: rank for place, rank in ranks.items() if rank < 3}
    return set(sorted(ranks, key=lambda place: (place not in unfolded, ranks[place], place.index))[:MOST_COLUMNS])


def touches(lease, shown):
    """Some of the rows, which are in order, lie between a lease's first and its last."""
    found = bisect_left(shown, lease.begin)
    return found < len(shown) and shown[found] <= lease.end
