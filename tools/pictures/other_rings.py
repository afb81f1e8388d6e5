"""Which rows are only about rings that the refused row has nothing to do with. A picture needs them no more than the set-up."""
import standard
from notes import note_of
from shown import Rows, rows_near

WORTH_A_FOLD = 6
# the rows before the refused one that tell what it is about, and those around the shown ones that tell which endpoint a ring is of
NEIGHBOURS, ENDPOINTS_NEAR = 4, 200
EVENT_WORDS = ('ev', 'report', 'finish', 'other')
WITH_TRB = (standard.TRANSFER_EVENT, standard.COMMAND_COMPLETION)


def words_of(fields):
    return [int(field, 16) for field in fields]


class RowRings:
    """Tells the rings that a row or a step is about. `rows` are those whose Transfer Events tell which endpoint a ring is of."""

    def __init__(self, trace, rows):
        self.trace = trace
        self.events, self.commands = ({ring.number for ring in trace.rings if ring.kind == kind} for kind in ('evt', 'cmd'))
        self.endpoints = {}
        for text in map(trace.row, rows):
            if text.startswith('ev '):
                self.learn(words_of(text.split()[1:]))

    def learn(self, words):
        rings = set() if standard.tells_value(words) else self.at(standard.pointer_of(words))
        if rings and standard.type_of(words[3]) == standard.TRANSFER_EVENT:
            self.endpoints.setdefault((words[3] >> 24, words[3] >> 16 & 31), set()).update(rings)

    def at(self, address):
        ring, _ = self.trace.segment_at(address)
        return {ring.number} if ring else set()

    def slots_of(self, ring):
        return {slot for (slot, _), rings in self.endpoints.items() if ring in rings}

    def of_row(self, row):
        return self.of(self.trace.row(row))

    def of(self, text):
        """The numbers of the rings that a line is about; None where it is about something else, or that isn't known."""
        word, *fields = text.split() or ['']
        if word in ('reg', 'rd'):
            return {'erdp': self.events, 'crcr': self.commands}.get(fields[0])
        numbers = words_of(fields[:1] if word == 'ring' else fields)
        if word in ('sub', 'look', 'ring', 'free', 'nop'):
            return {numbers[0]}
        if word in ('w', 'scrib'):
            return self.at(numbers[0]) or None
        if word == 'db':
            return self.endpoints.get((numbers[0], numbers[1])) if any(numbers) else self.commands
        return self.of_event(numbers) if word in EVENT_WORDS else None

    def of_event(self, words):
        if standard.tells_value(words):
            return self.events | self.endpoints.get((words[3] >> 24, words[3] >> 16 & 31), set())
        return self.events | (self.at(standard.pointer_of(words)) if standard.type_of(words[3]) in WITH_TRB else set())


class OtherRings:
    """The rows among some that are only about rings with which the refused row has nothing to do."""

    def __init__(self, trace, ranges, refused):
        self.trace, self.refused = trace, refused
        self.rings = RowRings(trace, rows_near(trace, ranges, ENDPOINTS_NEAR))
        texts = map(trace.row, range(min(rows.first for rows in ranges), refused + 1))
        self.submitted = [words_of(text.split()[2:6]) for text in texts if self.submits_command(text)]
        self.touched = self.touched_rings()

    def submits_command(self, text):
        return text.startswith('sub ') and self.rings.of(text) <= self.rings.commands

    def touched_rings(self):
        """The rings of the refused row and of those right before it, those into which the shown commands point, and the Command Ring, since
        commands act on other rings. Where the refused row is about no ring but this, the rings of slots that the commands name too."""
        own, neighbours = self.rings.of_row(self.refused), range(max(self.trace.first, self.refused - NEIGHBOURS), self.refused)
        near = set().union(*(self.rings.of_row(row) or () for row in neighbours)) - self.rings.events
        pointed = (self.rings.at(standard.pointer_of(words)) for words in self.submitted)
        touched = (own or set()).union(near, self.rings.commands, *pointed)
        return touched | (set() if own and not own <= self.rings.commands else self.rings_of_named_slots())

    def rings_of_named_slots(self):
        """The rings but those that are known to be of other slots than the commands, or a refused doorbell, name."""
        word, *fields = self.trace.row(self.refused).split()
        rung = [int(fields[0], 16)] if word == 'db' else []
        named = {*(words[3] >> 24 for words in self.submitted), *rung} - {0}
        slots = {ring.number: self.rings.slots_of(ring.number) for ring in self.trace.rings if ring.kind == 'xfer'}
        return {number for number, known in slots.items() if not named or not known or known & named}

    def has(self, row, steps=()):
        """Whether a row, and the steps that follow it, are only about other rings."""
        rings = [self.rings.of_row(row), *(self.rings.of(step.text) for step in steps)]
        return all(one is not None and one.isdisjoint(self.touched) for one in rings)

    def folded_apart(self, rows, beside):
        """Some rows as those that are shown, and those that are folded, where enough of these stand together."""
        told, shown, other = [], rows.first, rows.first
        for row in range(rows.first, rows.last + 2):
            if row <= rows.last and self.has(row, beside.get(row, ())):
                continue
            if row - other >= WORTH_A_FOLD:
                told += [Rows(shown, other - 1)] if shown < other else []
                told.append(Rows(other, row - 1, note_of(self.trace, other, row - 1)))
                shown = row
            other = row + 1
        return told + ([Rows(shown, rows.last)] if shown <= rows.last else [])
