"""The lines of a picture: what each row and each step of the controller says, and the marks that it has in the columns."""
from dataclasses import dataclass, field

import standard
from places import EVENT_RING, OTHER_MEMORY, Place
from steps import Controller, steps_beside

STORE, REFUSED, TAKE, FETCH, POST, BACK = 'store', 'refused', 'take', 'fetch', 'post', 'back'
MOST_STEPS, FIRST_STEPS = 40, 12


@dataclass(frozen=True)
class Mark:
    place: Place
    shape: str


@dataclass
class Line:
    """A line of the picture. `row` is the row, of a step the row before it; `tip` is what is told on hover; `verdict` stands alone."""
    row: int
    text: str = ''
    meaning: str = ''
    marks: list = field(default_factory=list)
    tip: str = ''
    is_step: bool = False
    is_bad: bool = False
    is_late: bool = False
    verdict: str = ''

    @property
    def is_row(self):
        return not self.is_step and not self.verdict


class Lines:
    """Makes the lines of a trace's rows, and of the steps beside them."""

    def __init__(self, trace, verdict, memory, meanings, begun, ended):
        self.trace, self.verdict, self.memory, self.meanings = trace, verdict, memory, meanings
        self.begun, self.ended = begun, ended

    def of_rows(self, rows, beside):
        """The lines of some rows, each with those of the steps that follow it."""
        told = beside.get(rows.first - 1, [])[:] if rows.first == self.trace.first else []
        for row in range(rows.first, rows.last + 1):
            told.append(self.of_row(row))
            if row == self.verdict.refused:
                told.append(Line(row, verdict=f'breaks {self.verdict.rule}', is_bad=True))
            told += beside.get(row, [])
        return told

    def of_row(self, row):
        text, meaning, refused = self.trace.row(row), self.meanings.of_row(row), self.verdict.refused
        tip = '\n'.join([f'row {row}: {text}', meaning, *self.lease_texts(row)])
        return Line(row, text, meaning, self.row_marks(row, text), tip, is_bad=row == refused, is_late=bool(refused and row > refused))

    def row_marks(self, row, text):
        marks = [Mark(self.memory.of_lease(lease), BACK) for lease in self.ended.get(row, ())]
        word, *fields = text.split()
        place = None
        if word == 'w':
            place = self.memory.place_at(int(fields[0], 16))
        elif word == 'ev' and row == self.verdict.refused:
            place = self.memory.place_at(int(fields[1] + fields[0], 16) & ~15)
        if place:
            marks.append(Mark(place, REFUSED if row == self.verdict.refused else STORE))
        return marks

    def lease_texts(self, row):
        """What begins and ends to be the controller\u2019s at a row."""
        told = []
        for leases, says in ((self.begun, 'from here on the controller\u2019s'), (self.ended, 'here given back')):
            here = leases.get(row, [])
            ends = here if len(here) < 5 else [here[0], here[-1]]
            names = [place_text(self.memory.of_lease(lease)) for lease in ends]
            if names:
                told.append(f'{says}: ' + (', ' if ends is here else ' to ').join(names))
        return told

    def beside_rows(self, run, wanted):
        """The lines of a run\u2019s steps by the row that they follow, one of the wanted rows."""
        controller, beside = Controller(self.trace, self.memory, self.meanings), {}
        for number, stretch in enumerate(steps_beside(run, self.trace.first, wanted)):
            if number or stretch[0].number > 1:
                controller.lose_track()
            by_row = {}
            for step in stretch:
                by_row.setdefault(step.row, []).append(step)
            for row, steps in by_row.items():
                beside[row] = self.of_steps(steps, controller)
        return beside

    def of_steps(self, steps, controller):
        """The lines of the steps behind a row, the first and the last ones where they are very many."""
        own = [step for step in steps if step.word != 'row']
        hidden = own[FIRST_STEPS:-FIRST_STEPS] if len(own) > MOST_STEPS else []
        numbers, told = {step.number for step in hidden}, []
        for step in own:
            if step.number not in numbers:
                told.append(self.of_step(step, controller))
                continue
            controller.pass_over(step)
            if step is hidden[-1]:
                told.append(Line(step.row, '..', f'{len(hidden)} more steps', is_step=True))
        return told + [self.harm_line(step) for step in steps[-1:] if step.harm]

    def harm_line(self, step):
        is_nowhere = step.harm == 5 and not self.trace.has_event_ring(step.row)
        told = standard.NO_EVENT_RING if is_nowhere else standard.HARMS[step.harm]
        return Line(step.row, verdict=f'harm {step.harm}: {told}', is_step=True, is_bad=True)

    def of_step(self, step, controller):
        shown = controller.shown(step)
        place = self.memory.place_at(shown.address) if shown.address is not None else None
        marks = [Mark(place, TAKE if step.take else POST if step.word == 'scrib' else FETCH)] if place else []
        if step.word in ('report', 'finish', 'other'):
            marks = [Mark(place, POST) for place in self.memory.ranges.values() if place.kind == EVENT_RING][:1]
        text = shown.text if step.is_possible else f'isn\u2019t possible here: {shown.text}'
        tip = f'the controller, step {step.number}: {step.line}\n{text}'
        return Line(step.row, step.line, text, marks, tip, is_step=True, is_bad=bool(step.harm))


def place_text(place):
    return place.label if place.group == OTHER_MEMORY else f'{place.label} of {place.group}'
