"""The steps of a schedule beside the rows, and what a replay shows of each: what the program took, and where the run ends."""
from collections import Counter
from dataclasses import dataclass, field

import standard
from program import Take


@dataclass
class Step:
    """A line of a schedule. `row` is the last row before it, or the row itself; `take` is what the controller took there."""
    number: int
    line: str
    row: int
    take: Take | None = None
    harm: int | None = None
    is_possible: bool = True

    @property
    def word(self):
        return self.line.partition(' ')[0]


@dataclass
class Run:
    """A replay of a schedule up to its end, of which the steps beside some rows are looked at."""
    program: object
    trace_path: str
    lines: list
    replay: object
    counts: dict = field(default_factory=dict)

    def takes_before(self, count):
        """How many TRBs the first steps took."""
        if count not in self.counts:
            self.counts[count] = self.program.replay(self.trace_path, self.lines[:count + 1]).count
        return self.counts[count]

    def looks(self, begin, end):
        """The steps behind `begin` up to `end` that are looks, and the ring of each."""
        return {number: int(self.lines[number].split()[1], 16) for number in range(begin + 1, end + 1) if self.lines[number].startswith(b'look ')}

    def takers(self, begin, end):
        """The looks among the steps behind `begin` up to `end` that took a TRB. A replay tells the takes and not their steps: where on some
        ring neither all nor none of the looks took one, the steps are halved."""
        looks = self.looks(begin, end)
        if not looks:
            return []
        asked = Counter(looks.values())
        taken = Counter(self.replay.ring(number) for number in range(self.takes_before(begin), self.takes_before(end)))
        unsure = [number for number, ring in looks.items() if 0 < taken[ring] < asked[ring]]
        if not unsure:
            return [number for number, ring in looks.items() if taken[ring]]
        middle = unsure[len(unsure) // 2] - 1
        return self.takers(begin, middle) + self.takers(middle, end)


def run_of(program, trace_path, schedule):
    lines = schedule.lower().split(b'\n')[:-1]
    replay = program.replay(trace_path, lines)
    last = replay.ending.step or len(lines) - 1
    done = last if replay.ending.harm is not None or not replay.ending.step else last - 1
    return Run(program, trace_path, lines[:last + 1], replay, {0: 0, done: replay.count})


def steps_beside(run, first_row, wanted):
    """The steps of a run that follow the wanted rows, those that make the rows too, in stretches without a gap."""
    stretches, row = [], first_row - 1
    for number, line in enumerate(run.lines[1:], 1):
        row += line == b'row'
        if row in wanted or row < first_row and first_row in wanted:
            if not stretches or stretches[-1][-1].number < number - 1:
                stretches.append([])
            stretches[-1].append(Step(number, line.decode(), row))
    if stretches:
        show_ending(run.replay.ending, stretches[-1])
    for steps in stretches:
        show_takes(run, steps)
    return stretches


def show_ending(ending, steps):
    if ending.step and steps[-1].number == ending.step:
        steps[-1].harm = ending.harm and int(ending.harm)
        steps[-1].is_possible = ending.harm is not None


def show_takes(run, steps):
    begin, end = steps[0].number - 1, steps[-1].number - (not steps[-1].is_possible)
    by_number = {step.number: step for step in steps}
    for place, number in enumerate(run.takers(begin, end)):
        by_number[number].take = run.replay.take(run.takes_before(begin) + place)


@dataclass(frozen=True)
class Pointer:
    """Where a controller fetches next, and the Cycle bit that it looks for."""
    address: int
    cycle: int


@dataclass(frozen=True)
class Shown:
    """What a step did, in words, and the address that it was about."""
    text: str
    address: int | None = None


class Controller:
    """Tells what the steps did. A fetch that takes nothing waits, or follows a Link: which of both is told where it is known where the
    controller stands on the ring, by CRCR, by the TRB that was taken before, or by the command that placed it there."""

    def __init__(self, trace, memory, meanings):
        self.trace, self.memory, self.meanings = trace, memory, meanings
        self.pointers, self.scribbled = {}, {}
        # by ring the last row before its last look
        self.looked = {}

    def pass_over(self, step):
        """A step that isn't told: what it takes says where the controller stands, and what it doesn't take leaves that unknown."""
        if step.take:
            self.took(step.take)
        elif step.word == 'look':
            self.pointers[int(step.line.split()[1], 16)] = None
        if step.word == 'look':
            self.looked[int(step.line.split()[1], 16)] = step.row

    def lose_track(self):
        """Some steps weren't seen."""
        self.pointers = {ring.number: None for ring in self.trace.rings}
        self.looked = {ring.number: self.trace.last for ring in self.trace.rings}

    def shown(self, step):
        word, *fields = step.line.split()
        if word == 'halt':
            return Shown('halts')
        if word == 'look':
            ring = int(fields[0], 16)
            shown = self.took(step.take) if step.take else self.fetched(ring, step.row)
            self.looked[ring] = step.row
            return shown
        numbers = [int(one, 16) for one in fields]
        return self.wrote(*numbers, step.row) if word == 'scrib' else self.posted(word, numbers, step.row)

    def took(self, take):
        self.pointers[take.ring] = Pointer(take.address + 16, take.words[3] & 1)
        name = standard.type_name(take.words[3])
        return Shown(f'takes {self.memory.trb_text(take.address)}: {name}', take.address)

    def fetched(self, ring, row):
        pointer = self.pointers[ring] = self.from_crcr(ring, row) or self.pointers.get(ring)
        if not pointer:
            return Shown(f'fetches from ring {ring:02x}, and takes nothing')
        words = self.words(pointer.address, row)
        where = self.memory.trb_text(pointer.address)
        if words[3] & 1 != pointer.cycle:
            return Shown(f'fetches {where}, and waits', pointer.address)
        if standard.type_of(words[3]) != standard.LINK:
            return Shown(f'fetches {where}, and takes nothing', pointer.address)
        self.pointers[ring] = Pointer(standard.pointer_of(words), pointer.cycle ^ words[3] >> 1 & 1)
        what = where if where.startswith('Link') else f'Link at {where}'
        return Shown(f'follows the {what} to {standard.pointer_of(words):x}', pointer.address)

    def from_crcr(self, ring, row):
        """Where the controller stands on a Command Ring that it hasn't looked at since CRCR was written."""
        values = [written for written in self.trace.values('crcr') if written.row <= row]
        known = self.trace.ring(ring)
        is_placed = values and known and known.kind == 'cmd' and values[-1].row > self.looked.get(ring, 0)
        return Pointer(values[-1].word & ~63, values[-1].word & 1) if is_placed else None

    def wrote(self, address, value, row):
        self.scribbled[address] = (row, value)
        return Shown(f'writes {self.meanings.word(address, value)}', address)

    def word(self, address, row):
        """A word as the rows up to one and the controller leave it."""
        written = self.trace.last_write(address, row + 1)
        when, value = self.scribbled.get(address, (-1, 0))
        return value if when >= (written.row if written else 0) else written.word if written else 0

    def words(self, address, row):
        return [self.word(address + 4 * number, row) for number in range(4)]

    def posted(self, word, words, row):
        if word == 'finish' and words[2] >> 24 == 1:
            self.place_rings(self.words(standard.pointer_of(words), row), row)
        return Shown(f'posts {self.meanings.event_text(words, row + 1)}')

    def place_rings(self, command, row):
        """Notes where a command that succeeds has the controller stand on the rings that it binds or moves."""
        kind, context = standard.type_of(command[3]), standard.pointer_of(command)
        if kind == standard.SET_TR_DEQUEUE:
            self.place(command)
        elif kind == standard.ADDRESS_DEVICE:
            self.place_endpoint(context, 1, row)
        elif kind == standard.CONFIGURE_ENDPOINT and not command[3] >> 9 & 1:
            added = self.word(context + 4, row)
            for index in range(2, 32):
                if added >> index & 1:
                    self.place_endpoint(context, index, row)

    def place_endpoint(self, context, index, row):
        self.place(self.words(context + (index + 1) * self.trace.context_bytes + 8, row))

    def place(self, words):
        ring, _ = self.trace.segment_at(standard.pointer_of(words))
        if ring:
            self.pointers[ring.number] = Pointer(standard.pointer_of(words), words[0] & 1)
