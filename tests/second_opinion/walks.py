"""Random runs of the plain controller beside the rows of a trace. Beside a clean one none may do harm, and each event that is posted may be read by the rules.

A walk posts the events that the trace reads, in their order, sooner or later; now and then another one, behind which the trace reads none any more.
"""
from blocks import COMMAND_COMPLETION, ED, EVENT_DATA, TRANSFER_EVENT, aligned, pointer, type_of, with_cycle
from commands import command_of, names_slot
from controller import posted
from drivers import CODES, ISOCHRONOUS_CODES, halves
from harms import harm_of
from known import Known, histories
from replays import Run
from rules import least_broken, name_of
from trace import Event

# how many looks a row that isn't possible yet waits for, and how many steps are tried behind the last row
PATIENCE, BEHIND = 40, 30


class Walk:
    def __init__(self, trace, pick, is_clean):
        self.trace, self.pick, self.is_clean = trace, pick, is_clean
        # how often the controller makes a step before a row, and how often it then posts another event than the next
        self.eagerness, self.strays = pick.choice([0.02, 0.1, 0.3, 0.6, 0.8]), pick.choice([0, 0, 0.002, 0.01])
        self.histories = histories(trace)
        self.run = Run(trace)
        self.controller = self.run.controller
        self.steps = []
        # what is known once none, one, two .. of the events that were posted and not read are read
        self.later = [self.histories[0]]
        # what mustn't be
        self.wrong = None

    # ---- steps

    def step(self, line):
        """A step is made, if it is possible, and judged."""
        shown = self.run.step(line)
        if shown:
            self.steps.append(line)
            harm = harm_of(self.controller)
            self.wrong = None if harm is None else f'harm {harm}'
            if self.is_clean:
                self.read_on(line)
        return shown

    def read_on(self, line):
        """The rules let each event that was posted be read, in order."""
        if line == 'row':
            self.later = [self.histories[self.run.made]]
        for position in range(self.controller.reads + len(self.later) - 1, self.controller.posted):
            known, block = self.later[-1], self.controller.block(self.controller.newest('evt').address(position))
            broken = least_broken(known, Event(block))
            if broken is not None:
                self.wrong = self.wrong or f'the event of "{posted(block)}" can not be read: {broken} {name_of(broken)}'
                return
            self.later.append(Known(self.trace, known, Event(block)))

    # ---- what the controller does

    def look(self):
        active = sorted(self.controller.active)
        return self.step(f'look {self.pick.choice(active):02x}') if active else None

    def due(self):
        """The event that the trace reads behind those that were posted; None where it reads none before the next reset."""
        unread = self.controller.posted - self.controller.reads
        for known, row in zip(self.histories[self.run.made:], self.trace.rows[self.run.made:]):
            if known.is_reset(row):
                return None
            if isinstance(row, Event):
                if unread == 0:
                    return row.block
                unread -= 1
        return None

    def post_due(self):
        block = self.due()
        return self.step(posted(block)) if block else None

    def post_stray(self):
        """Some event, as the state of the controller lets it be."""
        block, ring = self.pick.choice([self.some_completion, self.some_report, self.some_report, self.some_other])(), self.controller.newest('evt')
        return self.step(posted(with_cycle(block, ring.cycle(self.controller.posted)))) if block and ring else None

    def some_completion(self):
        under_way = self.controller.under_way
        if under_way is None:
            return None
        command = command_of(under_way.block)
        number = command.slot if command and names_slot(command) else self.pick.randrange(3)
        return *halves(under_way.address), self.pick.choice([1, 1, 1, 11]) << 24, COMMAND_COMPLETION << 10 | number << 24

    def some_report(self):
        if not self.controller.had:
            return None
        (number, index), ring = self.pick.choice(sorted(self.controller.had.items()))
        unreported = self.controller.takes[ring].unreported
        places = [*(take.address for take in unreported), self.controller.at[ring][0]]
        values = [pointer(take.block) for take in unreported if type_of(take.block) == EVENT_DATA]
        is_value = values != [] and self.pick.random() < 0.5
        named = values if is_value else places
        name = self.pick.choice([named[0], named[-2:][0], named[-1], self.pick.choice(named)])
        low = TRANSFER_EVENT << 10 | number << 24 | index << 16 | (1 << ED if is_value else 0)
        return *halves(name), self.pick.choice(CODES + ISOCHRONOUS_CODES) << 24, low

    def some_other(self):
        return 0, 0, 1 << 24, self.pick.randrange(34, 40) << 10

    def scribble(self):
        """A word of a device context."""
        if not self.controller.scribbles:
            return None
        entry = aligned(self.controller.registers.get('dcbaap', 0), 64) + 8 * self.pick.choice(sorted(self.controller.scribbles))
        address = aligned(self.controller.long(entry), 4) + 4 * self.pick.randrange(self.trace.device_context_bytes // 4)
        return self.step(f'scrib {address:016x} {self.pick.choice([0, 1, self.pick.getrandbits(32)]):08x}') if address < 1 << 64 else None

    def halt(self):
        return self.step('halt')

    # ---- the walk

    def some_step(self):
        steps = [(self.look, 70), (self.post_due, 20), (self.scribble, 3), (self.halt, 2)]
        self.pick.choices(*zip(*steps))[0]()
        if self.pick.random() < self.strays:
            self.post_stray()

    def next_row(self):
        """The next row, where it is an event's behind looks and its post, where it is a read behind a halt. Answers nothing where there is none, or it isn't possible."""
        if self.run.made == len(self.trace.rows):
            return None
        is_event = isinstance(self.trace.rows[self.run.made], Event)
        for _ in range(PATIENCE):
            made = self.step('row')
            if made or self.wrong or not is_event and not self.halt() or is_event and not self.post_due() and not self.look():
                return made
        return None

    def walk(self):
        """What mustn't be; None where nothing is wrong."""
        is_going_on = True
        while is_going_on and not self.wrong:
            if self.pick.random() < self.eagerness:
                self.some_step()
            else:
                is_going_on = self.next_row()
        for _ in range(BEHIND):
            if not self.wrong:
                self.pick.choice([self.look, self.look, self.post_stray, self.scribble])()
        return self.wrong
