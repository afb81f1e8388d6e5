"""The recorded controller's own steps as a schedule: a look for each block fetched, a post for each event, beside the rows. It halts directly
before the driver sees that, which is later than QEMU's does.

A fetch of QEMU's main loop is only known to lie between two stores to registers: it is put where memory first has its words.
"""
import blocks
from commands import placed_by
from qemu_log import Fetch, Post
from registers import RESET, STOP_OR_ABORT
from runs import Phase

MOST_LINES = 1 << 22  # of a schedule


class Schedule:
    def __init__(self, rows, items, rings):
        self.rows = rows
        self.owner, self.there = {}, []
        for ring in rings:
            if ring.comes is None:
                self.come(ring)
        self.items = [item for item in items if isinstance(item, (Fetch, Post))]
        self.next = 0            # the first item whose step isn't written yet
        self.lines = []
        self.memory = {}
        self.phase = Phase()
        self.cycle = 1           # the command ring's
        self.taken = {}          # by ring: (line, address) of the looks of its transfers
        self.told = {}           # by ring: of how many of these an event told
        self.given_back = {}     # by ring: the addresses of the looks that were given back when it stopped last
        self.rung = set()        # slots and DCIs of the endpoints whose doorbell was rung since they stopped or began
        self.unasked = []        # where in `lines` there are looks at rings of other endpoints, and such an endpoint
        self.late = None         # where in `lines` the first step stands of a controller that is known to have halted
        self.fetched = self.other_words = self.not_followed = 0
        for row in rows:
            self.before(row)
            self.follow(row)
            self.lines.append('row')
            if row.kind == 'w':
                self.memory[row.fields[0]] = row.fields[1]
        self.write_until(None, True)

    def before(self, row):
        """The steps before this row. A store to a register, or an event that is read, waits for all of them."""
        if row.kind in ('w', 'reg', 'rd', 'db', 'ev'):
            self.write_until(row.key, row.kind != 'w')

    def follow(self, row):
        """The rings that are there, and the phase of the run."""
        if row.kind == 'ring':
            self.come(*row.fields)
        elif row.kind == 'reg':
            self.register(*row.fields)
        elif row.kind == 'rd' and self.phase.sees_halt(row.fields[1]):
            self.lines.append('halt')
        elif row.kind == 'db':
            self.rung.add(row.fields)
        elif row.kind == 'free':
            self.owner = {at: ring for at, ring in self.owner.items() if ring is not row.fields[0]}
            self.there.remove(row.fields[0])

    def come(self, ring):
        self.there.append(ring)
        if ring.kind != 'evt':
            self.owner.update((at, ring) for at in ring.data + ring.links)

    def register(self, name, value):
        if name == 'crcr' and not value & STOP_OR_ABORT:
            self.cycle = value & 1
        elif name == 'usbcmd' and value & RESET:
            self.phase, self.taken, self.told, self.given_back, self.rung = Phase(), {}, {}, {}, set()
        elif name == 'usbcmd':
            self.phase.write(value)

    def write_until(self, key, all_of_them):
        while self.next < len(self.items) and (key is None or self.items[self.next].key < key):
            item = self.items[self.next]
            if isinstance(item, Post):
                self.post(item)
            elif not self.fetch(item, all_of_them):
                return
            self.next += 1

    def fetch(self, item, now):
        """Whether the fetch has its step, or needs none."""
        ring = self.owner.get(item.at)
        if ring is None:
            self.not_followed += 1
            return True
        same = all(self.memory.get(item.at + 4 * i, 0) == word for i, word in enumerate(item.words))
        waits = ring.kind == 'cmd' and blocks.cycle(item.words) != self.cycle
        if waits and not same:
            return True
        if not same and not now:
            return False
        self.fetched += 1
        self.other_words += not same
        if ring.kind == 'cmd':
            self.cycle ^= not waits and blocks.kind(item.words) == blocks.LINK and blocks.toggles(item.words)
        else:
            self.go_on(ring, item.at)
            self.see_unasked(ring)
            self.taken.setdefault(ring.number, []).append((len(self.lines), item.at))
        self.step(f'look {ring.number:02x}')
        return True

    def step(self, line):
        if self.phase.halted and self.late is None:
            self.late = len(self.lines)
        self.lines.append(line)

    def see_unasked(self, ring):
        """QEMU looks at a ring of an endpoint that was stopped, has halted or is new, with no doorbell since."""
        endpoints = [(use.slot, use.index) for use in ring.uses]
        if not self.rung.intersection(endpoints):
            self.unasked.append((len(self.lines), ring.number, endpoints[-1]))

    def go_on(self, ring, at):
        """QEMU goes on behind all that it had fetched: a controller comes there over what it gave back."""
        back = self.given_back.pop(ring, [])
        if at not in back:
            self.lines += [f'look {ring.number:02x}'] * len(back)

    def post(self, item):
        if item.interrupter:
            return
        kind = blocks.kind(item.words)
        at = self.named(item.words) if kind == blocks.TRANSFER_EVENT else blocks.pointer(item.words)
        stops = blocks.stops(item.words, self.is_isochronous(item.words, at))
        if kind == blocks.TRANSFER_EVENT and stops:
            self.rung.discard((blocks.slot(item.words), blocks.endpoint(item.words)))
        if kind == blocks.TRANSFER_EVENT and stops and at in self.owner:
            self.give_back(self.owner[at], at)
        if kind == blocks.COMMAND_COMPLETION:
            command = tuple(self.memory.get(at + 4 * i, 0) for i in range(4))
            self.finish(command)
            if blocks.code(item.words) == blocks.SUCCESS:
                self.stop(command)
        name = {blocks.TRANSFER_EVENT: 'report', blocks.COMMAND_COMPLETION: 'finish'}.get(kind, 'other')
        self.step(name + ' %08x %08x %08x %08x' % item.words)

    def named(self, words):
        """The address of the block that a Transfer Event names: by its value the oldest of the endpoint's ring that was looked at, and of which none told."""
        address, is_value = blocks.pointer(words), blocks.tells_value(words)
        for ring in self.rings_of(words) if is_value else [self.owner[address]] if address in self.owner else []:
            looks = self.taken.get(ring.number, [])
            for i in range(self.told.get(ring.number, 0), len(looks)):
                where = looks[i][1]
                if blocks.has_value(tuple(self.memory.get(where + 4 * n, 0) for n in range(4)), words) if is_value else where == address:
                    self.told[ring.number] = i + 1
                    return where
        return None if is_value else address

    def rings_of(self, words):
        """Those that the endpoint of a Transfer Event has or had, the newest first."""
        at = blocks.slot(words), blocks.endpoint(words)
        return [ring for ring in reversed(self.there) if at in [(use.slot, use.index) for use in ring.uses]]

    def is_isochronous(self, words, at):
        """Whether an event that names this block is an isochronous endpoint's."""
        uses = self.owner[at].uses if at in self.owner else []
        return any(use.is_isochronous for use in uses if (use.slot, use.index) == (blocks.slot(words), blocks.endpoint(words)))

    def give_back(self, ring, at):
        """What QEMU had fetched beyond the block at which it halted or stopped is no take."""
        looks = self.taken.get(ring.number, [])
        last = max((i for i, (line, where) in enumerate(looks) if where == at), default=None)
        if last is not None:
            for line, where in looks[last + 1:]:
                self.lines[line] = None
            self.given_back[ring] = [where for line, where in looks[last + 1:]]
        self.taken[ring.number], self.told[ring.number] = [], 0

    def finish(self, command):
        """A command that isn't known to leave an endpoint's ring where it stands: what was given back of it isn't come over."""
        kind, slot, index = blocks.kind(command), blocks.slot(command), blocks.endpoint(command)
        if kind not in (blocks.STOP_ENDPOINT, blocks.RESET_ENDPOINT, blocks.EVALUATE_CONTEXT):
            self.given_back = {ring: back for ring, back in self.given_back.items() if not any(
                use.slot == slot and (kind != blocks.SET_TR_DEQUEUE or use.index == index) for use in ring.uses)}

    def stop(self, command):
        """The endpoints that a command's success stops, lets go or begins anew work no more."""
        stopped = [blocks.endpoint(command)] if blocks.kind(command) in blocks.STOPPING else placed_by(command, self.memory)
        self.rung -= {(blocks.slot(command), index) for index in stopped}

    def not_possible(self):
        """The first look that no doorbell asked for: its step's number, the ring's and the endpoint; or None."""
        steps = [(self.number_of(place), *what) for place, *what in self.unasked if self.lines[place]]
        return steps[0] if steps else None

    def while_halted(self):
        """The number of the first step of a controller that is known to have halted; or None."""
        return None if self.late is None else self.number_of(self.late)

    def number_of(self, place):
        return sum(map(bool, self.lines[:place + 1]))

    def text(self):
        lines = ['xsched 1'] + [line for line in self.lines if line]
        self.is_cut = len(lines) > MOST_LINES
        return ''.join(line + '\n' for line in lines[:MOST_LINES])
