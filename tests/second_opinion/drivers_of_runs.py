"""What random drivers do with the runs of a controller (version 4): they stop it and start it again, reset it and set it up anew, replace its command ring, and
save and restore its state, while it is halted."""
from rings import Segment
from runs import RESET, RESTORE, RUN, SAVE
from trace import Comes, Goes, Read, Register, Write

TABLES = (0x40000, 0x41000)
RUNNING, RESETTING, SAVING, RESTORING = (1 << bit for bit in (RUN, RESET, SAVE, RESTORE))
# values of USBCMD that a driver writes where nothing asks for it
STRAY_COMMANDS = [0, RUNNING, RUNNING | 4, RESETTING, RESETTING | RUNNING, SAVING, RESTORING, SAVING | RESTORING, SAVING | RUNNING, RESTORING | RUNNING,
                  RESTORING | RESETTING]
STRAY_STATUSES = [0, 1, 8, 0x201, 0x401]
# registers that are written again before a state is restored
SET_UP_AGAIN = ['config', 'dcbaap', 'erstsz', 'erstba', 'erdp']


class DriverOfRuns:
    """The steps of a Driver that have to do with runs."""

    # ---- the set-up

    def write_table(self):
        """The segment table of the event ring, and what ERSTBA is then."""
        table = self.pick.choice(TABLES) if self.pick.random() < 0.95 else self.odd_address(64)
        for i, segment in enumerate(self.known.event_segments):
            self.write(table + 16 * i, segment.base & 0xffffffff, segment.base >> 32, segment.count)
        return table

    def set_up(self):
        """All registers, as before a start."""
        table, ring = self.write_table(), self.event_ring
        self.make(Register('erstsz', len(ring.segments)))
        self.make(Register('erstba', table))
        self.make(Register('erdp', ring.address(0)))
        self.places_commands()
        if self.pick.random() < 0.95:
            self.make(Register('dcbaap', self.array))
        self.make(Register('config', 8))

    def beginning_of_commands(self):
        """What CRCR may be: the first block of the command ring and RCS 1, mostly."""
        ring = self.command_ring
        spots = ring.spots(0, 0 if self.pick.random() < 0.9 else self.known.declared(ring))
        aligned = [spot for spot in spots if ring.spot_address(spot) % 64 == 0]
        spot = self.pick.choice(aligned or spots)
        other = 1 if self.pick.random() < 0.03 else 0
        return ring.spot_address(spot) // 64 * 64 | ring.spot_cycle(spot) ^ other

    # ---- a run ends

    def rest(self):
        """The controller is stopped, mostly with all commands done, and what is next is done."""
        plan, before = self.pick.choice([(self.goes_on, []), (self.sleeps, []), (self.sleeps, [self.command]), (self.renews_commands, []), (self.renews_commands, [self.command]),
                                         (self.begins_anew, []), (self.begins_anew, [self.command])])
        if self.pick.random() < 0.9:
            self.finish_all()
        for step in before:
            self.try_step(lambda driver: step())
        self.make(Register('usbcmd', self.pick.choice([0, 0, 4])))
        self.sees_halt()
        self.try_step(lambda driver: plan())
        if self.known.is_halting and self.pick.random() < 0.8:
            self.goes_on()

    def next_of_rest(self):
        """What a driver does with a controller that it stopped, or rarely with one that runs."""
        if self.known.is_started and not self.known.is_halting and self.pick.random() < 0.95:
            return
        if self.known.is_halting and not self.known.is_halted:
            self.sees_halt()
        for step in self.pick.choices([self.renews_commands, self.places_commands, self.give_some, self.stray_write, self.sleeps], k=self.pick.choice([0, 0, 1, 2])):
            self.try_step(lambda driver: step())
        self.try_step(lambda driver: driver.pick.choice([driver.goes_on, driver.goes_on, driver.begins_anew])())

    def sees_halt(self):
        if self.pick.random() < 0.2:
            self.make(Read('usbsts', self.pick.choice([0, 8])))
        self.reads_late(0.2)
        if self.pick.random() < 0.97:
            self.make(Read('usbsts', self.pick.choice([1, 9])))
        self.reads_late(0.3)

    def reads_late(self, how_often):
        """An event is read once the controller was stopped."""
        if self.pick.random() < how_often:
            self.try_step(lambda driver: driver.pick.choice([driver.transfer, driver.completion, driver.other_event])())

    def goes_on(self):
        self.make(Register('usbcmd', self.pick.choice([RUNNING, RUNNING, RUNNING | 4])))
        if self.pick.random() < 0.8:
            self.try_step(lambda driver: driver.doorbell())

    def sleeps(self):
        """The state is saved, registers are written again, mostly, and the state is restored; seldom a part is left out."""
        if self.pick.random() < 0.3:
            self.try_step(lambda driver: driver.renews_commands())
        if self.pick.random() < 0.97:
            self.make(Register('usbcmd', self.pick.choice([SAVING, SAVING, SAVING | 4])))
            self.make(Read('usbsts', self.pick.choice([1, 0x101])))
        for name in self.pick.sample(SET_UP_AGAIN, self.pick.choice([0, 5, 5])):
            if self.known.is_written(name):
                self.make(Register(name, self.known.register(name)))
        if self.pick.random() < 0.95:
            self.make(Register('usbcmd', self.pick.choice([RESTORING, RESTORING, RESTORING | 4])))
        for status in self.pick.choice([[1], [1], [0x201, 1], [0x201, 9], [0x401], []]):
            self.make(Read('usbsts', status))
        if self.pick.random() < 0.9:
            self.try_step(lambda driver: driver.pick.choice([driver.goes_on] * 5 + [driver.sleeps])())
        if self.known.is_halting:
            self.try_step(lambda driver: driver.begins_anew())

    # ---- the command ring while the controller is halted

    def places_commands(self):
        self.make(Register('crcr', self.beginning_of_commands()))

    def renews_commands(self):
        """The command ring goes, and another one comes, mostly in its memory."""
        old = self.command_ring
        self.make(Goes(old.number))
        self.comes_again(old)
        if self.pick.random() < 0.9:
            self.places_commands()

    def comes_again(self, old):
        """A ring of the same kind, in memory that is mostly cleared: that of an old one, a new one, or where another was."""
        ring = self.new_ring(old.kind, old.segments if self.pick.random() < 0.6 else self.new_segments(old))
        if self.pick.random() < 0.95:
            self.clear(ring)
        self.make(Comes(ring))

    def new_segments(self, old):
        """In memory of another ring that is gone, or in none's."""
        gone = [ring for ring in self.trace.ever if ring not in self.known.rings and ring.kind != old.kind]
        least = 16 if old.kind == 'evt' else 3
        if gone and self.pick.random() < 0.4:
            return [segment._replace(count=max(segment.count, least)) for segment in self.pick.choice(gone[-3:]).segments]
        base = 0x800000 + 0x10000 * self.pick.randrange(8)
        return [Segment(base + 0x1000 * i, self.pick.randint(least, least + 3)) for i in range(self.pick.choice([1, 1, 2]))]

    def clear(self, ring):
        """What shows a Cycle bit of 1, and what the controller may have changed, is written."""
        for segment in ring.segments:
            for address in range(segment.base, segment.base + 16 * segment.count, 4):
                is_set = address % 16 == 12 and self.known.word(address) % 2 == 1
                if (is_set or self.known.is_soiled(address)) and self.pick.random() < 0.999:
                    self.make(Write(address, 0))

    # ---- a reset, and a run from the beginning

    def begins_anew(self):
        """The controller is reset, mostly gets other rings, and runs again."""
        self.make(Register('usbcmd', RESETTING))
        for ring in self.pick.sample(self.known.rings, len(self.known.rings)):
            if self.pick.random() < (0.95 if ring.kind != 'xfer' else 0.3):
                self.try_step(lambda driver: driver.make(Goes(ring.number)))
        old = [next(ring for ring in reversed(self.trace.ever) if ring.kind == kind) for kind in ('cmd', 'evt')]
        for ring in self.pick.sample(old, 2):
            if self.known.ring_of_kind(ring.kind) is None:
                self.try_step(lambda driver: driver.comes_again(ring))
        for _ in range(self.pick.choice([0, 1, 3])):
            self.try_step(lambda driver: driver.ring_comes())
        self.set_up()
        if self.pick.random() < 0.1:
            self.try_step(lambda driver: driver.renews_commands())
        self.make(Register('usbcmd', RUNNING))
        self.try_step(lambda driver: driver.enable_endpoints(driver.pick.choice([0, 5, 15])))

    # ---- strays

    def stray_register(self):
        """A register of the runs or of the set-up is written or read where nothing asks for it."""
        if self.pick.random() < 0.4:
            self.make(Read(self.pick.choice(['usbsts'] * 4 + ['usbcmd']), self.pick.choice(STRAY_STATUSES)))
        name = self.pick.choice(['usbcmd'] * 4 + ['crcr', 'dcbaap', 'config', 'erstsz', 'erstba'])
        stands = self.known.register(name) or 0
        value = self.pick.choice([stands, stands ^ 0x1000, 1])
        if name == 'crcr' and self.pick.random() < 0.8:
            value = self.beginning_of_commands() | self.pick.choice([0] * 8 + [2, 4])
        self.make(Register(name, self.pick.choice(STRAY_COMMANDS) if name == 'usbcmd' else value))

    def stray_ring(self):
        """The command ring or the event ring goes, or a second one comes."""
        ring = self.known.ring_of_kind(self.pick.choice(['cmd', 'evt']))
        if ring is None:
            old = next(ring for ring in reversed(self.trace.ever) if ring.kind in ('cmd', 'evt') and self.known.ring_of_kind(ring.kind) is None)
            self.comes_again(old)
        elif self.pick.random() < 0.7:
            self.make(Goes(ring.number))
        else:
            self.make(Comes(self.new_ring(ring.kind, self.new_segments(ring))))
