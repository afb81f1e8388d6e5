"""The runs of the controller in a recording: each begins with HCRST, a reset of the machine or power-on. Where several are in one trace a run
goes to the next of these, over its halts; else it ends with the row that stops it. What is done from one reset to the next without a start
is no run."""
from collections import namedtuple

import commands
import registers
from qemu_log import FOREVER, Reset, Status, Write
from registers import RESET, RESTORE, RUN, SAVE, USBCMD, is_command, name_of

HALTED = 1  # USBSTS
RESTORES, FAILED = 1 << 9, 1 << 10  # of it: RSS and SRE

# What the driver and the controller did; the keys of the row that stops it, or None, and of its last moment, or None where it may go on; what
# to note of it; whether it goes on behind a halt; how many of its last items are made up for a reset of the machine
Run = namedtuple('Run', 'items stop end notes goes_on made_up', defaults=(False, 0))


class Phase:
    """Where a run stands, as the rows tell it."""

    def __init__(self):
        self.started = self.halting = self.halted = self.is_refuted = False
        self.awaited = 0  # CRS was 1 behind the halt: of RSS and SRE what no read showed as 0 since
        self.goes_on = False  # it was started again behind a halt

    def write(self, value):
        """USBCMD is written."""
        if value & RUN:
            self.goes_on |= self.halting
            self.started, self.halting, self.halted, self.awaited = True, False, False, 0
        elif self.started:
            self.halting = True
            if value & (SAVE | RESTORE):
                self.awaited = RESTORES | FAILED if self.halted and not value & SAVE else 0

    def says(self, status):
        """Whether a read of USBSTS says something: the first that shows the halt, or how a restore ended, or HCHalted as it can't be."""
        if self.sees_halt(status) or self.sees_restored(status):
            return True
        shows = self.refutes(status) and not self.is_refuted
        self.is_refuted |= shows
        return shows

    def sees_halt(self, status):
        """Whether this read is the first that shows the halt."""
        shows = status & HALTED != 0 and self.halting and not self.halted
        self.halted |= shows
        return shows

    def sees_restored(self, status):
        """Whether this read is the first behind CRS that shows the restore over, or, where it failed, the first without that error."""
        left = status & self.awaited
        shows = status & HALTED != 0 and left != self.awaited and not left & RESTORES
        self.awaited = left if shows else self.awaited
        return shows

    def refutes(self, status):
        """HCHalted is 1 while the controller runs, or 0 where it isn't started or known to have halted."""
        return self.started and not self.halting if status & HALTED else not self.started or self.halted


class Splitter:
    """Takes items in order. `made` is called with each run when it is stopped for the first time, or ends; its notes may grow until the next
    one. Where runs are joined `wholes` gets each when it ends: up to its reset, and with the reads of USBSTS that say something."""

    def __init__(self, made, joins=False):
        self.made, self.joins, self.wholes = made, joins, []
        self.in_wholes = 0  # items
        self.begin()

    def begin(self, *items):
        self.items, self.over, self.stop, self.notes = list(items), False, None, []
        self.phase, self.is_left = Phase(), False

    @property
    def started(self):
        return self.phase.started

    def so_far(self, end=FOREVER):
        return Run(self.items, self.stop, self.stop or end, self.notes)

    def whole(self, end=None, made_up=()):
        notes = ['the machine was reset behind the last row'] * (len(made_up) > 0)
        return Run(self.items + list(made_up), self.stop, end, notes, self.phase.goes_on, len(made_up))

    def finish(self, end=FOREVER):
        """The run is over here, or, where runs are joined, stopped for the first time; else what comes up to the next one is no part of it."""
        if self.started and not self.over:
            self.over = True
            self.made(self.so_far(end))
        if self.over and not self.joins:
            self.items = []

    def close(self, end=FOREVER, made_up=()):
        if self.joins and self.started and not self.is_left:
            self.wholes.append(self.whole(end, made_up))
            self.in_wholes += len(self.items)

    def forget(self, count):
        """The first runs are in a trace."""
        del self.wholes[:count]
        self.in_wholes = sum(len(run.items) for run in self.wholes)

    def leave(self):
        """The run is over here, and what comes up to the next one is in no trace."""
        self.finish()
        self.close()
        self.is_left = True

    def take(self, item):
        if isinstance(item, Reset) and not item.by_driver:
            self.reset_of_machine(item.key)
        elif is_command(item, RESET):
            self.reset(item)
        elif self.over and not self.joins:
            self.after_stop(item)
        elif not self.is_left:
            self.add(item)

    def reset_of_machine(self, key):
        if self.started and not self.over:
            self.notes.append('the machine was reset while the controller ran: the trace ends there')
        self.finish(key)
        self.close(key, self.made_up(key))
        self.begin()

    def made_up(self, key):
        """What a reset of the machine is to the controller: it is stopped, has halted and is reset."""
        stop = [] if self.phase.halting else [Write(key - 2, 'oper', USBCMD, 0)]
        halt = [] if self.phase.halted else [Status(key - 1, HALTED)]
        return stop + halt + [Write(key, 'oper', USBCMD, RESET)]

    def reset(self, item):
        """HCRST is this run's last row, and the next one's first."""
        self.stop = self.stop or item.key
        self.items.append(item)
        self.finish()
        self.close(item.key)
        self.begin(item)

    def add(self, item):
        if isinstance(item, Status):
            self.items += [item] if self.joins and self.phase.says(item.value) else []
            return
        self.items.append(item)
        if isinstance(item, Write) and name_of(item) == ('usbcmd', None):
            self.follow(item)

    def follow(self, item):
        """USBCMD is written, with HCRST 0."""
        self.phase.write(item.value)
        if self.phase.halting and self.stop is None:
            self.stop = item.key
            self.finish()

    def after_stop(self, item):
        if self.stop is not None and is_command(item, RUN):
            self.notes.append('the driver started the controller again without HCRST: nothing after the stop is in a trace')


class Part:
    """A run in a trace, with its register writes and the commands that were taken. `earlier` is the run before it there, whose last row its
    first one may be. Where runs are joined each goes to its reset, which lets all go where the trace has it, and has rows of what is read of
    USBSTS."""

    def __init__(self, run, memory, earlier=None, is_joined=False, is_reset=True):
        is_shared = earlier is not None and run.items[0].key == earlier.items[-1].key
        self.items, self.stop, self.goes_on = run.items[is_shared:], run.stop, run.goes_on
        self.begin = None if earlier is None else earlier.end
        self.end, self.made_up = run.end if is_joined and run.end != FOREVER else None, run.made_up
        self.is_reset = is_reset and self.end is not None
        self.halted = self.known_halted(run.end) if is_joined and run.end is not None else None
        self.written = registers.joined(self.items)
        self.reads = [item for item in self.items if is_joined and isinstance(item, Status)]
        self.commands = commands.find(self.items, memory, self.begin)

    def known_halted(self, key):
        """Since when it was known at this time that the controller has halted; None where it wasn't."""
        phase, since = Phase(), None
        for item in self.items:
            if item.key >= key:
                break
            if isinstance(item, Status) and phase.sees_halt(item.value):
                since = item.key
            elif isinstance(item, Write) and name_of(item) == ('usbcmd', None):
                phase.write(item.value)
        return since if phase.halted else None

    def completion_read(self, key):
        """When the driver read the last completion of a command before this time; None where it hadn't read any."""
        return max((command.read for command in self.commands if command.read and command.read < key), default=None)


def parts_of(runs, memory, is_joined):
    """The parts of a trace. The last one ends before what is made up for a reset of the machine."""
    last = runs[-1]
    begun = [Part(run, memory, earlier, is_joined) for earlier, run in zip([None, *runs], runs[:-1])]
    ends = last._replace(items=last.items[:len(last.items) - last.made_up], made_up=0)
    return begun + [Part(ends, memory, runs[-2] if begun else None, is_joined, not last.made_up)]
