"""The areas of memory that the controller looks at, and how long each lives: named by registers, commands and contexts."""
from operator import itemgetter

import blocks
import commands as command_list
from qemu_log import FOREVER
from registers import EVENT_RING_REGISTERS, RUN, STOP_OR_ABORT


class Area:
    """`length` bytes from `start` on, looked at from `named` to `ended` (keys; None: to the end); `idle`: from when to when the controller still
    had it, which is known to have halted and isn't started again."""

    def __init__(self, what, start, length, named):
        self.what, self.start, self.length, self.named, self.ended = what, start, length, named, None
        self.idle = None

    def needed_until(self):
        """Until when it counts what is stored there: while the controller is idle only whether anything is."""
        return self.idle[1] if self.idle else self.ended

    def is_written(self):
        """Whether the controller writes there."""
        return self.what == 'evt' or self.what.startswith('device context')

    def lives_with(self, other):
        return not (self.ended and self.ended <= other.named) and not (other.ended and other.ended <= self.named)


class RingUse(Area):
    """A ring named from here on: the first segment's start; its length is not known yet."""

    def __init__(self, kind, start, named, slot=0, index=0, bound=True, cycle=1):
        super().__init__(kind, start, 16, named)
        self.slot, self.index, self.bound, self.cycle = slot, index, bound, cycle
        self.read = None      # when the driver has read the completion of the command that names it
        self.gone = None      # when the driver has it back
        self.is_isochronous = False
        self.part = None      # of the trace, in which it is named
        self.wanted = named   # the key of the first row that needs the ring: of an event ring the first of those that hold at the start
        self.segments = []    # of an event ring: (start, blocks)

    def over(self):
        """When no endpoint has the ring by this use any more; None where that is never."""
        return self.gone if self.bound else self.read


class Areas:
    """Of all runs of a trace."""

    def __init__(self, parts, memory, context_size):
        self.memory, self.size = memory, context_size
        self.fixed = []      # the DCBAA, the segment table, contexts
        self.rings = []      # RingUse: of each part those that registers name before the start, the others in the order in which they are named
        self.streams = []    # slot and DCI of each endpoint with streams: their rings are named in memory, by no command
        for self.number, self.part in enumerate(parts):
            self.of_part(self.part)

    def of_part(self, part):
        start = next((row.key for row in part.written if row.name == 'usbcmd' and row.value & RUN), FOREVER)
        self.of_registers([row for row in part.written if row.key < start])
        later = [(command.key, self.of_command, command) for command in part.commands]
        later += [(row.key, self.of_crcr, row) for row in part.written
                  if row.name == 'crcr' and row.key > start and not row.value & STOP_OR_ABORT]
        for key, of, what in sorted(later, key=itemgetter(0)):
            of(what)
        self.halt(part)
        self.let_all_go(part)

    def add(self, use):
        use.part = self.number
        self.rings.append(use)

    def of_registers(self, before):
        """What the registers name as they are written before the start."""
        last = {row.name: row for row in before}
        slots = last['config'].value & 0xff if 'config' in last else 0
        self.dcbaap = last['dcbaap'].value & ~63 if 'dcbaap' in last else 0
        if 'dcbaap' in last:
            self.fixed.append(Area('DCBAA', self.dcbaap, 8 * (slots + 1), last['dcbaap'].key))
        if 'crcr' in last:
            self.add(RingUse('cmd', last['crcr'].value & ~63, last['crcr'].key))
        if 'erstba' in last:
            count = last['erstsz'].value & 0xffff if 'erstsz' in last else 0
            wanted = min(last[name].key for name in EVENT_RING_REGISTERS if name in last)
            self.of_segment_table(last['erstba'].value & ~63, count, last['erstba'].key, wanted)

    def of_segment_table(self, at, count, key, wanted):
        self.fixed.append(Area('segment table', at, 16 * count, key))
        segments = []
        for i in range(min(count, 64)):
            words = self.memory.block(at + 16 * i, key)
            segments.append((blocks.pointer(words) & ~63, words[2] & 0xffff))
        if segments:
            use = RingUse('evt', segments[0][0], key)
            use.segments, use.wanted = segments, wanted
            self.add(use)

    def of_crcr(self, row):
        """Where the controller has halted CRCR names the command ring anew: where it stands, or another one, which the earlier one is let go for."""
        halted, earlier = self.part.known_halted(row.key), [use for use in self.rings if use.what == 'cmd' and use.ended is None]
        if halted is None or not earlier:
            return
        read = self.part.completion_read(row.key)
        earlier[0].ended = earlier[0].gone = max(key for key in (halted, read, earlier[0].named) if key is not None)
        self.add(RingUse('cmd', row.value & ~63, row.key, cycle=row.value & 1))

    def halt(self, part):
        """Where the controller has halted for good, what is stored then is none of the run's."""
        for area in self.fixed + self.rings:
            if area.ended is None and part.halted is not None and area.named < part.halted:
                area.ended, area.idle = part.halted, (part.halted, part.end)

    def let_all_go(self, part):
        """A reset: nothing is looked at any more; where the trace has that row the driver has all rings back."""
        for area in self.fixed + self.rings:
            area.ended = area.ended or part.end
        for use in self.rings if part.is_reset else []:
            use.gone, use.read = use.gone or part.end, use.read or part.end

    def of_command(self, command):
        kind, slot, at = blocks.kind(command.words), blocks.slot(command.words), blocks.target(command.words)
        drops_all = kind == blocks.CONFIGURE_ENDPOINT and blocks.drops_all(command.words)
        if kind in (blocks.ADDRESS_DEVICE, blocks.EVALUATE_CONTEXT, blocks.CONFIGURE_ENDPOINT) and not drops_all:
            area = Area('input context', at, 33 * self.size, command.given)
            area.ended = command.read
            self.fixed.append(area)
        if kind == blocks.ADDRESS_DEVICE:
            self.device_context(slot, command)
        if kind in (blocks.ADDRESS_DEVICE, blocks.CONFIGURE_ENDPOINT) and not drops_all:
            self.endpoints(kind, slot, at, command)
        if command.read and command_list.succeeded(command):
            self.let_go(kind, slot, drops_all, command.read)

    def device_context(self, slot, command):
        if any(area.what == f'device context {slot}' and area.ended is None for area in self.fixed):
            return
        at = blocks.pointer(self.memory.block(self.dcbaap + 8 * slot, command.key))
        if at:
            self.fixed.append(Area(f'device context {slot}', at, 32 * self.size, command.given))

    def endpoints(self, kind, slot, at, command):
        """The rings of the endpoints that are added; those of the endpoints that are dropped are let go."""
        dropped, added = self.memory.word(at, command.key), self.memory.word(at + 4, command.key)
        if kind == blocks.ADDRESS_DEVICE:
            dropped, added = 0, 2
        for index in range(1 if kind == blocks.ADDRESS_DEVICE else 2, 32):
            if dropped >> index & 1 and command.read and command_list.succeeded(command):
                self.end(lambda ring: ring.slot == slot and ring.index == index and ring.named < command.given, command.read)
            if added >> index & 1:
                context = at + (index + 1) * self.size
                if blocks.streams(self.memory.word(context, command.key)):
                    self.streams.append((slot, index))
                    continue
                words = self.memory.block(context + 8, command.key)
                use = RingUse('xfer', blocks.target(words), command.given, slot, index, command_list.succeeded(command), words[0] & 1)
                use.read = command.read
                use.is_isochronous = index > 1 and blocks.is_isochronous(self.memory.word(context + 4, command.key))
                self.endpoint(use)

    def endpoint(self, use):
        """A second Address Device names a block of the ring that the endpoint has: no other ring."""
        if not any((ring.slot, ring.index, ring.ended) == (use.slot, use.index, None) and ring.bound and use.index == 1
                   for ring in self.rings):
            self.add(use)

    def let_go(self, kind, slot, drops_all, key):
        if kind == blocks.DISABLE_SLOT:
            self.end(lambda ring: ring.slot == slot, key)
            for area in self.fixed:
                if area.what == f'device context {slot}' and area.ended is None:
                    area.ended = key
        if kind == blocks.RESET_DEVICE or drops_all:
            self.end(lambda ring: ring.slot == slot and ring.index > 1, key)

    def end(self, concerned, key):
        for ring in self.rings:
            if ring.what == 'xfer' and ring.ended is None and ring.named < key and concerned(ring):
                ring.ended = ring.gone = key
