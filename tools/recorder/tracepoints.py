"""Rows of Linux's own xhci-hcd trace events, as their text stands in `trace` with options/fields=1 (Linux 6.12, Linux 7.2).

In 6.12 an event `xhci_queue_trb` doesn't say where its TRB lies: the `xhci_inc_enq` that follows it does, under the driver's one lock. In
7.2 its `dma` does, and an `xhci_inc_enq` or `xhci_inc_deq` comes only where a segment ends; `xhci_address_ctx` has no `ctx_data`. What
no event tells is made up here: the registers' set-up, the DCBAA, the segment table, Links, ERDP, when a TD's first TRB, which
Linux stores with the other Cycle bit, is given: at the doorbell; that the controller halts, is reset and starts again, where Linux has freed
its command ring and makes another one, or begins that anew; and without `ctx_data` the Input Context of Address Device.
"""
import re

import blocks
import commands
import descriptors
import rows as row_list
from areas import RingUse
from convert import limited
from notes import of_cut
from qemu_log import Unsupported
from rings import MOST_RINGS, Ring
from rows import Row

EVENT = re.compile(r': (xhci_\w+): (.*)')
FIELD = re.compile(r'(\w+)=(0x[0-9a-f]+) ')
SEGMENT = 4096  # bytes: Linux's segments have 256 blocks, at such boundaries
COMMAND_RING, EVENT_RING = 5, 6
INPUT_CONTEXT = 2
SLOTS = 255
NOT_JUDGED = ('rules 10 to 14, 17 and 22 are not judged: the set-up of registers, ERDP, the DCBAA, the segment table and Links are made up, '
              'and so is when the first TRB of a TD is given; stores into TRBs that are withdrawn are missing')
MADE_RUNS = ('%d runs of the controller: that it halts and is reset between them, and that all rings go there, and memory of theirs and of device '
             'contexts is cleared, is made up')
MADE_HALT = 'the command ring begins anew: that the controller halts and goes on is made up'
MADE_CONTEXTS = ('the Input Contexts of Address Device are made up, since xhci_address_ctx has no ctx_data: rule 19 is not judged of that '
                 'command')
CONTROL = 4 << 3 | 3 << 1                         # word 1 of an Endpoint Context: EP Type Control, CErr 3
PACKETS = {2: 64, 3: 64, 5: 512, 6: 512}          # by Linux's number of a speed: the packets of a control endpoint; else 8 bytes


class TraceRing:
    """A ring as Linux has it: where the next TRB goes, the TRBs that were stored with the other Cycle bit, and the last TRB."""

    def __init__(self, kind, start, cycle):
        self.kind, self.start, self.enqueue, self.cycle = kind, start, start, cycle
        self.segments, self.held, self.index, self.is_gone = [start], [], None, False
        self.last, self.pointer, self.run = (0, 0, 0, 0), None, 1

    def what(self):
        return {COMMAND_RING: 'cmd', EVENT_RING: 'evt'}.get(self.kind, 'xfer')


class Fields(dict):
    """The fields of an event; one that is needed and isn't there is told of by name."""

    def __init__(self, event, values):
        super().__init__(values)
        self.event = event

    def __missing__(self, name):
        raise Unsupported(f'an event {self.event} has no field {name}: events as those of Linux 6.12 and of 7.2 can be read')


def events_of(lines):
    """The name and fields of each event of xhci-hcd, numbers as numbers; `ctx_data` as words."""
    for line in lines:
        match = EVENT.search(line)
        if match:
            fields = Fields(match[1], ((name, int(value, 16)) for name, value in FIELD.findall(match[2] + ' ')))
            data = re.search(r'ctx_data=([0-9a-f,]+)', match[2])
            if data:
                octets = bytes(int(octet, 16) for octet in data[1].strip(',').split(','))
                fields['ctx_data'] = [int.from_bytes(octets[i:i + 4], 'little') for i in range(0, len(octets), 4)]
            yield match[1], fields


class Follower:
    """Makes rows of events in order. `indices`: the endpoint of each ring, by its number of allocation, as doorbells tell it; `slots`: the
    slot context behind each Address Device; `pages`: those that a later run than the first uses, where that is known. From version 3 on a ring
    in memory of an earlier one comes where it is made, and the earlier one goes there. From version 4 on the controller runs again."""

    def __init__(self, events, version, indices=(), slots=(), pages=None):
        self.indices, self.version, self.slots, self.pages = dict(indices), version, list(slots), pages
        self.rows, self.commands, self.notes = [], [], []
        self.rings, self.by_pointer, self.image, self.contexts = [], {}, {}, {}
        self.queued = self.command = self.last_held = None
        self.control_rings, self.unaddressed, self.speeds, self.addressed = {}, set(), {}, []
        self.address_control, self.erdp = (0, 3), None
        self.control = self.slot_context = None
        self.added, self.device = [], {}
        self.size, self.started, self.over = 32, False, False
        self.runs, self.goes_on, self.is_freed, self.tables, self.later = 1, False, False, [], set()
        events = list(events)
        self.made_up = self.free_memory(events)
        for name, fields in events:
            handler = getattr(self, name, None)
            if handler and not self.over:
                handler(fields)

    def free_memory(self, events):
        """An address above all that the events name, for what is made up."""
        known = [fields[name] for what, fields in events for name in ('enq', 'deq', 'dma', 'ctx_dma', 'in_ctx', 'out_ctx') if name in fields]
        return (max(known, default=0) | 0xffff) + 1

    def row(self, kind, *fields):
        self.rows.append(Row(len(self.rows), kind, fields))

    def store(self, at, word):
        self.image[at] = word
        self.row('w', at, word)

    def store_new(self, at, words):
        for i, word in enumerate(words):
            if self.image.get(at + 4 * i, 0) != word:
                self.store(at + 4 * i, word)

    def end(self, why):
        self.over = True
        self.notes.append(f'the trace ends early: {why}')

    # rings

    def xhci_ring_alloc(self, fields):
        start = fields['enq']
        ring = TraceRing(fields['type'], start, fields['cycle_state'])
        if ring.kind == COMMAND_RING and self.is_freed and self.version >= 4:
            self.reset()
        if ring.kind in (COMMAND_RING, EVENT_RING) and self.ring_of(ring.kind):
            return self.end('a second command ring or event ring is made: another controller, or a new run')
        if len(self.rings) == MOST_RINGS:
            return self.end(f'a trace may have {MOST_RINGS} rings')
        earlier = [other for other in self.rings if not other.is_gone and start in other.segments]
        if earlier and self.version == 1:
            return self.end(f'memory of an earlier ring is used for another one at {start:#x}')
        if not self.rings and ring.kind != COMMAND_RING:
            raise Unsupported('the events begin after the command ring was made: enable them before xhci-pci is loaded')
        for other in earlier:
            self.let_go(other)
        self.add_ring(ring, fields['ring'], earlier or self.runs > 1)
        if ring.kind == EVENT_RING:
            self.set_up(ring)

    def add_ring(self, ring, pointer, comes):
        """`comes`: between the rows."""
        if comes:
            self.row('ring', ring)
        self.rings.append(ring)
        ring.pointer, ring.run, self.by_pointer[pointer] = pointer, self.runs, ring

    def ring_of(self, kind):
        """The command ring, or the event ring, that is there."""
        return next((ring for ring in self.rings if ring.kind == kind and not ring.is_gone), None)

    def xhci_ring_free(self, fields):
        ring = self.by_pointer.get(fields['ring'])
        self.is_freed |= ring is not None and ring.kind == COMMAND_RING

    def reset(self):
        """The run is over, and another one begins."""
        for row in (('reg', 'usbcmd', 0), ('rd', 'usbsts', 1), ('reg', 'usbcmd', 2)):
            self.row(*row)
        there = [ring for ring in self.rings if not ring.is_gone]
        for ring in there:
            ring.is_gone = True
            self.row('free', ring)
        for ring in there:
            self.clear(ring)
        for context in self.device.values():
            self.clear_all(context, 32 * self.size)
        self.runs += 1
        self.is_freed = False
        self.queued = self.command = self.last_held = self.erdp = None

    def is_begun_anew(self, ring, at):
        """Whether a command goes to the beginning of its ring, which isn't due."""
        return ring.kind == COMMAND_RING and at == ring.start and ring.enqueue not in (ring.start, ring.start + SEGMENT - 16)

    def begin_anew(self, ring):
        """The command ring is cleared where the controller has halted, which then goes on."""
        if self.version < 4:
            return self.end('the command ring begins anew')
        self.row('reg', 'usbcmd', 0)
        self.row('rd', 'usbsts', 1)
        self.let_go(ring)
        self.add_ring(TraceRing(COMMAND_RING, ring.start, 1), ring.pointer, True)
        self.row('reg', 'crcr', ring.start | 1)
        self.row('reg', 'usbcmd', 1)
        self.goes_on = True
        self.note(MADE_HALT)

    def let_go(self, ring):
        """A ring is gone, and its memory is cleared, which no event tells."""
        ring.is_gone = True
        self.row('free', ring)
        self.clear(ring)

    def clear(self, ring):
        """The control words that show the first lap's Cycle bit; of an event ring, which the controller writes, all words."""
        for start in ring.segments:
            if ring.kind == EVENT_RING:
                self.clear_all(start, SEGMENT)
                continue
            for at in range(start + 12, start + SEGMENT, 16):
                if self.image.get(at, 0) & 1:
                    self.store(at, 0)

    def clear_all(self, start, length):
        """Where that memory is used again."""
        if self.pages is None or start - start % SEGMENT in self.pages:
            for at in range(start, start + length, 4):
                self.store(at, 0)

    def later_pages(self):
        """Those that rings and contexts of later runs than the first have."""
        return {start for ring in self.rings if ring.run > 1 for start in ring.segments} | self.later

    def set_up(self, event_ring):
        """All of it is made up, but for both rings."""
        table = self.made_up + SEGMENT
        for name, value in (('config', SLOTS), ('dcbaap', self.made_up), ('crcr', self.ring_of(COMMAND_RING).start | 1)):
            self.row('reg', name, value)
        self.tables.append((len(self.rows), event_ring))  # the segment table is filled in when all segments are known
        for name, value in (('erstsz', 1), ('erdp', event_ring.start), ('erstba', table), ('usbcmd', 1)):
            self.row('reg', name, value)
        self.started = True

    def xhci_inc_deq(self, fields):
        ring = self.by_pointer.get(fields['ring'])
        if ring and ring.kind == EVENT_RING:
            self.dequeue(ring, fields['deq'])

    def dequeue(self, ring, at):
        """The Event Ring's dequeue pointer is here now."""
        if at - at % SEGMENT not in ring.segments:
            ring.segments.append(at - at % SEGMENT)
        if at != self.erdp:
            self.row('reg', 'erdp', at | 8)
        self.erdp = at

    def xhci_queue_trb(self, fields):
        words = tuple(fields[f'field{i}'] for i in range(4))
        if fields['type'] == COMMAND_RING:
            self.prepare(words)
        if self.over:
            return
        if 'dma' not in fields:
            self.queued = words
            return
        ring = self.ring_at(fields['dma'])
        if ring:
            self.queue(ring, fields['dma'], words)

    def ring_at(self, at):
        return next((ring for ring in self.rings if not ring.is_gone and at - at % SEGMENT in ring.segments), None)

    def xhci_inc_enq(self, fields):
        ring, words = self.by_pointer.get(fields['ring']), self.queued
        if not ring or ring.kind != fields['type']:
            return
        self.queued = None
        if words is not None:
            if ring.enqueue % SEGMENT == SEGMENT - 16:
                self.cross(ring, fields['enq'] - fields['enq'] % SEGMENT, 0)
            at = fields['enq'] - 16
            ring = self.queue(ring, at if self.is_begun_anew(ring, at) else ring.enqueue, words)
        if ring.enqueue != fields['enq'] and fields['enq'] % SEGMENT == 0:
            self.cross(ring, fields['enq'], blocks.chained(ring.last))

    def queue(self, ring, at, words):
        """A TRB goes to this place, on the ring that is then there."""
        if self.is_begun_anew(ring, at):
            self.begin_anew(ring)
            ring = self.by_pointer[ring.pointer]
        if not self.over:
            self.put(ring, at, words)
        return ring

    def put(self, ring, at, words):
        """A TRB is stored here."""
        if blocks.cycle(words) != ring.cycle:
            ring.held.append((at + 12, words[3] ^ 1))
            self.last_held = ring
        for i, word in enumerate(words):
            self.store(at + 4 * i, word)
        ring.enqueue, ring.last = at + 16, words
        if ring.kind == COMMAND_RING:
            self.command = (at, words)

    def cross(self, ring, to, chained):
        """A Link whose words are made up."""
        toggles = to == ring.start
        if to not in ring.segments:
            ring.segments.append(to)
        at = ring.enqueue - ring.enqueue % SEGMENT + SEGMENT - 16
        control = blocks.LINK << 10 | chained << 4 | toggles << 1 | ring.cycle
        for i, word in enumerate((to & 0xffffffff, to >> 32, 0, control)):
            self.store(at + 4 * i, word)
        ring.cycle ^= toggles
        ring.enqueue = to

    # contexts

    def xhci_address_ctx(self, fields):
        self.size = 64 if fields['ctx_64'] else 32
        if fields['ctx_type'] == INPUT_CONTEXT and 'ctx_data' in fields:
            self.contexts[fields['ctx_dma']] = fields['ctx_data']

    def xhci_alloc_virt_device(self, fields):
        self.control_rings[fields['in_ctx']] = self.rings[-1]

    def xhci_setup_addressable_virt_device(self, fields):
        self.unaddressed.add(fields['in_ctx'])

    def xhci_address_ctrl_ctx(self, fields):
        self.address_control = (fields['drop'], fields['add'])

    def xhci_setup_device(self, fields):
        self.device[fields['in_ctx']] = fields['out_ctx']
        self.speeds[fields['in_ctx']] = fields['speed']

    def xhci_handle_cmd_addr_dev(self, fields):
        self.addressed.append(tuple(fields[name] for name in ('info', 'info2', 'tt_info')))

    def made_context(self, at):
        """The Input Context of an Address Device as Linux fills it in: at first with the beginning of the control endpoint's ring, later with
        the place of its next TRB."""
        ring = self.control_rings.get(at)
        if not ring:
            self.end(f'no event tells the ring of the control endpoint that the Input Context at {at:#x} names')
            return []
        self.note(MADE_CONTEXTS)
        dequeue = ring.start | 1 if at in self.unaddressed else ring.enqueue | ring.cycle
        self.unaddressed.discard(at)
        slot = self.slots.pop(0) if self.slots else (1 << 27, 1 << 16, 0)
        endpoint = (0, PACKETS.get(self.speeds.get(at), 8) << 16 | CONTROL, dequeue & 0xffffffff, dequeue >> 32, 8)
        contexts = [context + (0,) * (self.size // 4 - len(context)) for context in (self.address_control, slot, endpoint)]
        return [word for context in contexts for word in context]

    def note(self, text):
        if text not in self.notes:
            self.notes.append(text)

    def xhci_add_endpoint(self, fields):
        self.added.append(tuple(fields[name] for name in ('info', 'info2', 'deq', 'tx_info')))

    def xhci_configure_endpoint_ctrl_ctx(self, fields):
        self.control = (fields['drop'], fields['add'])

    def xhci_configure_endpoint(self, fields):
        self.slot_context = tuple(fields[name] for name in ('info', 'info2', 'tt_info', 'state'))

    def prepare(self, words):
        """Before a command: its input context and the DCBAA's entry, as far as events tell them."""
        kind, at = blocks.kind(words), blocks.target(words)
        context = self.device.get(at, 0)
        self.later.update([at - at % SEGMENT, context - context % SEGMENT] * (self.runs > 1))
        if kind == blocks.ADDRESS_DEVICE:
            self.store_new(self.made_up + 8 * blocks.slot(words), (context & 0xffffffff, context >> 32))
            self.store_new(at, self.contexts.get(at) or self.made_context(at))
        elif kind in (blocks.CONFIGURE_ENDPOINT, blocks.EVALUATE_CONTEXT) and not blocks.drops_all(words) and self.control:
            self.store_new(at, self.control)
            self.store_new(at + self.size, self.slot_context or ())
            for index, (info, info2, dequeue, tx_info) in self.placed(self.control[1]):
                self.store_new(at + (index + 1) * self.size, (info, info2, dequeue & 0xffffffff, dequeue >> 32, tx_info))
            self.control, self.added = None, []

    def placed(self, add):
        """Each endpoint that was added with its index: as a doorbell tells it, else the least one that is left of its direction."""
        left = [index for index in range(2, 32) if add >> index & 1]
        told = []
        for context in self.added:
            number = self.number_at(context[2] & ~15)
            index = self.indices.get(number)
            if index not in left:
                is_in = (context[1] >> 3 & 7) > 4
                index = next((index for index in left if index % 2 == is_in), None)
            if index is not None:
                left.remove(index)
                told.append((index, context))
        return told

    def number_at(self, start):
        return next((number for number, ring in enumerate(self.rings) if ring.start == start and not ring.is_gone), None)

    # doorbells and events

    def xhci_ring_host_doorbell(self, fields):
        self.row('db', 0, 0)

    def xhci_ring_ep_doorbell(self, fields):
        ring = self.last_held
        if ring and ring.held:
            for at, word in ring.held:
                self.store(at, word)
            ring.held = []
            ring.index = fields['doorbell'] & 0xff
        self.row('db', fields['slot'], fields['doorbell'] & 0xff)

    def xhci_handle_event(self, fields):
        words = tuple(fields[f'field{i}'] for i in range(4))
        if blocks.kind(words) == blocks.COMMAND_COMPLETION and self.command and self.command[0] == blocks.pointer(words):
            at, command = self.command
            self.commands.append(commands.Command(None, at, command, None, words, len(self.rows)))
        self.row('ev', *words)
        ring = self.ring_of_events(fields.get('dma'))
        if ring and fields['dma'] % SEGMENT < SEGMENT - 16:
            self.dequeue(ring, fields['dma'] + 16)

    def ring_of_events(self, at):
        """The Event Ring, where an event tells its own place."""
        return None if at is None else self.ring_of(EVENT_RING)


class Tracepoints:
    """The rows and rings that are made of the text of events."""

    def __init__(self, lines, version):
        events = list(events_of(lines))
        if not any(name == 'xhci_queue_trb' and 'field3' in fields for name, fields in events):
            raise Unsupported('no xhci_queue_trb with its fields: set options/fields to 1 before the events are enabled')
        first = Follower(events, version)
        indices = {number: ring.index for number, ring in enumerate(first.rings) if ring.index}
        self.follower = Follower(events, version, indices, first.addressed, first.later_pages())
        if not self.follower.started:
            raise Unsupported('the events begin after the rings of commands and events were made: enable them before xhci-pci is loaded')
        if not any(ring.last[3] for ring in self.follower.rings):
            raise Unsupported('no event tells where a TRB lies: xhci_queue_trb has no dma, and no xhci_inc_enq follows it')
        self.size, self.commands = self.follower.size, self.follower.commands
        self.rings = [self.laid(ring) for ring in self.follower.rings]
        for number, ring in enumerate(self.rings):
            ring.number = number
        self.rows = [self.of_ring(row) if row.kind in ('ring', 'free') else row for row in self.with_tables()]

    def of_ring(self, row):
        """A row by which a ring comes or goes, with the ring as it is in the trace."""
        ring = self.rings[self.follower.rings.index(row.fields[0])]
        if row.kind == 'ring':
            ring.comes = row.key
        return row._replace(fields=(ring,))

    def laid(self, ring):
        laid = Ring(0, RingUse(ring.what(), ring.start, 0))
        laid.lay([(start, SEGMENT // 16) for start in ring.segments])
        return laid

    def with_tables(self):
        """The rows with the segment tables of the event rings, which are made up."""
        rows, begin = [], 0
        for place, ring in self.follower.tables:
            rows += self.follower.rows[begin:place] + self.table(ring)
            begin = place + 1
        return rows + self.follower.rows[begin:]

    def table(self, ring):
        """The stores of an event ring's segment table, and ERSTSZ."""
        at, stores = self.follower.made_up + SEGMENT, []
        for start in ring.segments:
            stores += [(at, start & 0xffffffff), (at + 4, start >> 32), (at + 8, SEGMENT // 16)]
            at += 16
        return [Row(0, 'w', store) for store in stores if store[1]] + [Row(0, 'reg', ('erstsz', len(ring.segments)))]


def converted(lines, version=4):
    """The texts of the trace and of its notes, and a line on it."""
    run = Tracepoints(lines, version)
    plain = [row._replace(key=number) for number, row in enumerate(run.rows)]
    moved = {row.key: number for number, row in enumerate(run.rows) if row.kind == 'ev'}
    commands = [command._replace(read=moved[command.read]) for command in run.commands]
    producers = descriptors.follow(plain, run.rings, commands, version)
    rows, cut = descriptors.declared(plain, producers, version)
    follower = run.follower
    header = row_list.head(version, rows, run.size, run.rings, follower.runs > 1 or follower.goes_on)
    text = [row_list.text(row) for row in rows]
    notes = [NOT_JUDGED] + [MADE_RUNS % follower.runs] * (follower.runs > 1) + follower.notes + of_cut(plain, cut)
    text, full = limited(text, len(header), version)
    notes += full
    lines = [''.join(line + '\n' for line in part) for part in (header + text, notes)]
    return *lines, f'{len(text)} rows, {len(run.rings)} rings'
