"""Reads QEMU's log with the plugin's lines, as a stream, into what happened, in the order in which the guest's CPU saw it.

Each item has a key: the plugin's count of stores, then what comes first at that count, then the line. Items come in the order of
their keys, but for stores that are remembered when a page comes to be watched. What QEMU does for a store to a register, or for a load of
USBSTS, stands in the log before the line of that store or load, and is given its count. What QEMU's main loop does is only known to lie
between two stores to registers.

A log may break off while the plugin still tells of a store to a register, or of a page that comes to be watched and of what is
remembered of it. Half of that would be wrong, so the recording ends before it.
"""
import re
from collections import namedtuple

Store = namedtuple('Store', 'key at word')                  # the CPU has left this word here
Found = namedtuple('Found', 'key at word')                  # the word that stood here
Page = namedtuple('Page', 'key at known')                   # the page is watched from here; stores are known from `known` on
Write = namedtuple('Write', 'key region off value')         # a register of region 'oper', 'runtime' or 'port' was written
Bell = namedtuple('Bell', 'key slot target stream')
Fetch = namedtuple('Fetch', 'key at words')                 # the controller has fetched the block
Post = namedtuple('Post', 'key interrupter words')          # the controller has posted the event
Seen = namedtuple('Seen', 'key at words')                   # the driver has loaded the event's Cycle bit, and it was due
Status = namedtuple('Status', 'key value')                  # the driver has loaded USBSTS
Reset = namedtuple('Reset', 'key by_driver')

CPU, DEVICE, LATER = 0, 1, 2  # at one count: what the CPU did, what the device did for it, what came after
FOREVER = float('inf')
KEPT = 64             # stores to a word of no area that are kept, from the last one of 0 on
MOST_TOLD = 1 << 18   # items that are held while a page may still be told, before those are left out that no area needs
RECENT = 1 << 16      # counts: a command that names an area, and is taken now, was given no longer ago


def key_of(count, rank, number):
    """One number that sorts like the three. The next greater one is for a word that was found behind a store; the two before it are for what is
    made up before a reset of the machine."""
    return count << 40 | rank << 38 | number << 2


def count_of(key):
    return key >> 40

PATTERNS = [(re.compile(pattern), kind) for pattern, kind in [
    (r'usb_xhci_(oper|runtime)_write off 0x(\w+), val 0x(\w+)', 'register'),
    (r'usb_xhci_(port)_write port (\d+), off 0x\w+, val 0x(\w+)', 'register'),
    (r'usb_xhci_doorbell_write off 0x(\w+), val 0x(\w+)', 'doorbell'),
    (r'usb_xhci_fetch_trb addr 0x(\w+), .*, p 0x(\w+), s 0x(\w+), c 0x(\w+)', 'fetch'),
    (r'usb_xhci_queue_event v (\d+), .*, p 0x(\w+), s 0x(\w+), c 0x(\w+)', 'event'),
    (r'usb_xhci_(reset)', 'reset'),
    (r'usb_xhci_oper_read off 0x(\w+), ret 0x(\w+)', 'read'),
    (r'usb_xhci_cap_read off 0x0010, ret 0x(\w+)', 'capability')]]
# lines of these names have one of these patterns, or are no whole lines
NAMES = ['usb_xhci_' + name for name in
         ('oper_read', 'oper_write', 'runtime_write', 'port_write', 'doorbell_write', 'fetch_trb', 'queue_event', 'reset')]
USBSTS = 4  # where it stands among the operational registers


class Unsupported(Exception):
    """The recording can't be made into a trace; the text says why."""


def words_of(parameter, status, control):
    return (parameter & 0xffffffff, parameter >> 32, status, control)


class LogReader:
    """`items` yields what happened, up to the first line that isn't understood; then `fault` says why it ended there.

    `end` is where the recording ends: the greatest count, and how many lines of the log were taken.
    """

    def __init__(self):
        self.context_size = 32
        self.ended = False   # whether the log has the plugin's last line
        self.fault = None
        self.lost = 0        # how many of the plugin's lines are missing
        self.count = 0       # the greatest count so far
        self.number = self.said = 0  # lines so far, and those of the plugin
        self.waiting = []    # trace lines from a register write on, until the line of its store
        self.status = None   # what QEMU says that USBSTS was read as, until the line of that load
        self.found = []      # words found, until the remembered stores to their page are told
        self.in_page = False # whether the plugin may still tell of a page that comes to be watched
        self.end = (0, 0)

    def items(self, lines):
        held, most = [], MOST_TOLD  # what may not be told to its end yet
        for self.number, line in enumerate(lines):
            self.in_page = self.in_page and not self.is_after_page(line)
            if self.is_told():
                yield from held
                held, self.end = [], (self.count, self.number)
            try:
                held += self.line(self.number, line)
            except (ValueError, TypeError, IndexError, KeyError):
                self.fault = f'line {self.number + 1} of the log is not understood: {line.strip()[:200]}'
            if self.fault:
                break
            if len(held) > most:
                held = self.needed(held)
                most = max(MOST_TOLD, 2 * len(held))
        if self.ended or self.is_told():
            yield from held + self.all_found()
            for number, make in self.waiting:
                yield make(key_of(self.count, LATER, number))
            self.end = (self.count, self.number + 1)

    def needed(self, held):
        """Of stores that are remembered from long ago those that an area may need: to each word the last ones, from one of 0 on."""
        kept, counts = [], {}
        for item in reversed(held):
            if isinstance(item, Store) and count_of(item.key) < self.count - RECENT:
                count = counts.get(item.at, 0)
                if count == KEPT:
                    continue
                counts[item.at] = count + 1 if item.word else KEPT
            kept.append(item)
        return kept[::-1]

    def is_told(self):
        """Whether the plugin isn't in the middle of a store to a register, or of a page."""
        return not self.waiting and not self.in_page

    def is_after_page(self, line):
        """Whether this line can't be one of those that tell of a page: the CPU goes on."""
        fields = line.split()
        if fields[:1] != ['xr']:
            return False
        return fields[1:2] in (['d'], ['e'], ['r'], ['end']) or (fields[1:2] == ['w'] and is_beyond(fields[2:3], self.count))

    def line(self, number, line):
        if line.startswith('xr '):
            self.said += 1
            return self.plugin_line(number, line.split())
        if line.startswith('usb_xhci_'):
            return self.trace_line(number, line)
        return []

    def plugin_line(self, number, fields):
        kind, count = fields[1], int(fields[2], 16)
        rest = [int(field, 16) for field in fields[3:]]
        if kind == 'v':
            self.found.append(Found(key_of(count, LATER, number), *rest))
            return []
        before = [] if kind == 'w' and count <= self.count else self.all_found()
        self.count = max(self.count, count)
        if kind == 'd':
            return before + self.device_store(count, *rest)
        if kind == 'end':
            self.ended = True
            self.lost = rest[0] - self.said if rest else 0
            return before
        if kind == 'e':
            return before + [Seen(key_of(count, CPU, number), rest[0], tuple(rest[1:]))]
        if kind == 'r':
            return before + self.status_load(key_of(count, CPU, number))
        self.in_page = self.in_page or kind == 'p'
        item, rank = {'w': (Store, CPU), 'p': (Page, LATER)}[kind]
        return before + [item(key_of(count, rank, number), *rest)]

    def all_found(self):
        found, self.found = self.found, []
        return found

    def status_load(self, key):
        value, self.status = self.status, None
        return [] if value is None else [Status(key, value)]

    def device_store(self, count, at, size):
        if not self.waiting:
            self.fault = f'the store of {size} bytes to the device at {at:#x} has no trace line of QEMU'
        items = [make(key_of(count, DEVICE, number)) for number, make in self.waiting]
        self.waiting = []
        return items

    def trace_line(self, number, line):
        for pattern, kind in PATTERNS:
            match = pattern.match(line)
            if match:
                break
        else:
            if line.split(None, 1)[0] in NAMES:
                raise ValueError
            return []
        if kind == 'capability':
            self.context_size = 64 if int(match[1], 16) & 4 else 32
            return []
        if kind == 'read':
            self.status = int(match[2], 16) if int(match[1], 16) == USBSTS else self.status
            return []
        make = self.maker(kind, match)
        if self.waiting or kind in ('register', 'doorbell'):
            self.waiting.append((number, make))
            return []
        return self.all_found() + [make(key_of(self.count, LATER, number))]

    def maker(self, kind, match):
        """A function from the key to the item: the key of a register write comes later in the log."""
        if kind == 'register':
            return lambda key: Write(key, match[1], int(match[2], 16), int(match[3], 16))
        if kind == 'doorbell':
            slot, value = int(match[1], 16) // 4, int(match[2], 16)
            return lambda key: Bell(key, slot, value & 0xff, value >> 16)
        if kind == 'reset':
            by_driver = bool(self.waiting)
            return lambda key: Reset(key, by_driver)
        first = int(match[1], 16 if kind == 'fetch' else 10)
        words = words_of(*(int(match[i], 16) for i in (2, 3, 4)))
        return lambda key: (Fetch if kind == 'fetch' else Post)(key, first, words)


def is_beyond(fields, count):
    """Whether a line's count, as its field has it, is greater."""
    try:
        return int(fields[0], 16) > count
    except (ValueError, IndexError):
        return False


def whole_lines(file):
    """All lines of a log but a last one that breaks off."""
    return (line for line in file if line.endswith('\n'))
