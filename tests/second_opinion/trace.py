"""A trace, read from its text."""
from dataclasses import dataclass

from rings import Ring, RingList, Segment, clash, is_shape

WIDE_REGISTERS = {'crcr', 'dcbaap', 'erstba', 'erdp'}
REGISTERS = WIDE_REGISTERS | {'usbcmd', 'usbsts', 'dnctrl', 'config', 'iman', 'imod', 'erstsz'}
RING_KINDS = {'cmd', 'evt', 'xfer'}
FAULTS = {1: 'Header', 2: 'Row', 3: 'Number', 4: 'Limit', 5: 'Shape'}

MOST_LINES = 1 << 20
# of a line before its line feed, by the version; and of one declaration
MOST_BYTES = {1: 1 << 14, 2: 1 << 14, 3: 1 << 14, 4: 10 << 14}
MOST_BLOCKS = {1: 256, 2: 256, 3: 256, 4: 4096}

# the first version in which the controller halts, is reset and runs again
FIRST_WITH_RUNS = 4


@dataclass(frozen=True)
class Declare:
    ring: int
    blocks: tuple


@dataclass(frozen=True)
class Write:
    address: int
    word: int


@dataclass(frozen=True)
class Register:
    name: str
    value: int


@dataclass(frozen=True)
class Read:
    """The driver read a register."""
    name: str
    value: int


@dataclass(frozen=True)
class Doorbell:
    slot: int
    target: int


@dataclass(frozen=True)
class Event:
    block: tuple


@dataclass(frozen=True)
class Comes:
    """A ring that is there from this row on."""
    ring: Ring


@dataclass(frozen=True)
class Goes:
    """The ring with this number is there no more."""
    ring: int


@dataclass(frozen=True)
class Withdraws:
    """The descriptor that begins at a position becomes No Ops."""
    ring: int
    position: int


class BadLine(Exception):
    """The first bad line, and the least fault there."""

    def __init__(self, line, number):
        super().__init__(f'line {line}: {number} {FAULTS[number]}')
        self.line = line
        self.number = number


class BadNumber(Exception):
    """A field is no number of its kind."""


class Trace(RingList):
    """A header and rows; `version` is 1 to 4, `rings` those of the header, `first` the number of the first row's line."""

    def __init__(self, version, context_bytes, rings, first, rows):
        self.version = version
        self.context_bytes = context_bytes
        self.rings = rings
        self.first = first
        self.rows = rows

    @property
    def has_isoch(self):
        """Isochronous endpoints are used."""
        return self.version >= 4

    @property
    def has_event_data(self):
        """Descriptors have Event Data blocks, and events tell their values."""
        return self.version >= 4

    @property
    def is_full(self):
        """No type of transfer blocks is left out."""
        return self.has_isoch and self.has_event_data

    @property
    def has_runs(self):
        """The controller halts, is reset and runs again."""
        return self.version >= FIRST_WITH_RUNS

    @property
    def ever(self):
        """All rings that are ever there, in the order of their lines."""
        return self.rings + [row.ring for row in self.rows if isinstance(row, Comes)]

    def ring_ever(self, number):
        return next((ring for ring in self.ever if ring.number == number), None)

    @property
    def device_context_bytes(self):
        return 32 * self.context_bytes

    @property
    def input_context_bytes(self):
        return 33 * self.context_bytes


# ---- lines

def lines_of(text):
    """The lines of a text, and of each whether a line feed ends it."""
    pieces = text.split(b'\n')
    lines = [(piece, True) for piece in pieces[:-1]]
    return lines + [(pieces[-1], False)] if pieces[-1] else lines


def ring_kinds(version, is_begun):
    """The kinds that a ring may have: behind a row none comes in version 1, and only a transfer ring where the controller runs once."""
    if not is_begun or version >= FIRST_WITH_RUNS:
        return RING_KINDS
    return {'xfer'} if version > 1 else set()


def has_form(fields, version, is_begun):
    """A known first word, known other words, and as many fields as it takes; `is_begun` tells whether a row came before."""
    word, rest = fields[0], fields[1:]
    if word == 'sub':
        return len(rest) > 1 and len(rest[1:]) % 4 == 0
    if word in ('reg', 'rd'):
        return len(rest) == 2 and rest[0] in REGISTERS and (word == 'reg' or version >= FIRST_WITH_RUNS)
    if word == 'ring':
        return len(rest) > 2 and rest[1] in ring_kinds(version, is_begun)
    if word in ('free', 'nop'):
        return version > 1 and len(rest) == {'free': 1, 'nop': 2}[word]
    return len(rest) == {'w': 2, 'db': 2, 'ev': 4}.get(word, -1)


def number(field, digits):
    if len(field) != digits or any(character not in '0123456789abcdefABCDEF' for character in field):
        raise BadNumber
    return int(field, 16)


def segment_of(field):
    base, colon, count = field[:16], field[16:17], field[17:]
    if colon != ':':
        raise BadNumber
    return Segment(number(base, 16), number(count, 4))


def word_address(field):
    address = number(field, 16)
    if address % 4 != 0:
        raise BadNumber
    return address


def register_value(name, field):
    value = number(field, 16)
    if name not in WIDE_REGISTERS and value >> 32 != 0:
        raise BadNumber
    return value


def blocks_of(fields):
    words = [number(field, 8) for field in fields]
    return tuple(tuple(words[i:i + 4]) for i in range(0, len(words), 4))


def said_by(fields):
    """The row, or the ring, that a line of a right form says."""
    word, rest = fields[0], fields[1:]
    if word == 'sub':
        return Declare(number(rest[0], 2), blocks_of(rest[1:]))
    if word == 'w':
        return Write(word_address(rest[0]), number(rest[1], 8))
    if word in ('reg', 'rd'):
        return (Register if word == 'reg' else Read)(rest[0], register_value(rest[0], rest[1]))
    if word == 'db':
        return Doorbell(number(rest[0], 2), number(rest[1], 2))
    if word == 'ev':
        return Event(blocks_of(rest)[0])
    if word == 'free':
        return Goes(number(rest[0], 2))
    if word == 'nop':
        return Withdraws(number(rest[0], 2), number(rest[1], 16))
    return Ring(number(rest[0], 2), rest[1], [segment_of(field) for field in rest[2:]])


def is_bad_shape(ring, rings, is_begun):
    """The ring's own shape, or what it shares with those before it: behind a row its number alone, though that ring is gone."""
    return not is_shape(ring) or any(ring.number == other.number if is_begun else clash(ring, other) for other in rings)


def read_line(line, content, is_ended, version, rings, is_begun):
    """What a line behind the first two says; `rings` are all that those before it named, `is_begun` tells whether a row is among them."""
    if len(content) > MOST_BYTES[version]:
        raise BadLine(line, 4)
    fields = content.decode('latin-1').split(' ')
    if not is_ended or '' in fields or not has_form(fields, version, is_begun):
        raise BadLine(line, 2)
    try:
        said = said_by(fields)
    except BadNumber:
        raise BadLine(line, 3) from None
    if line > MOST_LINES or (isinstance(said, Declare) and len(said.blocks) > MOST_BLOCKS[version]):
        raise BadLine(line, 4)
    if isinstance(said, Ring) and is_bad_shape(said, rings, is_begun):
        raise BadLine(line, 5)
    return said


def read_trace(text):
    """The trace of a text (bytes), or BadLine."""
    lines = lines_of(text)
    versions = {(b'xtrace %d' % version, True): version for version in (1, 2, 3, 4)}
    if not lines or lines[0] not in versions:
        raise BadLine(1, 1)
    if len(lines) < 2 or lines[1] not in ((b'ctx 20', True), (b'ctx 40', True)):
        raise BadLine(2, 1)
    named, rings, rows = [], [], []
    for line, (content, is_ended) in enumerate(lines[2:], start=3):
        said = read_line(line, content, is_ended, versions[lines[0]], named, bool(rows))
        if isinstance(said, Ring):
            named.append(said)
        if isinstance(said, Ring) and not rows:
            rings.append(said)
        else:
            rows.append(Comes(said) if isinstance(said, Ring) else said)
    context_bytes = 32 if lines[1][0] == b'ctx 20' else 64
    return Trace(versions[lines[0]], context_bytes, rings, len(lines) - len(rows) + 1, rows)
