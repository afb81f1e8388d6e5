"""Traces that differ a little from worked ones, picked by a seed: text in, text out."""
import random

from blocks import (CHAIN, COMMAND_COMPLETION, CONFIGURE_ENDPOINT, ED, EVALUATE_CONTEXT, EVENT_DATA, LINK, NORMAL, NO_OP_COMMAND, SET_TR_DEQUEUE, TRANSFER_EVENT,
                    TRANSFER_TYPES)
from trace import MOST_BLOCKS, MOST_BYTES

DIGITS = b'0123456789abcdef'
# segments in which a descriptor of the most blocks has room
ROOM = [b'%016x:1000' % base for base in (0xff0000000000, 0xff0000010000)]


def without_a_row(lines, i, pick):
    return lines[:i] + lines[i + 1:]


def with_a_row_twice(lines, i, pick):
    return lines[:i + 1] + lines[i:]


def with_two_rows_swapped(lines, i, pick):
    return lines[:i] + lines[i:i + 2][::-1] + lines[i + 2:]


def with_a_row_elsewhere(lines, i, pick):
    rest = lines[:i] + lines[i + 1:]
    j = pick.randrange(2, len(rest) + 1)
    return rest[:j] + [lines[i]] + rest[j:]


def with_a_digit_changed(lines, i, pick):
    """One digit behind the line's first word."""
    line = lines[i]
    places = [place for place in range(line.find(b' ') + 1, len(line)) if line[place] in DIGITS]
    if not places:
        return lines
    place = pick.choice(places)
    changed = line[:place] + bytes([pick.choice(DIGITS)]) + line[place + 1:]
    return lines[:i] + [changed] + lines[i + 1:]


def with_a_bit_changed(lines, i, pick):
    """One bit of one digit of a row that writes or reads words."""
    line = lines[i]
    places = [place for place in range(line.find(b' ') + 1, len(line)) if line[place] in DIGITS]
    if not places or line.startswith(b'ring'):
        return lines
    place = pick.choice(places)
    digit = int(line[place:place + 1], 16) ^ 1 << pick.randrange(4)
    return lines[:i] + [line[:place] + b'%x' % digit + line[place + 1:]] + lines[i + 1:]


def rings_of(lines):
    return [line for line in lines if line.startswith(b'ring ')]


def with_a_ring_that_goes(lines, i, pick):
    rings = rings_of(lines)
    return lines[:i] + [b'free ' + pick.choice(rings).split()[1]] + lines[i:] if rings else lines


def with_a_ring_that_comes(lines, i, pick):
    """With the segments of another one; before a row that ring goes, mostly."""
    rings = rings_of(lines)
    if not rings:
        return lines
    _, number, _, *segments = pick.choice(rings).split()
    comes = b' '.join([b'ring', b'%02x' % pick.randrange(256), b'xfer', *segments])
    goes = [b'free ' + number] if pick.random() < 0.7 else []
    return lines[:i] + [*goes, comes] + lines[i:]


def with_a_ring_declared_later(lines, i, pick):
    """A transfer ring of the header comes behind the first rows."""
    rings = [line for line in rings_of(lines) if b' xfer ' in line]
    if not rings:
        return lines
    ring = pick.choice(rings)
    rest = [line for line in lines if line is not ring]
    j = pick.randrange(2, min(i, len(rest)) + 1)
    return rest[:j] + [ring] + rest[j:]


def with_a_descriptor_withdrawn(lines, i, pick):
    rings = rings_of(lines)
    return lines[:i] + [b'nop ' + pick.choice(rings).split()[1] + b' %016x' % pick.randrange(6)] + lines[i:] if rings else lines


def with_an_earlier_one_withdrawn(lines, i, pick):
    """Behind a row that withdraws a descriptor one that was declared before on that ring is withdrawn too: it was passed, mostly."""
    at = [j for j, line in enumerate(lines) if line.startswith(b'nop ') and len(line.split()) == 3]
    if not at:
        return lines
    j = pick.choice(at)
    _, ring, _ = lines[j].split()
    begins = [0]
    for line in lines[:j]:
        if line.startswith(b'sub ' + ring + b' '):
            begins.append(begins[-1] + (len(line.split()) - 2) // 4)
    return lines[:j + 1] + [b'nop %s %016x' % (ring, pick.choice(begins))] + lines[j + 1:]


def control_word(line):
    """The last word of a row."""
    return int(line.split()[-1], 16)


def with_a_no_op_for_a_move(lines, i, pick):
    """A Set TR Dequeue Pointer becomes a No Op Command: the ring isn't moved."""
    moves = [j for j, line in enumerate(lines) if line.startswith(b'sub ') and len(line.split()) == 6 and control_word(line) >> 10 & 63 == SET_TR_DEQUEUE]
    if not moves:
        return lines
    j = pick.choice(moves)
    given = [k for k in range(j + 1, len(lines)) if lines[k].startswith(b'w ') and control_word(lines[k]) | 1 == control_word(lines[j]) | 1][:1]
    lines = list(lines)
    for k in [j, *given]:
        word = control_word(lines[k]) ^ (SET_TR_DEQUEUE ^ NO_OP_COMMAND) << 10
        lines[k] = lines[k][:-8] + b'%08x' % word
    return lines


def is_of(line, word, count, types):
    """A row with this word and so many fields, whose last one is a control word of these types."""
    return line.startswith(word + b' ') and len(line.split()) == count and control_word(line) >> 10 & 63 in types


def with_a_late_completion(lines, i, pick):
    """The completion of a command is read right before that of the next one, or as the last event of all."""
    ends = [j for j, line in enumerate(lines) if is_of(line, b'ev', 5, [COMMAND_COMPLETION])]
    if not ends:
        return lines
    j = pick.randrange(len(ends))
    at = [*ends, len(lines)][j + 1]
    return lines[:ends[j]] + lines[ends[j] + 1:at] + [lines[ends[j]]] + lines[at:]


def with_another_flag(lines, i, pick):
    """A flag of the input context of a Configure Endpoint or Evaluate Context, of one of the first endpoints, becomes the other one."""
    given = [j for j, line in enumerate(lines) if is_of(line, b'sub', 6, [CONFIGURE_ENDPOINT, EVALUATE_CONTEXT])]
    if not given:
        return lines
    j = pick.choice(given)
    at = b'%016x' % (int(lines[j].split()[2], 16) + pick.choice([0, 4]))
    written = [k for k in range(j) if lines[k].startswith(b'w ' + at + b' ')]
    word = (control_word(lines[written[-1]]) if written else 0) ^ 1 << pick.choice([1, 2, 2, 3, 3, 4, 5])
    return lines[:j] + [b'w %s %08x' % (at, word)] + lines[j:]


def is_transfer(line):
    return line.startswith(b'sub ') and len(line.split()) > 5 and control_word(line) >> 10 & 63 in TRANSFER_TYPES


def with_event_data(lines, i, pick):
    """A block of a descriptor, mostly the last one, becomes Event Data, or Normal where it is, and so does the word that gives it; mostly in version 4."""
    subs = [j for j, line in enumerate(lines) if is_transfer(line)]
    if not subs:
        return lines
    j = pick.choice(subs)
    fields = lines[j].split()
    at = pick.choice([-1, -1, -1, *range(5, len(fields), 4)])
    word = int(fields[at], 16)
    given = [k for k in range(j + 1, len(lines)) if lines[k].startswith(b'w ') and control_word(lines[k]) | 1 == word | 1][:1]
    becomes = word ^ (word >> 10 & 63 ^ (NORMAL if word >> 10 & 63 == EVENT_DATA else EVENT_DATA)) << 10
    fields[at] = b'%08x' % becomes
    lines = [b'xtrace 4' if pick.random() < 0.8 else lines[0], *lines[1:j], b' '.join(fields), *lines[j + 1:]]
    for k in given:
        lines[k] = lines[k][:-8] + b'%08x' % (becomes | control_word(lines[k]) & 1)
    return lines


def with_a_value_told(lines, i, pick):
    """A Transfer Event that names a block by its address tells the first words of some block that was declared, by ED; or the other way round."""
    events = [j for j, line in enumerate(lines) if is_of(line, b'ev', 5, [TRANSFER_EVENT])]
    if not events:
        return lines
    j = pick.choice(events)
    declared = [line.split()[2:4] for line in lines[:j] if is_transfer(line)] + [line.split()[-4:-2] for line in lines[:j] if is_transfer(line)]
    _, *named, code, _ = lines[j].split()
    named = pick.choice(declared) if declared and pick.random() < 0.9 else named
    return [*lines[:j], b' '.join([b'ev', *named, code, b'%08x' % (control_word(lines[j]) ^ 1 << ED)]), *lines[j + 1:]]


def is_link(line):
    """It writes the control word of a Link."""
    return line.startswith(b'w ') and line.split()[1].endswith(b'c') and int(line.split()[2], 16) >> 10 & 63 == LINK


def with_a_chain_bit_changed(lines, i, pick):
    """Before a row a Link that was written gets the other Chain bit."""
    links = [line.split() for line in lines[:i] if is_link(line)]
    if not links:
        return lines
    _, address, word = pick.choice(links)
    return lines[:i] + [b'w %s %08x' % (address, int(word, 16) ^ 1 << CHAIN)] + lines[i:]


def with_a_long_descriptor(lines, i, pick):
    """A declaration has as many blocks as its version lets it have, or one more; its ring gets room for them."""
    subs = [j for j, line in enumerate(lines) if line.startswith(b'sub ') and len(line.split()) > 5]
    if not subs:
        return lines
    j = pick.choice(subs)
    ring = lines[j].split()[1]
    most = MOST_BLOCKS[4 if lines[0] == b'xtrace 4' else 3]
    with_room = [b' '.join([line, *ROOM]) if line.startswith(b'ring ' + ring + b' ') else line for line in lines]
    return with_room[:j] + [declaration(ring, most + pick.randrange(2))] + with_room[j + 1:]


def declaration(ring, count):
    """One of so many Normal blocks."""
    blocks = [b'%08x %08x %08x %08x' % (0, 0, 0, NORMAL << 10 | chain << CHAIN) for chain in [1] * (count - 1) + [0]]
    return b' '.join([b'sub', ring, *blocks])


def with_another_version(lines, i, pick):
    return [b'xtrace %d' % pick.choice([1, 2, 2, 3, 3, 4, 4]), *lines[1:]]


OF_ROWS = [without_a_row, with_a_row_twice, with_two_rows_swapped, with_a_row_elsewhere, with_a_digit_changed, with_a_bit_changed]
OF_RINGS = [with_a_ring_that_goes, with_a_ring_that_comes, with_a_ring_declared_later, with_a_descriptor_withdrawn, with_an_earlier_one_withdrawn,
            with_a_no_op_for_a_move, with_a_chain_bit_changed, with_a_long_descriptor, with_another_version]
OF_COMMANDS = [with_a_late_completion, with_another_flag]
OF_DATA = [with_event_data, with_a_value_told]
CHANGES = OF_ROWS * 3 + OF_RINGS + OF_COMMANDS + OF_DATA


def mutated(text, pick):
    """The text with one to three changes; of most the first two lines stay."""
    lines = text.splitlines()
    for _ in range(pick.choice([1, 1, 2, 3])):
        change = pick.choice(CHANGES)
        if len(lines) > 2:
            lines = change(lines, pick.randrange(2, len(lines)), pick)
        if change in OF_RINGS and lines[0] == b'xtrace 1' and pick.random() < 0.9:
            lines = with_another_version(lines, 0, pick)
    return b''.join(line + b'\n' for line in lines)


def mutations(texts, count, seed):
    """So many mutations of these texts, always the same ones for a seed."""
    pick = random.Random(seed)
    return [mutated(pick.choice(texts), pick) for _ in range(count)]


def at_limits():
    """Of each version: declarations of as many blocks as some version lets one have, or one more; and lines of as many bytes, or one more."""
    for version in MOST_BLOCKS:
        head = b'xtrace %d\nctx 20\nring 02 xfer %s\n' % (version, b' '.join(ROOM))
        for most in sorted(set(MOST_BLOCKS.values())):
            yield from (head + declaration(b'02', count) + b'\n' for count in (most, most + 1))
        for most in sorted(set(MOST_BYTES.values())):
            yield from (head + b'w ' + b'0' * (count - 2) + ending for count in (most, most + 1) for ending in (b'\n', b''))
