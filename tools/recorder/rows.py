"""The rows of a run before descriptors are declared: writes to the areas, registers, doorbells and events read."""
from collections import namedtuple

import blocks
from memory import BEFORE_ALL
from qemu_log import Bell, Seen, count_of
from registers import EVENT_RING_REGISTERS

MOST_BLOCKS = {1: 256, 3: 256, 4: 4096}  # of a `sub` row, by the version of its trace

# made_up: a `w` row for a word that no store was seen to leave; if_set: to be left out where the trace's memory has 0 there; rank: its
# place among the rows of its key, behind that of a ring that goes
Row = namedtuple('Row', 'key kind fields made_up if_set rank', defaults=(False, False, 0))


def text(row):
    if row.kind == 'w':
        return 'w %016x %08x' % row.fields
    if row.kind in ('reg', 'rd'):
        return row.kind + ' %s %016x' % row.fields
    if row.kind == 'db':
        return 'db %02x %02x' % row.fields
    if row.kind == 'ev':
        return 'ev %08x %08x %08x %08x' % row.fields
    if row.kind == 'ring':
        return row.fields[0].line()
    if row.kind == 'free':
        return f'free {row.fields[0].number:02x}'
    if row.kind == 'nop':
        return 'nop %02x %016x' % row.fields
    number, words = row.fields
    return f'sub {number:02x} ' + ' '.join(f'{word:08x}' for word in words)


def is_latest(row):
    """A TD that no version before 4 has, by its length, as an isochronous one or with Event Data, or an event that tells a value, or of the service of an
    isochronous endpoint."""
    if row.kind == 'sub':
        words = row.fields[1]
        has_data = any(blocks.kind(words[i:i + 4]) == blocks.EVENT_DATA for i in range(0, len(words), 4))
        return len(words) > 4 * MOST_BLOCKS[3] or blocks.kind(words) == blocks.ISOCH or has_data
    is_transfer = row.kind == 'ev' and blocks.kind(row.fields) == blocks.TRANSFER_EVENT
    return is_transfer and (blocks.code(row.fields) in blocks.SERVICE_CODES or bool(blocks.tells_value(row.fields)))


def head(latest, rows, context_size, rings, are_latest=False):
    """The lines before these rows: of version 3 where the latest that was asked for is a later one, and nothing in them is that one's. Rows of
    several runs are, and those by which a TD is withdrawn midway, or a Link beside a withdrawn TRB loses its Chain bit: `are_latest` tells."""
    version = latest if latest < 4 or are_latest or any(map(is_latest, rows)) else 3
    return [f'xtrace {version}', f'ctx {context_size:02x}'] + [ring.line() for ring in rings if ring.comes is None]


def writes(areas, rings, memory, cut):
    """A row for each store to a word of an area while the area lives."""
    rows, looked_at = {}, list(stretches(areas, rings, cut))
    for start, length, named, area in looked_at:
        for at in range(start, start + length, 4):
            for i, entry in enumerate(memory.life(at, named, area.ended)):
                if area.is_written() and entry.found and count_of(entry.found) > count_of(named):
                    continue
                if_set = i == 0 and entry.word == 0 and entry.key < named
                known = rows.get((at, entry.key))
                if not known or known.if_set:
                    row = Row(entry.key, 'w', (at, entry.word), entry.found is not None, if_set)
                    rows[at, entry.key] = behind_areas(row, entry.found, looked_at) if entry.found else row
    return list(rows.values())


def behind_areas(row, found, looked_at):
    """Where a word that was found may have come at any time since `row.key`: behind the areas that had it and were let go meanwhile."""
    lives = [(named, area.ended) for start, length, named, area in looked_at if start <= row.fields[0] < start + length]
    latest = min([named for named, ended in lives if named > row.key] + [found])
    ends = [ended for named, ended in lives if ended and row.key < ended <= latest]
    return row._replace(key=max(ends), rank=2) if ends else row


def stretches(areas, rings, cut):
    """What is looked at, from when on, and of which area or use of a ring; of a ring that is named at `cut` nothing."""
    for area in areas.fixed:
        yield area.start, area.length, area.named, area
    for ring in rings:
        for use in ring.uses:
            if cut is None or use.named < cut:
                for start, count in ring.segments:
                    yield start, 16 * count, ring.has_since(start, use), use


def collected(parts, areas, rings, memory, end, cut):
    """All rows in order, up to the row that stops the controller, where that is the last one, or the one at `cut`."""
    items = [item for part in parts for item in part.items]
    early = before_event_rings(parts, rings)
    rows = [Row(row.key, 'reg', (row.name, row.value)) for part in parts for row in part.written if row not in early]
    rows += [Row(item.key, 'rd', ('usbsts', item.value)) for part in parts for item in part.reads]
    rows += [Row(item.key, 'db', (item.slot, item.target)) for item in items if isinstance(item, Bell)]
    rows += [Row(item.key, 'ev', item.words) for item in items if isinstance(item, Seen)]
    end = min(end, cut or end)
    rows = [row for row in coming_and_going(rings) + rows + writes(areas, rings, memory, cut) if row.key <= end]
    rows.sort(key=lambda row: (row.key, row.rank))
    return needed(rows, left_behind(areas, rings))


def before_event_rings(parts, rings):
    """What is written of an event ring before the one of this run comes, and written anew behind that: before the start it says nothing."""
    comes = {use.part: ring.comes for ring in rings if ring.kind == 'evt' and ring.comes is not None for use in ring.uses}
    return {row for number, part in enumerate(parts) for row in part.written
            if row.name in EVENT_RING_REGISTERS and row.key < comes.get(number, BEFORE_ALL)}


def coming_and_going(rings):
    """A row directly behind the one that lets a ring go, and one directly before the first that needs a ring, but behind that by which one goes."""
    gone = [ring.goes for ring in rings if ring.goes is not None]
    rows = [Row(ring.goes, 'free', (ring,), rank=1) for ring in rings if ring.goes is not None]
    return rows + [Row(ring.comes, 'ring', (ring,), rank=2 if ring.comes in gone else -1) for ring in rings if ring.comes is not None]


def other_use(areas, rings, memory):
    """When memory was first used for something else that a halted controller still has; None where it never was. The driver may clear its
    command ring."""
    idle = [(area.start, area.length, area) for area in areas.fixed if area.idle]
    idle += [(start, 16 * count, use) for ring in rings if ring.kind != 'cmd' for use in ring.uses if use.idle for start, count in ring.segments]
    keys = [memory.other_use(start, length, *area.idle, area.is_written()) for start, length, area in idle]
    return min((key for key in keys if key is not None), default=None)


def left_behind(areas, rings):
    """Memory in which the controller wrote, and when it was let go."""
    contexts = [(area.start, area.length, area.ended) for area in areas.fixed if area.is_written() and area.ended]
    return contexts + [(start, 16 * count, ring.goes) for ring in rings if ring.kind == 'evt' and ring.goes for start, count in ring.segments]


def needed(rows, left):
    """Stores of 0 from before an area was named count only where something else may stand: `left` is memory in which the controller wrote."""
    memory, kept = {}, []
    for row in rows:
        if row.kind == 'w':
            at, word = row.fields
            if row.if_set and not memory.get(at) and not any(
                    ended < row.key and start <= at < start + length for start, length, ended in left):
                continue
            memory[at] = word
        kept.append(row)
    return kept
