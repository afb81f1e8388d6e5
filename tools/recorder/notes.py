"""What a trace can't say: the text beside it."""
import registers
import steps
from commands import events
from qemu_log import Bell
from rows import before_event_rings

MOST_KEPT = 1 << 20  # lines of a trace that is replayed


def of_trace(parts, memory, finder, rows, cut, schedule):
    items = [item for part in parts for item in part.items]
    lines = finder.notes() + of_streams(finder.areas) + of_memory(memory, rows) + of_cut(rows, cut) + of_rows(items)
    lines += of_early_writes(before_event_rings(parts, finder.rings)) + of_events(parts)
    lines += of_controller(schedule)
    return lines


def of_runs(parts, rows, header):
    """Of several runs in one trace: the lines at which they begin."""
    numbers = {row.key: number for number, row in enumerate(rows, header + 1) if row.kind == 'reg'}
    lines = [f'the trace has {len(parts)} runs of the controller'] * (len(parts) > 1)
    for number, (earlier, part) in enumerate(zip(parts, parts[1:]), 2):
        line = numbers[part.begin]
        why = f'lines {line + 1 - earlier.made_up} to {line} are made up for a reset of the machine' if earlier.made_up else 'HCRST'
        lines.append(f'run {number} begins behind line {line}: {why}')
    return lines + [f'run {number} goes on behind a halt' for number, part in enumerate(parts, 1) if part.goes_on]


def of_streams(areas):
    return [f'the endpoint with DCI {index} of slot {slot} has streams: a trace has no rings of streams'
            for slot, index in sorted(set(areas.streams))]


def of_memory(memory, rows):
    lines = []
    if memory.known_from:
        lines.append(f'stores before number {memory.known_from} were forgotten: what an area held before may be missing (--history)')
    for row in rows:
        if row.made_up:
            lines.append('no store was seen that left the word %08x at %016x: its row is made up' % row.fields[::-1])
    return lines


def of_cut(rows, cut):
    if cut is None:
        return []
    return [f'{cut.why}: the trace ends before its first row, and {len(rows) - cut.row} rows are left out']


def of_rows(items):
    lines = [f'{count} register writes make no row: {where}' for where, count in sorted(registers.left_out(items).items())]
    streams = sum(1 for item in items if isinstance(item, Bell) and item.stream)
    if streams:
        lines.append(f'{streams} doorbells had a stream: a row can not say it')
    return lines


def of_early_writes(early):
    names = ', '.join(sorted({row.name.upper() for row in early}))
    return [f'{len(early)} register writes make no row: {names} before the Event Ring comes that is used'] if early else []


def of_events(parts):
    pairs, more, unread = [], [], []
    for part in parts:
        of_part, more_of_part = events(part.items)
        pairs, more = pairs + of_part, more + more_of_part
        unread += of_unread([post for post, seen in of_part if seen is None], part)
    other = sum(1 for post, seen in pairs if seen and seen.words != post.words) + len(more)
    elsewhere = sum(1 for part in parts for item in part.items if getattr(item, 'interrupter', 0))
    lines = [f'events: {len(pairs)} posted, {sum(1 for post, seen in pairs if seen)} read'] + unread
    if other:
        lines.append(f'{other} events were read with other words than QEMU says it posted')
    if elsewhere:
        lines.append(f'{elsewhere} events were posted to interrupters above 0: they are left out')
    return lines


def of_unread(posts, part):
    if not posts:
        return []
    why = 'the controller was stopped first' if part.stop else 'the recording ended first'
    return [f'{len(posts)} events were not read: {why}'] + ['not read: %08x %08x %08x %08x' % post.words for post in posts[:20]]


def fetched(schedule):
    return f'TRBs fetched: {schedule.fetched}, {schedule.fetched - schedule.other_words} with the words of the trace'


def of_controller(schedule):
    lines = [fetched(schedule)]
    if schedule.not_followed:
        lines.append(f'{schedule.not_followed} TRBs were fetched outside the rings of the trace: they have no step')
    lines += of_stopped_endpoint(schedule.not_possible()) + of_halted_controller(schedule.while_halted())
    if schedule.is_cut:
        lines.append(f'the schedule ends after {steps.MOST_LINES} lines, as many as it may have: the trace goes on')
    lines.append('what the controller writes to device contexts is not recorded: the schedule has no scrib lines')
    return lines


def of_stopped_endpoint(look):
    """Of a fetch that xHCI allows no controller."""
    if not look:
        return []
    step, ring, (slot, index) = look
    return [f'the schedule is not possible at step {step}: QEMU fetched a TRB of ring {ring:02x}, whose endpoint, DCI {index} of slot {slot}, '
            'was stopped, with no doorbell since; what `check` says of the trace does not rest on it']


def of_halted_controller(step):
    """Of a fetch or an event behind the halt."""
    return [f'the schedule is not possible at step {step}: QEMU did that while the controller had halted'] if step else []


def of_replay(lines):
    """Of a trace that has more lines than a replay keeps."""
    if lines <= MOST_KEPT:
        return []
    return [f'the trace has {lines} lines: `check` and `verify` take them all, `replay` of the schedule takes traces of at most {MOST_KEPT}']
