"""What `xhcitrace show` must print of a trace, from what is known and leased before a row.

By hand: pages.py TRACE [ROW]
"""
import sys

from blocks import (ADDRESS_DEVICE, CONFIGURE_ENDPOINT, DISABLE_SLOT, ENABLE_SLOT, EVALUATE_CONTEXT, NO_OP_COMMAND, RESET_DEVICE,
                    RESET_ENDPOINT, SET_TR_DEQUEUE, STOP_ENDPOINT)
from commands import named_context, names_endpoint, names_slot
from known import histories
from leases import leases_of, open_leases
from rings import is_data
from rings_that_come import is_left
from rules import name_of
from trace import WIDE_REGISTERS, Trace, Withdraws, read_trace
from verify import verdict

# in the order of their addresses (xHCI 5.4, 5.5.2)
REGISTERS = ['usbcmd', 'usbsts', 'dnctrl', 'crcr', 'dcbaap', 'config', 'iman', 'imod', 'erstsz', 'erstba', 'erdp']

COMMANDS = {NO_OP_COMMAND: 'No Op Command', ENABLE_SLOT: 'Enable Slot', DISABLE_SLOT: 'Disable Slot', ADDRESS_DEVICE: 'Address Device',
            CONFIGURE_ENDPOINT: 'Configure Endpoint', EVALUATE_CONTEXT: 'Evaluate Context', RESET_ENDPOINT: 'Reset Endpoint',
            STOP_ENDPOINT: 'Stop Endpoint', SET_TR_DEQUEUE: 'Set TR Dequeue Pointer', RESET_DEVICE: 'Reset Device'}


class NoRow(Exception):
    """The row can't be shown."""


def beginning(trace, count):
    return Trace(trace.version, trace.context_bytes, trace.rings, trace.first, trace.rows[:count])


# ---- what is leased, with the row that gave it

def leased_now(trace, known):
    """Pairs of a line and what is open, in the order of the leases of these rows; line 0 where no row gave it."""
    uses = {(leased.kind, leased.ring, leased.position): leased for leased in open_leases(known)}
    open_ones = [lease for lease in leases_of(trace) if lease.end == 0xffffffff]
    return [(lease.start, uses[lease.kind, lease.ring, lease.position]) for lease in open_ones]


def runs_of(trbs):
    """Of positions with lines: first and last of those one behind the other, and their lines."""
    runs = []
    for position, line in sorted(trbs):
        if runs and runs[-1][1] + 1 == position:
            first, _, lines = runs.pop()
            runs.append((first, position, [*lines, line]))
        else:
            runs.append((position, position, [line]))
    return runs


def run_line(first, last, lines):
    rows = f'row {lines[0]}' if min(lines) == max(lines) else f'rows {min(lines)} to {max(lines)}'
    return f'TRB {first} ({rows})' if first == last else f'TRBs {first} to {last} ({rows})'


def lease_lines(leased, ring):
    links = sorted((what.position, line) for line, what in leased if what.kind == 1 and what.ring == ring.number)
    trbs = [(what.position, line) for line, what in leased if what.kind == 0 and what.ring == ring.number]
    told = [run_line(*run) for run in runs_of(trbs)] + [f'Link behind TRB {p} (row {line})' for p, line in links]
    return ['  under lease: ' + ', '.join(told)] if told else []


def withdrawing_lines(trace, count, ring):
    """By position: the line of the row that withdrew it, among the first rows."""
    lines = {}
    for i, row in enumerate(trace.rows[:count]):
        if isinstance(row, Withdraws) and row.ring == ring.number:
            length = histories(trace)[i].descriptor_length(ring, row.position)
            lines.update({p: trace.first + i for p in range(row.position, row.position + length)})
    return lines


def withdrawn_lines(trace, count, ring):
    """The TRBs that were withdrawn and aren't restored, with the rows that withdrew them."""
    known = histories(trace)[count]
    freed = known.unrestored(ring)
    if not freed:
        return []
    lines = withdrawing_lines(trace, count, ring)
    told = ', '.join(run_line(*run) for run in runs_of((p, lines[p]) for p in freed))
    no_ops = 'No Ops are to be written there' if is_left(known, ring) else 'No Ops stand there'
    return [f"  withdrawn: {told}: the driver's until the ring goes on; {no_ops}"]


def use_of(use):
    if use in ('event segment', 'segment table'):
        return {'event segment': 'segment of the Event Ring', 'segment table': 'Event Ring Segment Table'}[use]
    kind, number = use
    return {'input context': 'Input Context', 'slot entry': f'entry of slot {number} in the DCBAA',
            'device context': f'Device Context of slot {number}'}[kind]


def range_lines(leased):
    told = []
    for line, what in leased:
        if what.kind == 2:
            given = 'from the beginning' if line == 0 else f'row {line}'
            told.append(f'  {what.address:016x}, {what.length} bytes ({given}): {use_of(what.use)}')
    return ['ranges under lease', *told] if told else ['ranges under lease: none']


# ---- what is known

def state_of(known):
    if known.is_stopped:
        return 'was stopped or reset'
    if known.is_halting and not known.is_halted:
        return 'halts'
    if known.is_halted:
        return 'is halted' + {None: '', 'saved': ', its state saved', 'restoring': ', and restores its state', 'restored': ', its state restored'}[known.state]
    return 'runs' if known.is_started else "isn't started"


def controller_lines(known):
    state = state_of(known)
    told = [f'{name.upper()} {known.register(name):0{16 if name in WIDE_REGISTERS else 8}x}' for name in REGISTERS if known.is_written(name)]
    lines = ['  '.join(told[i:i + 4]) for i in range(0, len(told), 4)] or ['none is written']
    return [f'controller: {state}', f'registers: {lines[0]}', *(f'           {line}' for line in lines[1:])]


def served(known, ring):
    places = [(slot, index) for slot in range(1, 256) for index in range(1, 32)]
    return next((place for place in places if known.ring_of(*place) == ring), None) if known.was_bound(ring) else None


def use_line(known, ring):
    name = f'ring {ring.number:02x}'
    if ring.kind == 'cmd':
        return f'{name}, Command Ring'
    place = served(known, ring)
    if place is None:
        return f'{name}, Transfer Ring ' + ('that an endpoint had' if known.was_bound(ring) else 'of no endpoint')
    slot, index = place
    due = ', Set TR Dequeue Pointer due' if known.must_move(*place) else ', completion of Stop Endpoint due' if known.was_stop_seen(*place) else ''
    of_kind = ', isochronous' if known.is_isochronous(*place) else ''
    return f'{name}, Transfer Ring of slot {slot}, DCI {index} ({known.endpoint_state(*place)}{of_kind}{due})'


def ring_lines(trace, count, ring, leased):
    known = histories(trace)[count]
    if ring.kind == 'evt':
        at = known.dequeue
        return [f'ring {ring.number:02x}, Event Ring', f'  events: {known.reads} read; ERDP stands at event {at}, {ring.address(at):016x}']
    floor = known.floor(ring)
    standing = f'{"TRB" if is_data(floor) else "Link before TRB"} {floor.number} at {ring.spot_address(floor):016x}'
    counts = f'{known.declared(ring)} declared, {known.given_count(ring)} given, {floor.number} passed'
    openness = 'open' if known.is_open(ring) else 'held'
    return [use_line(known, ring), f'  TRBs: {counts}; floor {standing}, ceiling {known.ceiling(ring)}, {openness}', *lease_lines(leased, ring),
            *withdrawn_lines(trace, count, ring)]


def rings_lines(trace, count, leased):
    known = histories(trace)[count]
    idle = [ring for ring in known.driver_rings if known.declared(ring) == 0 and not known.was_bound(ring)]
    lines = [line for ring in known.rings if ring not in idle for line in ring_lines(trace, count, ring, leased)]
    if idle:
        lines.append(f'{len(idle)} ring{"s" if len(idle) > 1 else ""} with nothing declared, and no endpoint')
    return lines


def slot_lines(known):
    lines = []
    for slot in range(1, 256):
        state, device = known.slot_state(slot), known.device(slot)
        if state != 'Disabled' or device is not None:
            lines.append(f'slot {slot}: {state}' + ('' if device is None else f', Device Context at {device:016x}'))
    return lines or ['slots: none is enabled']


def command_words(command):
    if command is None:
        return ''
    context = named_context(command)
    return (f': {COMMANDS[command.type]}' + (f', slot {command.slot}' if names_slot(command) else '')
            + (f', DCI {command.endpoint}' if names_endpoint(command) else '') + ('' if context is None else f', Input Context at {context:016x}'))


def command_lines(known, leased):
    ring = known.command_ring
    given = {what.position: line for line, what in leased if ring and what.kind == 0 and what.ring == ring.number}
    lines = [f'  TRB {p} (row {given[p]}){command_words(known.command_at(p))}' for p in known.unfinished_positions]
    return ['unfinished commands', *lines] if lines else ['unfinished commands: none']


# ---- pages

def page_behind(trace, count, head):
    """The page on a trace behind so many rows."""
    known = histories(trace)[count]
    leased = leased_now(beginning(trace, count), known)
    lines = [head, *controller_lines(known), *rings_lines(trace, count, leased), *slot_lines(known), *command_lines(known, leased), *range_lines(leased)]
    return '\n'.join(lines) + '\n'


def rows_of(trace):
    """The lines of the first and the last row that can be shown."""
    refusal = verdict(trace)
    return trace.first, refusal[0] if refusal else trace.first + len(trace.rows) - 1


def page(trace, row=None):
    """The page before a row, or the one that is printed where no row is named."""
    first, last = rows_of(trace)
    refusal = verdict(trace)
    if row is None and refusal is None:
        return page_behind(trace, len(trace.rows), 'behind all rows: none breaks a rule')
    if row is None:
        line, number = refusal
        return page_behind(trace, line - first, f'before row {line}, which is refused: {number} {name_of(number)}')
    if row < first or row > last:
        told = 'the trace has none' if last < first else f'{first} to {last} can be shown'
        raise NoRow(f'no such row: {told}')
    return page_behind(trace, row - first, f'before row {row}')


def main(arguments):
    with open(arguments[0], 'rb') as file:
        trace = read_trace(file.read())
    try:
        print(page(trace, int(arguments[1]) if len(arguments) > 1 else None), end='')
    except NoRow as fault:
        print(f'xhcitrace: {fault}', file=sys.stderr)


if __name__ == '__main__':
    main(sys.argv[1:])
