"""The lazy schedule of rows: all of them, and directly before each event that is read the looks that it needs, and its post; and before the read that sees the
controller halted, that it halts (xHCI 4.6.9, 4.9.2, 4.9.4, 5.4.2).

By hand: lazy.py TRACE prints what `xhcitrace schedule` must print of an accepted trace.
"""
import sys

from blocks import COMMAND_COMPLETION, STOP_ENDPOINT, SUCCESS, TRANSFER_EVENT, code, endpoint, slot, type_of
from codes import OF_SERVICE, PASSED, STOPPED, said_by
from controller import posted
from known import histories
from rings import Data, is_data
from trace import Comes, Doorbell, Event, Goes, Read, read_trace


def is_event(row, kind):
    return isinstance(row, Event) and type_of(row.block) == kind


def placed_by(known, row):
    """The transfer rings that the row's command binds or moves, with the spot at which each stands then."""
    if not is_event(row, COMMAND_COMPLETION) or code(row.block) != SUCCESS:
        return {}
    return {fact[1]: spot for fact, spot in known.told_by(row) if fact[0] == 'floor' and fact[1] != known.command_ring.number}


def sees_halt(known, row):
    """The row is the first in its halt that reads the controller halted."""
    return isinstance(row, Read) and not known.is_halted and (('halted',), True) in known.told_by(row)


def ends_need(known, row, number):
    """The ring's doorbell is rung, it is bound or moved, or it goes."""
    if isinstance(row, Doorbell):
        ring = known.ring_of(row.slot, row.target) if row.slot > 0 else None
        return ring is not None and ring.number == number
    return isinstance(row, Goes) and row.ring == number or number in placed_by(known, row)


def behind_reported(known, row, number):
    """One more than the position of the ring's block whose success the row reads; 0 where it reads none."""
    at = known.spot_of_event(row.block) if is_event(row, TRANSFER_EVENT) and said_by(known, row.block) == PASSED else None
    return at[1].number + 1 if at and at[0].number == number else 0


def need(later, number):
    """How many blocks of a ring have to be taken for the successes that are read in the rows behind a row, until it begins anew."""
    most = 0
    for known, row in later:
        if ends_need(known, row, number):
            break
        most = max(most, behind_reported(known, row, number))
    return most


def behind(ring, count):
    """Where the pointer stands when so many blocks are taken."""
    return ring, Data(0) if count == 0 else ring.after(count - 1)


def stopped_at(ring, spot, count):
    """Where a ring stops: at the spot that is named, or behind its block where the success of that one is read later."""
    return behind(ring, count) if count == spot.number + 1 else (ring, spot)


def goals_of_report(known, block, later):
    at, said = known.spot_of_event(block), said_by(known, block)
    if at is None or said == OF_SERVICE:
        return []
    ring, spot = at
    if said != STOPPED:
        return [behind(ring, spot.number + 1)]
    return [behind(known.command_ring, known.next_command + 1), stopped_at(ring, spot, need(later, ring.number))]


def goals_of_completion(known, block, later):
    command = known.command_at(known.next_command)
    goals = [behind(known.command_ring, known.next_command + 1)]
    if code(block) == SUCCESS and command is not None and command.type == STOP_ENDPOINT:
        ring = known.ring_of(command.slot, command.endpoint)
        if ring is not None and known.is_open(ring):
            goals.append(behind(ring, need(later, ring.number)))
    return goals


def goals(known, row, later):
    """The rings, with the spots to which the controller has to come on them before it posts the event of a row."""
    if is_event(row, TRANSFER_EVENT):
        return goals_of_report(known, row.block, later)
    return goals_of_completion(known, row.block, later) if is_event(row, COMMAND_COMPLETION) else []


def order(spot):
    """The Link that is crossed to a position comes before its block."""
    return spot.number, is_data(spot)


class Pointers:
    """Where the controller's dequeue pointers stand, by ring."""

    def __init__(self):
        self.at = {}

    def looks(self, ring, spot):
        """The looks that bring a ring to a spot, if it isn't there yet."""
        first = self.at.get(ring.number, Data(0))
        passed = [at for at in ring.spots_from(first, spot.number) if order(at) < order(spot)]
        self.at[ring.number] = max(first, spot, key=order)
        return [f'look {ring.number:02x}'] * len(passed)

    def follow(self, known, row):
        """The row is made: rings that it binds or moves stand at their new spots, and one that comes or goes at its beginning."""
        self.at.update(placed_by(known, row))
        if isinstance(row, (Comes, Goes)):
            self.at.pop(row.ring.number if isinstance(row, Comes) else row.ring, None)


def lazy(trace, histories, count):
    """The steps of the lazy schedule of the first rows."""
    rows, pointers, steps = list(zip(histories, trace.rows))[:count], Pointers(), []
    for place, (known, row) in enumerate(rows):
        for ring, spot in goals(known, row, rows[place + 1:]):
            steps += pointers.looks(ring, spot)
        steps += [posted(row.block)] if isinstance(row, Event) else ['halt'] if sees_halt(known, row) else []
        steps.append('row')
        pointers.follow(known, row)
    return steps


def main(arguments):
    with open(arguments[0], 'rb') as file:
        trace = read_trace(file.read())
    print('xsched 1', *lazy(trace, histories(trace), len(trace.rows)), sep='\n')


if __name__ == '__main__':
    main(sys.argv[1:])
