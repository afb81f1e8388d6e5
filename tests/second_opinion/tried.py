"""The schedules that `check --show` tries beside a refused trace."""
from controller import posted
from lazy import sees_halt
from replays import Run
from trace import Doorbell, Event, Register


def look_until_it_waits(controller, ring):
    """At most as many looks as the ring has blocks."""
    looks = []
    for _ in range(sum(segment.count for segment in ring.segments)):
        shown = controller.look(ring.number)
        if not shown:
            break
        looks.append(f'look {ring.number:02x}')
        if shown == 'waits':
            break
    return looks


def look_at_each(controller, rings):
    return [look for ring in rings for look in look_until_it_waits(controller, ring)]


def wakes(row):
    """The controller may look behind the row at a ring at which it didn't look before."""
    return isinstance(row, Doorbell) or isinstance(row, Register) and row.name == 'usbcmd'


def eager(trace, histories, count):
    """The eager schedule of the first rows, with each ring that is there looked at once more at the end."""
    run, steps, there = Run(trace), [], []
    for known, row in zip(histories[:count], trace.rows):
        before = [posted(row.block)] if isinstance(row, Event) else ['halt'] if sees_halt(known, row) else []
        for step in [*before, 'row']:
            run.step(step)
            steps.append(step)
        there = known.rings if wakes(row) else there
        steps += look_at_each(run.controller, there)
    return steps + look_at_each(run.controller, histories[count].rings)


def looked_at_behind(trace, histories, lazy):
    """The steps of a lazy schedule, the next row, and looks at each ring that is there before it."""
    run, steps = Run(trace), [*lazy, 'row']
    for step in steps:
        run.step(step)
    return steps + look_at_each(run.controller, histories[steps.count('row') - 1].rings)
