"""What `xhcitrace replay` must print: each block that the controller takes, and how the replay of a schedule ends.

By hand: replays.py TRACE SCHEDULE
"""
import sys

from controller import Controller
from harms import harm_of
from trace import read_trace


class Run:
    """A controller beside the rows of a trace, step by step."""

    def __init__(self, trace):
        self.controller = Controller(trace)
        self.rows = trace.rows
        # how many rows were made
        self.made = 0

    def row(self):
        """The next row is made, where there is one and it is possible."""
        if self.made == len(self.rows) or not self.controller.row(self.rows[self.made]):
            return None
        self.made += 1
        return 'row'

    def step(self, line):
        """The step of a schedule's line; answers something true where it is possible."""
        word, *fields = line.split()
        if word == 'row':
            return self.row()
        numbers = [int(field, 16) for field in fields]
        arguments = [tuple(numbers)] if word in ('report', 'finish', 'other') else numbers
        makes = {'look': self.controller.look, 'report': self.controller.report, 'finish': self.controller.finish, 'other': self.controller.other,
                 'scrib': self.controller.scribble, 'halt': self.controller.halt}
        return makes[word](*arguments)


def taken(controller, line):
    """The line that tells of the block at a ring's pointer, at which a step looks."""
    number = int(line.split()[1], 16)
    address, _ = controller.at.get(number, (0, 0))
    words = ' '.join(f'{word:08x}' for word in controller.block(address))
    return f'took {number:02x} {address:016x} {words}'


def shown(trace, steps):
    """The lines that are printed."""
    run, lines = Run(trace), []
    for number, step in enumerate(steps, start=1):
        line = taken(run.controller, step) if step.startswith('look ') else None
        made = run.step(step)
        if not made:
            return [*lines, f'step {number}: not possible']
        if made == 'takes':
            lines.append(line)
        harm = harm_of(run.controller)
        if harm is not None:
            return [*lines, f'step {number}: harm {harm}']
    return [*lines, 'no harm']


def main(arguments):
    texts = [open(path, 'rb').read() for path in arguments]
    print(*shown(read_trace(texts[0]), texts[1].decode().splitlines()[1:]), sep='\n')


if __name__ == '__main__':
    main(sys.argv[1:])
