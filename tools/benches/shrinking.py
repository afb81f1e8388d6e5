"""A finding made small: fewer errors, fewer steps of the controller, then the fewest steps and rows with which it is still found."""
import os
import re
import subprocess
import tempfile
import time

from findings import finding_of

SEEDS = 24		# that are tried with fewer errors
MOST_TRIES = 4000	# of a trace and a schedule


def found_by(bench, seed):
    return finding_of(bench.run(seed))


def with_fewer_errors(bench, finding, until):
    """The bench with the least share of errors at which a run finds the like, and what it finds; better where it does harm too."""
    for errors in sorted({0, bench.errors // 8, bench.errors // 2, bench.errors}):
        tried = bench.but(errors=errors)
        like = [found for seed in (finding.seed, *range(1, SEEDS)) if time.monotonic() < until
                and finding.is_like(found := found_by(tried, seed))]
        if like:
            return tried, min(like, key=lambda found: (found.harm is None, found.step or found.row or 0))
    return bench, finding


def with_fewer_steps(bench, finding, most):
    """The bench with the least number of steps that the same seed needs."""
    least = 0
    while least < most:
        middle = (least + most) // 2
        if finding.is_like(found_by(bench.but(steps=middle), finding.seed)):
            most = middle
        else:
            least = middle + 1
    return bench.but(steps=most)


def lines_of(path):
    with open(path, encoding='latin-1') as file:
        return file.read().splitlines()


def write_lines(path, lines):
    with open(path, 'w', encoding='latin-1') as file:
        file.writelines(line + '\n' for line in lines)


class Pair:
    """A trace and a schedule: the trace's lines before its first row, its rows, and the steps, of which `row` is the next row."""

    def __init__(self, program, out):
        self.program = program
        self.out = out
        trace = lines_of(out + '.xtrace')
        first = next((at for at, line in enumerate(trace) if at > 1 and not line.startswith('ring ')), len(trace))
        self.head, rows = trace[:first], iter(trace[first:])
        # a step is a row's own line, or the schedule's
        self.steps = [(step == 'row', next(rows) if step == 'row' else step) for step in lines_of(out + '.xsched')[1:]]
        self.left = MOST_TRIES

    def write(self, steps, out):
        write_lines(out + '.xtrace', [*self.head, *(line for is_row, line in steps if is_row)])
        write_lines(out + '.xsched', ['xsched 1', *('row' if is_row else line for is_row, line in steps)])

    def ask(self, *words):
        return subprocess.run([self.program, *words], capture_output=True, text=True).stdout

    def harm(self, out):
        """The harm of the schedule; None where it does none, or isn't possible."""
        found = re.search(r'^step \d+: harm (\d+)$', self.ask('replay', out + '.xtrace', out + '.xsched'), re.MULTILINE)
        return found and int(found[1])

    def rule(self, out):
        """The rule that a row breaks first."""
        found = re.match(r'row \d+: (.*)', self.ask('check', out + '.xtrace'))
        return found and found[1]

    def is_found(self, finding, steps, folder):
        """With these steps the harm is done, behind a row that breaks the rule."""
        out = os.path.join(folder, 'tried')
        self.write(steps, out)
        return self.harm(out) == finding.harm and self.rule(out) == finding.rule

    def cut_behind(self, finding):
        """What comes behind the harm is left out, or behind the row where there is none."""
        if finding.harm:
            self.steps = self.steps[:finding.step]
        elif finding.rule:
            rows = [at for at, (is_row, _) in enumerate(self.steps) if is_row]
            self.steps = self.steps[:rows[finding.row - 1 - len(self.head)] + 1]

    def without(self, may_go, finding, folder, until):
        """Steps that may go are left out, many at once and then fewer, while the finding stays."""
        size = max(1, len(self.steps) // 2)
        while size:
            at = 0
            while at < len(self.steps) and self.left and time.monotonic() < until:
                tried = self.steps[:at] + [step for step in self.steps[at:at + size] if not may_go(step)] + self.steps[at + size:]
                self.left -= len(tried) < len(self.steps)
                if len(tried) < len(self.steps) and self.is_found(finding, tried, folder):
                    self.steps = tried
                else:
                    at += size
            size //= 2


def made_small(program, finding, out, seconds):
    """The trace and the schedule of a finding, made small where they stand."""
    pair, until = Pair(program, out), time.monotonic() + seconds
    pair.cut_behind(finding)
    with tempfile.TemporaryDirectory() as folder:
        if finding.harm and pair.is_found(finding, pair.steps, folder):
            pair.without(lambda step: not step[0], finding, folder, until)
            pair.without(lambda step: True, finding, folder, until)
    pair.write(pair.steps, out)


def counts(program, out):
    """How many rows and how many steps of the controller stand there."""
    steps = Pair(program, out).steps
    rows = sum(is_row for is_row, _ in steps)
    return rows, len(steps) - rows


def shrunk(bench, finding, out, seconds):
    """The bench and the finding that are left, with the counts of rows and steps before and behind; those before stand there."""
    before = counts(bench.program, out)
    bench, finding = with_fewer_errors(bench, finding, time.monotonic() + seconds)
    bench.run(finding.seed, out)
    if not finding.other:
        bench = with_fewer_steps(bench, finding, counts(bench.program, out)[1])
    finding = finding_of(bench.run(finding.seed, out)) or finding
    made_small(bench.program, finding, out, seconds)
    return bench, finding, (*before, *counts(bench.program, out))
