"""What a run has found: a rule that a row breaks, harm, a hang, a driver that dies."""
import re
import signal
from collections import Counter
from dataclasses import dataclass


@dataclass(frozen=True)
class Finding:
    """A row and the rule that it breaks, a step and the harm that it does, and what else there is; each may be None."""
    seed: int
    row: int | None = None
    rule: str | None = None
    step: int | None = None
    harm: int | None = None
    other: str | None = None
    told: str = ''

    @property
    def kinds(self):
        """What it counts as: a rule and a harm are two."""
        kinds = [self.rule and f'rule {self.rule}', self.harm and f'harm {self.harm}', self.other]
        return [kind for kind in kinds if kind]

    @property
    def told_place(self):
        parts = [self.rule and f'row {self.row}: {self.rule}', self.harm and f'harm {self.harm} at step {self.step}', self.other]
        return '; '.join(part for part in parts if part)

    def is_like(self, other):
        """The other one is of the same kind: the same rule, else the same harm, else the same of the rest."""
        if other is None:
            return False
        if self.rule:
            return self.rule == other.rule and (not self.harm or self.harm == other.harm)
        return other.rule is None and (self.harm, self.other) == (other.harm, other.other)


def signal_name(number):
    try:
        return signal.Signals(number).name
    except ValueError:
        return f'signal {number}'


def other_of(run):
    """What a run has found where its rows break no rule and no harm was done."""
    if run.is_late:
        return 'timeout'
    # a driver that dies while it is answered ends the bench too; SIGPIPE is of one that spoke on when the bench was over
    if run.status != 1 and run.driver_status < 0 and run.driver_status != -signal.SIGPIPE:
        return f'driver killed by {signal_name(-run.driver_status)}'
    if run.status not in (0, 1):
        return run.told[-1] if run.told else f'the bench ended with status {run.status}'
    if run.status == 1:
        return re.sub(r'step \d+: ', '', run.told[-1]) if run.told else 'the bench ended with status 1'
    if run.driver_status < 0:
        return f'driver killed by {signal_name(-run.driver_status)}'
    return f'the driver ended with status {run.driver_status}' if run.driver_status > 0 else None


def hint(finding):
    """What most likely is the cause of a run that came to no verdict; None of others."""
    if finding.other == 'timeout':
        return 'is it built with -DXHCI_BENCH, and does each of its waits come to xb_wait(), and end where that is 0?'
    if re.fullmatch(r'xhcitrace: line 1: .*', finding.other or ''):
        return 'its first line is no header: is it built with -DXHCI_BENCH, is xt_open() called, and does it print to standard error alone?'
    if re.fullmatch(r'xhcitrace: line \d+: .*', finding.other or ''):
        return 'that line of its standard output is no row: does it print to standard error alone, and does xt_ring() come before the first store?'
    return None


def finding_of(run):
    """What a run has found; None where it was clean."""
    rule = next((found for line in run.told if (found := re.fullmatch(r'row (\d+): (\d+ \w+)', line))), None)
    harm = next((found for line in run.told if (found := re.fullmatch(r'harm (\d+) at step (\d+)', line))), None)
    other = None if rule or harm else other_of(run)
    if not (rule or harm or other):
        return None
    return Finding(run.seed, rule and int(rule[1]), rule and rule[2], harm and int(harm[2]), harm and int(harm[1]), other, run.driver_told)


def summary(findings):
    """A line for each kind: how many runs have it, and the first seed."""
    counts = Counter(kind for finding in findings for kind in finding.kinds)
    first = {}
    for finding in findings:
        for kind in finding.kinds:
            first.setdefault(kind, finding.seed)
    order = lambda kind: (not kind.startswith('rule'), not kind.startswith('harm'), int((re.findall(r'\d+', kind) or ['0'])[0]))
    return [f'{kind}: {runs(counts[kind])}, first with seed {first[kind]}' for kind in sorted(counts, key=order)]


def runs(count):
    return f'{count} run' if count == 1 else f'{count} runs'
