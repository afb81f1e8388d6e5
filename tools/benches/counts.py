"""How often each step of the controller comes in a run, and what it did by it."""
import os
import subprocess
import tempfile
from collections import Counter

EVENTS = {1: 'Success', 5: 'TRB Error', 13: 'Short Packet', 26: 'Stopped', 27: 'Stopped', 28: 'Stopped'}	# by their codes; others halt the endpoint


def kind_of(step, code):
    """What an event with this code is counted as, that comes by this step; None where all are one."""
    if step == 'report':
        return EVENTS.get(code, 'halts')
    return {'finish': 'failures' if code != 1 else 'successes'}.get(step)


def counts(bench, seed):
    """How often each step comes in a run, and each kind of event by it; 'row' are the driver's."""
    with tempfile.TemporaryDirectory() as folder:
        out = os.path.join(folder, 'run')
        bench.run(seed, out)
        if not os.path.exists(out + '.xsched'):
            return Counter()
        with open(out + '.xsched') as file:
            steps = [line.split() for line in file][1:]
        replayed = subprocess.run([bench.program, 'replay', out + '.xtrace', out + '.xsched'], capture_output=True, text=True).stdout
    events = ((words[0], kind_of(words[0], int(words[3][:2], 16))) for words in steps if len(words) == 5)
    taken = sum(line.startswith('took ') for line in replayed.splitlines())
    return Counter(words[0] for words in steps) + Counter(event for event in events if event[1]) + Counter({('look', 'takes'): taken})


def told(total, runs):
    """What a run of these has, in the words of a driver's author: two lines."""
    each = lambda *keys: f'{sum(total[key] for key in keys) / runs:,.1f}'
    report = lambda kind: ('report', kind)
    return [
        f'{total["row"] / runs:,.0f} rows; {each(("look", "takes"))} TRBs taken; {each("finish")} commands done, {each(("finish", "failures"))} of them failed',
        f'{each("report")} Transfer Events: {each(report("Success"))} Success, {each(report("Short Packet"))} Short Packet, {each(report("Stopped"))} Stopped, '
        f'{each(report("TRB Error"))} TRB Error, {each(report("halts"))} that halt the endpoint',
    ]
