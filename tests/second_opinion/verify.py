"""The verdict on a trace, and whether a list of leases is that of a trace: row by row, each beside all earlier rows.

By hand: verify.py TRACE [CERTIFICATE] prints what `xhcitrace check` and `xhcitrace verify` must print.
"""
import sys
from functools import lru_cache

from certificate import BadCertificate, decode
from known import histories
from leases import leases_of
from rules import least_broken, name_of
from trace import BadLine, read_trace


@lru_cache(maxsize=2)
def verdict(trace):
    """The line of the first row that breaks a rule, and the least rule that it breaks; None where no row breaks one."""
    for i, (known, row) in enumerate(zip(histories(trace), trace.rows)):
        number = least_broken(known, row)
        if number is not None:
            return trace.first + i, number
    return None


def verify(trace, leases):
    """The trace is clean, and these are exactly its leases, in their order."""
    return verdict(trace) is None and leases == leases_of(trace)


def verdict_line(trace):
    refusal = verdict(trace)
    if refusal is None:
        return f'accepted: {len(leases_of(trace))} leases'
    line, number = refusal
    return f'row {line}: {number} {name_of(number)}'


def main(arguments):
    data = [open(path, 'rb').read() for path in arguments]
    try:
        trace = read_trace(data[0])
        if len(data) == 1:
            print(verdict_line(trace))
        else:
            print('yes' if verify(trace, decode(data[1])) else 'no')
    except (BadLine, BadCertificate) as fault:
        print(f'xhcitrace: {fault}', file=sys.stderr)


if __name__ == '__main__':
    main(sys.argv[1:])
