#!/usr/bin/env python3
"""What the checker says of a trace, where its program is there; a proof is never started from here. Where tools/install has put these
modules that is the program beside them.

Run as a script it prints the path of that program, and ends with status 1 where there is none.
"""
import hashlib
import os
import subprocess
import sys

TOP = os.path.dirname(os.path.dirname(os.path.dirname(os.path.realpath(__file__))))
PROVED = os.path.join('crates', 'xhci_cli', 'out', 'xhci_cli')
SHIPPED = os.path.join('dist', 'xhcitrace')
INSTALLED = os.path.join('..', '..', 'bin', 'xhcitrace')


def sources(top):
    for folder, folders, files in os.walk(os.path.join(top, 'crates')):
        if 'out' in folders:
            folders.remove('out')
        yield from (os.path.join(folder, file) for file in files if file.endswith(('.rt', '.antt')))


def is_proved(top):
    """Whether the program that is proved there is built and no source is newer."""
    path = os.path.join(top, PROVED)
    if not os.access(path, os.X_OK):
        return False
    age = os.path.getmtime(path)
    return not any(os.path.getmtime(source) > age for source in sources(top))


def output(*line):
    return subprocess.run(line, capture_output=True, text=True).stdout


def is_shipped(top):
    """Whether dist/xhcitrace was built from these very sources, and is the program of which dist/README tells."""
    path = os.path.join(top, SHIPPED)
    try:
        with open(os.path.join(top, 'dist', 'README')) as file:
            told = dict(line.strip().split(': ', 1) for line in file if ': ' in line)
        with open(path, 'rb') as file:
            digest = hashlib.sha256(file.read()).hexdigest()
    except OSError:
        return False
    digests = (output(os.path.join(top, 'tools', 'sources_digest')).strip(), digest)
    return os.access(path, os.X_OK) and digests == (told.get('sources'), told.get('program'))


def is_installed(top):
    """Whether there are no sources, and the program stands where tools/install puts it."""
    return not os.path.exists(os.path.join(top, 'crates.txt')) and os.access(os.path.join(top, INSTALLED), os.X_OK)


def program(top=TOP):
    """The path of the program of these sources, the one that is proved here before the one in dist/; None where neither is."""
    path = PROVED if is_proved(top) else SHIPPED if is_shipped(top) else INSTALLED if is_installed(top) else None
    return path and os.path.normpath(os.path.join(top, path))


def judged(asked, trace):
    """What this program says of the trace."""
    answer = subprocess.run([asked, 'check', trace], capture_output=True, text=True)
    return (answer.stdout + answer.stderr).strip()


def verdict(trace):
    asked = program()
    return judged(asked, trace) if asked else f'no program of these sources, so no verdict: bin/xhcitrace check {trace}'


def main():
    path = program()
    if not path:
        sys.exit('verdict.py: no program of these sources')
    print(path)


if __name__ == '__main__':
    main()
