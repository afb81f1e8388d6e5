"""Verdicts on wrong bodies that are kept: wrong_bodies.tried has a line `DAY DIGEST CRATE/NAME` for each that was refused on that day.

DIGEST is of all that the verdict rests on: the edit; the code, definitions and proofs of its crate and of each crate below it; the toolchain's line
(`rt version`); and the tool. A kept verdict stands where that is as it was, for DAYS days. Of those that stand ONE_IN is drawn by the commit, so that
each gate tries some of them all the same, and a wrong line in the file doesn't stand for long.
"""
import hashlib, os, subprocess
from datetime import date, timedelta

DAYS = 14
ONE_IN = 10
PARTS = {'src': '.rt', 'specs': '.antt', 'proofs': '.antt'}
TOOL = ('tools/wrong_bodies', 'tools/kit.py')


def digest(*parts):
    """Of these texts or bytes, each by its own digest, so that none runs into the next."""
    inner = [hashlib.sha256(it if isinstance(it, bytes) else it.encode()).digest() for it in parts]
    return hashlib.sha256(b''.join(inner)).hexdigest()[:32]


def bytes_of(path):
    with open(path, 'rb') as file:
        return file.read()


def digest_of_crate(folder):
    """Of the code, definitions and proofs of one crate."""
    parts = []
    for part, ending in PARTS.items():
        paths = sorted(f'{at}/{name}' for at, _, names in os.walk(f'{folder}/{part}') for name in names if name.endswith(ending))
        parts += [it for path in paths for it in (os.path.relpath(path, folder), bytes_of(path))]
    return digest(*parts)


def output(words, top):
    ran = subprocess.run(words, cwd=top, stdin=subprocess.DEVNULL, stdout=subprocess.PIPE, stderr=subprocess.DEVNULL, text=True)
    return ran.stdout.strip()


class Verdicts:
    """What the file says, and what the tree at TOP is like today."""

    def __init__(self, rt, top):
        self.rt, self.top, self.today = rt, top, date.today()
        self.path, self.digests = f'{top}/tools/wrong_bodies.tried', {}
        self.tool = digest(output(['rt', 'version'], top), *(bytes_of(f'{top}/{it}') for it in TOOL))
        self.kept = {}
        for line in bytes_of(self.path).decode().splitlines() if os.path.exists(self.path) else []:
            day, known, name = line.split(' ')
            self.kept[name] = (day, known)

    def below(self, crate):
        """The digests of a crate and of each that it stands on, made once."""
        folder = f'{self.top}/crates/{crate}'
        for it in [folder, *(low.folder for low in self.rt.rtlib.Crate(folder, self.top, {}).below())]:
            name = os.path.basename(it)
            if name not in self.digests:
                self.digests[name] = digest_of_crate(it)
            yield f'{name} {self.digests[name]}'

    def digest_of(self, body):
        return digest(self.tool, bytes_of(body.path()), *sorted(self.below(body.crate)))

    def stands(self, body):
        """Whether the kept verdict on a wrong body is of all that it rests on today, and not too old."""
        day, known = self.kept.get(f'{body.crate}/{body.name}', (None, None))
        is_young = day and self.today - timedelta(DAYS) <= date.fromisoformat(day) <= self.today + timedelta(1)
        return bool(is_young) and known == self.digest_of(body)

    def left(self, found):
        """Those that have to be tried, by crate: all whose verdict doesn't stand, and the tenth that the commit draws of the others."""
        drawn_by = output(['git', 'rev-parse', 'HEAD'], self.top) or self.today.isoformat()
        is_drawn = lambda body: int(digest(drawn_by, f'{body.crate}/{body.name}'), 16) % ONE_IN == 0
        stand = {id(body) for bodies in found.values() for body in bodies if self.stands(body)}
        left = {crate: [it for it in bodies if id(it) not in stand or is_drawn(it)] for crate, bodies in found.items()}
        known, drawn = len(stand), sum(id(it) in stand for bodies in left.values() for it in bodies)
        print(f'{known} of {sum(map(len, found.values()))} wrong bodies were refused within {DAYS} days, with all that this rests on as it is: of these {drawn} are tried', flush=True)
        return {crate: bodies for crate, bodies in left.items() if bodies}

    def keep(self, found, refused):
        """Writes the verdicts of a run beside those that stand."""
        lines = {}
        for name, (day, known) in self.kept.items():
            crate, _, edit = name.partition('/')
            is_tried = any(it.name == edit for it in found.get(crate, []))
            if not is_tried and os.path.exists(f'{self.top}/crates/{crate}/wrong/{edit}.edit'):
                lines[name] = f'{day} {known} {name}'
        for body in (it for bodies in found.values() for it in bodies if it.name in refused.get(it.crate, ())):
            lines[f'{body.crate}/{body.name}'] = f'{self.today} {self.digest_of(body)} {body.crate}/{body.name}'
        with open(self.path, 'w') as file:
            file.writelines(f'{line}\n' for _, line in sorted(lines.items()))
