"""A page read back: its parts from top to bottom, those that are shown and those in folds, and what the notes of folds say."""
import re
import xml.etree.ElementTree as ElementTree
from dataclasses import dataclass

from drawn import SPACE, Bar, Drawing, classes

HTML = '{http://www.w3.org/1999/xhtml}'
LINE_HEIGHT = 18
NUMBER = r'([\d,]+)'


@dataclass
class Part:
    """Rows that stand together on a page: shown, or in a fold, whose line tells of them; a fold that doesn't open has no drawing."""
    drawing: Drawing | None = None
    line: ElementTree.Element | None = None

    @property
    def note(self):
        return next(text.text for text in Drawing(self.line).texts) if self.line is not None else ''

    @property
    def first(self):
        return read_number(re.search(NUMBER, self.note)[1]) if self.note else min(self.drawing.rows)

    @property
    def last(self):
        return read_number(re.search(f'{NUMBER}(?:: |$)', self.note)[1]) if self.note else max(self.drawing.rows)

    def guides(self):
        """Where the page's columns stand."""
        return self.drawing.guides() if self.drawing else Drawing(self.line).guides()

    def bars(self, state):
        """The bars on the fold's line while it is closed, or opened."""
        group = next(element for element in self.line if state in classes(element))
        return {bar.lease: bar for bar in Drawing(group).bars}


class Whole:
    """The rows, texts, marks and bars of all parts of a page that have rows, in their order."""

    def __init__(self, parts):
        drawings = [part.drawing for part in parts if part.drawing]
        self.rows = {row: y for drawing in drawings for row, y in drawing.rows.items()}
        self.tips = {row: tip for drawing in drawings for row, tip in drawing.tips.items()}
        self.texts, self.marks, self.bars = ([one for drawing in drawings for one in getattr(drawing, name)] for name in ('texts', 'marks', 'bars'))

    text_with = Drawing.text_with


def parts_of(markup):
    main = next(ElementTree.fromstring(markup).iter(f'{HTML}main'))
    parts = []
    for element in main:
        summary = element.find(f'{HTML}summary')
        if summary is not None and summary.get('class') == 'rows':
            parts.append(Part(Drawing(element.find(f'{SPACE}svg')), summary.find(f'{SPACE}svg')))
        elif element.tag == f'{SPACE}svg' and Drawing(element).rows:
            parts.append(Part(Drawing(element)))
        elif element.tag == f'{SPACE}svg' and element.find(f'{SPACE}text') is not None:
            parts.append(Part(None, element))
    return parts


def read_number(text):
    return int(text.replace(',', ''))


# ---- bars

def wrong_bars(part, leases):
    """What is wrong with the bars of a part, of the leases that the page draws: which there are, and where they end on the fold's line."""
    wrong = []
    if part.drawing:
        wanted = {lease for lease in leases if any(lease[3] <= row <= lease[4] for row in part.drawing.rows)}
        wrong += wanted ^ {bar.lease for bar in part.drawing.bars}
        bottom = float(part.drawing.root.get('height'))
        wrong += [bar for bar in part.drawing.bars if not reaches(bar, part, 0, bottom)]
    if part.line is not None:
        entering = {lease for lease in leases if lease[3] < part.first <= lease[4]}
        leaving = {lease for lease in leases if lease[3] <= part.last < lease[4]}
        closed, opened = part.bars('closed'), part.bars('opened')
        wrong += (entering | leaving) ^ set(closed)
        wrong += entering ^ set(opened)
        wrong += [bar for bar in closed.values() if not reaches(bar, part, 0, LINE_HEIGHT)]
        wrong += [bar for bar in opened.values() if bar.begin > 0 or is_known_to_go_on(bar) and bar.end < LINE_HEIGHT]
    return wrong


def is_known_to_go_on(bar):
    """It ends at a row; behind the refused row it isn't known what is leased."""
    return bar.lease[4] != 0xffffffff


def reaches(bar, part, top, bottom):
    """A bar that comes from above begins at the top, and one that goes on ends at the bottom; others begin and end within."""
    from_above, goes_on = bar.lease[3] < part.first, bar.lease[4] > part.last
    begins = bar.begin <= top if from_above else top < bar.begin < bottom
    return begins and (not is_known_to_go_on(bar) or (bar.end >= bottom if goes_on else top < bar.end < bottom + 2))


# ---- notes

def wrong_note(part, case):
    """What a note tells beside what the rows' text has, where that isn't the same."""
    told, wanted = part.note.lower(), counts_of(case.lines, part.first, part.last)
    words = (('tds', 'td'), ('commands', 'command'), ('events', 'event'))
    numbers = {name: sum(map(read_number, re.findall(f'{NUMBER} {word}', told))) for name, word in words}
    laps = max((read_number(number) for number in re.findall(f'{NUMBER} laps of (?:the|a) ring', told)), default=0)
    start = next((row for row, line in enumerate(case.lines, 1) if re.fullmatch('reg usbcmd 0*1', line)), 0)
    same = numbers == {name: wanted[name] for name in numbers} and laps == (wanted['laps'] if wanted['laps'] > 1 else 0)
    return [] if same and ('set-up' in told) == (part.first < start) and ': ' in told else [(part.note, wanted)]


def counts_of(lines, first, last):
    """TDs, commands, events, and the most laps of a transfer ring, row by row."""
    rings = {line.split()[1]: line.split()[2:] for line in lines if line.startswith('ring ')}
    counts, trbs = {'tds': 0, 'commands': 0, 'events': 0}, {}
    for word, *fields in (line.split() for line in lines[first - 1:last]):
        if word == 'ev':
            counts['events'] += 1
        elif word == 'sub' and rings.get(fields[0], ['xfer'])[0] == 'cmd':
            counts['commands'] += 1
        elif word == 'sub':
            counts['tds'] += 1
            trbs[fields[0]] = trbs.get(fields[0], 0) + len(fields) // 4
    places = {ring: sum(int(segment.split(':')[1], 16) - 1 for segment in segments) for ring, (_, *segments) in rings.items()}
    return {**counts, 'laps': max((count // places[ring] for ring, count in trbs.items() if places.get(ring, 0) > 0), default=0)}
