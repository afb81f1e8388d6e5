"""A picture as it was drawn: its rows, bars, marks and texts, read back from the SVG."""
import os
import re
import sys
import xml.etree.ElementTree as ElementTree
from dataclasses import dataclass

TOP = os.path.dirname(os.path.dirname(os.path.dirname(os.path.abspath(__file__))))
sys.path.insert(0, os.path.join(TOP, 'tools', 'pictures'))
from widths import fixed_width, text_width

SPACE = '{http://www.w3.org/2000/svg}'
HALF_A_ROW = 9
BASE_BELOW_TOP = 13


@dataclass(frozen=True)
class Bar:
    """A bar: the fields of its lease, and where it stands."""
    lease: tuple
    x: float
    begin: float
    end: float


@dataclass(frozen=True)
class Text:
    """A text, how far it reaches, and the height of its line."""
    text: str
    x: float
    end: float
    y: float


def classes(element):
    return element.get('class', '').split()


def number(element, name):
    return float(element.get(name))


def without_key(element):
    """The elements within one, but for the key, which shows marks that stand for nothing."""
    for child in element:
        if 'key' not in classes(child):
            yield child
            yield from without_key(child)


class Drawing:
    """One <svg> element: its rows by number, with the middle of each, the rows that tell on hover what they did, its bars, its marks by
    shape, and its texts."""

    def __init__(self, root):
        self.root = root
        self.rows, self.tips, self.bars, self.texts, self.marks = {}, {}, [], [], []
        for element in without_key(root):
            if element.tag == f'{SPACE}text':
                self.read_text(element)
            elif element.tag == f'{SPACE}title':
                self.read_tip(element.text)
            elif element.get('data-lease'):
                self.read_bar(element)
            elif 'mark' in classes(element):
                self.marks.append(next(name for name in classes(element) if name != 'mark'))

    def read_text(self, element):
        text, bold = element.text or '', 'title' in classes(element) or 'group' in classes(element)
        if 'number' in classes(element):
            self.rows[int(text)] = number(element, 'y') - BASE_BELOW_TOP + HALF_A_ROW
        elif element.get('x'):
            width = fixed_width(text, 10) if 'raw' in classes(element) else text_width(text, 11, bold)
            self.texts.append(Text(text, number(element, 'x'), number(element, 'x') + width, number(element, 'y')))

    def read_tip(self, text):
        found = re.match(r'row (\d+): (.*)', text)
        if found:
            self.tips[int(found[1])] = found[2]

    def read_bar(self, element):
        fields = tuple(int(field) for field in element.get('data-lease').split())
        begin = number(element, 'y')
        self.bars.append(Bar(fields, number(element, 'x'), begin, begin + number(element, 'height')))

    def guides(self):
        """Where the columns stand."""
        paths = (element.get('d') for element in self.root.iter() if 'guide' in classes(element))
        return [float(re.match(r'M([\d.]+)', path)[1]) for path in paths]

    def text_with(self, beginning):
        return next((text.text for text in self.texts if text.text.startswith(beginning)), None)

    def overlaps(self):
        """Two texts of one line of which one reaches into the other, or a text of a row that reaches into the first column."""
        found, lines = [], {}
        for text in self.texts:
            lines.setdefault(text.y, []).append(text)
        first_column = min(self.guides(), default=float('inf'))
        first_row = min(self.rows.values(), default=0) - HALF_A_ROW
        last_row = max(self.rows.values(), default=0) + HALF_A_ROW
        for y, texts in lines.items():
            texts.sort(key=lambda text: text.x)
            found += [(one.text, other.text) for one, other in zip(texts, texts[1:]) if one.end > other.x]
            if first_row < y < last_row:
                found += [(text.text, 'columns') for text in texts if text.end > first_column]
        return found


def drawings(markup):
    """The pictures of an SVG file, or of a page; fails where it isn't well formed."""
    root = ElementTree.fromstring(markup)
    elements = [root] if root.tag == f'{SPACE}svg' else list(root.iter(f'{SPACE}svg'))
    return [Drawing(element) for element in elements]
