"""Where the texts and the columns of a picture stand: as wide as the texts need, so that none is laid over another."""
from dataclasses import dataclass

from places import LINK_TRB, TRB
from widths import fixed_width, text_width

COLUMN, NARROW_COLUMN, MOST_WIDE_COLUMNS = 26, 18, 24
TEXT_SIZE, RAW_SIZE, LABEL_SIZE, TITLE_SIZE, VERDICT_SIZE = 11, 10, 10, 15, 13
MARGIN, STEP_INDENT, GAP = 12, 14, 14
GROUP_GAP, GROUP_HEIGHT = 8, 34
MOST_RAW, STEP_CHARACTERS = 38, 3
LEAST_DIGITS = 4
# the labels over the columns are turned by 60 degrees: how far they reach to the right and up
SLOPE, REACH, RISE = 60, 0.5, 0.87


@dataclass(frozen=True)
class Layout:
    """The same for all parts of a picture; `columns` has the middle of each place's column."""
    most_raw: int
    raw_begin: int
    meaning_begin: int
    columns: dict
    groups: list
    column_width: int
    head_height: int
    width: int


@dataclass
class Group:
    """A heading over columns that stand together."""
    name: str
    begin: float
    end: float

    @property
    def text_end(self):
        return self.begin + text_width(self.name, TEXT_SIZE, bold=True)


def layout_of(picture, most_raw=MOST_RAW, column_width=COLUMN):
    """A picture's layout, with so many characters of each row at most, and columns of this width, or narrower where they are many."""
    lines = [line for section in picture.sections for line in section.lines]
    digits = max(LEAST_DIGITS, len(str(max(line.row for line in lines))))
    raw_begin = MARGIN + round(text_width('8' * digits, TEXT_SIZE)) + 8
    meaning_begin = round(raw_begin + raw_room(picture, lines, most_raw) + GAP)
    texts_end = max(meaning_begin + meaning_room(lines), raw_begin + spoken_room(picture, lines))
    width = column_width if len(picture.columns) <= MOST_WIDE_COLUMNS else NARROW_COLUMN
    columns, groups = placed_columns(picture.columns, round(texts_end + GAP), width)
    labels = max((text_width(label, LABEL_SIZE) for label in labels_of(picture.columns).values()), default=0)
    ends = [texts_end, title_end(picture), *(group.text_end for group in groups), *(group.end + labels * REACH for group in groups)]
    return Layout(most_raw, raw_begin, meaning_begin, columns, groups, width, round(labels * RISE) + GROUP_HEIGHT, round(max(ends) + MARGIN))


def raw_room(picture, lines, most_raw):
    widths = [fixed_width(raw_text(line, most_raw), RAW_SIZE) + STEP_INDENT * line.is_step for line in lines]
    return max([text_width(rows_heading(picture), TEXT_SIZE), *widths])


def meaning_room(lines):
    return max((text_width(line.meaning, TEXT_SIZE, line.is_bad) for line in lines), default=0)


def spoken_room(picture, lines):
    """The room of what has a line to itself: the broken rule, the harm, the notes on folds."""
    notes = [text_width(note_text(section.rows), TEXT_SIZE) for section in picture.sections if section.rows.note]
    return max([STEP_INDENT + text_width(line.verdict, TEXT_SIZE, bold=True) for line in lines] + notes, default=0)


def title_end(picture):
    title, verdict = text_width(picture.name, TITLE_SIZE, bold=True), text_width(picture.verdict.answer, VERDICT_SIZE, bold=True)
    return MARGIN + max(title, verdict)


def placed_columns(places, x, width):
    """The middle of each place's column, and the headings over them, from an x on."""
    columns, groups = {}, []
    for place in places:
        if not groups or groups[-1].name != place.group:
            x = max(x, groups[-1].text_end + GAP) + GROUP_GAP if groups else x
            groups.append(Group(place.group, x, x))
        columns[place] = x + width / 2
        x += width
        groups[-1].end = x
    return columns, groups


def rows_heading(picture):
    return 'rows, and the controller\u2019s steps' if picture.has_steps else 'rows'


def raw_text(line, most):
    """A row or a step as its file has it, cut where it is long; a step has less room."""
    most -= STEP_CHARACTERS * line.is_step
    return line.text if len(line.text) <= most else line.text[:most - 2] + '..'


def note_text(rows):
    return f'\u22ee {rows.note}'


def labels_of(columns):
    """The columns' labels: of a TRB the end of its address, of two others that have one label in a group that besides."""
    seen = {}
    for place in columns:
        seen.setdefault((place.group, place.label), []).append(place)
    return {place: label_of(place, len(places) > 1) for places in seen.values() for place in places}


def label_of(place, is_shared):
    if place.kind == TRB:
        return end_of(place.start)
    return f'{place.label} {end_of(place.start)}' if is_shared and place.kind != LINK_TRB else place.label


def end_of(address):
    digits = f'{address:x}'
    return digits if len(digits) < 7 else '..' + digits[-5:]
