"""A picture as SVG: the lines and their bars, the head over the columns, and the key. Text is text; colours differ in lightness too."""
from bisect import bisect_left
from dataclasses import dataclass
from html import escape

from layout import (GAP, LABEL_SIZE, MARGIN, RAW_SIZE, SLOPE, STEP_INDENT, TEXT_SIZE, TITLE_SIZE, VERDICT_SIZE, labels_of, layout_of, note_text,
                    raw_text, rows_heading)
from lines import BACK, FETCH, POST, REFUSED, STORE, TAKE
from places import LINK_TRB, TRB
from widths import text_width

ROW = 18
FONTS = "'DejaVu Sans',Verdana,Helvetica,sans-serif"
FIXED_FONTS = "'DejaVu Sans Mono',Menlo,Consolas,monospace"

STYLE = f'''svg.trace{{font-family:{FONTS};font-size:{TEXT_SIZE}px;background:#fff}}
.trace text{{fill:#1f2328}}
.trace .raw{{font-family:{FIXED_FONTS};font-size:{RAW_SIZE}px}}
.trace .number{{text-anchor:end;fill:#57606a}}
.trace .title{{font-size:{TITLE_SIZE}px;font-weight:bold}}
.trace .group{{font-weight:bold}}
.trace .label{{font-size:{LABEL_SIZE}px}}
.trace .head,.trace .late text,.trace .note{{fill:#57606a}}
.trace .note{{font-style:italic}}
.trace .step text{{fill:#0a4a8f}}
.trace .bad text,.trace text.bad{{fill:#a3320b;font-weight:bold}}
.trace .bad .raw{{font-weight:normal}}
.trace .area{{fill:#fff;fill-opacity:0}}
.trace .bad .area{{fill:#fbe3d9;fill-opacity:1}}
.trace g:hover>.area{{fill:#eef2f6;fill-opacity:1}}
.trace .guide{{stroke:#e3e7eb}}
.trace .trb{{fill:#5aa9e6;stroke:#1c6fb5}}
.trace .link{{fill:#7a3d8f;stroke:#4d1f5e}}
.trace .range{{fill:#f9e3a1;stroke:#a87b00}}
.trace .beyond{{stroke:#57606a;stroke-dasharray:2 3;fill:none}}
.trace .mark{{pointer-events:none}}
.trace .store{{fill:#111;stroke:#fff}}
.trace .refused{{stroke:#c0390b;stroke-width:3;fill:none}}
.trace .halo{{stroke:#fff;stroke-width:6;fill:none}}
.trace .take{{fill:#0a4a8f;stroke:#fff}}
.trace .fetch{{fill:#fff;stroke:#0a4a8f;stroke-width:1.5}}
.trace .harmful{{fill:#c0390b;stroke:#fff}}
.trace .post{{fill:#0a4a8f;stroke:#fff}}
.trace .back{{stroke:#0b6e3a;stroke-width:2.5;fill:none}}
.trace .back-halo{{stroke:#fff;stroke-width:5;fill:none}}'''

KEY = {
    'trb': 'TRB is the controller\u2019s', 'link': 'Link is the controller\u2019s', 'range': 'other memory is the controller\u2019s',
    STORE: 'the driver writes', BACK: 'an event gives it back', REFUSED: 'refused', TAKE: 'the controller takes a TRB',
    FETCH: 'it fetches, and waits or follows a Link', POST: 'the controller posts or writes'}


# ---- lines and bars

@dataclass(frozen=True)
class Drawn:
    """A line, or a fold's note, and where it is drawn."""
    line: object
    rows: object
    top: int

    @property
    def middle(self):
        return self.top + ROW // 2

    @property
    def base(self):
        return self.top + 13


def placed(sections, top, unfolded=False):
    """The lines of some sections one under the other; a fold is one line."""
    told = []
    for section in sections:
        if section.rows.note and not unfolded:
            told.append(Drawn(None, section.rows, top))
            top += ROW
            continue
        for line in section.lines:
            told.append(Drawn(line, None, top))
            top += ROW
    return told


class Rows:
    """Where rows are drawn: at their line, or within the fold that has them, else so far over or under all."""

    def __init__(self, drawn, beyond=0):
        self.top, self.bottom = drawn[0].top - beyond, drawn[-1].top + ROW + beyond
        own = [one for one in drawn if one.rows or one.line.is_row]
        self.ends = [one.rows.last if one.rows else one.line.row for one in own]
        self.first = own[0].rows.first if own and own[0].rows else own[0].line.row if own else 0
        self.middles = [one.middle for one in own]
        self.shown = [one.line.row for one in own if one.line]

    def y(self, row):
        found = bisect_left(self.ends, row)
        return self.top if row < self.first else self.middles[found] if found < len(self.ends) else self.bottom

    def end_of(self, row):
        """Where the line of a row ends; over all, where the row comes before the first."""
        return self.top if row < self.first else self.y(row) + ROW // 2

    def touch(self, lease):
        """A lease has a bar here that has one of the lines' rows, or that comes from above or goes on below, beside a fold alone too."""
        found = bisect_left(self.shown, lease.begin)
        comes, goes_on = lease.begin < self.first <= lease.end, self.ends and lease.begin <= self.ends[-1] < lease.end
        return comes or goes_on or found < len(self.shown) and self.shown[found] <= lease.end


def body(picture, layout, drawn, beyond=0):
    """The lines, with the bars behind their marks. Bars that come from above or go on below reach so far beyond the lines."""
    told = [*(line_markup(one, layout) for one in drawn), *guides(layout, drawn[0].top, drawn[-1].top + ROW)]
    told += bars(picture, layout, Rows(drawn, beyond))
    told += [mark_markup(mark.shape, layout.columns[mark.place], one.middle, one.line.is_bad) for one in drawn if one.line for mark in one.line.marks]
    return told


def guides(layout, top, bottom):
    return [f'<path class="guide" d="M{x:g} {top}V{bottom}"/>' for x in layout.columns.values()]


def bars(picture, layout, rows):
    return [bar_markup(bar, layout, rows, picture.verdict.refused) for bar in picture.bars if rows.touch(bar.lease)]


def line_markup(one, layout):
    if not one.line:
        return f'<text class="note" x="{layout.raw_begin}" y="{one.base}">{escape(note_text(one.rows))}</text>'
    line = one.line
    classes = ' '.join(name for name, holds in (('bad', line.is_bad), ('step', line.is_step), ('late', line.is_late)) if holds)
    begin = layout.raw_begin + STEP_INDENT * line.is_step
    told = [f'<g class="{classes}">' if classes else '<g>', f'<rect class="area" x="4" y="{one.top}" width="{layout.width - 8}" height="{ROW}"/>']
    if line.tip:
        told.append(f'<title>{escape(line.tip)}</title>')
    if line.verdict:
        told.append(f'<text x="{begin}" y="{one.base}">{escape(line.verdict)}</text>')
    else:
        if not line.is_step:
            told.append(f'<text class="number" x="{layout.raw_begin - 8}" y="{one.base}">{line.row}</text>')
        told.append(f'<text class="raw" x="{begin}" y="{one.base}">{escape(raw_text(line, layout.most_raw))}</text>')
        told.append(f'<text x="{layout.meaning_begin}" y="{one.base}">{escape(line.meaning)}</text>')
    return ''.join(told) + '</g>'


def bar_markup(bar, layout, rows, refused):
    """A lease as a bar. Behind the refused row nothing is known of leases: what was open goes on as a broken line."""
    lease, x = bar.lease, layout.columns[bar.place]
    begin, end = rows.y(lease.begin), rows.y(lease.end)
    last = min(end, rows.end_of(refused)) if refused and lease.is_open else end
    kind = {TRB: 'trb', LINK_TRB: 'link'}.get(bar.place.kind, 'range')
    half = layout.column_width / 2 - (6 if kind == 'link' else 4)
    until = 'on' if lease.is_open else f'to row {lease.end}'
    told = (f'<rect class="{kind}" data-lease="{lease.kind} {lease.ring} {lease.position} {lease.begin} {lease.end}" x="{x - half:g}" y="{begin}" '
            f'width="{2 * half:g}" height="{max(last - begin, 3)}" rx="{0 if kind == "link" else 3}">'
            f'<title>{escape(leased_text(bar))}: the controller\u2019s from row {lease.begin} {until}</title></rect>')
    return told + (f'<path class="beyond" d="M{x:g} {last}V{end}"/>' if last < end else '')


def leased_text(bar):
    """What a bar is of: a TRB by its position, which counts it among all of its ring, and where it lies."""
    if bar.place.kind == TRB:
        return f'TRB {bar.lease.position} of {bar.place.group}, at {bar.place.start:x}'
    return bar.place.label


def mark_markup(shape, x, y, is_bad=False):
    if shape == STORE:
        return f'<circle class="mark store" cx="{x:g}" cy="{y}" r="3.5"/>'
    if shape == REFUSED:
        cross = f'M{x - 6:g} {y - 6}l12 12m0-12l-12 12'
        return f'<path class="mark halo" d="{cross}"/><path class="mark refused" d="{cross}"/>'
    if shape == BACK:
        tick = f'M{x - 6:g} {y - 1}l4 5l8-9'
        return f'<path class="mark back-halo" d="{tick}"/><path class="mark back" d="{tick}"/>'
    if shape == POST:
        return f'<rect class="mark post" x="{x - 4:g}" y="{y - 4}" width="8" height="8"/>'
    return f'<path class="mark {shape}{" harmful" if is_bad else ""}" d="M{x - 7:g} {y - 5}h8l6 5l-6 5h-8z"/>'


# ---- head and key

def head(picture, layout, top):
    """The names over the columns; `top` is where they begin."""
    labels, bottom = labels_of(picture.columns), top + layout.head_height
    told = [f'<text class="head" x="{layout.raw_begin}" y="{bottom - 8}">{rows_heading(picture)}</text>',
            f'<text class="head" x="{layout.meaning_begin}" y="{bottom - 8}">what they do</text>']
    for group in layout.groups:
        told.append(f'<text class="group" x="{group.begin:g}" y="{top + 12}">{escape(group.name)}</text>')
        told.append(f'<path class="beyond" style="stroke-dasharray:none" d="M{group.begin:g} {top + 18}H{group.end - 4:g}"/>')
    told += [f'<text class="label" transform="translate({x + 3:g} {bottom - 6}) rotate(-{SLOPE})">{escape(labels[place])}</text>'
             for place, x in layout.columns.items()]
    return told


def key(names, width, top):
    """The key to these bars and marks, and how high it is."""
    told, x, y = [], MARGIN, top
    for name in names:
        room = 24 + text_width(KEY[name], TEXT_SIZE) + GAP
        if x > MARGIN and x + room > width:
            x, y = MARGIN, y + ROW
        if name in ('trb', 'link', 'range'):
            told.append(f'<rect class="{name}" x="{x:g}" y="{y + 3}" width="14" height="12"/>')
        else:
            told.append(mark_markup(name, x + 8, y + 9))
        told.append(f'<text class="head" x="{x + 22:g}" y="{y + 13}">{escape(KEY[name])}</text>')
        x += room
    return ['<g class="key">', *told, '</g>'], y + ROW - top


def key_names(picture):
    shapes = {mark.shape for section in picture.sections for line in section.lines for mark in line.marks}
    kinds = {TRB: 'trb', LINK_TRB: 'link'}
    bars = {kinds.get(bar.place.kind, 'range') for bar in picture.bars}
    return [name for name in KEY if name in shapes or name in bars]


# ---- whole pictures

def svg_element(parts, width, height, described='', least=None):
    """An <svg> with these parts; where there is less room for it than its width it shrinks down to `least`."""
    label = f' role="img" aria-label="{escape(described)}"' if described else ''
    label += f' style="min-width:{min(width, least)}px"' if least else ''
    return '\n'.join([f'<svg xmlns="http://www.w3.org/2000/svg" class="trace" viewBox="0 0 {width} {height}" width="{width}" height="{height}"{label}>',
                      *parts, '</svg>'])


def title_parts(picture):
    state = ' bad' if picture.verdict.refused else ''
    return [f'<text class="title" x="{MARGIN}" y="22">{escape(picture.name)}</text>',
            f'<text class="verdict{state}" style="font-size:{VERDICT_SIZE}px" x="{MARGIN}" y="42">{escape(picture.verdict.answer)}</text>']


def described(picture):
    return f'{picture.name}: {picture.verdict.answer}. Memory across, time down.'


def whole_svg(picture):
    """A picture that stands alone."""
    layout = layout_of(picture)
    top = 52 + layout.head_height
    drawn = placed(picture.sections, top)
    bottom = drawn[-1].top + ROW
    parts = ['<style>', STYLE, '</style>', '<rect width="100%" height="100%" fill="#fff"/>', *title_parts(picture), *head(picture, layout, 52)]
    parts += body(picture, layout, drawn)
    if picture.left_out:
        parts.append(f'<text class="note" x="{layout.raw_begin}" y="{bottom + 16}">{escape(picture.left_out)}</text>')
        bottom += ROW
    names, height = key(key_names(picture), layout.width, bottom + 10)
    return svg_element([*parts, *names], layout.width, bottom + 18 + height, described(picture)) + '\n'
