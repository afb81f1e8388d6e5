"""A picture as a page that scrolls: its head stays, its folds open, and each row says on hover what it did. No network, no script."""
from dataclasses import replace
from html import escape

from drawing import ROW, STYLE, Drawn, Rows, bars, body, described, guides, head, key, key_names, line_markup, placed, svg_element
from layout import layout_of

# so far beyond a part's edge its bars reach, where it cuts them: then their round ends aren't seen, and they go on in the next part
CUT = 4
PAGE_STYLE = '''body{margin:0;font-family:'DejaVu Sans',Verdana,Helvetica,sans-serif;font-size:13px;color:#1f2328;background:#fff}
header{position:sticky;top:0;background:#fff;border-bottom:1px solid #c9d1d9;z-index:1}
header,main{min-width:max-content}
h1{font-size:16px;margin:0;padding:8px 12px 0}
p{margin:0;padding:2px 12px}
p.refused{color:#a3320b;font-weight:bold}
summary,p.fold{padding:2px 12px 2px 38px;font-size:11px;font-style:italic;color:#57606a}
summary{cursor:pointer}
summary.rows{display:block;position:relative;padding:0}
summary.rows::before{content:'\\25b8';position:absolute;left:24px;line-height:18px;font-style:normal}
details[open]>summary.rows::before{content:'\\25be'}
details[open]>summary .closed,details:not([open])>summary .opened{display:none}
pre{padding:4px 24px;white-space:pre-wrap}
svg{display:block}'''


def page(picture):
    layout = layout_of(picture)
    state = ' class="refused"' if picture.verdict.refused else ''
    parts = ['<!DOCTYPE html>', '<html lang="en" xmlns="http://www.w3.org/1999/xhtml">', '<head>', '<meta charset="utf-8"/>',
             f'<title>{escape(picture.name)}</title>', '<style>', PAGE_STYLE, STYLE, '</style>', '</head>', '<body>',
             '<header>', f'<h1>{escape(picture.name)}</h1>', f'<p{state}>{escape(picture.verdict.answer)}</p>',
             svg_element(head(picture, layout, 0), layout.width, layout.head_height), '</header>', '<main>']
    for section in picture.sections:
        parts += section_parts(picture, layout, section)
    if picture.left_out:
        parts.append(f'<p class="fold">{escape(picture.left_out)}</p>')
    names, height = key(key_names(picture), layout.width, 8)
    parts += [svg_element(names, layout.width, height + 12), *said(picture.verdict), '</main>', '</body>', '</html>']
    return '\n'.join(parts) + '\n'


def section_parts(picture, layout, section):
    """Rows as a picture of their own; folded ones in a fold that opens, or as a line that tells of them where they are too many."""
    if not section.lines:
        return [fold_line(picture, layout, section.rows)]
    drawn = placed([section], 0, unfolded=True)
    rows = svg_element(body(picture, layout, drawn, CUT), layout.width, drawn[-1].top + ROW, described(picture))
    if not section.rows.note:
        return [rows]
    return ['<details>', f'<summary class="rows">{fold_line(picture, layout, section.rows)}</summary>', rows, '</details>']


def fold_line(picture, layout, rows):
    """The line that stands for folded rows, with the bars that reach into it. Once it is open, what begins or ends in the fold does so
    below: then there are the bars that come from above alone, and go on."""
    closed = Drawn(None, rows, 0)
    opened = Drawn(None, replace(rows, last=rows.first - 1), 0)
    parts = [line_markup(closed, layout), *guides(layout, 0, ROW)]
    for state, one in (('closed', closed), ('opened', opened)):
        parts += [f'<g class="{state}">', *bars(picture, layout, Rows([one], CUT)), '</g>']
    return svg_element(parts, layout.width, ROW)


def said(verdict):
    """What the checker explains of the trace, folded."""
    if not verdict.explained:
        return []
    return ['<details open="">', '<summary>what the checker says</summary>', f'<pre>{escape(verdict.explained)}</pre>', '</details>']
