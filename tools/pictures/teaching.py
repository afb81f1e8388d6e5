"""The page that teaches the rules: its lessons' words, their pictures, and what the program answers to their traces."""
import os
import re
from html import escape

from drawing import KEY, ROW, STYLE, body, head, key, placed, svg_element
from layout import layout_of
from lessons import CHAPTERS, FIRST_LESSON
from scene import Scene
from shown import Rows

MOST_RAW, COLUMN_WIDTH = 27, 20
# how far a picture shrinks where the window is small; behind that it scrolls
LEAST_WIDTH, LEAST_SCALE = 720, 0.76
TITLE = 'How a driver and a controller share a ring, and the ways to break it'
PAGE_STYLE = '''body{margin:0 auto;max-width:1200px;padding:16px 20px 60px;font-family:'DejaVu Sans',Verdana,Helvetica,sans-serif;font-size:15px;
line-height:1.5;color:#1f2328;background:#fff}
p,li{max-width:52em}
h1{font-size:26px;line-height:1.25}
h2{font-size:21px;margin-top:48px;border-bottom:1px solid #c9d1d9}
h3{font-size:17px;margin:32px 0 4px}
p{margin:8px 0}
.rule{font-size:12px;font-weight:bold;color:#a3320b;border:1px solid #a3320b;border-radius:4px;padding:1px 6px;margin-left:8px;white-space:nowrap}
.cure{border-left:4px solid #0b6e3a;padding-left:10px}
.picture{overflow-x:auto;border:1px solid #d8dee4;margin:10px 0}
.picture svg{display:block;max-width:100%;height:auto}
details{margin:4px 0}
summary{cursor:pointer;color:#57606a;font-size:13px}
pre{font-family:'DejaVu Sans Mono',Menlo,Consolas,monospace;font-size:12px;line-height:1.4;white-space:pre-wrap;background:#f6f8fa;padding:8px 12px}
code{font-family:'DejaVu Sans Mono',Menlo,Consolas,monospace;font-size:13px}
a{color:#0a4a8f}'''

INTRODUCTION = (
    'A driver and an xHCI controller share memory without a lock. What there is instead is one bit in each TRB, the <b>Cycle bit</b>: the driver '
    'writes a TRB and flips this bit last, and from that store on the TRB is the controller\u2019s, until an event that the driver reads gives it '
    'back. The controller may fetch the TRB at any moment between, at once or much later. So a driver that is right by luck on one controller is '
    'wrong on the next, and a test on one machine need not show it.',
    '<b>Time goes down, memory goes across.</b> Each line with a number is a row of a trace: something that the driver did, with its meaning in the '
    'standard\u2019s words. A blue bar is a TRB that the controller owns, a violet one a Link, a yellow one other memory: a context, an entry of the '
    'DCBAA, the Event Ring and its table. The lines without a number are what one controller did beside the rows; each of them is something that '
    'a controller may do at that moment. The cross is the row that <code>xhcitrace check</code> refuses. What stands below it shows what it '
    'comes to: the driver goes on, this controller does what it may, and the last line is the harm. Point at a row or a bar to have it explained.',
    'Verdicts, bars, what the controller takes, and the harm are the program\u2019s own answers: the bars are the trace\u2019s certificate, or that '
    'of the rows before the refused one, and the steps were replayed by its model of the controller. Traces and schedules are text files in the '
    'repository; under each picture stands how to ask the program yourself.')

FIRST_PARTS = (
    ('6-14', 'Before the start the driver writes a table of the Event Ring\u2019s segments (ERST) and some registers. ERSTBA hands the table over. '
             'The Event Ring itself is the controller\u2019s from the beginning: the driver clears it before the first row, and only reads it. Run/Stop 1 starts '
             'the controller.'),
    ('15-18', 'The first command. <code>sub</code> is no store: the driver notes what it means to put on the ring next, so that what it then writes can '
              'be compared with it. All words of an Enable Slot command but the last are 0, as in cleared memory, so one store is enough: word 3 with the '
              'Cycle bit 1. There the bar begins. The doorbell tells the controller to come; it takes the TRB, does the command, and posts an event. The '
              'bar ends where the driver <i>reads</i> that event, and not where the controller was done: the driver doesn\u2019t know it earlier.'),
    ('19-27', 'Address Device takes more memory than its own TRB: the Input Context until the command is complete, and from then until Disable Slot the '
              'Device Context and its entry in the DCBAA. All of them are written before the Cycle bit of the command, and handed over by it.'),
    ('28-40', 'A control transfer: a TD of each stage. Words 0 to 2 of a TRB first, word 3 last; and the Setup Stage, where the controller would begin, '
              'last of all. So whenever the controller looks, it finds nothing or everything. One event, of the Status Stage, gives back all three: '
              'what stands before a TRB that is done is done as well.'))


class Page:
    """Writes the page, from the answers of a program to the traces under a folder."""

    def __init__(self, program, top):
        self.program, self.top, self.parts = program, top, []

    def add(self, *parts):
        self.parts += parts

    def path(self, name, ending):
        return os.path.join(self.top, f'{name}.{ending}')

    def scene(self, name, schedule=None):
        if schedule is None:
            with open(self.path(name, 'xsched'), 'rb') as file:
                schedule = file.read()
        return Scene(self.program, self.path(name, 'xtrace'), schedule)

    def whole(self):
        self.beginning()
        self.first_lesson()
        number = 0
        for chapter in CHAPTERS:
            self.add(f'<h2 id="{chapter.anchor}">{chapter.title}</h2>', f'<p>{escape(chapter.beginning)}</p>')
            for number, lesson in enumerate(chapter.lessons, number + 1):
                self.lesson(number, lesson)
        self.add('</body>', '</html>')
        return '\n'.join(self.parts) + '\n'

    def beginning(self):
        links = ' \u00b7 '.join(f'<a href="#{chapter.anchor}">{chapter.title}</a>' for chapter in CHAPTERS)
        self.add('<!DOCTYPE html>', '<html lang="en" xmlns="http://www.w3.org/1999/xhtml">', '<head>', '<meta charset="utf-8"/>',
                 '<meta name="viewport" content="width=device-width, initial-scale=1"/>', f'<title>{TITLE}</title>',
                 '<style>', PAGE_STYLE, STYLE, '</style>', '</head>', '<body>', f'<h1>{TITLE}</h1>')
        self.add(*(f'<p>{paragraph}</p>' for paragraph in INTRODUCTION))
        names, height = key(list(KEY), 940, 6)
        self.add('<div class="picture">', svg_element(names, 960, height + 12, 'the key to the pictures', LEAST_WIDTH), '</div>')
        self.add(f'<p><a href="#first">A driver that does it right</a> \u00b7 {links}</p>')

    def first_lesson(self):
        scene = self.scene(FIRST_LESSON, self.program.schedule(self.path(FIRST_LESSON, 'xtrace')))
        self.add('<h2 id="first">A driver that does it right</h2>',
                 f'<p>The trace <code>{FIRST_LESSON}.xtrace</code> is a whole driver\u2019s: it starts the controller, enables a slot, addresses the '
                 f'device, and asks for its descriptor. The checker\u2019s answer: <code>{escape(scene.verdict.answer)}</code>. The controller\u2019s steps are '
                 'those of <code>xhcitrace schedule</code>, which has it do everything as late as it can.</p>')
        for rows, words in FIRST_PARTS:
            self.add(f'<p>{words}</p>')
            self.picture(scene.picture(rows_of(rows), is_chosen=True, has_notes=False))

    def lesson(self, number, lesson):
        scene = self.scene(lesson.trace)
        picture = scene.picture(rows_of(lesson.rows) if lesson.rows else None, is_chosen=True)
        self.add(f'<h3 id="lesson-{number}">{number}. {escape(lesson.title)}<span class="rule">{escape(scene.verdict.rule)}</span></h3>',
                 f'<p>{escape(lesson.mistake)}</p>', f'<p class="cure">{escape(lesson.cure)}</p>')
        self.picture(picture)
        self.answers(lesson.trace)

    def picture(self, picture):
        layout = layout_of(picture, MOST_RAW, COLUMN_WIDTH)
        drawn = placed(picture.sections, layout.head_height)
        parts = [*head(picture, layout, 0), *body(picture, layout, drawn)]
        height, told = drawn[-1].top + ROW + 6, f'{picture.name}: {picture.verdict.answer}'
        self.add('<div class="picture">', svg_element(parts, layout.width, height, told, max(LEAST_WIDTH, round(layout.width * LEAST_SCALE))), '</div>')

    def answers(self, name):
        """What the program answers to a lesson's trace and schedule, folded."""
        trace, schedule = f'{name}.xtrace', f'{name}.xsched'
        checked = self.program.run('check', '--explain', trace, folder=self.top)
        replayed = self.program.run('replay', trace, schedule, folder=self.top)
        last = replayed.stdout.decode().splitlines()[-1]
        said = [f'$ bin/xhcitrace check --explain {trace}', (checked.stdout + checked.stderr).decode().rstrip('\n'),
                f'$ bin/xhcitrace replay {trace} {schedule} | tail -n 1', last]
        self.add('<details>', '<summary>What the checker says</summary>', f'<pre>{escape(chr(10).join(said))}</pre>', '</details>')


def rows_of(text):
    """Rows as `3-5, 7, 9-12`."""
    found = (re.fullmatch(r'(\d+)(?:-(\d+))?', part.strip()) for part in text.split(','))
    return [Rows(int(one[1]), int(one[2] or one[1])) for one in found]


def teaching_page(program, top):
    return Page(program, top).whole()
