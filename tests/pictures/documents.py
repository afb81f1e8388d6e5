"""What stands in docs/: the page of lessons and README's picture, beside what the program's answers make today."""
import os
import re
import subprocess

from drawn import TOP, drawings
from lessons import CHAPTERS, FIRST_LESSON
from program import Program

MOST_BYTES = 600_000
PAGE = os.path.join(TOP, 'docs', 'sharing-a-ring.html')
PICTURE = os.path.join(TOP, 'docs', 'write_after_the_doorbell.svg')
EXAMPLE = os.path.join(TOP, 'examples', 'write_after_the_doorbell')
LEAST_HAND_MADE = 8


def read(path):
    with open(path, 'rb') as file:
        return file.read()


def made(tool, program, *words):
    return subprocess.run([os.path.join(TOP, 'tools', tool), *words, '--program', program], capture_output=True, timeout=600).stdout


def needs_no_network(markup):
    """No script, and no link but within the page."""
    return b'<script' not in markup and b'url(' not in markup and not re.search(rb'(?:src|href)="[^#]', markup)


def lessons():
    return [lesson for chapter in CHAPTERS for lesson in chapter.lessons]


def check_documents(program, expect):
    page = read(PAGE)
    expect('the page is made by tools/teaching_page -o docs/sharing-a-ring.html', made('teaching_page', program) == page)
    expect('the page is small', len(page) < MOST_BYTES, len(page))
    expect('the page needs no network', needs_no_network(page))
    pictures = drawings(page)
    expect('each lesson has its picture', len(pictures) >= len(lessons()) + 2, len(pictures))
    expect('no overlaps on the page', not any(picture.overlaps() for picture in pictures))
    picture = made('picture', program, f'{EXAMPLE}.xtrace', f'{EXAMPLE}.xsched')
    expect('README\u2019s picture is made by tools/picture of examples/write_after_the_doorbell', picture == read(PICTURE))
    expect('README shows it', b'](docs/write_after_the_doorbell.svg)' in read(os.path.join(TOP, 'README.md')))


def check_lessons(program, expect):
    """Each worked harm of the rules that came first has a lesson; one with another trace breaks the same rule, and ends in the same harm."""
    names = [file[:-len('.xtrace')] for file in os.listdir(f'{TOP}/tests/harms') if file.endswith('.xtrace')]
    harms = {name for name in names if read(f'{TOP}/tests/harms/{name}.xtrace').startswith(b'xtrace 1\n')}
    told = [lesson.worked_harm for lesson in lessons()]
    expect('a lesson for each worked harm', sorted(told) == sorted(harms), harms ^ set(told))
    expect('the commonest mistakes have short traces', sum(bool(lesson.harm) for lesson in lessons()) >= LEAST_HAND_MADE)
    for lesson in lessons():
        expect(f'{lesson.title}: two sentences and one', (sentences(lesson.mistake), sentences(lesson.cure)) == (2, 1))
        expect(f'{lesson.title}: as the worked harm', answers(program, lesson.trace) == answers(program, f'tests/harms/{lesson.worked_harm}'))
    page = read(PAGE).decode()
    for lesson in lessons():
        rule, _ = answers(program, lesson.trace)
        expect(f'{lesson.title}: its verdict on the page', f'{lesson.title}<span class="rule">{rule}</span>' in page.replace('&#x27;', '\''), rule)


def check_bars(case_of, on_bars):
    """The bars of the page's pictures, by the names that they have."""
    names = {f'{name.rpartition("/")[2]}.xtrace': name for name in (FIRST_LESSON, *(lesson.trace for lesson in lessons()))}
    for picture in drawings(read(PAGE)):
        name = names.get((picture.root.get('aria-label') or '').partition(': ')[0])
        if name:
            on_bars(case_of(os.path.join(TOP, f'{name}.xtrace')), picture)


def answers(path, name):
    """The rule that a trace breaks, and the harm in which its schedule ends."""
    program = Program(path)
    trace, schedule = (f'{TOP}/{name}.{ending}' for ending in ('xtrace', 'xsched'))
    verdict, _ = program.check(read(trace))
    return verdict.rule, program.replay(trace, read(schedule).split(b'\n')[:-1]).ending.harm


def sentences(text):
    return len(re.findall(r'[.!?](?: |$)', text))
