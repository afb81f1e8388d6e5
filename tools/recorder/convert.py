#!/usr/bin/env python3
"""Makes traces of a recorded log: convert.py [--blocks N] [--format N] LOG OUT

Writes OUT.1.xtrace, OUT.1.xsched and OUT.1.notes of all runs of the controller; where that trace has to end early, and in versions 1 and 3
behind each run, the next run begins OUT.2.*, and so on.
"""
import argparse
import os
import sys
from collections import namedtuple

sys.dont_write_bytecode = True
import commands
import descriptors
import notes
import registers
import rows as row_list
from areas import Areas
from memory import Memory
from qemu_log import FOREVER, Found, LogReader, Page, Store, Unsupported, whole_lines
from rings import LEAST_BLOCKS, MOST_BLOCKS, Finder
from runs import Splitter, parts_of
from steps import Schedule

MOST_LINES = {1: 1 << 20, 3: (1 << 32) - 2, 4: (1 << 32) - 2}  # of a trace, by its version
OTHER_USE = 'memory that the controller has, halted and not reset, is used for something else: the trace ends there'
MOST_HELD = 1 << 20  # items and stores that are held before what is needed of them is looked at


# blocks: how many a ring has whose Link is never written, or None; version: the latest that a trace may be of
Options = namedtuple('Options', 'blocks version', defaults=(None, 4))


def add_options(parser):
    parser.add_argument('--blocks', type=block_count, help='TRBs of a ring whose Link is never written')
    add_format(parser)


def add_format(parser):
    parser.add_argument('--format', type=int, choices=(1, 3, 4), default=4, help='version of the traces: 4, of all runs of the controller, with '
                        'isochronous transfers, TDs of more than 256 TRBs, TDs withdrawn midway and Links that lose their Chain bit, or 3 where there '
                        'is one run and none of these; '
                        '3, in which rings come and go; or 1')


def block_count(text):
    """The value of --blocks: a ring of fewer or more blocks can't stand in a trace."""
    if not text.isdecimal() or not LEAST_BLOCKS <= int(text) <= MOST_BLOCKS:
        raise argparse.ArgumentTypeError(f'{text} is no count of TRBs: {LEAST_BLOCKS} to {MOST_BLOCKS} are')
    return int(text)


class Content:
    """What is in a trace: the commands that were taken, the rings, the rows before descriptors are declared."""

    def __init__(self, runs, memory, context_size, options, is_joined):
        self.version, self.parts = options.version, parts_of(runs, memory, is_joined)
        self.items = [item for part in self.parts for item in part.items]
        self.commands = [command for part in self.parts for command in part.commands]
        self.areas = Areas(self.parts, memory, context_size)
        self.finder = Finder(self.areas, memory, commands.fetched(self.items), commands.passed(self.items), options)
        end = FOREVER if runs[-1].end is None else runs[-1].end
        other_use = row_list.other_use(self.areas, self.finder.rings, memory)
        if other_use is not None:
            self.finder.end_at(other_use - 1, OTHER_USE)
        self.rows = row_list.collected(self.parts, self.areas, self.finder.rings, memory, end, self.finder.cut)

    def is_over(self):
        """Whether nothing that comes later makes a row."""
        return len(self.rows) >= MOST_LINES[self.version] or self.finder.cut is not None

    def stretches(self):
        return [(start, length, named, area.needed_until())
                for start, length, named, area in row_list.stretches(self.areas, self.finder.rings, self.finder.cut)]


class Trace:
    """One run, or several that are joined: the three texts."""

    def __init__(self, runs, memory, context_size, options, is_joined=False):
        content = Content(runs, memory, context_size, options, is_joined)
        plain, finder = content.rows, content.finder
        producers = descriptors.follow(plain, finder.rings, content.commands, options.version)
        rows, cut = descriptors.declared(plain, producers, options.version)
        header = row_list.head(options.version, rows, context_size, finder.rings, is_joined or descriptors.is_latest(producers, cut))
        rows, full = limited(rows, len(header), options.version)
        ends_early = full or finder.cut is not None or cut is not None
        self.text = ''.join(line + '\n' for line in header + [row_list.text(row) for row in rows])
        stops = not is_joined and runs[-1].stop
        schedule = Schedule(rows, items_until(content.items, rows, ends_early or stops), finder.rings)
        self.schedule = schedule.text()
        self.last, self.why = rows[-1].key if rows else None, finder.why
        self.taken = begun(content.parts, self.last) if ends_early else len(runs)
        self.run_notes = runs[-1].notes if self.taken == len(runs) else []
        self.run_notes.extend(full)
        parts = content.parts[:self.taken]
        self.other_notes = notes.of_runs(parts, rows, len(header)) if is_joined else []
        self.other_notes += notes.of_trace(parts, memory, finder, plain, cut, schedule) + notes.of_replay(len(header) + len(rows))
        early = ', ends early (see the notes)' if ends_early else ''
        joined = f'{self.taken} runs, ' if self.taken > 1 else ''
        rings = sum(line.startswith('ring ') for line in header) + sum(row.kind == 'ring' for row in rows)
        self.summary = f'{joined}{len(rows)} rows, {rings} rings, {notes.fetched(schedule)}{early}'

    @property
    def notes(self):
        return ''.join(line + '\n' for line in self.run_notes + self.other_notes)

    def without_next(self, why):
        """The next run begins another trace."""
        if why is not None and why not in self.other_notes:
            self.run_notes.append('the next run has a trace of its own: ' + why.partition(': the trace ends')[0])
        return self


def begun(parts, last):
    """How many of a trace's runs have begun at its last row."""
    return sum(part.begin is None or last is not None and part.begin < last for part in parts)


def limited(rows, header, version):
    """The rows that fit behind so many lines; and, where others are left out, a note in a list."""
    most = MOST_LINES[version]
    if header + len(rows) <= most:
        return rows, []
    return rows[:most - header], [f'the trace ends after {most} lines, as many as one of version {version} may have']


def items_until(items, rows, has_end):
    """What the controller did up to the last row, where the trace ends before the recording."""
    if not has_end:
        return items
    return [item for item in items if rows and item.key < rows[-1].key]


class Conversion:
    """Follows a log and makes the trace of each run of the controller when that ends, so that no more than one run is held."""

    def __init__(self, options, joins=False):
        self.options = options
        self.reader, self.memory, self.splitter = LogReader(), Memory(), Splitter(self.make, joins)
        self.made = []
        self.most = MOST_HELD

    def traces(self, lines, why):
        for item in self.reader.items(lines):
            if isinstance(item, (Store, Found, Page)):
                self.memory.take(item)
            else:
                self.splitter.take(item)
            if self.held() > self.most:
                self.forget()
                self.most = max(MOST_HELD, 2 * self.held())
            if len(self.made) > 1:
                yield self.made.pop(0)
        self.end()
        for note in self.end_notes(why):
            for trace in self.made[-1:]:
                trace.run_notes.append(note)
        yield from self.made

    def held(self):
        return self.memory.size + self.splitter.in_wholes + len(self.splitter.items)

    def end(self):
        self.splitter.finish()

    def make(self, run):
        self.made.append(self.trace([run]))
        self.memory.prune([])

    def trace(self, runs, is_joined=False):
        return Trace(runs, self.memory, self.reader.context_size, self.options, is_joined)

    def forget(self):
        """Much is held: what no area of the run so far needs is forgotten, and a run whose trace is full ends here."""
        if self.splitter.started and not self.splitter.over:
            content = self.content([self.splitter.so_far()])
            self.memory.prune(content.stretches())
            if content.is_over():
                del content
                self.splitter.finish()
        else:
            self.memory.prune([])

    def content(self, runs, is_joined=False):
        return Content(runs, self.memory, self.reader.context_size, self.options, is_joined)

    def end_notes(self, why):
        """Where the log ends too early, and why."""
        reader, notes = self.reader, []
        why = reader.fault or why or (None if reader.ended else 'QEMU did not end by itself')
        if why:
            count, line = reader.end
            notes.append(f'the recording ends after store number {count:x}, line {line} of the log: {why}')
        if reader.lost:
            notes.append(f"{reader.lost} of the plugin's lines are missing in the log: don't trust this trace")
        return notes


class Joining(Conversion):
    """Makes one trace of all runs; where that has to end early the next run begins another one. The trace of a run alone is made when it is
    stopped for the first time, before it is known whether anything follows."""

    def __init__(self, options):
        super().__init__(options, True)
        self.alone = []  # of each run that the trace is to have

    def make(self, run):
        self.alone.append(self.trace([run]))

    def end(self):
        self.splitter.finish()
        self.splitter.close()
        while self.splitter.wholes:
            self.give_out(self.splitter.wholes)

    def give_out(self, runs):
        """The trace of as many runs as it can have."""
        trace = self.of(runs)
        self.made.append(trace)
        self.splitter.forget(trace.taken)
        del self.alone[:trace.taken]

    def of(self, runs):
        """All these runs in one trace; or those before one that gets further in a trace of its own."""
        if len(runs) == 1 and not runs[0].goes_on:
            return self.alone[0]
        trace = self.trace(runs, True)
        last = trace.taken - 1
        if last == 0 and runs[0].goes_on or last > 0 and self.alone[last].last <= trace.last:
            return trace
        return self.of(runs[:max(last, 1)]).without_next(trace.why)

    def forget(self):
        """Much is held: what no area of the runs so far needs is forgotten. A trace that has to end ends here, and a run with it; so does one
        that has halted, where its memory is used for something else."""
        is_open = self.splitter.started and not self.splitter.is_left
        end = FOREVER if self.splitter.phase.halted else None
        runs = self.splitter.wholes + [self.splitter.whole(end)] * is_open
        if not runs:
            return self.memory.prune([])
        content = self.content(runs, True)
        self.memory.prune(content.stretches())
        if content.is_over():
            self.end_with(runs, begun(content.parts, content.rows[-1].key), is_open)

    def end_with(self, runs, count, is_open):
        """The trace of these runs ends with so many of them, of which the last one may be going on."""
        if count < len(runs):
            self.give_out(runs)
        elif is_open:
            self.splitter.leave()
            self.give_out(self.splitter.wholes)


def conversion_of(options):
    return Joining(options) if options.version >= 4 else Conversion(options)


def convert(lines, options=Options(), why=None):
    """Yields a trace of all runs of the controller, or of each one; `why`: what ended the recording too early, if anything did."""
    conversion = conversion_of(options)
    yield from conversion.traces(lines, why)
    if not conversion.made and conversion.reader.fault:
        raise Unsupported(conversion.reader.fault)


def write(trace, out, number):
    """Writes each file under another name first: where the disk is full no half of one is left."""
    for ending, text in (('xtrace', trace.text), ('xsched', trace.schedule), ('notes', trace.notes)):
        path = f'{out}.{number}.{ending}'
        part = path + '.part'
        try:
            with open(part, 'w') as file:
                file.write(text)
            os.replace(part, path)
        except OSError as fault:
            raise OSError(fault.errno, fault.strerror, path) from None
        finally:
            if os.path.isfile(part):
                os.unlink(part)


def main():
    parser = argparse.ArgumentParser(description='Makes traces of a recorded log.')
    add_options(parser)
    parser.add_argument('log')
    parser.add_argument('out')
    options = parser.parse_args()
    number = 0
    try:
        with open(options.log, errors='replace') as file:
            for number, trace in enumerate(convert(whole_lines(file), Options(options.blocks, options.format)), 1):
                write(trace, options.out, number)
    except (OSError, Unsupported) as fault:
        sys.exit(f'xrecord: {fault}')
    print(f'{number} trace' + 's' * (number != 1))


if __name__ == '__main__':
    main()
