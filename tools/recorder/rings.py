"""The rings of a run: their segments, found by their Links, and the positions of their blocks (xHCI 4.9.2)."""
from bisect import bisect_left
from collections import namedtuple

import blocks
from qemu_log import FOREVER

MOST_RINGS, MOST_SEGMENTS, LEAST_BLOCKS, MOST_BLOCKS, BOUNDARY = 256, 64, 3, 4096, 0x10000


class Ring:
    def __init__(self, number, use):
        self.number, self.kind, self.uses = number, use.what, [use]
        self.notes = []
        self.comes = self.goes = None  # keys, where it comes or goes between the rows
        self.is_over = False           # another ring has its memory, or it began anew

    def lay(self, segments, notes=(), joined=None):
        self.segments, self.notes, self.joined = segments, list(notes), joined or {}
        self.data, self.links = [], []  # addresses of data places, of Links
        for start, count in segments:
            data = count if self.kind == 'evt' else count - 1
            self.data += [start + 16 * i for i in range(data)]
            self.links += [] if self.kind == 'evt' else [start + 16 * data]
        self.place = {at: i for i, at in enumerate(self.data)}
        crossed = 0
        self.crossing = {}  # by a Link's address: the least crossing over it
        for (start, count), link in zip(segments, self.links):
            crossed += count - 1
            self.crossing[link] = crossed

    def line(self):
        return f'ring {self.number:02x} {self.kind} ' + ' '.join(f'{start:016x}:{count:04x}' for start, count in self.segments)

    def has_since(self, start, use):
        """From when on a segment is of the ring, by this use: what was in its memory before a Link led there is none of the ring's."""
        return max(use.named, self.joined.get(start, use.named))

    def over(self):
        """When no endpoint has the ring any more, and no command that names it is unfinished; None where that is never."""
        ends = [use.over() for use in self.uses]
        return None if None in ends else max(ends)

    def is_had_by(self, endpoints, key):
        """Whether one of these endpoints has the ring at this time."""
        return any((use.slot, use.index) in endpoints and use.named < key and (use.ended is None or key < use.ended) for use in self.uses)

    def holds(self, at):
        return any(start <= at < start + 16 * count for start, count in self.segments)

    def cycle(self, position):
        return 1 - position // len(self.data) % 2

    def least(self, at, floor):
        """The least position of the data place at `at`, or the least crossing of the Link there, that isn't below `floor`."""
        lap = len(self.data)
        if at in self.place:
            return floor + (self.place[at] - floor) % lap
        return floor + (self.crossing[at] - floor) % lap or lap


class Links:
    """Every Link that was ever seen in memory: where it led to, and when."""

    def __init__(self, memory):
        self.states = {}
        for at in memory.entries:
            if at % 16 == 12 and any(self.is_link(entry.word) for entry in memory.entries[at]):
                self.observe(memory, at - 12)
        self.places = sorted(self.states)

    def is_link(self, control):
        return control >> 10 == blocks.LINK

    def observe(self, memory, at):
        keys = sorted({entry.key for word in (0, 4, 12) for entry in memory.entries.get(at + word, [])})
        states = []
        for key in keys:
            words = memory.block(at, key)
            if self.is_link(words[3]) and blocks.target(words):
                states.append((key, blocks.target(words)))
        if states:
            self.states[at] = states

    def between(self, start, end):
        return self.places[bisect_left(self.places, start):bisect_left(self.places, end)]


class Leading(namedtuple('Leading', 'link states changed')):
    """A Link of a segment with its keys and targets; and the first of them to other memory after it was followed, or None."""

    def targets(self):
        return [target for key, target in self.states]


class Finder:
    """Gives each ring that is named its segments; `options.blocks` is the count where a Link isn't written. In version 1 all rings stand in
    the header; in later ones a transfer ring comes where it is needed, and goes where its last endpoint has let it go."""

    def __init__(self, areas, memory, fetched, passed, options):
        self.areas, self.memory, self.option, self.version = areas, memory, options.blocks, options.version
        self.fetched = fetched  # by address, when a block was fetched, in order
        self.passed = passed    # by address, when a Link was followed, in order
        self.links = Links(memory)
        self.rings = []
        self.cut = self.why = None  # the key of the last row, where memory gets other rings than the header can say
        self.find()
        if self.version > 1:
            for ring in self.rings:
                self.place_in_time(ring)

    def notes(self):
        return [note for ring in self.rings for note in ring.notes] + ([self.why] if self.cut else [])

    def find(self):
        for use in self.areas.rings:
            ring = next((ring for ring in self.rings if not ring.is_over and self.shared(ring, use)), None)
            if ring:
                self.see_again(ring, use)
            else:
                self.see_new(use)

    def see_new(self, use):
        ring = Ring(len(self.rings), use)
        if len(self.rings) == MOST_RINGS:
            self.end_with(use, f'the ring at {use.start:#x} is one more than the {MOST_RINGS} that a trace may have')
        elif self.laid(ring, use):
            self.rings.append(ring)

    def shared(self, ring, use):
        """Whether this use names the ring's first block, or another one while the ring is in use; or the command ring where it stands."""
        return use.start == ring.segments[0][0] or ring.holds(use.start) and (
            any(other.lives_with(use) for other in ring.uses) or ring.kind == 'cmd' and self.goes_on(ring, use))

    def see_again(self, ring, use):
        """A ring that is named once more: its positions go on counting, so where it was used no row can say what a ring holds that begins anew."""
        if self.was_used(ring, use) and not self.goes_on(ring, use):
            if self.can_go(ring, use):
                ring.is_over = True
                self.see_new(use)
            else:
                self.end_with(use, f'the ring at {use.start:#x} was used before and is bound anew')
        else:
            ring.uses.append(use)
            self.laid(ring, use)

    def was_used(self, ring, use):
        """Whether something was taken of a ring; behind a reset each counts as used."""
        if ring.uses[-1].part != use.part:
            return True
        earlier = any(other.bound and other.named < use.named for other in ring.uses)
        return earlier and any(ring.holds(at) and self.was_fetched(at, ring.uses[0].named, use.named) for at in self.fetched)

    def was_fetched(self, at, since, until):
        """Whether a block was fetched from one moment to another."""
        return self.is_within(self.fetched.get(at, []), since, until)

    def is_within(self, keys, since, until):
        """Whether one of these keys, which are in order, lies from one moment to another."""
        place = bisect_left(keys, since)
        return place < len(keys) and keys[place] < until

    def goes_on(self, ring, use):
        """Whether the ring is named where it stands: the block before that place was given with the cycle that then led there. No ring goes on
        behind a reset."""
        if use.what != ring.kind or ring.uses[-1].part != use.part:
            return False
        if use.start not in ring.place and use.start not in ring.crossing:
            return False
        place = ring.place[use.start] if use.start in ring.place else ring.crossing[use.start]
        words = self.memory.block(ring.data[place - 1], use.named)
        is_of_lap = blocks.cycle(words) == (use.cycle if place > 0 else 1 - use.cycle)
        return blocks.kind(words) != 0 and is_of_lap

    def laid(self, ring, use):
        """Whether the ring's segments, by all its uses so far, are of no other ring."""
        segments, notes, joined = (use.segments, [], {}) if use.what == 'evt' else self.segments_of(ring.uses)
        earlier = [other for other in self.rings if other is not ring and not other.is_over and self.overlap(other, segments)]
        if not all(self.can_go(other, use) for other in earlier):
            self.end_with(use, f'memory of an earlier ring is used for another one at {use.start:#x}')
            return False
        for other in earlier:
            other.is_over = True
        ring.lay(segments, notes, joined)
        return True

    # rings that come and go

    def can_go(self, ring, use):
        """Whether a trace can say that the ring is gone before another use of its memory."""
        over = ring.over()
        return self.version > 1 and over is not None and over < use.named

    def place_in_time(self, ring):
        """A ring comes before the first row that gives a block of it, or that names it or gives the command which names it; it goes with its
        last endpoint, or a reset. What the first run's registers name before the start is there from the beginning."""
        ring.goes = ring.over()
        if self.is_in_header(ring):
            return
        named, wanted = min(use.named for use in ring.uses), min(use.wanted for use in ring.uses)
        earlier = [other.goes for other in self.rings if other.is_over and other.goes is not None and other.goes < named
                   and self.overlap(other, ring.segments)]
        since = max(earlier, default=None)
        segments = [(start, count) for start, count in ring.segments if ring.joined.get(start, named) <= named]
        givings = [self.memory.set_since(at + 12, named, since) for start, count in segments for at in range(start, start + 16 * count, 16)]
        ring.comes = min([wanted] + [key for key in givings if key is not None])
        if ring.kind != 'xfer':
            ring.comes = max([ring.comes] + [other.goes for other in self.rings[:ring.number] if other.kind == ring.kind])

    def is_in_header(self, ring):
        first = next(other for other in self.rings if other.kind == ring.kind)
        return ring.kind != 'xfer' and ring is first and ring.uses[0].part == 0

    def end_with(self, use, why):
        self.end_at(use.named, why + ': the trace ends with the command that names it')

    def end_at(self, key, why):
        if self.cut is None or key < self.cut:
            self.cut, self.why = key, why

    def overlap(self, ring, segments):
        return any(a < d + 16 * n and d < a + 16 * m for a, m in ring.segments for d, n in segments)

    def segments_of(self, uses):
        """Every segment that a Link ever led to, in the order in which the last Links lead; what to note of them; and since when each is one."""
        first, notes = uses[0].start, []
        found, joined = self.linked(uses)
        for link, states, changed in found.values():
            if changed:
                self.end_at(changed[0], f'the Link at {link:#x} was followed and then leads to other memory, {changed[1]:#x}: the trace ends there')
        starts, last = [first], {}
        for start in starts:
            for target in found[start].targets() if start in found else []:
                if self.had_meanwhile(target, uses, joined[target]):
                    self.end_at(joined[target], f'the ring at {first:#x} grows by memory that another ring had meanwhile, {target:#x}: the trace ends there')
                    continue
                last[start] = target
                if target not in starts and len(starts) < MOST_SEGMENTS:
                    starts.append(target)
        ordered = [first]
        while last.get(ordered[-1]) and last[ordered[-1]] not in ordered:
            ordered.append(last[ordered[-1]])
        if len(starts) > len(ordered):
            notes.append(f'the ring at {first:#x} has lost segments: they stand last in its line')
        ordered += [start for start in starts if start not in ordered]
        counts = [(found[start].link - start) // 16 + 1 if start in found else self.guess(start, uses, notes) for start in ordered]
        return list(zip(ordered, counts)), notes, joined

    def had_meanwhile(self, start, uses, joined):
        """Whether a segment was another ring's after this ring was named and before it joined: no line can say both."""
        others = [use for use in self.areas.rings if use.what == 'xfer' and use not in uses and uses[0].named < use.named < joined]
        return any(start in self.linked([use])[1] for use in others)

    def linked(self, uses):
        """The Link of each segment of a ring with its states since the segment is one, and since when that is: what a Link led to in an
        earlier life of its memory is none of the ring's."""
        before, joined = None, {}
        found = self.led(uses, joined)
        while found != before and len(joined) <= MOST_SEGMENTS:
            before, joined = found, self.joined(uses, found)
            found = self.led(uses, joined)
        return found, joined

    def led(self, uses, joined):
        """The Link of each segment of a ring with its states: one from which Links lead back to the first segment."""
        first, candidates = uses[0].start, {}
        waiting = [first]
        while waiting and len(candidates) < 4 * MOST_SEGMENTS:
            start = waiting.pop()
            since = joined.get(start, FOREVER) if joined and start != first else None
            candidates[start] = [self.leading(link, uses, since) for link in self.links.between(start + 16, self.bound(start, uses))
                                 if link % 16 == start % 16]
            waiting += [to for leading in candidates[start] for to in leading.targets() if to not in candidates and to not in waiting]
        closed, before = {first}, 0
        while len(closed) > before:
            before = len(closed)
            closed |= {start for start, links in candidates.items() for leading in links if closed.intersection(leading.targets())}
        return {start: leading for start, links in candidates.items()
                for leading in reversed(links) if closed.intersection(leading.targets())}

    def joined(self, uses, found):
        """From when on each segment is of the ring: since Links lead there from the first one."""
        joined = {uses[0].start: uses[0].named}
        for _ in found:
            for start in joined.keys() & found.keys():
                for key, target in found[start].states:
                    joined[target] = min(joined.get(target, FOREVER), max(joined[start], key))
        return joined

    def leading(self, link, uses, joined):
        """What the Link was up to where it leads elsewhere though it was followed."""
        states = self.states(link, uses, joined)
        since = states[0][0] if states else None  # from when on it has led to where it leads
        for i, (key, target) in enumerate(states[1:], 1):
            if target == states[i - 1][1]:
                continue
            if self.is_within(self.passed.get(link, []), max(since, uses[0].named), key):
                return Leading(link, states[:i], states[i])
            since = key
        return Leading(link, states, None)

    def states(self, link, uses, joined=None):
        """The keys and targets of a Link during these uses; where its segment joined the ring later, from the one on that stood then."""
        states = set()
        for use in uses:
            life = self.memory.life(link + 12, use.named, use.ended)
            if life:
                first = self.first_state(link, use, life[0].key)
                states |= {(key, target) for key, target in self.links.states[link] if key >= first and not (use.ended and key >= use.ended)}
        if joined is None:
            return sorted(states)
        earlier = sorted(state for state in states if state[0] <= joined)
        stands = self.links.is_link(self.memory.word(link + 12, joined))
        return earlier[-1:] * stands + sorted(states.difference(earlier))

    def first_state(self, link, use, key):
        """From where on a Link's states are this use's: what a ring that is gone then made of it counts only where it still stands."""
        gone = [ring.over() for ring in self.rings if use not in ring.uses and ring.holds(link) and self.can_go(ring, use)]
        standing = [at for at, target in self.links.states[link] if at < use.named]
        later = [at for at in standing if gone and at > max(gone)] or standing[-1:]
        return max([key] + later[:1]) if gone else key

    def bound(self, start, uses):
        """Where the next area in memory begins, at most the next 64 KB boundary."""
        end = start - start % BOUNDARY + BOUNDARY
        endpoint = uses[0].slot, uses[0].index
        others = [area.start for area in self.areas.fixed + self.areas.rings
                  if any(area.lives_with(use) for use in uses) and area not in uses and not self.is_of(area, endpoint)]
        return min([end] + [other for other in others if other > start])

    def is_of(self, area, endpoint):
        return area.what == 'xfer' and (area.slot, area.index) == endpoint

    def guess(self, start, uses, notes):
        """The count of a segment whose Link was never written."""
        end = self.bound(start, uses)
        fetched = [at for at in self.fetched if start <= at < end and self.was_fetched(at, uses[0].named, FOREVER)]
        used = max((at - start) // 16 + 2 for at in [start, *fetched])
        linked = self.linked_counts(uses[0].part)
        room = min((end - start) // 16, MOST_BLOCKS)
        if self.option:
            why, count = 'as the option says', self.option
        elif len(linked) == 1 and min(linked) >= used:
            why, count = 'as all rings have whose Link was', min(linked)
        else:
            why, count = 'the least power of two that holds what was fetched', max(16, 1 << (used - 1).bit_length())
        if count > room:
            why, count = 'up to where other memory begins', max(room, LEAST_BLOCKS)
        notes.append(f'the Link of the segment at {start:#x} was never written: it is taken to have {count} TRBs, {why}')
        return count

    def linked_counts(self, part):
        """The counts of all first segments of a run whose Link was written."""
        counts = set()
        for use in self.areas.rings:
            found = {} if use.what == 'evt' or use.part != part else self.linked([use])[0]
            if use.start in found:
                counts.add((found[use.start].link - use.start) // 16 + 1)
        return counts
