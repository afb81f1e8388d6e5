"""The guest's memory where it was watched: what the CPU stored to each word, in order."""
from bisect import bisect_left, insort
from collections import namedtuple

from qemu_log import KEPT, Found, Page, Store

# found: no store was seen that left this word, but it stood there at this key, and did not yet at the entry's own; or None
Entry = namedtuple('Entry', 'key word found')

BEFORE_ALL = -1


class Memory:
    """All that was stored so far, but for what `prune` has forgotten."""

    def __init__(self):
        self.entries = {}       # by address, in order
        self.looked = {}        # by address: the key of the last look
        self.known_from = 0     # stores before this count may be missing
        self.size = 0           # how many entries there are

    def take(self, item):
        if isinstance(item, Store):
            self.add(item.at, Entry(item.key, item.word, None))
        elif isinstance(item, Found):
            self.compare(item)
        elif isinstance(item, Page):
            self.known_from = max(self.known_from, item.known)

    def add(self, at, entry):
        entries = self.entries.setdefault(at, [])
        self.size += 1
        if entries and entry.key < entries[-1].key:
            insort(entries, entry)
        else:
            entries.append(entry)

    def compare(self, found):
        """A word that no store has left came behind the last store, and behind the last look, which still showed the word before it."""
        last = self.entries.get(found.at, [Entry(BEFORE_ALL, 0, None)])[-1]
        if last.word != found.word:
            self.add(found.at, Entry(max(last.key, self.looked.get(found.at, BEFORE_ALL)) | 1, found.word, found.key))
        self.looked[found.at] = found.key

    def place(self, at, key):
        """How many entries of this word are at or before `key`."""
        return bisect_left(self.entries.get(at, []), (key + 1,))

    def word(self, at, key):
        """The word at this time."""
        place = self.place(at, key)
        return self.entries[at][place - 1].word if place else 0

    def block(self, at, key):
        return tuple(self.word(at + 4 * i, key) for i in range(4))

    def cycle_since(self, at, key, since=None):
        """From when on bit 0 of a word is what it is at `key`: the first such store, behind `since` where that isn't None; else None."""
        place, found = self.place(at, key), None
        entries = self.entries.get(at, [])
        cycle = self.word(at, key) & 1
        while place > 0 and entries[place - 1].word & 1 == cycle and (since is None or entries[place - 1].key > since):
            place -= 1
            found = entries[place].key
        return found

    def set_since(self, at, key, since):
        """The same where bit 0 is 1 at `key`; else None."""
        return self.cycle_since(at, key, since) if self.word(at, key) & 1 else None

    def life(self, at, named, ended):
        """The entries of a word of an area: from the last one of 0 before `named` on, else from the first, to `ended` or on. A word that was
        found later than `ended` came when the controller looked there no more."""
        entries = self.entries.get(at, [])
        if not entries:
            return []
        first = bisect_left(entries, (named,))
        while first > 0 and entries[first - 1].word:
            first -= 1
        last = len(entries) if ended is None else bisect_left(entries, (ended,))
        if ended is not None and last and (entries[last - 1].found or 0) > ended:
            last -= 1
        return entries[max(first - 1, 0):last]

    def other_use(self, start, length, since, until, is_written):
        """When a word of an area was first stored between these moments (None: no end): any, or one by which it is another."""
        keys = [entry.key for at in range(start, start + length, 4) for entry in self.entries.get(at, ())
                if since < entry.key and (until is None or entry.key < until) and entry.found is None
                and (is_written or entry.word != self.word(at, since))]
        return min(keys, default=None)

    def prune(self, stretches):
        """Forgets what no area can need: neither in these stretches (start, length, named, ended), nor in one that is named later."""
        kept = {}
        for start, length, named, ended in stretches:
            for at in range(start, start + length, 4):
                if at in self.entries:
                    kept.setdefault(at, set()).update(self.life(at, named, ended))
        for at, entries in self.entries.items():
            first = len(entries) - 1
            while first > 0 and entries[first].word and len(entries) - first < KEPT:
                first -= 1
            wanted = kept.get(at, ())
            self.entries[at] = [entry for i, entry in enumerate(entries) if i >= first or entry in wanted]
        self.size = sum(len(entries) for entries in self.entries.values())
