"""The commands of a run as the controller took them, with the event that the driver read of each."""
from collections import namedtuple

import blocks
from qemu_log import Fetch, Post, Seen

# given: the key of the store that gives it, the first that leaves its Cycle bit; completion: the posted event's words; read: the key of its reading, or None
Command = namedtuple('Command', 'key at words given completion read')


def events(items):
    """The posted events of interrupter 0 in order, each with the key of its reading or None; and those read but not as posted."""
    posts = [item for item in items if isinstance(item, Post) and item.interrupter == 0]
    seen = [item for item in items if isinstance(item, Seen)]
    pairs = [(post, seen[i] if i < len(seen) else None) for i, post in enumerate(posts)]
    return pairs, seen[len(posts):]


def find(items, memory, since=None):
    """A fetched command was taken where QEMU posts its completion before it fetches anything else; it was given behind `since`, where that isn't
    None."""
    read = {id(post): seen for post, seen in events(items)[0] if seen}
    commands, fetched = [], None
    for item in items:
        if isinstance(item, Fetch):
            fetched = item
        elif isinstance(item, Post) and fetched and blocks.kind(item.words) == blocks.COMMAND_COMPLETION:
            if blocks.pointer(item.words) == fetched.at:
                seen = read.get(id(item))
                given = memory.cycle_since(fetched.at + 12, fetched.key, since) or fetched.key
                commands.append(Command(fetched.key, fetched.at, fetched.words, given, item.words, seen and seen.key))
            fetched = None
    return commands


def fetched(items):
    """When each block, Links aside, that held something was fetched, by its address."""
    keys = {}
    for item in items:
        if isinstance(item, Fetch) and blocks.kind(item.words) not in (0, blocks.LINK):
            keys.setdefault(item.at, []).append(item.key)
    return keys


def passed(items):
    """When each Link was followed, by its address: QEMU fetches directly after it where it leads to."""
    keys, link = {}, None
    for item in items:
        if isinstance(item, Fetch):
            if link and item.at == blocks.target(link.words):
                keys.setdefault(link.at, []).append(link.key)
            link = item if blocks.kind(item.words) == blocks.LINK else None
    return keys


def succeeded(command):
    return blocks.code(command.completion) == blocks.SUCCESS


def placed_by(words, memory):
    """The endpoints that a command's success lets go or begins anew; `memory`: words by address."""
    kind, context = blocks.kind(words), blocks.target(words)
    if kind == blocks.DISABLE_SLOT:
        return range(1, 32)
    if kind == blocks.ADDRESS_DEVICE:
        return [1]
    if kind == blocks.RESET_DEVICE or kind == blocks.CONFIGURE_ENDPOINT and blocks.drops_all(words):
        return range(2, 32)
    flags = memory.get(context, 0) | memory.get(context + 4, 0) if kind == blocks.CONFIGURE_ENDPOINT else 0
    return [index for index in range(2, 32) if flags >> index & 1]
