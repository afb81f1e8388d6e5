#!/usr/bin/env python3
"""Prints a trace of writes whose addresses collide in a hash map with a fixed seed: colliding_writes.py [N] [--ascending]

N lines, 2^20 where N is left out, the most that a trace may have: a header without rings, and then writes. Each address lies in
a page of its own, so that neither a map of words nor a map of pages finds them close together. They are taken so that std's
`FoldHasher`, whose seed is fixed, has each begin its search in the first eighth of a map's groups: a hash map over them takes time
by the square of N. With --ascending the addresses follow one another, word by word. A check of the first trace is to take no more
than twice the instructions of one of the second.
"""
import sys

STATE, MULTIPLIER = 0x243f6a8885a308d3, 0x9e3779b97f4a7c15
WORD = 2 ** 64 - 1
LOAD = 9   # keys of a group
SHARE = 8  # one of so many groups is begun at
PAGE = 4096
HEADER = ['xtrace 1\n', 'ctx 20\n']


def groups(n):
    """How many groups a map of n keys has."""
    count = 1
    while LOAD * count < n:
        count *= 2
    return count


def group_of(key, count):
    """The group at which the search for a key of 8 bytes begins."""
    product = (STATE ^ key) * (MULTIPLIER ^ 16)
    folded = (product & WORD) ^ (product >> 64)
    return (folded ^ (folded >> 32)) & (count - 1)


def colliding(n):
    count = groups(n)
    limit, found, address = max(count // SHARE, 1), 0, 0
    while found < n:
        if group_of(address, count) < limit:
            found += 1
            yield address
        address += PAGE


def main(words):
    ascending = '--ascending' in words
    numbers = [int(word, 0) for word in words if word != '--ascending']
    n = (numbers[0] if numbers else 2 ** 20) - len(HEADER)
    addresses = range(0, 4 * n, 4) if ascending else colliding(n)
    sys.stdout.writelines(HEADER)
    sys.stdout.writelines('w %016x 00000001\n' % address for address in addresses)


if __name__ == '__main__':
    main(sys.argv[1:])
