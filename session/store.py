#!/usr/bin/env python3
"""What the program storebench has to print for `found LOG TURNS`, worked out by a plain table of slots.

    store.py LOG TURNS      (as in crates/storebench/stdin: 18 100000)

A square's number is the first slot, from the one that its key gives, that is empty or holds it. There is room for all
squares of this job, so nothing is collected.
"""
import sys

WORD = 1 << 64
BED = 1024


def spread(n, factor):
    product = n * factor % WORD
    return (product + (product >> 32)) % WORD


def mix(a, b):
    return spread(spread((a + b) % WORD, 11400714819323198485), 13787848793156543929)


class Store:
    def __init__(self, words):
        self.slots = [None] * ((words - 2048) // 7)

    def intern(self, state, upper, lower):
        key = (upper * 11400714819323198485 + lower * 14029467366897019727) % WORD
        slot = (key >> 32) * len(self.slots) >> 32
        while self.slots[slot] not in (None, (state, upper, lower)):
            slot = (slot + 1) % len(self.slots)
        self.slots[slot] = (state, upper, lower)
        return slot


def weave(store, bed, node):
    key = mix(node, 0)
    nw, ne, sw, se = (bed[key // BED**k % BED] for k in range(4))
    return store.intern(3, nw + (ne << 32), sw + (se << 32))


def main(log, turns):
    store = Store(1 << log)
    bed = [store.intern(2, mix(1, k), 0) for k in range(BED)]
    first = 1 << (log - 4)
    nodes = [weave(store, bed, turn * 11400714819323198485 % first) for turn in range(first)]
    again = [weave(store, bed, turn * 11400714819323198485 % first) for turn in range(turns)]
    assert set(again) <= set(nodes)
    print("found %d %d: sum %d, collections 0" % (log, turns, sum(again) % WORD))


main(int(sys.argv[1]), int(sys.argv[2]))
