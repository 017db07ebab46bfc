#!/usr/bin/env python3
"""Writes one pattern in three forms: field.txt (lines of `field`, without the run), plain.txt and bgolly.rle.

    pattern.py FOLDER

400 blinkers, 300 blocks and 320 gliders: 4,000 living cells in every generation. They lie on a grid, each
moved a little at random. All gliders go the same way, to the lower right, and away from the rest.
"""
import os
import random
import sys

BLINKER = [(0, 0), (1, 0), (2, 0)]
BLOCK = [(0, 0), (1, 0), (0, 1), (1, 1)]
GLIDER = [(1, 0), (2, 1), (0, 2), (1, 2), (2, 2)]


def main():
    folder = sys.argv[1]
    rng = random.Random(1)
    cells = []

    def place(shape, x, y):
        x, y = x + rng.randrange(5), y + rng.randrange(5)
        cells.extend((x + dx, y + dy) for dx, dy in shape)

    kinds = 400 * [BLINKER] + 300 * [BLOCK]
    rng.shuffle(kinds)
    for k, shape in enumerate(kinds):
        place(shape, 10 * (k % 28), 10 * (k // 28))
    for k in range(320):
        place(GLIDER, 400 + 10 * (k % 20), 10 * (k // 20))
    assert len(cells) == len(set(cells)) == 4000

    def write(name, text):
        with open(os.path.join(folder, name), "w") as f:
            f.write(text)

    # not in order: the calls have to find each cell's place
    shuffled = cells[:]
    rng.shuffle(shuffled)
    write("field.txt", "rule b3s23\n" + "".join("put %d %d 1\n" % c for c in shuffled))
    write("plain.txt", "b3s23\n" + "".join("%d %d\n" % c for c in shuffled))
    wide, high = 1 + max(x for x, _ in cells), 1 + max(y for _, y in cells)
    living = set(cells)
    rows = ["".join("o" if (x, y) in living else "b" for x in range(wide)) for y in range(high)]
    write("bgolly.rle", "x = %d, y = %d, rule = B3/S23\n%s!\n" % (wide, high, "$\n".join(rows)))


if __name__ == "__main__":
    main()
