#!/usr/bin/env python3
"""A plain Life for any rule b..s.. without birth at 0, for expected values of tests.

A plane is a Python set of (x, y); x goes to the right, y goes down. Nothing here knows
how the proved program works.

    gen.py [FILE]

reads lines `RULE GENERATIONS x,y x,y ..` from FILE or standard input and prints for each:

    RULE GENERATIONS
    count N
    box LEFT UPPER RIGHT LOWER     (or: box none)
    cells x,y x,y ..               (upper rows first, in a row from the left)
"""
import sys

EDGE = 2 ** 60          # no cell lies farther out, across or down
MOST = 4096             # so many cells are always held
AROUND = [(dx, dy) for dy in (-1, 0, 1) for dx in (-1, 0, 1) if (dx, dy) != (0, 0)]


def rule_of(text):
    """The rule text as two sets of numbers; ValueError if it has another form."""
    if not text.startswith("b") or text.count("s") != 1:
        raise ValueError(text)
    born, stays = text[1:].split("s")
    for digits in (born, stays):
        if any(d not in "012345678" for d in digits) or list(digits) != sorted(set(digits)):
            raise ValueError(text)
    if "0" in born:
        raise ValueError(text)
    return {int(d) for d in born}, {int(d) for d in stays}


def step(rule, cells):
    """One generation: look at every living cell and at every cell next to one."""
    born, stays = rule
    looked_at = set(cells)
    for x, y in cells:
        for dx, dy in AROUND:
            looked_at.add((x + dx, y + dy))
    new = set()
    for x, y in looked_at:
        n = sum((x + dx, y + dy) in cells for dx, dy in AROUND)
        if n in (stays if (x, y) in cells else born):
            new.add((x, y))
    return new


def steps(rule, cells, n):
    """n generations, and the largest number of living cells on the way, both ends included."""
    most = len(cells)
    for _ in range(n):
        new = step(rule, cells)
        most = max(most, len(new))
        if new == cells:
            break
        cells = new
    return cells, most


def box(cells):
    """left, upper, right, lower; None for the empty plane"""
    if not cells:
        return None
    xs = [x for x, _ in cells]
    ys = [y for _, y in cells]
    return min(xs), min(ys), max(xs), max(ys)


def in_order(cells):
    return sorted(cells, key=lambda c: (c[1], c[0]))


def farthest(cells):
    return max((max(abs(x), abs(y)) for x, y in cells), default=0)


def fits(cells, n):
    """whether a run by n is allowed"""
    return not cells or farthest(cells) + n <= EDGE


def period(rule, cells, bound):
    """the least t from 1 to the bound after which the plane is the present one moved, and by how much;
    and the largest number of living cells from now to the bound (as far as it was looked at)"""
    now, most = cells, len(cells)
    for t in range(1, bound + 1):
        now = step(rule, now)
        most = max(most, len(now))
        if not now and not cells:
            return (t, 0, 0), most
        if now and cells:
            a, b = box(cells), box(now)
            dx, dy = b[0] - a[0], b[1] - a[1]
            if {(x + dx, y + dy) for x, y in cells} == now:
                return (t, dx, dy), most
        if not now:
            break
    return None, most


def row(cells, x, y, n):
    return "".join("1" if (x + i, y) in cells else "0" for i in range(n))


def main():
    source = open(sys.argv[1]) if len(sys.argv) > 1 else sys.stdin
    for line in source:
        words = line.split()
        if not words or words[0].startswith("#"):
            continue
        cells = {tuple(map(int, w.split(","))) for w in words[2:]}
        now, _ = steps(rule_of(words[0]), cells, int(words[1]))
        k = box(now)
        print(words[0], words[1])
        print("count", len(now))
        print("box", "none" if k is None else "%d %d %d %d" % k)
        print("cells", *("%d,%d" % c for c in in_order(now)))


if __name__ == "__main__":
    main()
