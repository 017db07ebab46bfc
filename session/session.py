#!/usr/bin/env python3
"""Writes a session of the program `field`: its stdin, and the stdout that is expected.

    session.py [FOLDER]      (crates/field if left out)

Every expected line comes from docs/RULES.md or from gen.py, never from `field`. No generation that is
run here has more than 4,096 living cells, so that `no 5` is never allowed. The lines at the end have
line ends and bytes that editors spoil.
"""
import os
import random
import sys

sys.dont_write_bytecode = True
import gen  # noqa: E402

EDGE = gen.EDGE
LINES = []              # pairs: what is sent, what is expected


class Plane:
    """What is expected of the plane, by the rules."""

    def __init__(self):
        self.text, self.cells = "b3s23", set()

    def say(self, line, answer):
        LINES.append((line, str(answer)))

    def rule(self, text):
        gen.rule_of(text)
        self.text = text
        self.say("rule " + text, "done")

    def put(self, x, y, lives=1):
        line = "put %d %d %d" % (x, y, lives)
        if max(abs(x), abs(y)) > EDGE:
            return self.say(line, "no 2")
        (self.cells.add if lives else self.cells.discard)((x, y))
        assert len(self.cells) <= gen.MOST
        self.say(line, "done")

    def puts(self, cells):
        for x, y in gen.in_order(cells):
            self.put(x, y)

    def run(self, n):
        if not gen.fits(self.cells, n):
            return self.say("run %d" % n, "no 3")
        if self.cells:
            self.cells, most = gen.steps(gen.rule_of(self.text), self.cells, n)
            assert most <= gen.MOST
        self.say("run %d" % n, "done")

    def period(self, bound):
        if not gen.fits(self.cells, bound):
            return self.say("period %d" % bound, "no 3")
        found, most = gen.period(gen.rule_of(self.text), self.cells, bound)
        assert most <= gen.MOST
        self.say("period %d" % bound, "period none" if found is None else "period %d %d %d" % found)

    def cell(self, x, y):
        self.say("cell %d %d" % (x, y), int((x, y) in self.cells))

    def count(self):
        self.say("count", len(self.cells))

    def row(self, x, y, n):
        self.say("row %d %d %d" % (x, y, n), gen.row(self.cells, x, y, n))

    def box(self):
        k = gen.box(self.cells)
        self.say("box", "box none" if k is None else "box %d %d %d %d" % k)

    def show(self, margin=1):
        """count, box, and each row of the box and of a margin around it"""
        self.count()
        self.box()
        if self.cells:
            l, u, r, d = gen.box(self.cells)
            for y in range(u - margin, d + margin + 1):
                self.row(l - margin, y, r - l + 1 + 2 * margin)

    def clear(self):
        """with nobody born and nobody staying, one generation empties the plane"""
        self.rule("bs")
        self.run(1) if gen.fits(self.cells, 1) else [self.put(x, y, 0) for x, y in gen.in_order(self.cells)]
        assert not self.cells
        self.count()
        self.box()


BLINKER = {(0, 0), (1, 0), (2, 0)}
GLIDER = {(1, 0), (2, 1), (0, 2), (1, 2), (2, 2)}
BLOCK = {(0, 0), (1, 0), (0, 1), (1, 1)}


def moved(cells, dx, dy):
    return {(x + dx, y + dy) for x, y in cells}


def worked_cases(p):
    # C, the empty plane
    p.count(), p.box()
    for bound in (1, 2, 9, 65535):
        p.period(bound)
    p.period(0)
    for n in (0, 1, 2 ** 63, 2 ** 64 - 1):
        p.run(n)
    p.count(), p.cell(0, 0), p.row(-5, 0, 11)
    # A, three in a row
    p.puts(BLINKER)
    p.count(), p.box(), p.row(-5, 0, 11)
    for bound in (0, 1, 2, 3, 65535):
        p.period(bound)
    p.run(1)
    for x, y in ((1, -1), (1, 0), (1, 1), (0, 0), (2, 0)):
        p.cell(x, y)
    p.show()
    p.run(1), p.show()
    p.run(10001), p.box()
    for x, y in gen.in_order(p.cells):
        p.put(x, y, 0)
    p.count(), p.box()
    # B, the glider
    p.puts(GLIDER)
    for bound in (3, 4, 5, 1000):
        p.period(bound)
    p.show()
    p.run(1), p.show()
    p.run(3), p.show()
    p.run(3996)
    p.cell(1001, 1000), p.cell(1000, 1000), p.count(), p.box(), p.row(999, 1002, 5)
    p.clear()
    # E, birth with one and nobody stays
    p.rule("b1s"), p.put(0, 0), p.period(20), p.run(1)
    p.count(), p.cell(0, 0), p.show()
    p.run(1), p.show()
    p.clear()
    # F, rules: 8 and 12 are b3s23; 9 and 12 have birth with 0; 512 would be birth with 9
    p.rule("b3s23")
    for text in ("b03s23", "b9s", "b9s23"):
        p.say("rule " + text, "no 1")
    p.puts(BLINKER), p.run(1), p.box()      # the rule before them still holds
    p.clear(), p.rule("b3s23")
    # G, the edge
    p.put(EDGE, 0), p.run(1), p.put(EDGE + 1, 0)
    p.count(), p.cell(EDGE, 0), p.row(EDGE - 1, 0, 3), p.box()
    p.run(0), p.period(1), p.period(0)
    p.put(EDGE, 0, 0), p.count(), p.box()


def edge(p):
    for x, y in ((-EDGE, 0), (0, EDGE), (0, -EDGE), (EDGE, -EDGE)):
        p.put(x, y)
    for x, y in ((-EDGE - 1, 0), (0, EDGE + 1), (0, -EDGE - 1), (2 ** 63 - 1, 0), (0, -2 ** 63)):
        p.put(x, y), p.put(x, y, 0)         # also for a cell that is to be dead
        p.cell(x, y)
    p.count(), p.box(), p.run(1), p.run(2 ** 64 - 1), p.period(65535)
    p.row(-EDGE - 1, 0, 3), p.row(2 ** 63 - 2, 0, 4), p.row(-2 ** 63, 0, 4), p.row(2 ** 63 - 1, -2 ** 63, 2)
    p.clear(), p.rule("b3s23")
    # a block ten cells from the edge, and the sum of its farthest coordinate and n
    p.puts(moved(BLOCK, EDGE - 11, 5)), p.box()
    p.run(10), p.run(11), p.period(10), p.period(11), p.period(65535), p.count()
    p.clear(), p.rule("b3s23")
    p.puts(moved(BLOCK, 5, -EDGE + 10)), p.box()
    p.run(10), p.run(11), p.period(10), p.period(11), p.count()
    p.clear(), p.rule("b3s23")
    # two gliders far apart are ten cells
    p.puts(GLIDER | moved(GLIDER, 2 ** 59, -2 ** 59))
    p.run(100), p.count(), p.box(), p.cell(26, 25), p.cell(2 ** 59 + 26, 25 - 2 ** 59), p.period(8)
    p.run(2 ** 59), p.count()               # 2^59 + 27 and 2^59 together are more than 2^60
    p.clear(), p.rule("b3s23")


def numbers(p):
    p.say("put 003 -04 1", "done")
    p.cells.add((3, -4))
    p.cell(3, -4)
    p.say("cell 0000000000000000000000003 -0000000000000000000000004", 1)
    p.say("cell -0 -00", 0)
    p.say("cell 9223372036854775807 -9223372036854775808", 0)
    p.say("row 2 -4 0", "")
    p.say("row 2 -4 000000000000000000000003", "010")
    p.say("period 0000000000065535", "period none")
    p.say("run " + 300 * "0", "done")
    p.count()
    p.say("put -0 0 1", "done")
    p.cells.add((0, 0))
    p.cell(0, 0)
    p.say("put 9223372036854775807 0 1", "no 2")
    p.say("put 9223372036854775808 0 1", "no 7")
    p.put(0, 0), p.put(7, 7, 0), p.count()  # a cell that lives is put, one that doesn't is erased
    p.clear()
    p.say("run 00018446744073709551615", "done")
    p.rule("b3s23")


NO7 = [
    # words and spaces
    "", " ", "  ", "\t", " count", "count ", "count  ", "count\t", "\tcount", "count 0", "count count", "Count", "COUNT", "counts", "coun",
    "c", "box 0", "box ", "Box", "boxes", "bounds", "open", "room", "clear", "quit", "exit", "help", "done", "no 7", "0", "-1",
    "# count", "#", "// count", "count # how many", "count;", "count,box",
    # cell
    "cell", "cell ", "cell 0", "cell 0 0 0", "cell  0 0", "cell 0  0", "cell 0 0 ", "cell\t0 0", "cell 0\t0", "Cell 0 0", "cells 0 0",
    "cell +1 0", "cell 1 +0", "cell - 0", "cell 0 -", "cell --1 0", "cell 1- 0", "cell 1.0 0", "cell 0x1 0", "cell 1e3 0", "cell 1_000 0",
    "cell 1,0", "cell 1, 0", "cell a 0", "cell 0 b", "cell 9223372036854775808 0", "cell 0 9223372036854775808",
    "cell -9223372036854775809 0", "cell 0 -9223372036854775809", "cell 18446744073709551616 0", "cell 0 99999999999999999999999999999999",
    # put
    "put", "put 0", "put 0 0", "put 0 0 2", "put 0 0 01", "put 0 0 00", "put 0 0 -0", "put 0 0 -1", "put 0 0 +1", "put 0 0 true", "put 0 0 o",
    "put 0 0 1 1", "put 0 0  1", "put 0 0 1 ", " put 0 0 1", "Put 0 0 1", "put 0,0 1", "put 9223372036854775808 0 1", "put 0 -9223372036854775809 0",
    "put 1152921504606846977 0 2", "put 1152921504606846977 0", "put 18446744073709551615 0 1",
    # run
    "run", "run ", "run -1", "run -0", "run +1", "run 1 1", "run 1 ", "run  1", "run one", "run 1.5", "run 2^3", "run 0x10", "Run 1", "runs 1",
    "run 18446744073709551616", "run 100000000000000000000", "run 36893488147419103232", "run " + 300 * "9",
    # period
    "period", "period -1", "period -0", "period +1", "period 65536", "period 65537", "period 131072", "period 4294967296", "period 18446744073709551616",
    "period 1 1", "period 4 1 1", "period none", "Period 1",
    # row
    "row", "row 0", "row 0 0", "row 0 0 -1", "row 0 0 -0", "row 0 0 +1", "row 0 0 1048577", "row 0 0 4294967296", "row 0 0 18446744073709551616",
    "row 9223372036854775808 0 1", "row 0 9223372036854775808 1", "row 0 0 1 1", "row 0 0 x", "Row 0 0 1",
    # rule, where the line and not the rule's text is out of form
    "rule", "rule ", "rule b3s23 b3s23", "rule  b3s23", "rule b3s23 ", " rule b3s23", "rule b3 s23", "rules b3s23", "Rule b3s23", "RULE b3s23",
    "b3s23",
    # files that are not there
    "read", "read no-such-file.rle", "read no-such-file.rle 0", "read no-such-file.rle 0 0", "read no-such-file.rle 0 0 0",
    "read no-such-file.rle 9223372036854775808 0", "read no-such-file.rle +0 0", "read 0 0", "Read no-such-file.rle 0 0",
    "write", "write ", "write no-such-folder/a.rle", "write no-such-folder/a.rle 0 0", "write a b", "Write no-such-folder/a.rle",
]

NO1 = [
    "b9s23", "b3s9", "b33s23", "b3s22", "b63s23", "b3s32", "b3s2345670", "B3S23", "B3/S23", "b3/s23", "b3S23", "B3s23", "3s23", "s23b3", "b3", "s23", "b",
    "s", "23/3", "3", "8", "b3s23x", "xb3s23", "bb3s23", "b3ss23", "b3s23s", "b3s2-3", "b3,s23", "b0s", "b03s23", "b0s012345678",
    "b012345678s012345678", "b30s23", "b3s-", "life", "-", "0",
]


def bad_lines(p):
    # a plane and a rule that no bad line may change
    p.rule("b36s23")
    p.puts(GLIDER)
    for k, line in enumerate(NO7):
        p.say(line, "no 7")
        if k % 40 == 39:
            p.count()
    p.show()
    for k, text in enumerate(NO1):
        p.say("rule " + text, "no 1")
    p.show()
    p.run(4), p.show(), p.period(4)
    p.clear()
    # b36s23 differs from b3s23 where a dead cell has six neighbours
    for text in ("b36s23", "b3s23"):
        p.rule(text)
        p.puts({(0, 0), (1, 0), (2, 0), (0, 2), (1, 2), (2, 2)})
        p.say("rule b63s23", "no 1")
        p.run(1), p.cell(1, 1), p.show()
        p.clear()


def soups(p):
    rng = random.Random(20)
    every = "b12345678s012345678"
    # exactly 4,096 cells are held
    p.rule(every), p.puts(BLOCK), p.run(31), p.count(), p.box()
    p.put(0, 0, 0), p.count(), p.put(0, 0, 1), p.count(), p.put(0, 0, 1), p.count(), p.period(0), p.run(0)
    p.rule("bs012345678"), p.run(10 ** 9), p.period(65535), p.run(EDGE - 32), p.run(EDGE - 31), p.count()
    p.row(-33, -31, 4), p.row(30, 32, 5), p.row(-31, 33, 3)
    p.clear()
    plan = [("b3s23", 12, 3, 40), ("b36s23", 10, 2, 33), ("b2s", 7, 3, 8), ("b3678s34678", 12, 2, 20), ("b1357s1357", 5, 2, 9), ("b35678s5678", 14, 2, 17),
            ("b1s12345678", 3, 2, 6), ("b8s012345678", 9, 2, 5), ("b3s012345678", 6, 2, 12), ("b7s", 9, 2, 2), ("b4678s35678", 11, 2, 15),
            ("b368s245", 9, 2, 25), ("b2s0", 5, 2, 7)]
    for k, (text, side, density, n) in enumerate(plan):
        x0, y0 = rng.randrange(-10 ** 9, 10 ** 9), rng.randrange(-10 ** 9, 10 ** 9)
        cells = {(x0 + x, y0 + y) for x in range(side) for y in range(side) if rng.randrange(density) == 0}
        p.rule(text), p.puts(cells), p.count()
        p.run(n // 3), p.count(), p.box(), p.run(n - n // 3), p.show(), p.period(5)
        p.clear()
    # any rule
    for k in range(24):
        born = "".join(str(d) for d in range(1, 9) if rng.randrange(3) == 0)
        stays = "".join(str(d) for d in range(9) if rng.randrange(2) == 0)
        cells = {(rng.randrange(-4, 5), rng.randrange(-4, 5)) for _ in range(20)}
        p.rule("b" + born + "s" + stays), p.puts(cells), p.period(3), p.run(7), p.show(0), p.period(6)
        p.clear()
    # the rule may change on the way, and cells may be put and erased
    p.rule("b3s23"), p.puts(GLIDER), p.run(5), p.rule("b1357s1357"), p.run(3), p.put(2, 2, 1), p.put(3, 1, 0), p.show()
    p.rule("b3s23"), p.run(2), p.show()
    p.clear()
    # known lives: still, period 3, a ship, and one that dies
    p.rule("b3s23")
    pulsar = {(x, y) for a in (1, 6) for b in (2, 3, 4) for s in (1, -1) for t in (1, -1) for x, y in ((a * s, b * t), (b * t, a * s))}
    ship = {(1, 0), (4, 0), (0, 1), (0, 2), (4, 2), (0, 3), (1, 3), (2, 3), (3, 3)}
    for cells, bound in ((BLOCK, 7), (pulsar, 7), (ship, 7), ({(0, 0), (1, 0)}, 7), (BLINKER | moved(BLOCK, 10, 10), 7), (BLINKER | moved(pulsar, 30, 0), 7)):
        p.puts(cells), p.period(1), p.period(bound), p.show(), p.run(1000), p.count(), p.box()
        p.clear(), p.rule("b3s23")


def odd():
    """bytes of each line with its end, and the answer"""
    return [
        (b"rule b3s23\r\n", "done"), (b"count\r\n", "0"), (b"put 0 0 1\r\n", "done"), (b"cell 0 0\r\n", "1"), (b"row -1 0 3\r\n", "010"),
        (b"\r\n", "no 7"), (b"count\r\r\n", "no 7"), (b"\rcount\n", "no 7"), (b"co\runt\n", "no 7"), (b"count \r\n", "no 7"),
        (b"count\r \n", "no 7"), (b"run 1\r 1\n", "no 7"), (b"count\xff\n", "no 7"), (b"\xff\xfe\n", "no 7"), (b"\x80\r\n", "no 7"),
        (b"count\x00\n", "no 7"), (b"\x00\n", "no 7"), (b"\xef\xbb\xbfcount\n", "no 7"), (b"count\xc2\xa0\n", "no 7"), (b"cell\xc2\xa00 0\n", "no 7"),
        (b"cell \xd9\xa1 0\n", "no 7"), (b"cell \xe2\x88\x921 0\n", "no 7"), (b"put 0 0 \xef\xbc\x91\n", "no 7"), (b"caf\xc3\xa9\n", "no 7"),
        (b"rule b3s\xc3\xa9\n", "no 7"), (b"rule b3s23\t\n", "no 7"), (b"rule \xff\n", "no 7"), (b"count\x0c\n", "no 7"), (b"count\x0b\n", "no 7"), (b"count\x1a\n", "no 7"),
        (b"a" * 5000 + b"\n", "no 7"), (b"count\n", "1"), (b"run 1\r\n", "done"), (b"box\r\n", "box none"), (b"count", "0"),
    ]


def main():
    here = os.path.dirname(os.path.abspath(__file__))
    folder = sys.argv[1] if len(sys.argv) > 1 else os.path.join(here, "..", "crates", "field")
    p = Plane()
    worked_cases(p)
    edge(p)
    numbers(p)
    bad_lines(p)
    soups(p)
    p.rule("b3s23")
    assert not p.cells
    assert all("\n" not in line and "\r" not in line for line, _ in LINES)

    def write(name, data):
        with open(os.path.join(folder, name), "wb") as f:
            f.write(data)

    write("stdin", "".join(line + "\n" for line, _ in LINES).encode("ascii") + b"".join(line for line, _ in odd()))
    write("stdout", "".join(answer + "\n" for _, answer in LINES + odd()).encode("ascii"))
    print(len(LINES), "lines;", len(NO7), "bad lines for no 7,", len(NO1), "rule texts for no 1;", len(odd()), "odd lines")


if __name__ == "__main__":
    main()
