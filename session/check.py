#!/usr/bin/env python3
"""Holds gen.py to bgolly: random rules, cells and generations, the living cells compared (up to where they lie,
which bgolly's files don't say).

    check.py [HOW MANY] [SEED]
"""
import os
import random
import re
import subprocess
import sys
import tempfile

sys.dont_write_bytecode = True
import gen  # noqa: E402


def text_of(cells, rule):
    """the cells as a pattern's text, from the upper left corner of their box"""
    l, u, r, d = gen.box(cells)
    born, stays = rule[1:].split("s")
    rows = ["".join("o" if (x, y) in cells else "b" for x in range(l, r + 1)) for y in range(u, d + 1)]
    return "x = %d, y = %d, rule = B%s/S%s\n%s!\n" % (r - l + 1, d - u + 1, born, stays, "$\n".join(rows))


def cells_of(text):
    body = "".join(line for line in text.splitlines() if not line.startswith(("#", "x")))
    cells, x, y = set(), 0, 0
    for count, letter in re.findall(r"(\d*)([bo$!])", body):
        n = int(count or 1)
        if letter == "!":
            break
        if letter == "$":
            x, y = 0, y + n
        else:
            if letter == "o":
                cells |= {(x + i, y) for i in range(n)}
            x += n
    return cells


def at_corner(cells):
    if not cells:
        return cells
    l, u, _, _ = gen.box(cells)
    return {(x - l, y - u) for x, y in cells}


def main():
    many = int(sys.argv[1]) if len(sys.argv) > 1 else 40
    rng = random.Random(int(sys.argv[2]) if len(sys.argv) > 2 else 1)
    with tempfile.TemporaryDirectory() as folder:
        source, result = os.path.join(folder, "a.rle"), os.path.join(folder, "b.rle")
        for k in range(many):
            born = "".join(str(d) for d in range(1, 9) if rng.randrange(3) == 0)
            stays = "".join(str(d) for d in range(9) if rng.randrange(2) == 0)
            rule = rng.choice(["b3s23", "b36s23", "b%ss%s" % (born, stays), "b%ss%s" % (born, stays)])
            side, n = rng.randrange(1, 16), rng.randrange(0, 20)
            cells = {(rng.randrange(side), rng.randrange(side)) for _ in range(1 + side * side // 2)}
            with open(source, "w") as f:
                f.write(text_of(cells, rule))
            expected, _ = gen.steps(gen.rule_of(rule), cells, n)
            for name in ("QuickLife", "HashLife"):
                said = subprocess.run(["bgolly", "-a", name, "-m", str(n), "-i", str(max(n, 1)), "-o", result, source], capture_output=True, text=True).stdout
                with open(result) as f:
                    found = cells_of(f.read())
                if at_corner(found) != at_corner(expected):
                    sys.exit("differs: %s, %d generations of %s, by %s\n%s" % (rule, n, sorted(cells), name, said))
                os.remove(result)
    print(many, "soups agree with bgolly")


if __name__ == "__main__":
    main()
