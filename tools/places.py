#!/usr/bin/env python3
"""Lists candidate places of the design pass in crates/*/src, point by point.

    tools/places.py [COMMIT]      the sources of COMMIT, or of the work tree

A line that is listed is a place to look at, not yet a place: docs/DESIGN-PASS.md says what was found there.
"""
import difflib
import itertools
import re
import subprocess
import sys
from collections import defaultdict

COMMIT = sys.argv[1] if len(sys.argv) > 1 else None


def git(*args):
    return subprocess.run(["git", *args], capture_output=True, text=True, check=True).stdout


def sources():
    names = git("ls-tree", "-r", "--name-only", COMMIT) if COMMIT else git("ls-files", "-co", "--exclude-standard")
    for name in names.splitlines():
        if re.fullmatch(r"crates/\w+/src/\w+\.rt", name):
            yield name, git("show", f"{COMMIT}:{name}") if COMMIT else open(name).read()


FILES = dict(sources())

LINES = {
    "1 own Options and Results, flags, numbers for kinds": [
        r"^ *(pub )?enum ",
        r"^ *(pub )?\w+: bool,",
        r"^ *(pub )?const \w+: (u64|usize) = \d;",
        r"^ *pub state: u64",
        r"-> Option<usize>",
        r"let (Ok|Some)\(.* else",
        r"struct \w+ \{\}",
    ],
    "3 indices counted by hand": [r"^\s*while ", r"^\s*for \w+ in .*\.\."],
    "4 equality, order, conversion, printing by hand": [
        r"fn (comes_before|holds|same|along|is|to_\w+|number|text|parse|negative|flag|natural|place|pair|first|second)\b.*->",
        r"fn (write_\w+|digits|signed|byte|draw)\b",
        r"\bas (u|i)\d+\b|\bas usize\b",
    ],
    "6 buffers with a length, arrays side by side, lists searched by hand": [
        r"\bout: &mut \[u8\]",
        r"^ *(pub )?(len|at|end|top|from): usize,",
        r"\[u64; \d+\],",
        r"while low < high",
    ],
    "7 switches on which step to run": [r"\bmatch (i|what|k)\b", r"if i < \d", r"else if is\(", r"^ *ByFates"],
}


def functions():
    """Each function: its file, name, signature with clauses, and body."""
    head = re.compile(r"^( *)(?:pub )?(?:const )?fn (\w+)", re.M)
    for name, text in FILES.items():
        for m in head.finditer(text):
            indent = m.group(1)
            end = re.compile(rf"^{indent}(\}}|\{{\}}|\S.*;$)|\}};$", re.M).search(text, m.start())
            whole = text[m.start(): end.end()] if end else text[m.start():]
            start = re.search(rf"^{indent}\{{$|\{{$", whole, re.M)
            cut = start.start() if start else len(whole)
            yield name, m.group(2), whole[:cut], whole[cut:]


def shape(body):
    """The body with each name as the place of its first use, and each number as N."""
    seen = {}
    words = re.findall(r"\w+|[^\w\s]", re.sub(r"//.*", "", body))
    return " ".join("N" if w[0].isdigit() else seen.setdefault(w, f"v{len(seen)}") if w[0].isalpha() else w for w in words)


def main():
    for point, patterns in LINES.items():
        found = [
            f"{name}:{n}: {line.strip()}"
            for name, text in FILES.items()
            for n, line in enumerate(text.split("\n"), 1)
            if not line.lstrip().startswith("//") and any(re.search(p, line) for p in patterns)
        ]
        print(f"## {point}: {len(found)} lines")
        print("\n".join(found))
    every = list(functions())
    shapes = [(f"{name.split('/')[1]}::{f}", shape(body).split()) for name, f, _, body in every]
    twins = [
        f"{a} {b}"
        for (a, one), (b, other) in itertools.combinations([s for s in shapes if len(s[1]) > 12], 2)
        if abs(len(one) - len(other)) < 8 and difflib.SequenceMatcher(None, one, other, False).ratio() >= 0.85
    ]
    print(f"## 2 pairs of bodies of nearly one shape: {len(twins)}")
    print("\n".join(twins))
    facts, together = defaultdict(set), defaultdict(set)
    for name, f, signature, _ in every:
        where = f"{name.split('/')[1]}::{f}"
        for clause in re.findall(r"(?:requires|ensures)\*?(?: \w+)? \{(.*)\}", signature):
            for part in re.split(r" × ", clause):
                fact = re.sub(r"\b(\w+)\.(now|old|new|entry)\b", r"\1", part.strip(" ()"))
                facts[fact].add(where)
        pairs = re.findall(r"(\w+): ([^,()]+)", signature.split("requires")[0].split("ensures")[0].split("->")[0])
        for pair in itertools.combinations(sorted(set((a, b.strip()) for a, b in pairs)), 2):
            together[pair].add(where)
    often = sorted(((len(w), fact) for fact, w in facts.items() if len(w) > 2), reverse=True)
    print(f"## 5 facts in the contracts of three functions or more: {len(often)}")
    print("\n".join(f"{n} {fact}" for n, fact in often))
    pairs = sorted(((len(w), f"{a[0]}: {a[1]}, {b[0]}: {b[1]}") for (a, b), w in together.items() if len(w) > 2), reverse=True)
    print(f"## 5 pairs of parameters of three functions or more: {len(pairs)}")
    print("\n".join(f"{n} {pair}" for n, pair in pairs))


main()
