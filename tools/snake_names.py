#!/usr/bin/env python3
"""Gives the repository's own definitions, fields and lemmas the spelling of today's Rattle: words in snake case.

usage: tools/snake_names.py [--dry]     at the top of the repository, once, after the kit's port.py

Renames what specs/ and proofs/ define (signatures, fields, constructors, local names): `cellIn` becomes `cell_in`, `leaps-at`
becomes `leaps_at`. Names that Rattle makes (goals and steps), names of the kit and names of src/ stay. Prints which new names
are also another's: look at these, and give one of the two another name in OTHER.
"""
import os
import re
import sys

TOKEN = re.compile(r"(?<![\w'\-])[^\W\d][\w']*(?:-[\w'*+≤<≡]+)*(?![\w'\-])")
SIGNATURE = re.compile(r"^\s*(?:(?:abbrev|unfoldable|pub)\s+)*((?:[^\W\d][\w'\-]*\s+)+):(?![:=])(.*)$")
LET = re.compile(r"\blet\s+([^\W\d][\w'\-]*)\s*[:=]")
LAMBDA = re.compile(r"λ\s+([^.]*?)\.\s")
BINDER = re.compile(r"[({]\s*((?:[^\W\d][\w'\-]*\s+)+):(?![:=])")
# Where the plain spelling would be another's name. A lemma that would have a function's name ends in _lem.
OTHER = {
    "bit-and": "bit_of_and",
    "bit-or": "bit_of_or",
    "bit-xor": "bit_of_xor",
    "cell-of": "core_of",
    "endsIn": "ends_with_byte",
    "first-shift": "first_shift_lem",
    "fitsPlace": "suits_place",
    "four-of": "four_of_lem",
    "isText": "is_line_text",
    "leap-parts": "leap_parts_lem",
    "middleByte": "byte_of_middle",
    "next-in": "next_in_lem",
    "noneLeft": "no_words_left",
    "quarters-of": "quarters_of_lem",
    "quarters-with": "quarters_with_lem",
    "readSet": "set_at_front",
    "same-cells": "same_cells_lem",
    "square-of": "square_of_lem",
    "squares-once": "squares_once_lem",
    "with-quarter": "with_quarter_lem",
    "withQuarter": "quarters_with",
    "withSlot": "survey_with",
    "wordCell": "cell_of_words",
}
KEEP = {"pub", "record", "data", "where", "let", "in", "elim", "as", "open", "use", "mod"}


def wants(name):
    return bool(re.search(r"[a-z0-9ℕℤ'][A-Z]|-", name)) and not name[0].isupper()


def snake(name):
    if name in OTHER:
        return OTHER[name]
    name = re.sub(r"(?<=[a-z0-9'])(?=[A-Z])", "_", name).replace("-", "_")
    return name.lower() if name.isascii() else name


def files():
    for folder, dirs, names in os.walk("crates"):
        dirs[:] = sorted(d for d in dirs if d != "out")
        for name in sorted(names):
            if name.endswith((".rt", ".antt")):
                yield os.path.join(folder, name)


def main():
    dry = "--dry" in sys.argv
    crates = sorted(os.listdir("crates"))
    foreign = re.compile(r"\buse\s+(?!Rattle\.(?:%s)\.)[\w.+·]*\.\{([^}]*)\}" % "|".join(crates))
    texts = {p: open(p, encoding="utf-8").read() for p in files()}
    own, fields, made, kit, seen = {}, set(), set(), set(), {}
    for path, text in texts.items():
        for m in foreign.finditer(text):
            for item in m[1].split(","):
                kit.update(item.split(" as ")[0].split())
        for m in re.finditer(r"\b(?:goal|given)\.([\w'\-]+)", text):
            made.add(m[1])
        for m in TOKEN.finditer(text):
            seen.setdefault(m[0], path)
        if not path.endswith(".antt"):
            continue
        inside = None
        for line in text.split("\n"):
            if re.match(r"\s*pub (record|data)|\s*(record|data) ", line):
                inside = len(line) - len(line.lstrip())
            elif line.strip() and inside is not None and len(line) - len(line.lstrip()) <= inside:
                inside = None
            m = SIGNATURE.match(line)
            if m and not re.match(r"\s*(goal|given)\.", m[2]):
                for name in m[1].split():
                    own.setdefault(name, path)
                    if inside is not None:
                        fields.add(name)
        for pattern in (LET, BINDER, LAMBDA):
            for m in pattern.finditer(text):
                for name in re.findall(r"[^\W\d][\w'\-]*", m[1]):
                    own.setdefault(name, path)
    names = {n: snake(n) for n in own if wants(n) and n not in kit and n not in KEEP}
    both = sorted(n for n in names if n in made)
    taken = {}
    for old, new in sorted(names.items()):
        taken.setdefault(new, []).append(old)
    clash = sorted((new, olds) for new, olds in taken.items() if len(olds) > 1 or new in seen or new in kit)
    for new, olds in clash:
        print("falls together:", ", ".join(olds), "->", new, "| seen in", seen.get(new, "-"), "| kit" if new in kit else "")
    print("own and of the kit:", ", ".join(sorted(n for n in own if wants(n) and n in kit)))
    print("also the name of a goal:", ", ".join(both))
    for path, text in texts.items():

        def turn(m):
            name = m[0]
            before = text[: m.start()]
            if name not in names:
                return name
            if before.endswith("."):
                lead = re.search(r"([\w'\-]+)\.$", before)
                if name not in fields or (lead and lead[1] in ("goal", "given", "c", "l")):
                    return name
            if name in made and path.count("/") > 3:
                return name
            return names[name]

        new = TOKEN.sub(turn, text)
        if new != text and not dry:
            with open(path, "w", encoding="utf-8") as f:
                f.write(new)
    rest = {}
    for path in texts:
        text = open(path, encoding="utf-8").read()
        for m in TOKEN.finditer(text):
            if wants(m[0]) and path.endswith(".antt") and m[0] not in kit and m[0] not in made and not text[: m.start()].endswith("."):
                rest.setdefault(m[0], path)
    print(len(names), "names; left as they are:", ", ".join(sorted(rest))[:6000])


main()
