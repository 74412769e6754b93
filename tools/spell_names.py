#!/usr/bin/env python3
"""Brings this repository's own definitions and lemmas to one spelling: words in snake case, types in camel case.

Run once, at the top of the checkout, after /opt/rattle/port/port.py:  python3 tools/spell_names.py
It reads which names the .antt files of crates/ declare, and respells those with dashes or inner capitals wherever they
stand as whole words: in .rt files (but not in text between quotes), in .antt files and, between backquotes, in docs/ and
README.md. Names of answers to generated goals, names that a library has too, functions of src/, strings, inputs and
outputs keep their spelling.
"""
import os
import re
import sys

ROOT = os.getcwd()
CRATES = os.path.join(ROOT, "crates")
WORD = r"[^\s:(){}\[\],;.`]+"
# names that would fall together with another name
APART = {
    "allowedBy": "allowed_by",
    "allowed-by": "allowed_by_member",
    "startRow": "start_row_of",
    "startBay": "start_bay_of",
    "goalBay": "goal_bay_of",
}


def files(*endings):
    for folder, inner, names in os.walk(CRATES):
        inner[:] = sorted(x for x in inner if x != "out")
        for name in sorted(names):
            if name.endswith(endings):
                yield os.path.join(folder, name)


def text_of(path):
    with open(path, encoding="utf-8") as f:
        return f.read()


def is_mine(path):
    crate = re.match(r"Rattle\.(\w+)\.", path)
    return bool(crate) and os.path.isdir(os.path.join(CRATES, crate.group(1)))


def declared():
    """The names that the .antt files declare, and those that they import from libraries."""
    mine, theirs = set(), set()
    for path in files(".antt"):
        for line in text_of(path).splitlines():
            use = re.match(r"use ([^{]*)(?:\{(.*)\})?", line)
            if use:
                if not is_mine(use.group(1)) and use.group(2):
                    theirs |= {n.strip() for n in use.group(2).split(",")}
                continue
            head = re.match(rf"(?:(?:abbrev|unfoldable|pub|ruleset) )*({WORD}) :(.*)", line)
            if head and not line.startswith(" "):
                if not head.group(2).strip().startswith(("goal.", "Goals.")):
                    mine.add(head.group(1))
                continue
            kind = re.match(rf"(?:pub )?(?:record|data) ({WORD})", line)
            field = re.match(rf"\s+(?:pub )?({WORD}) :", line)
            if kind:
                mine.add(kind.group(1))
            elif field and not line.strip().startswith("let "):
                mine.add(field.group(1))
    return mine, theirs


def respelled(name):
    if name in APART:
        return APART[name]
    if name[0].isupper():
        return "".join(part[0].upper() + part[1:] for part in name.split("-") if part)
    name = re.sub(r"([a-z0-9])([A-Z])", lambda m: m.group(1) + "_" + m.group(2).lower(), name)
    return name.replace("-", "_").replace("\u2032", "'")


def plain(name):
    """A name of letters, digits, dashes and primes only: operators keep their spelling."""
    return re.fullmatch(r"[A-Za-z][A-Za-z0-9_\-'\u2032]*", name) is not None


def main():
    mine, theirs = declared()
    turn = {n: respelled(n) for n in mine if plain(n) and n not in theirs and respelled(n) != n}
    back = {}
    for old, new in turn.items():
        back.setdefault(new, []).append(old)
    together = {new: olds for new, olds in back.items() if len(olds) > 1 or (new in mine and new not in turn)}
    if together:
        sys.exit(f"these names would fall together: {together}")

    def word(m):
        return turn.get(m.group(0), m.group(0))

    def whole(text):
        return re.sub(WORD, word, text)

    def outside_quotes(text):
        return "".join(part if part.startswith('"') else whole(part) for part in re.split(r'("(?:[^"\\\n]|\\.)*")', text))

    changed = 0
    pages = [os.path.join(ROOT, "README.md")] + [os.path.join(ROOT, "docs", n) for n in sorted(os.listdir(os.path.join(ROOT, "docs")))]
    for path in list(files(".antt", ".rt")) + pages:
        old = text_of(path)
        if path.endswith(".antt"):
            new = whole(old)
        elif path.endswith(".rt"):
            new = outside_quotes(old)
        else:
            new = re.sub(r"`[^`\n]+`", lambda m: whole(m.group(0)), old)
        if new != old:
            with open(path, "w", encoding="utf-8") as f:
                f.write(new)
            changed += 1
    print(f"{len(turn)} names respelled in {changed} files")


main()
