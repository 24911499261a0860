#!/usr/bin/env python3
"""Brings the repository's own definitions and lemmas to today's spelling: words in snake case (`readRegister` is `read_register`).

usage: python3 tools/port/respell.py        at the top of the repository, once (a second run is no good), right after /opt/rattle/port/port.py
It renames the fractions' operator `//` to `÷`, and each part (between dashes) of a name that begins with a small letter and goes on with a capital, in .antt and .rt files of crates/, in the texts of
must-fail edits, and in the pages. Types, modules, functions of src/, strings and names of the kit's library keep their spelling.
"""
import os
import re
import sys

PART = re.compile(r"(?<![\w·])([a-z][a-z0-9]*(?:[A-Z]+[a-z0-9]*)+)(?=$|[^\w])")
TOKEN = re.compile(r"(?<![\w·'])[a-z][A-Za-z0-9]*(?:[A-Z][A-Za-z0-9]*)+(?![\w·])")
# lemmas that would fall together with the function that they speak of
LEMMAS = [
    ("scale_in", "scale_in_lem"),
    ("size_in", "size_in_lem"),
    ("last_step", "last_step_lem"),
    ("moved_down", "moved_down_lem"),
    ("moved_up", "moved_up_lem"),
    ("no_place", "no_place_lem"),
    ("no_room", "no_room_lem"),
    ("past_all", "past_all_lem"),
    ("too_long", "too_long_lem"),
    ("first_part", "first_part_lem"),
]
# words of the kit's library, and of other languages
KEEP = {"getD", "lowSix"}


def snake(name):
    if name in KEEP:
        return name
    return re.sub(r"(?<=[a-z0-9])([A-Z]+)", lambda m: "_" + m.group(1), name).lower()


def apart(text):
    for old, new in LEMMAS:
        text = re.sub(r"(?<![\w·'.-])" + old + r"(?![\w·'-])", new, text)
    return text


def turn(text):
    return TOKEN.sub(lambda m: snake(m.group(0)), text)


def fraction(text):
    """The operator of fractions: `//` begins a comment for rt, also in a `ghost use` item."""
    return text.replace("◌//◌", "◌÷◌").replace(" // ", " ÷ ")


def strings_kept(text):
    """Rattle's and Rust's strings stay as they are."""
    out, last = [], 0
    for m in re.finditer(r'b?"(?:[^"\\\n]|\\.)*"', text):
        out.append(turn(text[last:m.start()]))
        out.append(m.group(0))
        last = m.end()
    out.append(turn(text[last:]))
    return "".join(out)


def files():
    for folder, dirs, names in os.walk("crates"):
        dirs[:] = sorted(d for d in dirs if d != "out")
        for n in sorted(names):
            if n.endswith((".antt", ".rt", ".edit")):
                yield os.path.join(folder, n)
    yield "README.md"
    for folder in ("docs", "docs/changes", "tests", "bench", "examples"):
        for n in sorted(os.listdir(folder)):
            if n.endswith(".md"):
                yield os.path.join(folder, n)


def main():
    for path in files():
        with open(path, encoding="utf-8") as f:
            old = f.read()
        if path.endswith(".md"):
            new = re.sub(r"`[^`\n]+`", lambda m: turn(m.group(0)), old)
        elif path.endswith((".rt", ".edit")):
            # a comment in .rt may hold quotation marks that aren't a string's
            new = "\n".join(turn(l) if l.lstrip().startswith("//") else strings_kept(l) for l in old.split("\n"))
            clause = re.compile(r"\s*(ghost use|requires|ensures)\b")
            new = "\n".join(fraction(l) if clause.match(l) else l for l in new.split("\n"))
        elif path == "crates/writer/proofs/Wrong.antt":
            new = turn(re.sub(r"(?<![\w-])limits_of(?![\w-])", "limits-of", old))
        else:
            new = turn(apart(old))
        if path.endswith(".antt"):
            new = fraction(new)
        if new != old:
            with open(path, "w", encoding="utf-8") as f:
                f.write(new)


if __name__ == "__main__":
    sys.exit(main())
