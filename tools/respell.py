#!/usr/bin/env python3
"""Respells the names that this repository's definitions and lemmas had with hyphens: a type's in camel case, all others' in snake case.

usage: python3 tools/respell.py [--map]     at the top of the repository; --map only prints old and new names

It goes over the .antt and .rt files and the edits below crates/, once. Names of the library, names that the check makes of
the code's own (steps, goals, loops), strings and comments outside backticks stay as they are.
"""
import collections
import os
import re
import sys

TOKEN = re.compile(r"[A-Za-z][\w'₀-₉]*(?:-[\w'₀-₉]+)+")
NAME = re.compile(r"(?<![\w'◌·₀-₉-])" + TOKEN.pattern + r"(?![\w'-])")
# kept beside the code: a comment to the end of the line, a string, a character
ASIDE = {".antt": re.compile(r"--(?=\s|$).*"), ".rt": re.compile(r'//.*|"(?:\\.|[^"\\])*"|\'(?:\\.|[^\'\\])\'')}
ANSWERS = ("Answers.antt", "Invariants.antt", "Choices.antt", "Proof.antt")
PARTS = {"getD": "get_or"}
# a name that would fall together with a type of the code
OTHER = {"Fault-record": "RecordedFault"}


def files(top, endings):
    for folder, dirs, names in os.walk(top):
        dirs[:] = sorted(d for d in dirs if d not in ("out", ".git"))
        for name in sorted(names):
            if name.endswith(endings):
                yield os.path.join(folder, name)


def pieces(text, ending):
    """The text as (is it code, piece), in order."""
    at = 0
    for m in ASIDE[ending].finditer(text):
        yield True, text[at:m.start()]
        yield False, m.group(0)
        at = m.end()
    yield True, text[at:]


def code(path):
    with open(path, encoding="utf-8") as f:
        text = f.read()
    return "".join(p for is_code, p in pieces(text, os.path.splitext(path)[1]) if is_code)


def library_names(texts):
    """Hyphenated names that are imported from the library."""
    found = set()
    for text in texts.values():
        for m in re.finditer(r"use Rattle\.std\.[\w.'+-]*\.\{([^}]*)\}", text):
            found.update(NAME.findall(m.group(1)))
    return found


def made_names(texts):
    """Names that the check makes: what the answers define, and the steps that they take from a context."""
    defined, taken = set(), set()
    for path, text in texts.items():
        if os.path.basename(path) not in ANSWERS:
            continue
        for m in re.finditer(r"(?m)^(?:pub |abbrev )*(\S+) : (?:goal|need|given)\.", text):
            defined.add(m.group(1))
        for m in re.finditer(r"(?:goal|need|given|Goals|Needs|Given)\.\{?([\w', -]+)", text):
            defined.update(NAME.findall(m.group(1)))
        for m in re.finditer(r"(?<![\w'])(?:c|l|i|w)\.([\w'-]+)", text):
            taken.add(m.group(1))
    return defined, taken


def new_name(old):
    if old in OTHER:
        return OTHER[old]
    parts = [PARTS.get(p, p) for p in old.split("-")]
    if old[0].isupper():
        return "".join(p[0].upper() + p[1:] for p in parts)
    return "_".join(parts)


def mapping(texts):
    keep = library_names(texts)
    defined, taken = made_names(texts)
    count = collections.Counter()
    for path, text in texts.items():
        answers = os.path.basename(path) in ANSWERS
        for m in NAME.finditer(text):
            if answers and text[m.start() - 1] == ".":
                continue
            if m.group(0) not in keep and m.group(0) not in defined:
                count[m.group(0)] += 1
    return {n: new_name(n) for n in count}, taken


def respell(text, ending, names, taken, answers):
    def put(m):
        n = m.group(0)
        if n not in names or answers and n in taken and m.string[m.start() - 1:m.start()] == ".":
            return n
        return names[n]

    out = []
    for is_code, piece in pieces(text, ending):
        out.append(NAME.sub(put, piece) if is_code else re.sub(r"`[^`]*`", lambda m: NAME.sub(put, m.group(0)), piece))
    return "".join(out)


def main(argv):
    paths = list(files("crates", (".antt", ".rt")))
    texts = {p: code(p) for p in paths}
    names, taken = mapping(texts)
    if "--map" in argv:
        for old, new in sorted(names.items()):
            print(old, new)
        return 0
    for path in paths:
        with open(path, encoding="utf-8") as f:
            old = f.read()
        new = respell(old, os.path.splitext(path)[1], names, taken, os.path.basename(path) in ANSWERS)
        if new != old:
            with open(path, "w", encoding="utf-8") as f:
                f.write(new)
    for path in files("crates", (".edit",)):
        with open(path, encoding="utf-8") as f:
            old = f.read()
        if not old.startswith("file: specs/"):
            continue
        new = NAME.sub(lambda m: names.get(m.group(0), m.group(0)), old)
        if new != old:
            with open(path, "w", encoding="utf-8") as f:
                f.write(new)
    return 0


if __name__ == "__main__":
    raise SystemExit(main(sys.argv[1:]))
