#!/usr/bin/env python3
"""Spells the repository's own definitions and lemmas as today's Rattle does: words in snake case, types and modules in camel case.

usage: tools/spell.py [FOLDER]      once, at the top of a repository that port.py has just turned

A name is respelled if it begins with a small letter and has a capital (`entryLen`, in `length-entryText` too), or if it is one of the
definitions, constructors and fields of specs/ whose words a dash joined. It is respelled in specs/, in proofs/, in the sources outside
their strings, in the must-fail edits and in the pages. Names of Rattle's library have no capitals any more, and functions of src/ never
had; a lemma that port.py gave the very name that a definition gets here has a word added to it (FALL_TOGETHER).
"""
import pathlib
import re
import sys

TOP = pathlib.Path(sys.argv[1] if len(sys.argv) > 1 else ".")
CAMEL = re.compile(r"(?<![A-Za-z0-9_'.])([a-z][a-z0-9]*(?:[A-Z][a-z0-9]*)+)(?![A-Za-z0-9_])")
CAMEL_FIELD = re.compile(r"(?<![A-Za-z0-9_'])([a-z][a-z0-9]*(?:[A-Z][a-z0-9]*)+)(?![A-Za-z0-9_])")
DASHED = """stored-or-dropped too-much-lost too-deep z-sum z-packed x-sum x-packed text-is re-finite im-finite not-0 at-hit no-repeat
goes-on-after all-taken answer-is""".split()
DASHED_WORD = re.compile(r"(?<![\w'-])(%s)(?![\w'-])" % "|".join(map(re.escape, DASHED)))
# lemmas and helpers whose names fall together with a definition's new one
FALL_TOGETHER = {
    "with_keys": "with_keys-each",
    "header_of": "header_on-of",
    "made_by": "made_by-words",
    "run_length": "run_length-le",
    "is_digit": "is_digit-true",
    "run_end": "run_end-is",
    "all_shown": "all_shown-is",
    "ran_on": "ran_on-start",
    "from_zero": "from_zero-true",
    "same_word": "same_word-is",
}
FALLEN = re.compile(r"(?<![\w'.-])(%s)(?![\w'-])" % "|".join(FALL_TOGETHER))
STRING = re.compile(r'"(?:[^"\\]|\\.)*"')
# what began with an older name of the library
LIBRARY = [(re.compile(r"(?<![\w'.])getD(?=-)"), "get_or"), (re.compile(r"(?<![\w'.])getD(?![\w'-])"), "get_or")]


def snake(word):
    return re.sub(r"(?<=[a-z0-9])([A-Z])", lambda m: "_" + m.group(1).lower(), word)


def files(pattern):
    return sorted(p for p in TOP.glob(pattern) if "out" not in p.parts and not p.is_symlink())


def own_names():
    """The parts of names in specs/ and proofs/ that begin with a small letter and have a capital."""
    names = set()
    for p in files("crates/**/*.antt"):
        for line in p.read_text().splitlines():
            if not line.lstrip().startswith("--"):
                names |= set(CAMEL_FIELD.findall(line))
    return names


def turned(text, names):
    text = CAMEL_FIELD.sub(lambda m: snake(m.group(1)) if m.group(1) in names else m.group(1), text)
    return DASHED_WORD.sub(lambda m: m.group(1).replace("-", "_"), text)


def outside_strings(text, turn):
    done, out = 0, []
    for m in STRING.finditer(text):
        out += [turn(text[done : m.start()]), m.group(0)]
        done = m.end()
    return "".join(out) + turn(text[done:])


def main():
    for p in files("crates/**/*.antt"):
        text = p.read_text()
        new = FALLEN.sub(lambda m: FALL_TOGETHER[m.group(1)], text)
        for old, word in LIBRARY:
            new = old.sub(word, new)
        if new != text:
            p.write_text(new)
    names = own_names()
    for pattern in ["crates/**/*.antt", "crates/**/*.edit", "README.md", "docs/**/*.md"]:
        for p in files(pattern):
            text = p.read_text()
            new = turned(text, names)
            if new != text:
                p.write_text(new)
    for p in files("crates/*/src/**/*.rt"):
        text = p.read_text()
        new = "\n".join(line if line.lstrip().startswith("//") and '"' in line else outside_strings(line, lambda t: turned(t, names)) for line in text.split("\n"))
        if new != text:
            p.write_text(new)


main()
