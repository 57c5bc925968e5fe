#!/usr/bin/env python3
"""Brings the repository's own definitions and lemmas to the spelling of today's Rattle, once, right after port.py: words in snake case, primes as
apostrophes, and a relation written between its arguments like the type that it is.

usage: python3 tools/spell_names.py           at the top of the repository

It goes over the definitions, laws and proofs (crates/*/specs, crates/*/proofs), the ghost parts of the sources, the edits and the papers. What is
renamed are names in camel case, which nothing else has there: code, C names, file and module names, strings and quoted sentences keep their spelling.
"""
import os
import re
import sys

RELATIONS = {"isIn": "IsIn", "takenOrRefusedBy": "TakenOrRefusedBy"}
# port.py had turned the dash of these lemmas, so that they would have the name of the function that they speak of
LEMMAS = [(("awareness",), "one_more"), (("demands",), "out_of_range"), (("notice",), "too_long"), (("sameness",), "same_item"), (("sameness",), "same_row"), ((), "left_by")]
# what comes next to a name in a text: a part of a name joined by a dash is a name
PART = re.compile(r'"[^"\n]*"|[A-Za-z0-9_′\u2080-\u2089]+')
CAMEL = re.compile(r"[a-z][a-z0-9]*(?:[A-Z][A-Za-z0-9]*)+[′\u2080-\u2089]*$")


def snake(word):
    if word in RELATIONS:
        return RELATIONS[word]
    if CAMEL.match(word):
        word = re.sub(r"([a-z0-9])([A-Z])", r"\1_\2", word).lower()
    return word.replace("′", "'")


def turned(text):
    return PART.sub(lambda m: m[0] if m[0].startswith('"') else snake(m[0]), text)


def in_papers(text):
    """Only what stands between backquotes."""
    return re.sub(r"`[^`\n]+`", lambda m: turned(m[0]), text)


def files(top, ends):
    for folder, dirs, names in os.walk(top):
        dirs[:] = sorted(d for d in dirs if d not in ("out", "target", ".git"))
        for n in sorted(names):
            if n.endswith(ends):
                yield os.path.join(folder, n)


def read(path):
    with open(path, encoding="utf-8") as f:
        return f.read()


def write(path, text):
    with open(path, "w", encoding="utf-8") as f:
        f.write(text)


def lemmas(path, text):
    """A lemma that would have its function's name gets `_lem`, each in the crates where both are named."""
    for crates, old in LEMMAS:
        if any(f"crates/{c}/" in path for c in crates) or not crates:
            text = re.sub(rf"(?<![\w'.-]){old}(?![\w'-])", old + "_lem", text)
    return re.sub(r"(?<![\w'.-])Notice\.too_long(?![\w'-])", "Notice.too_long_lem", text)


def main():
    for path in [*files("crates", (".antt", ".rt", ".edit")), *files("compare/edits", (".edit",))]:
        text = read(path)
        new = turned(lemmas(path, text) if path.endswith(".antt") else text)
        if new != text:
            write(path, new)
    for path in [*files("docs", (".md",)), "README.md"]:
        text = read(path)
        if in_papers(text) != text:
            write(path, in_papers(text))
    return 0


if __name__ == "__main__":
    sys.exit(main())
