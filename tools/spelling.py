#!/usr/bin/env python3
"""Spells the repository's own words as today's Rattle does: definitions, lemmas, fields and variables of
specs/ and proofs/ in snake case (`cellBytes` becomes `cell_bytes`), wherever they stand: in .antt files, in
the ghost lines and the clauses of .rt files, and in must-fail edits.

usage: python3 tools/spelling.py        at the top of the repository, once, after port.py

Functions, types, constants and strings of src/ keep their names: a run of Rust's code has no such word
outside its strings, and strings are left alone. Words that a file takes from the kit keep theirs.
"""

import os
import re
import sys

WORD = re.compile(r"(?<![A-Za-z0-9_])[a-z][a-z0-9_]*(?<=[a-z0-9])[A-Z][A-Za-z0-9_]*")
STRING = re.compile(r'b?"(?:\\.|[^"\\])*"')
# Lemmas that port.py joined by `_`, and that would now have the name of a definition.
LEMMA = re.compile(r"(?<![\w.'-])(go_on|walk_refused|node_at|row_put|read_number|item_in|word_below|low_bit|set_words)(?![\w.'-])")
KIT = re.compile(r"use ((?!Rattle\.)[\w.-]+|Rattle\.std[\w.-]*)\.\{([^}]*)\}")
kept = set()


def snake(word):
    if word in kept:
        return word
    return re.sub(r"(?<![_A-Z])[A-Z]", lambda m: "_" + m.group(0), word).lower()


def plain(text):
    return WORD.sub(lambda m: snake(m.group(0)), text)


def outside_strings(text):
    parts, last = [], 0
    for m in STRING.finditer(text):
        parts += [plain(text[last : m.start()]), m.group(0)]
        last = m.end()
    return "".join(parts + [plain(text[last:])])


def texts():
    for folder, folders, files in os.walk("crates"):
        folders[:] = sorted(d for d in folders if d != "out")
        for name in sorted(files):
            if name.endswith((".antt", ".rt", ".edit")):
                path = os.path.join(folder, name)
                with open(path, encoding="utf-8") as f:
                    yield path, f.read()


def main():
    for path, text in texts():
        for names in KIT.findall(text):
            kept.update(WORD.findall(names[1]))
    changed = 0
    for path, text in texts():
        if path.endswith(".antt"):
            new = plain(LEMMA.sub(lambda m: m.group(0).replace("_", "-"), text))
        else:
            new = outside_strings(text)
        if new != text:
            changed += 1
            with open(path, "w", encoding="utf-8") as f:
                f.write(new)
    print(f"spelling: {changed} files changed; kept as the kit's: {' '.join(sorted(kept)) or 'none'}", file=sys.stderr)


if __name__ == "__main__":
    main()
