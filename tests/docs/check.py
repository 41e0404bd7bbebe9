#!/usr/bin/env python3
"""What README.md and docs/ cite is there: files, functions, must-fail edits, and the names said to stand in a file.

A name between backquotes is looked at where its form says what it is:
  crate/specs/File.antt    a file below crates/ (specs, proofs, src)
  crate::function          a function of that crate
  crate/label              a must-fail edit, where the words before it say `edit`; a label without a crate is of the crate named last
  name, other (`crate/specs/File.antt`)    names that stand in that file
And README.md's table has every listed crate, and no other; what a must-fail edit replaces stands once in its file, which the gate would
find out some minutes later. docs/PORT.md and docs/DESIGN-PASS.md are left out: they say what stood before."""
import pathlib
import re
import sys

TOP = pathlib.Path(__file__).resolve().parents[2]
CRATES = TOP / "crates"
PATH = re.compile(r"[a-z_]+/(?:specs|proofs|src)/[\w./+-]+")
QUOTED = re.compile(r"`([^`]+)`")
faults = []


def listed():
    lines = (line.split("#")[0] for line in (TOP / "crates.txt").read_text().splitlines())
    return [line.split(":")[0].split()[0] for line in lines if ":" in line]


def fault(document, line, words):
    faults.append(f"{document}:{line}: {words}")


def cited_file(quoted):
    """The file that a quotation names, if it names one below crates/ or at the top."""
    if PATH.fullmatch(quoted):
        return CRATES / quoted
    if re.fullmatch(r"(?:docs|tests|bench|examples|include|crates)/[\w./*-]+", quoted):
        return TOP / quoted
    return None


def check_paths(document, line, text):
    for quoted in QUOTED.findall(text):
        path = cited_file(quoted)
        if path is not None and not list(TOP.glob(str(path.relative_to(TOP)))):
            fault(document, line, f"no file {quoted}")


def check_functions(document, line, text, crates):
    for crate, function in re.findall(r"`([a-z_]+)::([a-z_]+)`", text):
        if crate in crates:
            code = "\n".join(p.read_text() for p in (CRATES / crate / "src").glob("*.rt"))
            if not re.search(rf"\bfn {function}\b", code):
                fault(document, line, f"no function {crate}::{function}")


def check_edits(document, line, text, crates):
    for listing in re.findall(r"\bedits? ((?:of )?`[^;|.]*)", text):
        crate = None
        for quoted in QUOTED.findall(listing.split("vectors")[0]):
            named = re.fullmatch(r"(?:([a-z_]+)/)?([a-z0-9_*]+)", quoted)
            if not named or (named.group(1) and named.group(1) not in crates):
                break
            if not named.group(1) and named.group(2) in crates:
                crate = named.group(2)
                continue
            crate = named.group(1) or crate
            if crate is None:
                break
            if not list((CRATES / crate / "must-fail").glob(named.group(2) + ".edit")):
                fault(document, line, f"no edit {crate}/{named.group(2)}")


def check_names(document, line, text):
    """`name`, `other` (`crate/specs/File.antt`): each of the names before the file stands in it."""
    for names, path in re.findall(r"((?:`[^`]+`(?:, | and ))*`[^`]+`) \(`(" + PATH.pattern + ")`", text):
        file = CRATES / path
        if not file.is_file():
            continue
        words = set(re.findall(r"[\w'-]+", file.read_text()))
        for name in QUOTED.findall(names):
            if name not in words:
                fault(document, line, f"{name} does not stand in {path}")


def check_table(crates):
    rows = re.findall(r"^\| `([a-z_]+)` \|", (TOP / "README.md").read_text(), re.M)
    for crate in sorted(set(crates) ^ set(rows)):
        fault("README.md", 1, f"the table of crates and crates.txt differ in {crate}")


def check_replaced():
    for edit in sorted(CRATES.glob("*/must-fail/*.edit")):
        file, code, old = None, "", ""
        for line, text in enumerate(edit.read_text().splitlines(), 1):
            kind, _, words = text.partition(": ")
            if kind == "file":
                file = edit.parents[1] / words
                code = file.read_text()
            if kind == "old":
                old = words
                if code.count(old) != 1:
                    fault(edit.relative_to(TOP), line, f"what it replaces does not stand once in {file.relative_to(TOP)}")
            # A further pair applies to what the earlier ones made.
            if kind == "new":
                code = code.replace(old, words)


def main():
    crates = listed()
    check_table(crates)
    check_replaced()
    for document in [TOP / "README.md", *sorted(it for it in (TOP / "docs").rglob("*.md") if it.name not in ("PORT.md", "DESIGN-PASS.md"))]:
        name = document.relative_to(TOP)
        for line, text in enumerate(document.read_text().splitlines(), 1):
            check_paths(name, line, text)
            check_functions(name, line, text, crates)
            check_edits(name, line, text, crates)
            check_names(name, line, text)
    print("\n".join(faults) if faults else "documents and edits: what they cite is there")
    sys.exit(1 if faults else 0)


main()
