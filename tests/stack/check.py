"""Holds yebkuzan_write_unit to A5: no array of its own, and little stack.

    python3 tests/stack/check.py           neither the sources of the function and of all that it calls nor its compiled code in the
                                           archive target/staticlib/libcapi.a have an array; the stack that the compiled code can
                                           use is at most what include/yebkuzan.h says
    python3 tests/stack/check.py --wrong   sources and compiled writers that are wrong in one place are each found out

Compiled code has no array where no instruction names the stack pointer or data of the archive: what is left on the stack are return
addresses and pushed registers, and these are counted, on every path. The archive is that of ./archive, for x86-64. It needs gcc and objdump.
Standard library only, Python 3.9 or later.
"""
import re
import subprocess
import sys
import tempfile
from pathlib import Path

ROOT = Path(__file__).resolve().parents[2]
ARCHIVE = ROOT / "target/staticlib/libcapi.a"
HEADER = ROOT / "include/yebkuzan.h"
WRITER = "yebkuzan_write_unit"
WORD = 8


def bound(text):
    """The bytes that the header promises in the comment before the writer."""
    comment = text[: text.index(f" {WRITER}(")].rsplit("/*", 1)[1]
    found = re.findall(r"at most (\d+) bytes of stack", " ".join(comment.replace("*", " ").split()))
    if len(found) != 1:
        raise SystemExit(f"{HEADER}: no bytes of stack in the comment of {WRITER}")
    return int(found[0])


# Sources.


def without_clauses(text):
    """The text without its `requires` and `ensures`, each from its word to the brace that closes it."""
    kept, at = [], 0
    for head in re.finditer(r"\b(?:requires|ensures)\b\*?(?: \w+)? \{", text):
        if head.start() < at:
            continue
        kept.append(text[at : head.start()])
        at, depth = head.end(), 1
        while depth:
            depth += {"{": 1, "}": -1}.get(text[at], 0)
            at += 1
    return "".join([*kept, text[at:]])


def functions(crate, text):
    """Each function of a source by its crate and name: its signature and body, without comments and contracts."""
    text = re.sub(r"//[^\n]*", "", text)
    text = without_clauses(text)
    found = {}
    for head in re.finditer(r"\bfn (\w+)\(", text):
        at = depth = 0
        for at in range(text.index("{", head.end()), len(text)):
            depth += {"{": 1, "}": -1}.get(text[at], 0)
            if depth == 0:
                break
        found[crate, head[1]] = text[head.start() : at + 1]
    return found


def sources():
    found = {}
    for path in sorted(ROOT.glob("crates/*/src/**/*.rt")):
        found.update(functions(path.relative_to(ROOT / "crates").parts[0], path.read_text()))
    return found


BUILT_IN = {("", "len"), ("", "rev"), ("u64", "from"), ("", "Ok"), ("", "Err")}


def called(crate, text):
    """What a function calls, but for what is built in: the length of a slice, a range backwards, a number widened, an answer or a refusal.
    A `u32` is made from a refusal."""
    calls = re.findall(r"\b(?:(\w+)::)?(\w+)\(", text[text.index("(") :])
    return [("refusal" if path == "u32" else path or crate, name) for path, name in calls if (path, name) not in BUILT_IN]


def source_faults(known):
    """The functions that the writer reaches and that have an array: a type or a literal in brackets that is no slice and no index."""
    reached, left, faults = set(), [("capi_c", WRITER)], []
    while left:
        one = left.pop()
        name = "::".join(one)
        if one not in known:
            faults.append(f"{name} has no source")
        elif one not in reached:
            reached.add(one)
            left += called(one[0], known[one])
            if re.search(r"(?<!\w)\[", re.sub(r"&(mut )?\[\w+\]", "", known[one])):
                faults.append(f"{name} has an array")
    return reached, faults


# Compiled code.


def code(binary):
    """Each function's instructions, with the symbol that each names, if any; `?` for a call by a register."""
    run = subprocess.run(["objdump", "-dr", "--no-show-raw-insn", binary], capture_output=True, text=True, check=True)
    found, name = {}, None
    for line in run.stdout.splitlines():
        begin = re.match(r"[0-9a-f]+ <([^>]+)>:", line)
        moved = re.match(r"\s+[0-9a-f]+: (R_X86_64_\w+)\s+([^-+]+)", line)
        instruction = re.match(r"\s+[0-9a-f]+:\t([^#]+)", line)
        if begin:
            name = begin[1]
            found[name] = []
        elif moved and found[name]:
            found[name][-1][1] = moved[2]
        elif instruction:
            text = instruction[1].split("<")[0].strip()
            target = re.search(r"<([^>+]+)[^>]*>", line)
            found[name].append([text, target[1] if target else "?" if "*" in text else None])
    return found


def code_faults(found, name, inside=()):
    """The bytes of stack that a function can use, its return address included, and what is wrong with it."""
    if name in inside:
        return 0, [f"{name} calls itself"]
    if name not in found:
        return 0, [f"{inside[-1] if inside else 'the archive'} calls {name}, which is not there"]
    pushed, deepest, faults = 0, 0, []
    for text, target in found[name]:
        kind = text.split()[0]
        if kind.startswith("push"):
            pushed += WORD
        elif re.search(r"%[re]?sp\b|^(enter|leave)", text):
            faults.append(f"{name} names the stack pointer: {text}")
        if target is None or (target == name and kind.startswith("j")):
            continue
        if re.match(r"call|j", kind):
            below, more = code_faults(found, target, (*inside, name))
            deepest = max(deepest, below)
            faults += more
        else:
            faults.append(f"{name} uses {target}: {text}")
    return WORD + pushed + deepest, faults


def faults_of(binary, most, name):
    found = code(binary)
    used, faults = code_faults(found, name)
    return used, faults + [f"{name} can use {used} bytes of stack, of at most {most}"] * (used > most)


def check():
    most = bound(HEADER.read_text())
    reached, faults = source_faults(sources())
    used, more = faults_of(ARCHIVE, most, WRITER)
    if faults + more:
        raise SystemExit("\n".join(faults + more))
    print(f"{WRITER}: {len(reached)} functions in source and the compiled code have no array; {used} bytes of stack, of at most {most}")


# What is wrong in one place.

WRONG_SOURCES = [
    ("unit", "write_hex", "let mut rest = number;", "let mut digits = [0; 16]; let mut rest = number;"),
    ("unit", "write_hex", "let mut rest = number;", "let mut digits: [u8; 16] = zeros(); let mut rest = number;"),
    ("unit", "write_hex", "characters::hex_digit(rest)", "characters::entries()[rest % 16]"),
    ("unit", "digit_count", "let mut count = 1;", "let mut count = [1];"),
    ("unit", "write_unit", "write_hex(u64::from(number), buffer, 0)", "write_hex(number as u64, &mut [0; 8], 0)"),
    ("unit", "write_hex", "let mut rest = number;", "let mut text = Text::blank(); let mut rest = number;"),
]


def wrong():
    most = bound(HEADER.read_text())
    missed = []
    for crate, name, old, new in WRONG_SOURCES:
        known = sources()
        if known[crate, name].count(old) != 1:
            raise SystemExit(f"{crate}::{name} has no one '{old}'")
        known[crate, name] = known[crate, name].replace(old, new)
        if not source_faults(known)[1]:
            missed.append(f"not found out: {crate}::{name} with {new}")
    if not faults_of(ARCHIVE, WORD - 1, WRITER)[1]:
        missed.append(f"not found out: a header that says {WORD - 1} bytes")
    writers = ROOT / "tests/stack/writers.c"
    names = re.findall(r"^\w+ \*?((?:right|wrong)_\w+)\(uint32_t", writers.read_text(), re.M)
    with tempfile.TemporaryDirectory() as folder:
        for level in ("-O2", "-Os"):
            binary = Path(folder, "writers.o")
            flags = ["-std=gnu11", level, "-Wall", "-Wextra", "-Werror", "-fno-stack-protector", "-fcf-protection=none", f"-I{ROOT / 'include'}"]
            subprocess.run(["gcc", *flags, "-c", "-o", binary, writers], check=True)
            for name in names:
                faults = faults_of(binary, most, name)[1]
                if bool(faults) != name.startswith("wrong_"):
                    missed.append(f"{name} with gcc {level}: {faults or 'not found out'}")
    if missed:
        raise SystemExit("\n".join(missed))
    count = sum(name.startswith("wrong_") for name in names)
    print(f"{len(WRONG_SOURCES)} wrong sources, {count} wrong writers and a wrong figure are found out")


if __name__ == "__main__":
    wrong() if "--wrong" in sys.argv[1:] else check()
