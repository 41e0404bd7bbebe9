"""Holds include/yebkuzan.h to the Rattle code, and the archive to both.

    python3 tests/header/check.py           constants, structs and functions of the header are those of crates/, and the exports of capi_c
                                            have the signatures and clauses of the functions of capi; a C compiler lays the
                                            structs out as the code does, and takes the header as C99 and as C++; the archive
                                            target/staticlib/libcapi.a defines those functions and needs no symbol that
                                            docs/LINKING.md does not list; calls.c calls them all
    python3 tests/header/check.py --wrong   headers, exports and archives that are wrong in one place are each found out

The archive is that of ./archive. It needs gcc, g++ and nm. Standard library only, Python 3.9 or later.
"""
import re
import subprocess
import sys
import tempfile
from pathlib import Path

# No compiled files beside the sources.
sys.dont_write_bytecode = True

import header  # noqa: E402
import sources  # noqa: E402
from interface import differences, layout, struct_layout  # noqa: E402

ROOT = Path(__file__).resolve().parents[2]
HEADER = ROOT / "include/yebkuzan.h"
ARCHIVE = ROOT / "target/staticlib/libcapi.a"
LINKING = ROOT / "docs/LINKING.md"
COMPILERS = [["gcc", "-std=c99"], ["g++", "-std=c++98", "-Wno-long-long"], ["g++", "-std=c++17"]]


def header_faults(wanted, text):
    try:
        found = header.interface(text)
    except (ValueError, AttributeError, KeyError) as error:
        return [f"the header does not read: {error!r}"]
    return differences(wanted, found)


def asserts(wanted):
    """C11 that holds the size of each struct, and offset and size of each field, to those of the code."""
    lines = ['#include "yebkuzan.h"']
    for name, fields in wanted.structs.items():
        size, _, offsets = struct_layout(wanted, name)
        lines.append(f'_Static_assert(sizeof({name}) == {size}, "{name}");')
        for field, kind in fields:
            size, _ = layout(wanted, kind)
            lines.append(f'_Static_assert(offsetof({name}, {field}) == {offsets[field]}, "{name}.{field}");')
            lines.append(f'_Static_assert(sizeof((({name} *)0)->{field}) == {size}, "{name}.{field}");')
    return "\n".join(lines) + "\n"


def compile_faults(command, text, include):
    flags = ["-Wall", "-Wextra", "-Werror", "-pedantic", "-fsyntax-only", f"-I{include}"]
    language = "c++" if command[0] == "g++" else "c"
    run = subprocess.run([*command, *flags, "-x", language, "-"], input=text, capture_output=True, text=True)
    return [run.stderr] if run.returncode else []


def layout_faults(wanted, text):
    with tempfile.TemporaryDirectory() as folder:
        Path(folder, "yebkuzan.h").write_text(text)
        faults = compile_faults(["gcc", "-std=c11"], asserts(wanted), folder)
        for command in COMPILERS:
            faults += compile_faults(command, '#include "yebkuzan.h"\n', folder)
    return faults


def symbols(*flags):
    run = subprocess.run(["nm", "-P", *flags, ARCHIVE], capture_output=True, text=True, check=True)
    return {line.split()[0] for line in run.stdout.splitlines() if " " in line}


def listed():
    """The symbols that docs/LINKING.md says the host gives."""
    section = LINKING.read_text().split("## What the host gives", 1)[1].split("\n## ", 1)[0]
    return set(re.findall(r"^- `(\w+)`", section, re.M))


def archive_faults(wanted, defined, needed, given):
    exported = set(wanted.functions)
    return (
        [f"the archive has no {name}" for name in sorted(exported - defined)]
        + [f"the archive exports {name}" for name in sorted(defined - exported)]
        + [f"the archive needs {name}, which docs/LINKING.md does not list" for name in sorted(needed - defined - given)]
        + [f"docs/LINKING.md lists {name}, which the archive does not need" for name in sorted(given - needed)]
    )


def call_faults():
    with tempfile.TemporaryDirectory() as folder:
        program = Path(folder, "calls")
        source = ROOT / "tests/header/calls.c"
        subprocess.run(["gcc", "-std=c99", "-Wall", "-Wextra", "-Werror", f"-I{HEADER.parent}", "-o", program, source, ARCHIVE], check=True)
        run = subprocess.run([program, ROOT / "tests/trees/features.dtb"], capture_output=True, text=True)
    return [run.stderr or f"calls.c ends with {run.returncode}"] if run.returncode else []


# Each a change of the header's text, and what it shows.
WRONG_HEADERS = [
    ("a refusal's number", "YEBKUZAN_REFUSAL_MAGIC 2u", "YEBKUZAN_REFUSAL_MAGIC 3u"),
    ("a refusal missing", "#define YEBKUZAN_REFUSAL_LEVEL 15u", "#define YEBKUZAN_REFUSAL_MODE 15u"),
    ("a limit", "YEBKUZAN_LARGEST_TREE 65536u", "YEBKUZAN_LARGEST_TREE 65535u"),
    ("a level", "YEBKUZAN_LEVEL_SYSTEM 1u", "YEBKUZAN_LEVEL_SYSTEM 2u"),
    ("a bit of given", "YEBKUZAN_GIVEN_HV_SUPPORT 0x004u", "YEBKUZAN_GIVEN_HV_SUPPORT 0x008u"),
    ("a field's width", "uint16_t slots[", "uint32_t slots["),
    ("a field's name", "uint64_t coprocessor;", "uint64_t processor;"),
    ("an array's length", "uint8_t raw[6];", "uint8_t raw[5];"),
    ("a field missing", "    uint32_t phandle;\n", ""),
    ("a struct's fields swapped", "    uint64_t hfscr;\n    uint64_t fscr;", "    uint64_t fscr;\n    uint64_t hfscr;"),
    ("a struct of another name", "} YebkuzanPage;", "} YebkuzanSegmentPage;"),
    ("a function missing", "YebkuzanReach yebkuzan_reach_table(YebkuzanRecord record);", ""),
    ("a function too many", "#ifdef __cplusplus\n}", "uint32_t yebkuzan_formed(YebkuzanRecord record);\n#ifdef __cplusplus\n}"),
    ("an answer's type", "YebkuzanPiFeatures yebkuzan_pi_features(", "YebkuzanPaFeatures yebkuzan_pi_features("),
    ("a parameter's type", "yebkuzan_write_unit(uint32_t unit", "yebkuzan_write_unit(uint64_t unit"),
    ("parameters swapped", "uint32_t position, uint8_t *out, size_t out_length", "uint8_t *out, size_t out_length, uint32_t position"),
    ("a buffer that is not const", "yebkuzan_read(const uint8_t *tree", "yebkuzan_read(uint8_t *tree"),
    ("a buffer that is const", "uint32_t unit, uint8_t *out", "uint32_t unit, const uint8_t *out"),
    ("a length missing", "yebkuzan_read_unit(const uint8_t *text, size_t text_length)", "yebkuzan_read_unit(const uint8_t *text)"),
    ("a length of 32 bits", "size_t tree_length);", "uint32_t tree_length);"),
    ("a place of 32 bits", "    size_t place;", "    uint32_t place;"),
    ("the length of a property's name", "YEBKUZAN_MOST_PROPERTY_NAME 63u", "YEBKUZAN_MOST_PROPERTY_NAME 31u"),
    ("an edition", "YEBKUZAN_EDITION_LATER 1u", "YEBKUZAN_EDITION_LATER 2u"),
    ("the later bytes' number", "YEBKUZAN_LATER_BYTES 230u", "YEBKUZAN_LATER_BYTES 229u"),
    ("the later bytes missing", "    uint8_t raw_later[YEBKUZAN_LATER_BYTES];\n", ""),
    (
        "two flags swapped",
        "    uint8_t copy_paste;\n    uint8_t radix_translation;",
        "    uint8_t radix_translation;\n    uint8_t copy_paste;",
    ),
    ("the edition missing", ", uint32_t edition);", ");"),
    ("the edition in a byte", ", uint32_t edition);", ", uint8_t edition);"),
    (
        "the edition first",
        "const uint8_t *value, size_t value_length, uint32_t edition",
        "uint32_t edition, const uint8_t *value, size_t value_length",
    ),
    ("another table's answer", "YebkuzanRadixEncodings yebkuzan_radix_encodings(", "YebkuzanSizes yebkuzan_radix_encodings("),
    (
        "two buffers swapped",
        "const uint8_t *list, size_t list_length, const uint8_t *text, size_t text_length",
        "const uint8_t *text, size_t text_length, const uint8_t *list, size_t list_length",
    ),
]

# Changes that a C compiler finds by the layout of the structs.
WRONG_LAYOUTS = [
    ("a field's width", "uint16_t slots[", "uint32_t slots["),
    ("fields swapped", "    uint32_t exponent;\n    uint32_t encoding;", "    uint32_t encoding;\n    uint32_t exponent;"),
    ("a place of 32 bits", "    size_t place;", "    uint32_t place;"),
    (
        "AP and exponent swapped",
        "    uint32_t ap; /* 0 to 7 */\n    uint32_t exponent;",
        "    uint32_t exponent;\n    uint32_t ap; /* 0 to 7 */",
    ),
    ("fewer later bytes", "YEBKUZAN_LATER_BYTES 230u", "YEBKUZAN_LATER_BYTES 222u"),
    ("a packed struct", "#include <stdint.h>", "#include <stdint.h>\n#pragma pack(1)"),
]


# Changes of the exports in capi_c, each of which is then not the function of capi.
WRONG_EXPORTS = [
    ("an export of another name", "fn yebkuzan_words(", "fn yebkuzan_word("),
    ("an export of another clause", "permitted_of r level g }", "permitted_of r 0 g }"),
    ("an export of another parameter", "edition: u32", "edition: u64"),
]


def altered(text, old, new):
    if old not in text:
        raise SystemExit(f"no text {old!r} to change")
    return text.replace(old, new, 1)


def wrong(wanted, text):
    """The changes that are not found out, and how many were tried."""
    missed, tried = [], 0
    for what, old, new in WRONG_HEADERS:
        tried += 1
        if not header_faults(wanted, altered(text, old, new)):
            missed.append(what)
    for what, old, new in WRONG_LAYOUTS:
        tried += 1
        if not layout_faults(wanted, altered(text, old, new)):
            missed.append(f"{what}, by the compiler")
    for what, old, new in WRONG_EXPORTS:
        tried += 1
        code = sources.Sources(ROOT / "crates")
        code.texts["capi_c"] = altered(code.texts["capi_c"], old, new)
        try:
            code.same_clauses()
            missed.append(what)
        except ValueError:
            pass
    exported = set(wanted.functions)
    for what, defined, needed in [
        ("a function that is not in the archive", exported - {"yebkuzan_read"}, {"memcpy"}),
        ("a function of another name in the archive", exported | {"yebkuzan_walk"}, {"memcpy"}),
        ("a symbol that the host does not give", exported, {"memcpy", "malloc"}),
    ]:
        tried += 1
        if not archive_faults(wanted, defined, needed, {"memcpy"}):
            missed.append(what)
    return missed, tried


def main():
    if sys.argv[1:] not in ([], ["--wrong"]):
        raise SystemExit(__doc__)
    wanted, text = sources.interface(ROOT / "crates"), HEADER.read_text()
    if sys.argv[1:]:
        missed, tried = wrong(wanted, text)
        if missed:
            raise SystemExit("not found out: " + "; ".join(missed))
        print(f"header: {tried} wrong headers, exports and archives, each found out")
        return
    faults = header_faults(wanted, text) + layout_faults(wanted, text)
    faults += archive_faults(wanted, symbols("-g", "--defined-only"), symbols("-u"), listed())
    faults = faults or call_faults()
    if faults:
        raise SystemExit("\n".join(faults))
    print(f"header: {len(wanted.constants)} constants, {len(wanted.structs)} structs and {len(wanted.functions)} functions as in the code")


if __name__ == "__main__":
    main()
