"""Building blocks of trees and of blocks of properties.

A structure block, or a block of properties, is put together of parts: the bytes of tokens, and HERE where a place is
to be marked. In a refused tree HERE is the place of the refusal, in an accepted one each container.
"""

from vectors.properties import cells

HERE = object()

END_NODE = cells(2)
NOP = cells(4)
END = cells(9)

# `x-reg` has `reg` as its ending, so that two offsets lead to that name.
STRINGS = b"name\0reg\0size\0x-reg\0"
ENDING = STRINGS.index(b"x-reg") + 2

# The structure block of the trees here stands directly behind the header.
START = 40

FIELDS = (
    "magic",
    "total",
    "structure_at",
    "strings_at",
    "reserve_at",
    "version",
    "last_compatible",
    "boot_cpu",
    "strings_size",
    "structure_size",
)


def padded(data, fill=b"\0"):
    """The data, and the fill's bytes up to a multiple of four."""
    return data + (fill * 3)[: -len(data) % 4]


def begin(name, fill=b"\0"):
    return cells(1) + padded(name + b"\0", fill)


def prop(name, value=b"", length=None, fill=b"\0"):
    """A property. `name` is one of STRINGS, or an offset; `length` where it is to be wrong."""
    offset = name if isinstance(name, int) else STRINGS.index(name + b"\0")
    return cells(3, len(value) if length is None else length, offset) + padded(value, fill)


def joined(parts):
    """The parts' bytes, and the places of HERE among them."""
    data = b""
    places = []
    for part in parts:
        if part is HERE:
            places.append(len(data))
        else:
            data += part
    return data, places


def header(**fields):
    return cells(*(fields[name] for name in FIELDS))


def tree(structure, strings=STRINGS, **changes):
    """A tree of header, structure block and strings block, without gaps; `changes` where a field is to differ."""
    fields = {
        "magic": 0xD00DFEED,
        "total": START + len(structure) + len(strings),
        "structure_at": START,
        "strings_at": START + len(structure),
        "reserve_at": START,
        "version": 17,
        "last_compatible": 16,
        "boot_cpu": 0,
        "strings_size": len(strings),
        "structure_size": len(structure),
    }
    fields.update(changes)
    return header(**fields) + structure + strings


def accepted_line(places):
    """The line of a tree whose containers stand at these places."""
    first, second = (places + [0, 0])[:2]
    return "t 0 0 %d %d %d" % (min(len(places), 2), first, second)


def refused_line(number, place):
    return "t %d %d 0 0 0" % (number, place)


def case(number, *parts, **layout):
    """A tree of these parts, and the line that is expected of it; number 0 where it is to be accepted."""
    structure, places = joined(parts)
    places = [START + place for place in places]
    line = refused_line(number, *places) if number else accepted_line(places)
    return "t", tree(structure, **layout), line


def root(*parts):
    """The parts of a whole structure block: a root that has these parts in it, and the end token."""
    return [begin(b""), *parts, END_NODE, END]


def node(name, *parts):
    return [begin(name), *parts, END_NODE]


def held(cases, answer):
    """(kind, bytes, line) of every case, held to what is expected of it. What two groups share is given once.

    A case is (kind, bytes, expected), where `expected` is the whole line, the refusal number, or None for whatever
    the model says; `answer` gives the model's numbers.
    """
    seen = set()
    for kind, data, expected in cases:
        numbers = answer(data)
        line = " ".join(map(str, [kind, *numbers]))
        if expected is not None and expected not in (line, numbers[0]):
            raise ValueError("the model answers %r to %s %s, not %r" % (line, kind, data.hex(), expected))
        if data not in seen:
            seen.add(data)
            yield kind, data, line


def read_built(trees):
    """The committed trees that dtc built (tests/trees), by name."""
    return {path.stem: path.read_bytes() for path in sorted(trees.glob("*.dtb"))}
