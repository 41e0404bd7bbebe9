"""Vectors of kind `t` (vectors/trees.py), most of them damaged: headers, layouts of the blocks, truncated trees, cells
exchanged, and trees and damage by chance.

Header fields are perturbed alone, and together with those that are checked before or after them, so that the order of
the checks shows.
"""

from vectors.blocks import (
    END,
    END_NODE,
    FIELDS,
    HERE,
    NOP,
    START,
    STRINGS,
    accepted_line,
    begin,
    held,
    joined,
    node,
    prop,
    read_built,
    refused_line,
    root,
    tree,
)
from vectors.chance import Chance
from vectors.properties import cells
from vectors.trees import CONTAINER, TREES, answer

SEED = 20240202

# A small tree with every token in it, and with a container.
SMALL_PARTS = root(prop(b"reg", b"12345"), NOP, HERE, begin(CONTAINER), prop(b"size"), END_NODE)
SMALL, SMALL_PLACES = joined(SMALL_PARTS)
TOTAL = START + len(SMALL) + len(STRINGS)
STRINGS_AT = START + len(SMALL)
GOOD = accepted_line([START + place for place in SMALL_PLACES])


def small(**changes):
    """The small tree, with changes in its header."""
    return tree(SMALL, **changes)


def changed(line, **changes):
    return "t", small(**changes), line


# Header

LENGTH, NO_MAGIC = refused_line(1, 0), refused_line(2, 0)
SIZE, TOTAL_LENGTH = refused_line(3, 4), refused_line(1, 4)
OLD, NEW = refused_line(4, 20), refused_line(4, 24)
STRUCTURE_BOUNDS, STRINGS_BOUNDS = refused_line(5, 8), refused_line(5, 12)

# (field, value, line) of each field, in the order of the checks; GOOD where the value is not to matter.
ALONE = (
    *(("magic", value, NO_MAGIC) for value in (0, 0xEDFE0DD0, 0xD00DFEEC, 0xD00DFFED, 0xD00CFEED, 0x500DFEED)),
    *(("total", value, SIZE) for value in (65537, 65536 + TOTAL, 2**31 + TOTAL, 2**32 - 1)),
    *(("total", value, TOTAL_LENGTH) for value in (0, 39, TOTAL + 1, TOTAL + 4, 32768, 65536)),
    *(("total", value, STRINGS_BOUNDS) for value in (STRINGS_AT, STRINGS_AT + 1, TOTAL - 1)),
    *(("total", value, STRUCTURE_BOUNDS) for value in (40, 41, 44, STRINGS_AT - 4, STRINGS_AT - 1)),
    *(("version", value, OLD) for value in (0, 1, 3, 16)),
    *(("version", value, GOOD) for value in (18, 256, 0x11000000, 2**31, 2**32 - 1)),
    *(("last_compatible", value, NEW) for value in (18, 256, 0x10000000, 2**31 + 16, 2**32 - 1)),
    *(("last_compatible", value, GOOD) for value in (0, 2, 15, 17)),
    *(("structure_at", value, STRUCTURE_BOUNDS) for value in (0, 4, 36, 37, 38, 39, 41, 42, 43, 64, TOTAL, TOTAL + 4)),
    *(("structure_at", value, refused_line(6, value)) for value in (44, 60)),
    *(("structure_at", value, STRUCTURE_BOUNDS) for value in (2**16, 2**31, 2**32 - len(SMALL), 2**32 - 4, 2**32 - 1)),
    *(("structure_size", len(SMALL) + value, STRUCTURE_BOUNDS) for value in (1, 2, 3, 24, 40, 2**16, 2**31)),
    *(("structure_size", len(SMALL) + value, refused_line(6, STRINGS_AT - 4)) for value in (4, 20)),
    *(("structure_size", len(SMALL) - value, STRUCTURE_BOUNDS) for value in (1, 2, 3)),
    *(("structure_size", value, STRUCTURE_BOUNDS) for value in (1, 2, 3, 2**32 - 1, 2**32 - 4, 2**32 - 40, 2**32 - 36)),
    *(("strings_at", value, STRINGS_BOUNDS) for value in (0, 1, 36, 39, STRINGS_AT + 1, TOTAL - 1, TOTAL, TOTAL + 1)),
    *(("strings_at", value, STRINGS_BOUNDS) for value in (2**31, 2**32 - 1, 2**32 - len(STRINGS), 2**32 - 8)),
    *(("strings_size", value, STRINGS_BOUNDS) for value in (len(STRINGS) + 1, TOTAL, 2**16, 2**31, 2**32 - 1)),
    *(("strings_size", 2**32 - STRINGS_AT + value, STRINGS_BOUNDS) for value in (0, 40, STRINGS_AT - 1)),
    *(("reserve_at", value, GOOD) for value in (0, 39, 43, TOTAL, 2**31, 2**32 - 1)),
    *(("boot_cpu", value, GOOD) for value in (1, 8, 2**31, 2**32 - 1)),
)

# One value of each field that is refused, in the order of the checks.
IN_ORDER = (
    ("magic", 0xD00DFEEF, NO_MAGIC),
    ("total", 65537, SIZE),
    ("total", 39, TOTAL_LENGTH),
    ("total", TOTAL + 1, TOTAL_LENGTH),
    ("version", 16, OLD),
    ("last_compatible", 18, NEW),
    ("structure_at", 38, STRUCTURE_BOUNDS),
    ("structure_size", 2**32 - 4, STRUCTURE_BOUNDS),
    ("strings_at", 39, STRINGS_BOUNDS),
    ("strings_size", 2**32 - 1, STRINGS_BOUNDS),
)


def headers():
    yield changed(GOOD)
    for field, value, line in ALONE:
        yield changed(line, **{field: value})
    # Offset and size of a block at once: a sum that would wrap into the tree, and blocks at the very end.
    top = 2**32 - 4
    for at, size in ((48, 2**32 - 8), (2**31, 2**31), (2**31, 2**31 + 40), (top, 44), (top, 4), (top, 0)):
        yield changed(STRUCTURE_BOUNDS, structure_at=at, structure_size=size)
        yield changed(STRINGS_BOUNDS, strings_at=at, strings_size=size)
    yield changed(STRINGS_BOUNDS, strings_at=2**32 - 1, strings_size=41)
    yield changed(STRUCTURE_BOUNDS, structure_at=42, structure_size=len(SMALL) - 2)
    yield changed(STRUCTURE_BOUNDS, structure_at=TOTAL - 4, structure_size=8)
    yield changed(refused_line(6, TOTAL - 4), structure_at=TOTAL - 4, structure_size=4)


def headers_in_order():
    """Two fields at once, and all fields from one on: the earliest check decides."""
    for place, (field, value, line) in enumerate(IN_ORDER):
        for other, other_value, _ in IN_ORDER[place + 1 :]:
            if other != field:
                yield changed(line, **{field: value, other: other_value})
        changes = {name: other_value for name, other_value, _ in reversed(IN_ORDER[place:])}
        yield changed(line, **changes)
    # A walk that would be refused too comes after all of them.
    faulty, _ = joined([begin(b"n"), prop(99), cells(77)])
    yield "t", tree(faulty), refused_line(7, START)
    for field, value, line in IN_ORDER:
        yield "t", tree(faulty, **{field: value}), line


def headers_short():
    """Fewer than 40 bytes come before everything in them."""
    for length in (0, 1, 4, 20, 39):
        yield "t", bytes(length), LENGTH
        yield "t", b"\xff" * length, LENGTH
        yield "t", small(total=length)[:length], LENGTH
    yield "t", bytes(40), NO_MAGIC
    yield "t", b"\xff" * 40, NO_MAGIC
    # Forty bytes that are all of a tree: both blocks are empty, at the total size (H2).
    empty = {"total": 40, "structure_at": 40, "strings_at": 40, "structure_size": 0, "strings_size": 0}
    yield "t", tree(b"", b"", **empty), refused_line(6, 40)
    yield "t", tree(b"", b"", **{**empty, "total": 41}), TOTAL_LENGTH
    yield "t", tree(b"", b"", **{**empty, "total": 39}), TOTAL_LENGTH
    yield "t", tree(b"", b"", **{**empty, "strings_at": 41}), STRINGS_BOUNDS
    yield "t", tree(b"", b"", **{**empty, "strings_at": 0}), STRINGS_BOUNDS
    yield "t", tree(b"", b"", **{**empty, "structure_at": 36}), STRUCTURE_BOUNDS
    yield "t", tree(b"", b"", **{**empty, "structure_at": 44}), STRUCTURE_BOUNDS


# Layouts


def laid_out(structure, strings, structure_at, strings_at, total, fill=b"\0"):
    """Blocks at these places, in a tree of this size."""
    data = bytearray((fill * total)[:total])
    data[strings_at : strings_at + len(strings)] = strings
    data[structure_at : structure_at + len(structure)] = structure
    changes = {"structure_at": structure_at, "strings_at": strings_at, "total": total}
    whole = tree(structure, strings, **changes)
    return whole[:40] + bytes(data[40:])


def layouts():
    """Blocks in either order, with gaps, touching, overlapping, empty, and bytes after the total size (H2, H3)."""
    size, many = len(SMALL), len(STRINGS)

    def moved(structure_at, strings_at, total, fill=b"\xff"):
        line = accepted_line([structure_at + place for place in SMALL_PLACES])
        return "t", laid_out(SMALL, STRINGS, structure_at, strings_at, total, fill), line

    behind = 40 + -(-many // 4) * 4
    yield moved(behind, 40, behind + size)
    yield moved(behind + 8, 41, behind + size + 8)
    yield moved(48, 50 + size, 71 + size + many, b"\3")
    yield moved(400, 300, 1000)
    yield moved(300, 700, 1000, b"\0\0\0\x01")
    yield moved(40, 300, 300 + many)
    yield moved(300, 40, 300 + size)
    # Bytes after the total size are not read.
    for tail in (b"\0", b"\1", cells(9), cells(1, 0), bytes(64), small(), b"\xff" * 300):
        yield "t", small() + tail, GOOD
        yield "t", small(version=16) + tail, OLD
    bare, _ = joined(root())
    yield "t", tree(bare[:-4], b"") + END, refused_line(6, START + len(bare) - 4)
    yield "t", tree(bare[:-4], b"", structure_size=len(bare)) + END, STRUCTURE_BOUNDS
    # The strings block is the structure block, or a part of it: the name of a node, at 24, is a property's too.
    bad_name = refused_line(7, START + 8)
    for offset, end, good in ((24, 60, True), (24, 49, True), (24, 48, False), (48, 60, False), (59, 60, False)):
        shared, places = joined(root(prop(offset), HERE, *node(CONTAINER)))
        line = accepted_line([START + places[0]]) if good else bad_name
        yield "t", tree(shared, b"", strings_at=START, strings_size=end), line
        yield "t", tree(shared, b"", strings_at=START + 1, strings_size=end - 1), None
    shared, places = joined(root(prop(0), HERE, *node(CONTAINER)))
    yield "t", tree(shared, b"", strings_at=START + 24, strings_size=25), accepted_line([START + places[0]])
    # The strings block begins with the structure block, and goes on behind it, at 28.
    for offset, line in ((28, accepted_line([])), (27, bad_name), (24, bad_name), (32, bad_name), (33, bad_name)):
        inside, _ = joined(root(prop(offset)))
        yield "t", tree(inside, b"size\0", strings_at=START, strings_size=33), line
    yield changed(bad_name, strings_at=START, strings_size=TOTAL - START)
    # Empty blocks.
    yield "t", tree(bare, b""), accepted_line([])
    for at in (40, 41, 47, START + len(bare)):
        yield "t", tree(bare, b"", strings_at=at), accepted_line([])
    for at in (39, 0, START + len(bare) + 1):
        yield "t", tree(bare, b"", strings_at=at), STRINGS_BOUNDS
    for at in (40, 44, TOTAL - TOTAL % 4):
        yield changed(refused_line(6, at), structure_at=at, structure_size=0)
    for at in (36, 0, 42, TOTAL - TOTAL % 4 + 4):
        yield changed(STRUCTURE_BOUNDS, structure_at=at, structure_size=0)
    yield changed(bad_name, strings_size=0)
    yield changed(bad_name, strings_at=TOTAL, strings_size=0)
    # A structure block that begins later in the tree, or in the middle of what was a value.
    yield changed(None, structure_at=START + 8, structure_size=len(SMALL) - 8)
    structure, places = joined(root(cells(3, len(bare), 0), HERE, bare))
    at = START + places[0]
    yield "t", tree(structure, structure_at=at, structure_size=len(bare)), accepted_line([])
    yield "t", tree(structure, structure_at=at, structure_size=len(bare) - 4), refused_line(6, at + len(bare) - 4)


def sizes():
    """The largest total size that there is, and one byte more."""
    most = 65536
    parts = [begin(b""), prop(b"reg", bytes(32000)), *[NOP] * 40, HERE, begin(CONTAINER), END_NODE]
    behind = [END_NODE, END]
    size = len(joined(parts + behind)[0])
    fill = most - START - len(STRINGS) - size
    structure, places = joined([*parts, begin(b"last"), prop(b"size", bytes(fill - 28)), END_NODE, *behind])
    good = tree(structure)
    line = accepted_line([START + place for place in places])
    yield "t", good, line
    yield "t", good[:-1], TOTAL_LENGTH
    yield "t", tree(structure, total=most + 1) + b"\0", SIZE


# Truncated


def truncated():
    """Cut short at every length: the bytes lent, then the total size with them, then each block alone."""
    minimal = read_built(TREES)["minimal"]
    for length in range(len(minimal)):
        yield "t", minimal[:length], LENGTH if length < 40 else TOTAL_LENGTH
    for length in range(40, TOTAL, 5):
        line = STRUCTURE_BOUNDS if length < STRINGS_AT else STRINGS_BOUNDS
        yield "t", small(total=length)[:length], line
    # The structure block: at its end there is no cell left, a property is cut short, or a name has no end.
    for size in range(0, len(SMALL), 4):
        yield changed(None, structure_size=size)
    parts = [begin(b""), HERE, prop(b"reg", b"12345"), HERE, begin(b"node"), HERE, END_NODE, END_NODE, END]
    structure, places = joined(parts)
    property_at, node_at, behind = (START + place for place in places)
    for size in range(4, len(structure), 4):
        end = START + size
        if end < property_at:
            line = refused_line(7, START)
        elif property_at < end < node_at:
            line = refused_line(6, property_at)
        elif node_at < end < behind:
            line = refused_line(7, node_at)
        else:
            line = refused_line(6, end)
        yield "t", tree(structure, structure_size=size), line
    # The strings block: `name` has its zero byte at 4, `size` at 13.
    structure, places = joined(root(HERE, prop(b"name"), HERE, prop(b"size")))
    for size in range(len(STRINGS)):
        line = accepted_line([]) if size > 13 else refused_line(7, START + places[1 if size > 4 else 0])
        yield "t", tree(structure, strings_size=size), line


# Cells exchanged


def exchanged():
    """Each cell of a small structure block replaced, left out, and exchanged with the next."""
    structure, _ = joined(root(prop(b"reg", b"12345"), *node(b"node", prop(b"size")), NOP))
    count = len(structure) // 4

    def at(place):
        return structure[4 * place : 4 * place + 4]

    for place in range(count):
        before, behind = structure[: 4 * place], structure[4 * place + 4 :]
        for value in (0, 1, 2, 3, 4, 9):
            yield "t", tree(before + cells(value) + behind), None
        yield "t", tree(before + behind), None
        yield "t", tree(before + at(place + 1) + at(place) + behind[4:]), None


# By chance


def chance_strings(chance):
    """Four names, and at times one that is no property name, or no zero byte at the end."""
    names = [bytes(chance.choice(b"abz09,._+-?#") for _ in range(chance.between(1, 6))) for _ in range(3)]
    names.insert(chance.below(4), b"p" * chance.choice((31, 32, 63, 64)))
    if chance.below(4) == 0:
        names.append(chance.bytes(3))
    return b"\0".join(names) + (b"\0" if chance.below(8) else b"")


def chance_token(chance, strings, reach, in_child, with_children):
    """A token that is in place in an open node, with a name or a length that is wrong now and then."""
    fill = chance.bytes(1)
    choice = chance.below(10)
    if choice < 4 and not with_children:
        value = chance.bytes(chance.below(9))
        length = chance.choice((len(value) + 4, 64, 2**32 - 1)) if chance.below(24) == 0 else None
        offset = chance.below(reach)
        while strings[offset] == 0 and chance.below(8):
            offset = chance.below(reach)
        return prop(offset, value, length, fill)
    if choice < 8 or not in_child:
        name = chance.choice((b"n", b"node", b"n@0", b"b,c", b"n" * 63, CONTAINER, CONTAINER, CONTAINER))
        if chance.below(16) == 0:
            name = chance.choice((b"", b"n@@0", b"@", b"n" * 64, b"n*", CONTAINER + b"@"))
        return begin(name, fill)
    return END_NODE


def chance_structure(chance, strings):
    """A root, at times deep nesting in it, then tokens in place, and now and then any token at all.

    Where the names of properties come from the first strings alone, some are given twice.
    """
    reach = min(len(strings), chance.choice((8, 96, 96)))
    depth = 14 if chance.below(6) == 0 else 1
    parts = [NOP] * chance.below(2) + [begin(b"")] + [begin(b"n")] * (depth - 1)
    with_children = [True] * (depth - 1) + [False]
    for _ in range(chance.below(14)):
        token = chance_token(chance, strings, reach, len(with_children) > 1, with_children[-1])
        if chance.below(8) == 0:
            token = NOP
        if chance.below(40) == 0:
            token = cells(chance.choice((0, 1, 2, 3, 5, 9)))
        parts.append(token)
        if token == END_NODE:
            with_children.pop()
        if token[:4] == cells(1):
            with_children[-1] = True
            with_children.append(False)
        if not with_children:
            break
    return joined(parts + [END_NODE] * len(with_children) + [NOP] * chance.below(2) + [END])[0]


def chance_trees(chance, many):
    """Blocks by chance in a layout by chance, with every byte that is not to matter by chance too."""
    for _ in range(many):
        strings = chance_strings(chance)
        structure = chance_structure(chance, strings)
        gaps = [chance.below(3) * 4, chance.below(7), chance.below(7)]
        if chance.below(2):
            structure_at = START + gaps[0]
            strings_at = structure_at + len(structure) + gaps[1]
            total = strings_at + len(strings) + gaps[2]
        else:
            strings_at = START + gaps[1]
            structure_at = -(-(strings_at + len(strings)) // 4) * 4 + gaps[0]
            total = structure_at + len(structure) + gaps[2]
        data = bytearray(laid_out(structure, strings, structure_at, strings_at, total, chance.bytes(1)))
        for field in ("reserve_at", "boot_cpu"):
            at = 4 * FIELDS.index(field)
            data[at : at + 4] = chance.bytes(4)
        yield "t", bytes(data) + chance.bytes(chance.below(5)), None


def chance_damage(chance, many):
    """Trees that dtc built, with a cell or a byte of theirs changed behind the header, or anywhere."""
    trees = read_built(TREES)
    names = [name for name in trees if 100 < len(trees[name]) < 800]
    for _ in range(many):
        data = bytearray(trees[chance.choice(names)])
        for _ in range(chance.between(1, 2)):
            at = chance.between(0 if chance.below(6) == 0 else 56, len(data) - 1)
            change = chance.below(4)
            if change == 0:
                data[at : at + 1] = chance.bytes(1)
            elif change == 1:
                data[at] ^= 1 << chance.below(8)
            else:
                at -= at % 4
                data[at : at + 4] = cells(chance.choice((0, 1, 2, 3, 4, 9, 16, 2**32 - 1)))
        yield "t", bytes(data), None


def chance_bytes(chance, many):
    """Bytes alone, behind a magic, and as blocks behind a good header."""
    for place in range(many):
        noise = chance.bytes(chance.between(36, 80))
        if place % 3 == 0:
            yield "t", noise, None
        elif place % 3 == 1:
            yield "t", cells(0xD00DFEED, len(noise)) + noise[8:], None
        else:
            numbers = [chance.choice((1, 1, 2, 2, 3, 4, 9, 0, 0, 5, 8)) for _ in range(chance.between(4, 16))]
            yield "t", tree(cells(1, 0, *numbers, 9), chance.bytes(12)), None


def cases():
    chance = Chance(SEED)
    yield from headers()
    yield from headers_in_order()
    yield from headers_short()
    yield from layouts()
    yield from sizes()
    yield from truncated()
    yield from exchanged()
    yield from chance_trees(chance, 64)
    yield from chance_damage(chance, 60)
    yield from chance_bytes(chance, 18)


def vectors():
    return held(cases(), answer)
