"""Vectors for document 01's "The walk": kind `t`.

The bytes are the lent tree. The line, after the kind: refusal number and place of header and walk; the number of nodes
that bear the container's name, two at the most; the offsets of the first two of them, or zeros.

Here are the trees that dtc built (tests/trees) and hand-made ones, each with one rule or two in it. The lines come from
the model (tests/model/tree.py), and the expected ones are written down by hand as well (vectors/blocks.py, `held`).
Codes such as W2 name readings of document 01.
"""

import pathlib

from model import tree as model
from vectors.blocks import (
    END,
    END_NODE,
    ENDING,
    HERE,
    NOP,
    START,
    STRINGS,
    accepted_line,
    begin,
    case,
    held,
    joined,
    node,
    prop,
    read_built,
    refused_line,
    root,
    tree,
)
from vectors.properties import cells

TREES = pathlib.Path(__file__).resolve().parent.parent / "trees"

CONTAINER = b"ibm,powerpc-cpu-features"

LETTERS = b"abcdefghijklmnopqrstuvwxyzABCDEFGHIJKLMNOPQRSTUVWXYZ"
NODE_CHARACTERS = b"0123456789" + LETTERS + b",._+-"
PROPERTY_CHARACTERS = NODE_CHARACTERS + b"?#"

# The places are those that `fdtdump --debug` prints.
BUILT = {
    "binding-example": accepted_line([0x4C]),
    "binding-example-without-compatible": accepted_line([0x4C]),
    "dependencies": accepted_line([0x40]),
    "empty-names": accepted_line([0x40]),
    "empty-values": accepted_line([]),
    "features": accepted_line([0x4C]),
    "grandchildren": accepted_line([0x4C]),
    "levels-16": accepted_line([0x1A0]),
    "levels-17": refused_line(8, 0x1B8),
    "longer-device-type": accepted_line([0x40]),
    "many-properties": accepted_line([]),
    "minimal": accepted_line([]),
    "names": accepted_line([]),
    "near-containers": accepted_line([]),
    "no-capability-bit": accepted_line([0x4C]),
    "no-features": accepted_line([0x40]),
    "node-name-64": refused_line(7, 0x88),
    "power9": accepted_line([0x4CC]),
    "power9-features": accepted_line([0x4C]),
    "power9-reduced": accepted_line([0x624]),
    "power9-whole": accepted_line([0x710]),
    "property-name-32": accepted_line([]),
    "property-name-63": accepted_line([]),
    "property-name-64": refused_line(7, 0x6C),
    "pseries": accepted_line([]),
    "same-names": accepted_line([]),
    "several-containers": accepted_line([0x4C, 0x7C, 0xC4]),
    "shared-endings": accepted_line([]),
    "star": refused_line(7, 0x5C),
    "tokens-in-values": accepted_line([]),
    "two-names-first": accepted_line([0x4C]),
    "two-names-second": accepted_line([0x4C]),
}


def built():
    """The trees that dtc built. One that is not in the table, or the reverse, is an error."""
    trees = read_built(TREES)
    if set(trees) != set(BUILT):
        raise ValueError("tests/trees and the table BUILT differ: %s" % sorted(set(trees) ^ set(BUILT)))
    for name, data in trees.items():
        yield "t", data, BUILT[name]


# Which token is in place where

# What stands before, the nodes then open, and what may follow: b begin node, e end node, p property, 9 end.
STANDINGS = (
    ([], 0, "b"),
    ([NOP], 0, "b"),
    ([begin(b"")], 1, "bep"),
    ([begin(b""), prop(b"reg", b"12345")], 1, "bep"),
    ([begin(b""), begin(b"n"), END_NODE], 1, "be"),
    ([begin(b""), begin(b"n")], 2, "bep"),
    ([begin(b""), begin(b"n"), END_NODE, begin(b"m")], 2, "bep"),
    ([begin(b""), prop(b"reg"), begin(b"n"), begin(b"m"), END_NODE, NOP], 2, "be"),
    ([begin(b""), END_NODE], 0, "9"),
    ([begin(b""), begin(b"n"), END_NODE, END_NODE, NOP], 0, "9"),
)


def closing(open_nodes):
    return [END_NODE] * open_nodes + [END]


def standings():
    """Every token in every standing. What follows it would be good if the token were not there."""
    for before, open_nodes, in_place in STANDINGS:
        rootless = in_place == "b"
        behind = [begin(b""), *closing(1)] if rootless else closing(open_nodes)

        def given(letter, token, number, after):
            """The token where it is in place: the number then given, and what is to follow. Else it is 6."""
            if letter not in in_place:
                return case(6, *before, HERE, token, *behind)
            return case(number, *before, *([HERE] if number else []), token, *after)

        yield given("b", begin(b"" if rootless else b"child"), 0, closing(open_nodes + 1))
        yield given("b", begin(b"child" if rootless else b""), 7, behind)
        yield given("b", begin(b"child*"), 7, behind)
        yield given("p", prop(b"size", b"abc"), 0, behind)
        yield given("p", prop(len(STRINGS)), 7, behind)
        yield given("e", END_NODE, 0, closing(open_nodes - 1))
        yield given("9", END, 0, [])
        yield case(0, *before, NOP, *behind)
        yield case(6, *before, HERE, prop(b"size", b"abc", length=400), *behind)
        # An end token that is not the last cell, also before NOPs only (W2).
        yield case(6, *before, HERE, END, *behind)
        yield case(6, *before, HERE, END, NOP)
        # The block's end.
        yield case(6, *before, HERE)
        yield case(6, *before, NOP, NOP, HERE)
        for unknown in (0, 5, 0x01000000):
            yield case(6, *before, HERE, cells(unknown), *behind)


def unknown_tokens():
    """More cells that are no tokens (W13)."""
    for token in (6, 7, 8, 10, 11, 17, 20, 25, 0x0101, 0x00010003):
        yield case(6, begin(b""), HERE, cells(token), *closing(1))
    for token in (0x03000000, 0x04000000, 0x09000000, 0x80000001, 0xFFFFFF04, 0xD00DFEED, 0xFFFFFFFF):
        yield case(6, begin(b""), HERE, cells(token), *closing(1))


def nops():
    """NOPs in every gap, and where they are none."""
    inside = [NOP, prop(b"reg", b"123"), NOP, NOP, prop(b"size"), NOP, *node(b"n", NOP), NOP]
    yield case(0, NOP, begin(b""), *inside, END_NODE, NOP, END)
    yield case(0, *[NOP] * 40, *root()[:-1], *[NOP] * 40, END)
    yield case(0, NOP, begin(b""), NOP, HERE, begin(CONTAINER), NOP, END_NODE, NOP, END_NODE, NOP, END)
    # A NOP does not begin the properties anew, nor let a property be given again.
    yield case(6, begin(b""), *node(b"n"), NOP, HERE, prop(b"reg"), *closing(1))
    yield case(9, begin(b""), prop(b"reg"), NOP, HERE, prop(b"reg"), *closing(1))
    # In a value, in the cells of a property, in a name.
    yield case(0, *root(prop(b"reg", NOP * 3)))
    yield case(0, *root(prop(4, NOP)), strings=b"x-y-reg\0")
    yield case(7, begin(b""), HERE, cells(1), NOP, *closing(1))
    yield case(7, begin(b""), HERE, cells(1) + b"abc\4", NOP, *closing(1))
    yield case(6, *[NOP] * 9, HERE)


def ends():
    """Roots and ends."""
    yield case(0, *root())
    yield case(6, HERE)
    yield case(6, HERE, END)
    yield case(6, HERE, END, END)
    yield case(6, HERE, END_NODE, END)
    yield case(6, HERE, prop(b"reg"), *root())
    yield case(6, *root()[:-1], HERE)
    yield case(6, begin(b""), HERE)
    yield case(6, begin(b""), prop(b"reg", b"abcd"), HERE)
    # A second root, of any name, and what would follow it (W4).
    for second in (begin(b""), begin(b"n"), begin(b"n*"), begin(b"n" * 64), cells(1), cells(1) + b"nnnn"):
        yield case(6, begin(b""), END_NODE, HERE, second, *closing(1))
        yield case(6, begin(b""), END_NODE, HERE, second)
    yield case(6, begin(b""), END_NODE, HERE, prop(99), END)
    yield case(6, begin(b""), END_NODE, HERE, cells(3))
    yield case(6, begin(b""), END_NODE, HERE, END_NODE, END)
    # What follows an early end token is not looked at.
    for behind in ([END], [NOP, END], [cells(77)], [begin(b"n" * 64)], [cells(0)], [cells(3)]):
        yield case(6, begin(b""), END_NODE, HERE, END, *behind)
    yield case(6, begin(b""), HERE, END)
    yield case(6, begin(b""), HERE, END, END_NODE, END)
    yield case(6, begin(b""), begin(b"n"), END_NODE, HERE, END)
    # The root's name (W5). What follows its zero byte is padding.
    for name in (b"n", b"/", b"@", b"root", CONTAINER, b"n" * 63, b"n" * 64, b"\xff", b" "):
        yield case(7, HERE, begin(name), *closing(1))
        yield case(7, NOP, HERE, begin(name), prop(99), *closing(1))
    yield case(0, begin(b"", b"abc"), *closing(1))
    yield case(0, begin(b"", b"\xff"), *closing(1))
    yield case(7, HERE, cells(1))
    yield case(7, HERE, cells(1) + b"abcd")
    yield case(7, NOP, HERE, cells(1) + b"\1\2\3\4" * 3)


# Node names


def node_name_lengths():
    for length in (1, 2, 3, 4, 5, 6, 7, 8, 30, 31, 32, 33, 59, 60, 61, 62, 63):
        yield case(0, *root(*node(b"n" * length, prop(b"reg"))))
    for length in (64, 65, 66, 67, 68, 100, 127, 128, 255, 256, 320):
        yield case(7, begin(b""), HERE, begin(b"n" * length), *closing(2))
    # Padding, of any bytes, also zero bytes and a name that goes on behind the first of them.
    for length in (1, 2, 3, 4, 60, 61, 62, 63):
        yield case(0, *root(begin(b"n" * length, b"@\xff"), END_NODE))
    yield case(0, *root(begin(b"n", b"*\0"), END_NODE))
    yield case(7, begin(b""), HERE, begin(b"", b"nnn"), *closing(2))


def names_with(byte):
    """Names that have a byte at the front, in the middle, at the end."""
    return bytes([byte]) + b"abcd", b"ab" + bytes([byte]) + b"cd", b"abcd" + bytes([byte])


def node_name_characters():
    """Every byte in a name. A zero byte ends the name, and what follows it is padding or would be a token."""
    for place in range(3):
        yield case(0, *root(*(token for byte in NODE_CHARACTERS for token in node(names_with(byte)[place]))))
    for byte in range(1, 256):
        name = names_with(byte)[byte % 3]
        if byte not in NODE_CHARACTERS + b"@":
            yield case(7, begin(b""), HERE, begin(name), *closing(2))
    yield case(7, begin(b""), HERE, begin(b"\0abc"), *closing(2))
    yield case(0, *root(begin(b"ab\0"), END_NODE))
    yield case(6, begin(b""), cells(1) + b"ab\0c", HERE, b"d\0\0\0", *closing(2))


def node_name_ats():
    """`@`: at most one, with characters on both sides (W10)."""
    good = (b"a@b", b"n@0", b"n@0,1", b"n,m@ff", b"0@0", b"-@-", b"n" * 31 + b"@" + b"u" * 31, b"n@" + b"u" * 61)
    for name in (*good, b"n" * 61 + b"@u"):
        yield case(0, *root(*node(name)))
    for name in (
        b"@",
        b"@a",
        b"a@",
        b"@@",
        b"@a@",
        b"a@@",
        b"@@a",
        b"a@@b",
        b"a@b@",
        b"@a@b",
        b"a@b@c",
        b"a@b@c@d",
        b"a@b*",
        b"a*@b",
        b"a@#",
        b"a@b/c",
        b"@" + b"n" * 62,
        b"n" * 62 + b"@",
        b"n" * 63 + b"@",
        b"n" * 31 + b"@" + b"u" * 32,
        b"n" * 32 + b"@" + b"u" * 31,
        b"n@" + b"u" * 62,
        b"n" * 62 + b"@u",
        b"n" * 30 + b"@@" + b"u" * 31,
        b"n@" + b"u" * 30 + b"@" + b"u" * 30,
    ):
        yield case(7, begin(b""), HERE, begin(name), *closing(2))


def node_names_without_end():
    """No zero byte up to the block's end: 7, also when no byte is left, and though the strings block has one (W6)."""
    for length in (0, 4, 8, 60, 64, 68, 256):
        yield case(7, begin(b""), HERE, cells(1) + b"n" * length)
        yield case(7, begin(b""), begin(b"m"), END_NODE, NOP, HERE, cells(1) + b"n" * length, strings=b"\0")
    # A zero byte as the block's last: the name is good, and then there is no cell left.
    for length in (3, 7, 59, 63):
        yield case(6, begin(b""), cells(1) + b"n" * length + b"\0", HERE)
    yield case(7, begin(b""), HERE, cells(1) + b"n" * 67 + b"\0")
    # Names that hold what would be tokens.
    yield case(7, begin(b""), HERE, cells(1), *closing(2))
    yield case(7, begin(b""), HERE, cells(1) + b"nnnn" + b"\1\1\1\2", *closing(2))


# Levels


def chain(levels):
    """Begin tokens of a root and of nodes inside one another."""
    return [begin(b"")] + [begin(b"n%d" % level) for level in range(2, levels + 1)]


def levels():
    for depth in (2, 3, 14, 15, 16):
        yield case(0, *chain(depth), prop(b"reg", b"123"), *closing(depth))
    for depth in (17, 18, 33, 40):
        yield case(8, *chain(16), HERE, *chain(depth)[16:], *closing(depth))
    deepest = chain(16)
    up = [END_NODE]
    # Down to level 16 more than once, from one level above it and from the root.
    yield case(0, *deepest, *up, begin(b"m"), prop(b"reg"), *up, begin(b"n"), *closing(16))
    yield case(0, *deepest, *up * 15, *deepest[1:], *closing(16))
    yield case(8, *deepest, *up, begin(b"m"), HERE, begin(b"x"), *closing(17))
    yield case(8, *deepest, *up * 15, *deepest[1:], HERE, begin(b"x"), *closing(17))
    yield case(8, *deepest, prop(b"reg"), NOP, HERE, begin(b"x"), *closing(17))
    yield case(8, *deepest, HERE, begin(CONTAINER), *closing(17))
    yield case(0, *deepest[:-1], HERE, begin(CONTAINER), *closing(16))
    # Many nodes that are not deep.
    yield case(0, *root(*node(b"n") * 40))
    yield case(0, *root(*[token for level in range(2, 17) for token in [*chain(level)[1:], *up * (level - 1)]]))
    # What level 17 holds is never read (W12).
    for behind in ([], [END], [prop(99)], [cells(77)], [prop(b"reg"), prop(b"reg")], [begin(b"n" * 64)], [cells(3)]):
        yield case(8, *deepest, HERE, begin(b"x"), *behind)
    # A bad name at level 17 is 7 (W1).
    for name in (b"", b"x*", b"@x", b"x@", b"x@y@z", b"x" * 64, b"x" * 128, b"\xff"):
        yield case(7, *deepest, HERE, begin(name), *closing(17))
    yield case(8, *deepest, HERE, begin(b"x" * 63), *closing(17))
    yield case(7, *deepest, HERE, cells(1))
    yield case(7, *deepest, HERE, cells(1) + b"xxxx" * 3)
    # Out of place, not deep: level 16 has come and gone.
    yield case(6, *deepest, *up, HERE, prop(b"reg"), *closing(15))
    yield case(6, *deepest, *up * 16, HERE, begin(b"x"), *closing(1))
    yield case(9, *deepest, prop(b"reg"), HERE, prop(b"reg"), *closing(16))
    yield case(7, *deepest, HERE, prop(99), begin(b"x"), *closing(17))


# Property names


def property_name_lengths():
    for length in (1, 2, 3, 4, 15, 16, 29, 30, 31, 32, 33, 34, 61, 62, 63):
        yield case(0, *root(prop(0)), strings=b"p" * length + b"\0")
        yield case(0, *root(prop(b"reg"), *node(b"n", prop(len(STRINGS)))), strings=STRINGS + b"p" * length + b"\0")
    for length in (0, 64, 65, 66, 100, 127, 128, 256, 319):
        yield case(7, begin(b""), HERE, prop(0), *closing(1), strings=b"p" * length + b"\0")
    # The last characters of a string that is too long as a whole (W8).
    long = b"p" * 72 + b"\0"
    for offset in (9, 10, 40, 41, 71):
        yield case(0, *root(prop(offset)), strings=long)
    for offset in (0, 7, 8, 72, 73, 74):
        yield case(7, begin(b""), HERE, prop(offset), *closing(1), strings=long)


def property_name_characters():
    """Every ASCII byte in a name, and some others. A zero byte ends the name. (vectors/lookups.py has them all.)"""
    for place in range(3):
        strings = b"".join(names_with(byte)[place] + b"\0" for byte in PROPERTY_CHARACTERS)
        yield case(0, *root(*map(prop, range(0, len(strings), 6))), strings=strings)
    for byte in (*range(1, 128), 128, 0xB0, 0xC1, 0xE1, 254, 255):
        strings = names_with(byte)[(byte + 1) % 3] + b"\0"
        if byte not in PROPERTY_CHARACTERS:
            yield case(7, begin(b""), HERE, prop(0), *closing(1), strings=strings)
    yield case(7, begin(b""), HERE, prop(0), *closing(1), strings=b"\0abcd\0")
    yield case(0, *root(prop(0)), strings=b"ab\0*d")
    for name in (b"@", b"a@", b"@a", b"a@b", b"p" * 30 + b"@", b"p" * 31 + b"@", b"p" * 62 + b"@", b"*" * 63, b"*", b"/", b"a b"):
        yield case(7, begin(b""), HERE, prop(0), *closing(1), strings=name + b"\0")
    for name in (b"#", b"?", b"#?", b"#address-cells", b"ibm,ppc-interrupt-server#s", b"64-bit", b"?" * 31, b"#" * 63, b"+._-"):
        yield case(0, *root(prop(0)), strings=name + b"\0")
    yield case(0, *root(prop(0)), strings=b"ibm,processor-radix-AP-encodings\0")


def property_name_offsets():
    """Offsets at the edges of the strings block, and far past it (W8)."""
    end = len(STRINGS)
    for offset in (1, 3, 4, 5, 7, 8, 13, 14, 15, 16, *range(end - 2, end + 3)):
        if offset >= end or STRINGS[offset] == 0:
            yield case(7, begin(b""), HERE, prop(offset), *closing(1))
        else:
            yield case(0, *root(prop(offset)))
    for offset in (65535, 65536, 65536 + 5, 5 * 2**24, 2**31 - 1, 2**31, 2**31 + 5, 2**32 - 20, 2**32 - 4, 2**32 - 1):
        yield case(7, begin(b""), HERE, prop(offset), *closing(1))
    # A good name stands before the strings block, where the sum of the two offsets would wrap to.
    refused = refused_line(7, START + 8)
    structure, _ = joined(root(prop(2**32 - 5)))
    yield "t", tree(structure, strings_at=START + len(structure) + 5, strings_size=len(STRINGS) - 5), refused
    # No zero byte up to the block's end.
    long = b"p" * 63
    for strings, offset in ((b"reg", 0), (b"name\0reg", 5), (b"r", 0), (long, 0), (long, 31), (long, 62), (long * 6, 0)):
        yield case(7, begin(b""), HERE, prop(offset), *closing(1), strings=strings)
    yield case(0, *root(prop(0)), strings=b"name\0reg")
    for offset in (0, 1, 2**32 - 1):
        yield case(7, begin(b""), HERE, prop(offset), *closing(1), strings=b"")
    yield case(7, begin(b""), HERE, prop(0), *closing(1), strings=b"\0")
    # The zero byte stands behind the strings block, within the total size and past it.
    structure, _ = joined(root(prop(0)))
    good = tree(structure, b"reg\0")
    yield "t", good, accepted_line([])
    yield "t", tree(structure, b"reg\0", strings_size=3), refused
    yield "t", tree(structure, b"reg\0", strings_size=3, total=len(good) - 1), refused
    yield "t", tree(structure, b"reg\0\0\0", strings_size=3, total=len(good) - 1), refused
    # A name past the block's end, and in place of a string with no end.
    yield "t", tree(joined(root(prop(4)))[0], b"reg\0name\0", strings_size=4), refused
    yield "t", tree(joined(root(prop(1)))[0], b"reg\0name\0", strings_size=1), refused


# Values


def values():
    """Lengths, padding of any bytes, and values that look like tokens."""
    for length in range(10):
        yield case(0, *root(prop(b"reg", b"\xa5" * length), prop(b"size", bytes(length))))
        inner = prop(b"reg", END[:length], fill=b"\xff")
        yield case(0, *root(prop(b"reg", bytes(length), fill=b"\1"), *node(b"n", inner)))
    for value in (END, END_NODE + END, cells(1), cells(1, 0), cells(3), cells(3, 0, 0), cells(77), begin(CONTAINER)):
        yield case(0, *root(prop(b"reg", value)))
    # A value of 2^8 and of 2^12 bytes.
    yield case(0, *root(prop(b"reg", bytes(256)), HERE, *node(CONTAINER)))
    yield case(0, *root(prop(b"reg", bytes(4095)), HERE, *node(CONTAINER)))


def value_lengths():
    """A length that is wrong, before twelve bytes: end node, end node, end."""
    before = [begin(b""), begin(b"n")]
    for length, number, at in (
        (0, 0, None),
        (1, 6, 8),
        (3, 6, 8),
        (4, 6, 8),
        (5, 6, 8),
        (8, 6, 8),
        (9, 6, 12),
        (12, 6, 12),
        (13, 6, -12),
        (14, 6, -12),
        (15, 6, -12),
        (16, 6, -12),
        (17, 6, -12),
        (32, 6, -12),
        (2**16, 6, -12),
        (2**31 - 1, 6, -12),
        (2**31, 6, -12),
        (2**32 - 1, 6, -12),
        (2**32 - 3, 6, -12),
        (2**32 - 4, 6, -12),
        (2**32 - 8, 6, -12),
        (2**32 - 11, 6, -12),
        (2**32 - 12, 6, -12),
        (2**32 - 13, 6, -12),
        (2**32 - 24, 6, -12),
        (2**32 - 28, 6, -12),
        (2**32 - 40, 6, -12),
        (2**32 - 68, 6, -12),
    ):
        structure, places = joined([*before, prop(b"reg", length=length), HERE, *closing(2)])
        # The place counts from behind the property's three cells: its own token, an end token inside a node that the
        # value has left over, or the block's end.
        line = accepted_line([]) if number == 0 else refused_line(number, START + places[0] + at)
        yield "t", tree(structure), line


def values_cut_short():
    """6 at the property's token, whatever its name is; a whole property at the end is 6 at the block's end."""
    before = [begin(b""), prop(b"reg", b"123")]
    for cut in (cells(3), cells(3, 0), cells(3, 4), cells(3, 1, 0), cells(3, 5, 0, 0), cells(3, 2**32 - 1, 0)):
        yield case(6, *before, HERE, cut)
        yield case(6, NOP, begin(b""), HERE, cut)
    yield case(6, *before, cells(3, 0, 0), HERE)
    yield case(6, *before, cells(3, 4, 0, 0), HERE)
    yield case(6, *before, cells(3, 3, 0, 0), HERE)
    # 6 before 7 and 9.
    yield case(6, *before, HERE, cells(3, 1, 99))
    yield case(6, *before, HERE, prop(99, length=99), *closing(1))
    yield case(6, *before, HERE, prop(b"reg", length=99), *closing(1))
    yield case(6, *before, HERE, cells(3, 1, STRINGS.index(b"reg")))
    yield case(6, begin(b""), HERE, prop(b"size", length=99), *closing(1), strings=b"")
    yield case(7, *before, HERE, cells(3, 0, 99))
    yield case(9, *before, HERE, cells(3, 0, STRINGS.index(b"reg")))


# Repeated properties


def repeated():
    """Names are compared by their characters, in one node only (W9)."""
    reg = prop(b"reg")
    ending = prop(ENDING, b"123")
    for first, second in ((reg, reg), (reg, ending), (ending, reg), (ending, ending)):
        yield case(9, begin(b""), first, HERE, second, *closing(1))
        between = [prop(b"size", b"x"), NOP]
        yield case(9, begin(b""), prop(b"name"), first, *between, HERE, second, prop(b"x-reg"), *closing(1))
        yield case(9, begin(b""), first, begin(b"n"), second, prop(b"name"), HERE, first, *closing(2))
        yield case(0, *root(first, *node(b"n", second), *node(b"n", first, *node(b"m", second))))
    yield case(9, begin(b""), reg, HERE, reg, reg, *closing(1))
    yield case(9, begin(b""), prop(b"name"), reg, HERE, prop(b"name", b"other"), reg, *closing(1))
    # Endings of one string are different names, and so is a name that another begins with, or in the other case.
    yield case(0, *root(prop(b"x-reg"), reg, prop(b"eg"), prop(b"g"), prop(b"-reg")))
    yield case(0, *root(prop(b"reg"), prop(b"x-reg")))
    yield case(0, *root(prop(0), prop(2), prop(5), prop(9)), strings=b"a\0ab\0abc\0A\0")
    yield case(9, begin(b""), prop(0), prop(2), HERE, prop(5), *closing(1), strings=b"a\0ab\0a\0")
    for length in (31, 32, 63):
        first, last = b"p" * (length - 1) + b"q", b"p" * length
        second = prop(length + 1)
        yield case(0, *root(prop(0), second), strings=first + b"\0" + last + b"\0")
        yield case(9, begin(b""), prop(0), HERE, second, *closing(1), strings=first + b"\0" + first + b"\0")
        yield case(0, *root(prop(0), second), strings=b"q" + last[1:] + b"\0" + last + b"\0")
    # The same value does not matter, nor that the values differ.
    yield case(9, begin(b""), prop(b"reg", b"abcd"), HERE, prop(b"reg", b"abcd"), *closing(1))
    # Many: each has its own offset, in a string of 63 characters; then one of them again, the first and the last among them.
    many = [prop(offset) for offset in range(63)]
    strings = b"p" * 63 + b"\0"
    yield case(0, *root(*many), strings=strings)
    for again in (0, 1, 31, 61, 62):
        yield case(9, begin(b""), *many, HERE, prop(again), *closing(1), strings=strings)
    # A second node begins anew, also after one inside it.
    yield case(0, *root(reg, *node(b"n", reg, *node(b"m", reg)), *node(b"o", reg)))
    yield case(9, begin(b""), reg, *node(b"n", reg), begin(b"o"), reg, HERE, ending, *closing(2))
    # Out of place before repeated.
    yield case(6, begin(b""), reg, *node(b"n"), HERE, reg, *closing(1))
    # A bad name is refused at its first use.
    yield case(7, begin(b""), HERE, prop(99), prop(99), *closing(1))


# Containers


def containers():
    inner = [begin(CONTAINER), END_NODE]
    yield case(0, *root(HERE, *inner))
    yield case(0, *root(HERE, *inner, HERE, *inner))
    yield case(0, *root(HERE, *inner, HERE, *inner, HERE, *inner))
    yield case(0, *root(HERE, begin(CONTAINER), HERE, *inner, END_NODE))
    yield case(0, *root(HERE, begin(CONTAINER), *node(b"alpha", HERE, *inner), END_NODE))
    yield case(0, *root(HERE, begin(CONTAINER), HERE, begin(CONTAINER), HERE, *inner, END_NODE, END_NODE))
    yield case(0, *root(*node(b"a"), *node(b"cpus", *node(b"b"), HERE, *inner), *node(b"c")))
    yield case(0, *root(*node(b"cpus", HERE, *inner), *node(b"cpus", HERE, *inner)))
    yield case(0, NOP, *root(NOP, HERE, begin(CONTAINER, b"abc"), NOP, END_NODE)[:-1], NOP, END)
    # In a level far down.
    for level in (3, 8, 15, 16):
        yield case(0, *chain(level - 1), HERE, *inner, *closing(level - 1))
    # Other names.
    near = (CONTAINER + b"@0", CONTAINER + b"s", b"x" + CONTAINER, CONTAINER[:-1], CONTAINER[1:], CONTAINER.upper())
    for name in near:
        yield case(0, *root(*node(name), HERE, *inner, *node(name)))
    yield case(0, *root(*node(b"cpu-features"), *node(b"ibm,powerpc"), *node(b"ibm.powerpc-cpu-features")))
    # The name of a property, and in a value.
    yield case(0, *root(prop(0, begin(CONTAINER))), strings=CONTAINER + b"\0")
    # Faults before, in and behind it: nothing is found then (W14).
    yield case(6, begin(b""), HERE, cells(77), *inner, *closing(1))
    yield case(7, begin(b""), *inner, *inner, HERE, begin(b""), *closing(2))
    yield case(6, begin(b""), *inner, END_NODE, HERE)
    yield case(6, begin(b""), *inner, END_NODE, HERE, END, END)
    yield case(6, begin(b""), *inner, *inner, HERE, END)
    yield case(7, HERE, begin(CONTAINER), *closing(1))
    yield case(7, begin(b""), *inner, begin(CONTAINER), HERE, prop(99), *closing(2))


# Two faults


def first_faults():
    """Of two faulty tokens the first decides, whatever the numbers are."""
    bad_name, deep = begin(b"*"), [begin(b"n")] * 16
    faults = {
        6: [cells(77)],
        7: [bad_name],
        8: deep,
        9: [prop(b"reg"), prop(b"reg")],
    }
    for number, tokens in faults.items():
        for behind in faults.values():
            yield case(number, begin(b""), *tokens[:-1], HERE, tokens[-1], *behind, *closing(1))
    # A fault at a place in a block, and the block's end, or an end token that is not the last.
    for number, tokens in faults.items():
        yield case(number, begin(b""), *tokens[:-1], HERE, tokens[-1])
        yield case(number, begin(b""), *tokens[:-1], HERE, tokens[-1], END, END)
    # Out of place before a bad name, of a node and of a property.
    yield case(6, HERE, prop(99), *root())
    yield case(6, begin(b""), *node(b"n"), HERE, prop(99), *closing(1))
    yield case(6, begin(b""), END_NODE, HERE, bad_name, END_NODE, END)


def cases():
    yield from built()
    yield from standings()
    yield from unknown_tokens()
    yield from nops()
    yield from ends()
    yield from node_name_lengths()
    yield from node_name_characters()
    yield from node_name_ats()
    yield from node_names_without_end()
    yield from levels()
    yield from property_name_lengths()
    yield from property_name_characters()
    yield from property_name_offsets()
    yield from values()
    yield from value_lengths()
    yield from values_cut_short()
    yield from repeated()
    yield from containers()
    yield from first_faults()


def answer(data):
    """Refusal number and place, the number of containers up to two, the places of the first two."""
    number, place = model.check(data)
    places = model.containers(data)
    return number, place, min(len(places), 2), *(places + [0, 0])[:2]


def vectors():
    return held(cases(), answer)
