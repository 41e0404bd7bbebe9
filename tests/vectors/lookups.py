"""Vectors for the property lookup of document 01's "CPU properties and unit text": kind `l`; and two values that it finds in
a real tree: kinds `x` and `a` (vectors/properties.py).

The bytes are three lengths (four bytes each, big-endian), of the CPU node's block of properties, of its parent's and
of the strings block; then these three blocks; the rest is the name that is looked for. The line, after the kind:
refusal number; 0 for no part, 1 for a part of the CPU node's block, 2 for one of its parent's; offset and length of
the part in that block, or zeros.

The lines come from the model (tests/model/tree.py), and the expected ones are written down by hand as well. Codes
such as P2 name readings of document 01.
"""

from model import tree as model
from vectors.blocks import END, END_NODE, ENDING, HERE, NOP, STRINGS, begin, held, joined, padded, prop, read_built
from vectors.chance import Chance
from vectors.properties import cells, held as held_values, in_edition, pa_line, pa_refused
from vectors.trees import PROPERTY_CHARACTERS, TREES, names_with

SEED = 20240303

NONE = []


def query(cpu, parent, name, strings=STRINGS):
    """The bytes of a vector."""
    return cells(len(cpu), len(parent), len(strings)) + cpu + parent + strings + name


def refused(number, cpu, parent, name=b"reg", **strings):
    """A lookup that gives no part. The blocks are lists of parts."""
    return "l", query(joined(cpu)[0], joined(parent)[0], name, **strings), "l %d 0 0 0" % number


def found(length, cpu, parent, name=b"reg", **strings):
    """A lookup that gives the part of this length that begins at HERE, in the one block or in the other."""
    blocks = [joined(block) for block in (cpu, parent)]
    ((which, offset),) = [(which, place) for which, (_, places) in enumerate(blocks, 1) for place in places]
    return "l", query(blocks[0][0], blocks[1][0], name, **strings), "l 0 %d %d %d" % (which, offset, length)


REG = prop(b"reg", b"12345")
LENGTH = 17
NAME = prop(b"name", b"abc")
SIZE = prop(b"size")


# Found, or in neither block


def places():
    """In the one block, in the other, in both, in neither; first, in the middle, last."""
    for block in ([HERE, REG], [HERE, REG, NAME], [NAME, HERE, REG], [NAME, SIZE, HERE, REG], [NAME, HERE, REG, SIZE]):
        for other in (NONE, [NAME], [NAME, SIZE], [NOP]):
            yield found(LENGTH, block, other)
            yield found(LENGTH, other, block)
    # In both: the CPU node's is given, and it is no repetition (P4).
    for parent in ([REG], [prop(b"reg")], [prop(b"reg", b"123456789")], [NAME, REG], [prop(ENDING, b"x")]):
        yield found(LENGTH, [HERE, REG], parent)
        yield found(LENGTH, [NAME, NOP, HERE, REG, SIZE], parent)
    yield found(12, [HERE, prop(b"reg")], [REG])
    yield found(13, [HERE, prop(ENDING, b"x")], [REG])
    yield found(15, [SIZE, HERE, NAME], [NAME, REG, SIZE], b"name")
    for name, cpu, parent in (
        (b"reg", NONE, NONE),
        (b"reg", [NAME], NONE),
        (b"reg", NONE, [NAME]),
        (b"reg", [NAME], [SIZE]),
        (b"reg", [NOP], [NOP, NOP]),
        (b"x-reg", [REG], [REG, NAME]),
        (b"reg", [prop(b"x-reg")], [prop(b"eg")]),
    ):
        yield refused(10, cpu, parent, name)
    # With no strings block there may still be blocks without properties.
    yield refused(10, NONE, NONE, strings=b"")
    yield refused(10, [NOP], NONE, strings=b"")


def nops():
    many = [NOP, NOP, NAME, NOP, HERE, REG, NOP, SIZE, NOP]
    for block in ([NOP, HERE, REG], [HERE, REG, NOP], many, [*[NOP] * 20, HERE, REG]):
        yield found(LENGTH, block, [NOP])
        yield found(LENGTH, [NOP, SIZE], block)
    # NOPs in a value.
    yield found(20, [HERE, prop(b"reg", NOP + NOP)], NONE)
    # What looks like the property sought in the value of another one.
    yield found(LENGTH, [prop(b"name", REG), HERE, REG], NONE)
    yield refused(10, [prop(b"name", REG + b"\0\0\0")], NONE)
    yield found(LENGTH, [prop(b"name", padded(REG))], [HERE, REG])


def values():
    """Of all lengths to nine: the part ends with the value, its padding is not in it but has to be there (P2, P5)."""
    for length in range(10):
        value = b"\xa5" * length
        yield found(12 + length, [HERE, prop(b"reg", value)], NONE)
        yield found(12 + length, [NAME], [SIZE, HERE, prop(b"reg", value, fill=b"\xff"), NAME])
    yield found(12 + 300, [NAME, HERE, prop(b"reg", bytes(300)), SIZE], NONE)
    for length in range(1, 10):
        whole = prop(b"reg", b"\xa5" * length)
        for missing in range(1, -length % 4 + 1):
            yield refused(6, [NAME, whole[:-missing]], NONE)
            yield refused(6, [REG], [prop(b"size", b"\xa5" * length)[:-missing]])


def left_over():
    """One to three bytes at the end (P2). Padding is counted from the block's own start, not from the vector's."""
    for left in (b"\0", b"\0\0", b"\0\0\0", b"\4", b"\0\0\4", b"\xff" * 3, b"\3\3\3"):
        yield refused(6, [REG, left], NONE)
        yield refused(6, [REG], [NAME, left])
        yield refused(6, [left], [REG])
        yield refused(6, [NOP, left], NONE)
    yield refused(6, [b"\0", REG], NONE)
    yield refused(6, [REG[4:]], [REG])
    # The faults of the first block decide where the second one begins.
    yield refused(6, [REG[:-1]], [b"\0", REG])
    yield refused(6, [REG[:-3]], [REG])
    # The CPU node's block is so short that its end is no multiple of four, and the parent's is whole.
    yield refused(6, [b"\0\0\0"], [REG])


def cut_short():
    """Two cells or a value that do not lie in the block: 6, and before 7 and 9."""
    for cut in (
        cells(3),
        cells(3, 0),
        cells(3, 0, 0)[:-1],
        cells(3)[:-1],
        cells(3, 1, 5),
        cells(3, 4, 5) + b"abc",
        cells(3, 5, 5) + b"abcd",
        cells(3, 8, 5) + b"abcd",
        cells(3, 2**31, 5) + b"abcd",
        cells(3, 2**32 - 1, 5) + b"abcd",
        cells(3, 2**32 - 3, 5) + b"abcd",
        cells(3, 2**32 - 4, 5) + b"abcd",
        cells(3, 2**32 - 8, 5) + b"abcd",
        cells(3, 2**32 - 12, 5) + b"abcd",
        cells(3, 2**32 - 24, 5) + b"abcd",
        cells(3, 1, 99),
        cells(3, 2**32 - 12, 99) + b"abcd",
    ):
        yield refused(6, [cut], NONE)
        yield refused(6, [NAME, cut], [REG])
        yield refused(6, [REG], [NAME, cut])
        yield refused(6, [REG, cut], NONE)
    # A length that takes in the rest of the block, or all but some of it.
    yield refused(10, [prop(b"name", length=12), SIZE], NONE, b"size")
    yield found(24, [HERE, prop(b"reg", length=12), SIZE], NONE)
    yield found(21, [HERE, prop(b"reg", length=9), SIZE], NONE)
    yield refused(6, [prop(b"reg", length=8), SIZE], NONE)
    yield refused(6, [prop(b"reg", length=13), SIZE], NONE)


# Faults

FAULTS = {
    6: [cells(77)],
    7: [prop(STRINGS.index(b"\0"))],
    9: [prop(b"x-reg"), prop(b"x-reg", b"1")],
}


def faults():
    """In each block, before and behind the property, and in both blocks at once (P1)."""
    for number, fault in FAULTS.items():
        for whole in ([*fault, REG], [REG, *fault], [NAME, *fault, REG, SIZE], [NAME, REG, NOP, *fault], fault):
            yield refused(number, whole, NONE)
            yield refused(number, NONE, whole)
            yield refused(number, whole, [REG, NAME])
            yield refused(number, [NAME, REG], whole)
            yield refused(number, whole, NONE, b"absent")
            yield refused(number, [SIZE], whole, b"absent")
        # The CPU node's block first, then its parent's.
        for parent in FAULTS.values():
            yield refused(number, [REG, *fault], [*parent, REG])
            yield refused(number, [*fault, REG], [REG, *parent])
            yield refused(number, fault, parent, b"absent")
            # In one block the first faulty token decides.
            yield refused(number, [*fault, *parent, REG], NONE)
            yield refused(number, [REG], [NAME, *fault, *parent])


def tokens():
    """Begin node, end node and end are out of place, like unknown ones (P3)."""
    for token in (
        cells(0),
        begin(b"n"),
        begin(b""),
        begin(b"*"),
        cells(1),
        cells(1) + b"nnnn",
        END_NODE,
        END,
        cells(5),
        cells(8),
        cells(0x03000000),
        cells(0x04000000),
        cells(0x00010003),
        cells(0x80000003),
        cells(2**32 - 1),
    ):
        yield refused(6, [REG, token], NONE)
        yield refused(6, [token, REG], NONE)
        yield refused(6, [REG], [token])
        yield refused(6, [NOP, token], [REG])
    # A child's or the node's own end, with something behind it that would be good.
    yield refused(6, [REG, END_NODE, END], NONE)
    yield refused(6, [REG], [NAME, begin(b"n"), END_NODE])
    yield refused(6, [begin(b"n"), REG, END_NODE], NONE)


# Repeated


def repeated():
    """By characters, through one offset or two (W9), in one block only."""
    reg, ending = prop(b"reg", b"1"), prop(ENDING, b"22")
    for first, second in ((reg, reg), (reg, ending), (ending, reg), (ending, ending)):
        for name in (b"reg", b"name", b"absent"):
            yield refused(9, [first, second], [NAME], name)
            yield refused(9, [NAME], [first, NOP, SIZE, second], name)
        yield refused(9, [NAME, first, SIZE, second, prop(b"x-reg")], NONE)
    yield refused(9, [reg, reg, reg], NONE)
    yield found(13, [HERE, reg], [reg, NAME])
    # Endings of one string are different names.
    yield found(LENGTH, [prop(b"x-reg"), HERE, REG, prop(b"eg"), prop(b"g")], NONE)
    yield found(13, [prop(b"x-reg"), HERE, prop(b"eg", b"1"), prop(b"reg")], NONE, b"eg")
    strings = b"a\0ab\0A\0a\0"
    for offset, name in ((0, b"a"), (2, b"ab"), (3, b"b"), (5, b"A")):
        block = [part for at in (0, 2, 3, 5) for part in ([HERE] if at == offset else []) + [prop(at)]]
        yield found(12, block, NONE, name, strings=strings)
        yield found(12, NONE, block, name, strings=strings)
    yield refused(9, [prop(0), prop(2), prop(7)], NONE, b"ab", strings=strings)
    # 6 comes before 9 at one token, and 7 never meets it.
    yield refused(6, [reg, prop(b"reg", b"1")[:-1]], NONE)
    yield refused(6, [reg, prop(b"reg", length=99)], NONE)
    yield refused(7, [prop(99), prop(99)], NONE)


# Names


def names():
    """The names in the blocks: bad ones refuse even if another is sought (P3)."""
    long = b"p" * 72 + b"\0"
    yield found(12, [HERE, prop(9)], NONE, b"p" * 63, strings=long)
    yield found(12, [prop(9), HERE, prop(10)], NONE, b"p" * 62, strings=long)
    yield found(12, [prop(9)], [HERE, prop(71), prop(70)], b"p", strings=long)
    for length in (30, 31, 32, 33, 61):
        yield found(12, [prop(9), HERE, prop(72 - length)], [prop(10)], b"p" * length, strings=long)
        yield found(12, [prop(9)], [HERE, prop(72 - length), prop(10)], b"p" * length, strings=long)
    for offset in (0, 8, 72, 73, 74, 2**31, 2**32 - 1, 2**32 - 63):
        yield refused(7, [prop(offset), prop(9)], NONE, b"p" * 63, strings=long)
        yield refused(7, [prop(9)], [prop(offset)], b"p" * 63, strings=long)
    # Strings without an end, and no strings at all.
    without = (b"reg", 0), (b"name\0reg", 5), (b"\0reg", 1), (b"", 0)
    for strings, offset in (*without, (b"reg\0", 3), (b"reg\0", 4), (b"\0", 0)):
        yield refused(7, [prop(offset)], NONE, strings=strings)
        yield refused(7, NONE, [prop(offset)], strings=strings)
    # The name sought follows the strings block in the vector: it is not part of it.
    yield refused(7, [prop(5)], NONE, b"\0", strings=b"name\0reg")
    yield found(12, [HERE, prop(0)], NONE, b"name", strings=b"name\0reg")
    # Every byte.
    for place in range(3):
        strings = b"".join(names_with(byte)[place] + b"\0" for byte in PROPERTY_CHARACTERS)
        every = [prop(offset) for offset in range(0, len(strings), 6)]
        last = names_with(PROPERTY_CHARACTERS[-1])[place]
        yield found(12, [*every[:-1], HERE, every[-1]], NONE, last, strings=strings)
    for byte in range(1, 256):
        name = names_with(byte)[byte % 3]
        if byte not in PROPERTY_CHARACTERS:
            yield refused(7, [prop(0)], NONE, name, strings=name + b"\0")


def names_sought():
    """One that is no property name is just not found (P6), and a fault comes before that."""
    strings = STRINGS + b"p" * 63 + b"\0"
    longest = prop(len(STRINGS))
    block = [NAME, REG, SIZE, longest]
    yield found(12, [NAME, REG, HERE, longest], [NAME], b"p" * 63, strings=strings)
    yield found(12, [NAME], [NAME, REG, HERE, longest], b"p" * 63, strings=strings)
    for name in (
        b"",
        b"\0",
        b"reg\0",
        b"\0reg",
        b"reg\0x",
        b"name\0reg",
        b"reg\0size\0",
        STRINGS,
        b"r",
        b"re",
        b"eg",
        b"regs",
        b"Reg",
        b"REG",
        b"reg ",
        b"reg@0",
        b"x-reg",
        b"p" * 31,
        b"p" * 32,
        b"p" * 62,
        b"p" * 64,
        b"p" * 65,
        b"p" * 127,
        b"p" * 63 + b"\0",
        b"p" * 1000,
        b"\xff",
        b"*",
        b"@",
    ):
        yield refused(10, block, [NOP], name, strings=strings)
        yield refused(10, [REG], block, name, strings=strings)
    for name in (b"", b"reg\0", b"p" * 64, b"@"):
        for number, fault in FAULTS.items():
            yield refused(number, fault, block, name, strings=strings)
            yield refused(number, block, fault, name, strings=strings)
    # A property whose name is the one sought, but is bad.
    yield refused(7, [prop(0)], NONE, b"p" * 64, strings=b"p" * 64 + b"\0")
    yield refused(7, [prop(0)], NONE, b"", strings=b"\0")


# Real CPU nodes


def blocks_of(name, behind):
    """Of a tree of tests/trees: the blocks of the CPU node, up to these bytes, and of `/cpus`, and the strings block."""
    data = read_built(TREES)[name]
    cpus, cpu = begin(b"cpus"), begin(b"PowerPC,POWER9@0")
    parent = data[data.index(cpus) + len(cpus) : data.index(cpu)]
    block = data[data.index(cpu) + len(cpu) : data.index(END_NODE + behind)]
    return block, parent, data[int.from_bytes(data[12:16], "big") :]


def part_of(block, strings, name, value):
    """The offset and the length of a property of this name and value."""
    whole = cells(3, len(value), (b"\0" + strings).index(b"\0" + name + b"\0")) + value
    return block.index(whole), len(whole)


def power9():
    """The CPU node of tests/trees/power9.dts and the properties of `/cpus`."""
    block, parent, strings = blocks_of("power9", begin(b"ibm,powerpc-cpu-features"))
    for name, which, value in (
        (b"ibm,pa-features", 1, bytes.fromhex("1800f63fc7c080f0800000000000000000008000800080008000")),
        (b"ibm,processor-segment-sizes", 1, cells(28, 40, 2**32 - 1, 2**32 - 1)),
        (b"device_type", 1, b"cpu\0"),
        (b"cpu-version", 1, cells(0x4E1200)),
        (b"phandle", 1, cells(0x8009)),
        (b"interrupt-parent", 1, cells(0x804B)),
        (b"#address-cells", 2, cells(1)),
        (b"#size-cells", 2, cells(0)),
    ):
        place = part_of((block, parent)[which - 1], strings, name, value)
        yield "l", query(block, parent, name, strings), "l 0 %d %d %d" % (which, *place)
    for name in (b"ibm,processor-page-sizes", b"ibm,pi-features", b"isa", b"features", b"ibm,pa-feature"):
        yield "l", query(block, parent, name, strings), "l 10 0 0 0"
    yield "l", query(block + END_NODE, parent, b"phandle", strings), "l 6 0 0 0"
    yield "l", query(block, parent + begin(b"PowerPC,POWER9@0"), b"phandle", strings), "l 6 0 0 0"
    yield "l", query(block, parent + parent, b"phandle", strings), "l 9 0 0 0"
    yield "l", query(block, parent, b"phandle", strings[: strings.index(b"\0interrupt-parent\0") + 8]), "l 7 0 0 0"


RADIX_NAME = b"ibm,processor-radix-AP-encodings"

# What tests/trees/pseries.dts has of these, written down from it.
RADIX = cells(0x0C, 0xA0000010, 0x20000015, 0x4000001E)
ATTRIBUTES = cells(
    *(0x4200F63F, 0xC7C080F0, 0x80000000, 0, 0x8000, 0x80008000, 0x8000, 0x80008000, 0x80008000, 0xC0008000),
    *[0x80008000] * 6,
    0x80000000,
)


def pseries():
    """The CPU node of tests/trees/pseries.dts, which has a name of 32 characters among its properties, and those of `/cpus`."""
    block, parent, strings = blocks_of("pseries", END_NODE)
    for name, which, value in (
        (RADIX_NAME, 1, RADIX),
        (b"ibm,pa-features", 1, ATTRIBUTES),
        (b"ibm,segment-page-sizes", 1, cells(12, 0, 1, 12, 0, 16, 0x110, 1, 16, 1)),
        (b"ibm,processor-segment-sizes", 1, cells(28, 40, 2**32 - 1, 2**32 - 1)),
        (b"ibm,dec-bits", 1, cells(0x38)),
        (b"ibm,my-drc-index", 1, cells(0x10000000)),
        (b"64-bit", 1, b""),
        (b"ibm,drc-names", 2, cells(1) + b"CPU 0\0"),
        (b"#address-cells", 2, cells(1)),
    ):
        place = part_of((block, parent)[which - 1], strings, name, value)
        yield "l", query(block, parent, name, strings), "l 0 %d %d %d" % (which, *place)
        # The other way round.
        yield "l", query(parent, block, name, strings), "l 0 %d %d %d" % (3 - which, *place)
    for name in (RADIX_NAME[:-1], RADIX_NAME[1:], RADIX_NAME + b"s", RADIX_NAME + b"\0", RADIX_NAME.lower(), b"ibm,pi-features"):
        yield "l", query(block, parent, name, strings), "l 10 0 0 0"
    yield "l", query(parent, parent, RADIX_NAME, strings), "l 10 0 0 0"
    yield "l", query(block + block, parent, RADIX_NAME, strings), "l 9 0 0 0"


def pseries_values():
    """The two values as they stand where the lookup finds them."""
    block, parent, strings = blocks_of("pseries", END_NODE)
    places = [model.lookup(block, parent, strings, name) for name in (RADIX_NAME, b"ibm,pa-features")]
    radix, attributes = (block[offset + 12 : offset + length] for _, _, offset, length in places)
    if (radix, attributes) != (RADIX, ATTRIBUTES):
        raise ValueError("the model finds %s and %s in the pseries tree" % (radix.hex(), attributes.hex()))
    yield "x", radix, "x 0 4 0 12 5 16 1 21 2 30" + " 0" * 24
    raw, bits = [0xF6, 0x3F, 0xC7, 0xC0, 0x80, 0xF0], [1, 1, 1, 1, 0]
    later = [0x80, 0, 0x80, 0, 0x80, 0, 0x80, 0, 0x80, 0, 0xC0, 0, *[0x80, 0] * 14, 0, 0]
    yield "a", in_edition(0, attributes), pa_line(raw, bits, 0)
    yield "a", in_edition(1, attributes), pa_line(raw, bits, 0, [1, 1, 0], later)
    yield "a", in_edition(2, attributes), pa_refused(15)


# By chance


def chance_block(chance, strings):
    parts = []
    for _ in range(chance.below(6)):
        choice = chance.below(12)
        if choice == 0:
            parts.append(NOP)
        elif choice == 1 and chance.below(3) == 0:
            parts.append(cells(chance.choice((0, 1, 2, 3, 9))))
        else:
            offset = chance.choice([at for at in range(len(strings)) if strings[at]])
            parts.append(prop(offset, chance.bytes(chance.below(9)), fill=chance.bytes(1)))
    block = b"".join(parts)
    return block[: len(block) - chance.between(1, 3)] if chance.below(12) == 0 else block


def lookups_by_chance(chance, many):
    for _ in range(many):
        names = [bytes(chance.choice(b"abcdefgh#?-09") for _ in range(chance.between(1, 8))) for _ in range(4)]
        strings = b"\0".join(names) + (b"\0" if chance.below(6) else b"")
        name = chance.choice(names)[chance.below(2) :]
        yield "l", query(chance_block(chance, strings), chance_block(chance, strings), name, strings), None


def cases():
    yield from places()
    yield from nops()
    yield from values()
    yield from left_over()
    yield from cut_short()
    yield from faults()
    yield from tokens()
    yield from repeated()
    yield from names()
    yield from names_sought()
    yield from power9()
    yield from pseries()
    yield from lookups_by_chance(Chance(SEED), 80)


def answer(data):
    """The model's answer to a vector's bytes."""
    ends = []
    end = 12
    for at in (0, 4, 8):
        end += int.from_bytes(data[at : at + 4], "big")
        ends.append(end)
    cpu, parent, strings = (data[start:end] for start, end in zip([12, *ends], ends))
    return model.lookup(cpu, parent, strings, data[end:])


def vectors():
    yield from held(cases(), answer)
    yield from held_values(pseries_values())
