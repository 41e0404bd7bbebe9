"""Property blocks, values of tables, string lists and unit texts by chance, for the differential test."""

from vectors.blocks import NOP, prop
from vectors.properties import (
    GAP,
    HEX_DIGITS,
    attribute,
    attributes_random,
    cells,
    encodings,
    gaps_random,
    mutated,
    pa_random,
    radix_random,
    segments_random,
    sizes_random,
)
from vectors.strings import chance_query, joined

ALL_ONES = 2**32 - 1


def sizes(kind, chance, many):
    """As the stored vectors have them; cells of all ones among ascending sizes, and among few sizes in any order; sixteen and more cells;
    any bytes."""
    gaps = [value for _, value, _ in gaps_random(chance, many)]
    for place, (_, value, _) in enumerate(sizes_random(kind, chance, many)):
        if place % 8 in (2, 3, 4):
            value = gaps[place]
        if place % 8 == 5:
            value = cells(*[chance.choice((GAP, GAP, GAP, GAP - 1, 28, 40, 63, 64)) for _ in range(chance.between(1, 17))])
        if place % 8 == 6:
            value = cells(*range(chance.between(14, 19))) + chance.bytes(chance.choice((0, 0, 1)))
        if place % 8 == 7:
            value = chance.bytes(chance.below(20))
        yield value


def radix(chance, many):
    """As the stored vectors have them; few APs and exponents in any order; exponents about 63 and of all lengths; sixteen and more cells;
    any bytes."""
    for place, (_, value, _) in enumerate(radix_random(chance, many)):
        if place % 8 == 3:
            pairs = [(chance.below(8), chance.choice((12, 16, 21, 30, 63))) for _ in range(chance.between(1, 4))]
            value = encodings(*pairs)
        if place % 8 == 5:
            near = chance.between(60, 66)
            value = encodings((chance.below(8), 12), (chance.below(8), chance.choice((near, near, 2 ** chance.below(29), 2**29 - 1))))
        if place % 8 == 6:
            value = encodings(*[(chance.below(8), at) for at in range(chance.between(14, 19))]) + chance.bytes(chance.choice((0, 0, 1)))
        if place % 16 == 7:
            value = chance.bytes(chance.below(20))
        yield value


def segments(chance, many):
    """As the stored vectors have them; small cells; any bytes."""
    for place, (_, value, _) in enumerate(segments_random(chance, many)):
        if place % 8 == 6:
            value = cells(*[chance.choice((0, 1, 1, 2, 8, 9, 12, 63, 64)) for _ in range(chance.below(40))])
        if place % 8 == 7:
            value = chance.bytes(chance.below(40))
        yield value


def attributes(kind, chance, many):
    """As the stored vectors have them; few short descriptors; any bytes."""
    for place, (_, value, _) in enumerate(attributes_random(kind, chance, many)):
        if place % 8 == 5:
            value = b"".join(bytes([1, chance.below(3), chance.below(256)]) for _ in range(chance.between(1, 5)))
        if place % 8 == 6:
            value = bytes([254, 0]) + chance.bytes(254) + bytes(chance.below(2))
        if place % 8 == 7:
            value = chance.bytes(chance.below(30))
        yield value


# Mostly the two, then others that are near them or have a byte of theirs.
EDITIONS = *[0] * 16, *[1] * 48, 2, 3, 256, 257, 2**16 + 1, 2**24, 2**31, ALL_ONES


def editions(chance, many):
    """(value, edition): as above, contents of up to 254 bytes, and contents with few bits set, about bytes 24, 38, 40 and 64."""
    long = [value for _, value, _ in pa_random(chance, many)]
    for place, value in enumerate(attributes("a", chance, many)):
        if place % 8 in (0, 1, 3, 4):
            value = long[place]
        if place % 8 == 2:
            contents = bytearray(chance.choice((64, 65, 66, 254, chance.between(25, 66))))
            for _ in range(chance.between(1, 3)):
                at = chance.choice((23, 24, 37, 38, 38, 39, 40, 40, 41, 63, 64, 64, 65, 253))
                if at < len(contents):
                    contents[at] = chance.choice((1, 0x40, 0x7F, 0x80, 0x80, 0x81))
            value = attribute(0, bytes(contents))
        yield value, chance.choice(EDITIONS)


def frequencies(chance, many):
    for place in range(many):
        yield chance.bytes(8 if place % 2 else chance.below(17))


def string_lists(chance, many):
    """(list, text), as the stored vectors have them; few bytes of few values; many short strings; any bytes."""
    for place in range(many):
        data, text = chance_query(chance)
        if place % 8 == 5:
            data = bytes(chance.choice(b"\0\0ab") for _ in range(chance.below(12)))
            text = bytes(chance.choice(b"\0abab") for _ in range(chance.below(4)))
        if place % 8 == 6:
            names = [b"%x" % chance.below(1000) for _ in range(chance.below(400))]
            data, text = joined(names), chance.choice((*names, b"0"))
            data = data[: len(data) - chance.choice((0, 0, 0, 1))]
        if place % 8 == 7:
            data, text = chance.bytes(chance.below(30)), chance.bytes(chance.below(3))
        yield data, text


def texts(chance, many):
    """Unit texts of all lengths, of either case, with leading zeros, with a wrong character, and any bytes."""
    for place in range(many):
        length = chance.between(0, 18)
        text = bytes(chance.choice(HEX_DIGITS) for _ in range(length))
        if place % 4 == 1:
            text = format(chance.below(2 ** chance.between(1, 34)), chance.choice("xX")).encode("ascii")
            text = text.rjust(length, b"0")
        if place % 4 == 2:
            text = mutated(chance, text)
        if place % 16 == 3:
            text = chance.bytes(length)
        yield text


def units(chance, many):
    """(unit, buffer): numbers of all lengths, and buffers of none to twelve bytes."""
    for _ in range(many):
        some = chance.below(2 ** chance.between(1, 32))
        unit = chance.choice((chance.below(2**32), some, 16 ** chance.below(8), 16 ** chance.below(8) - 1, ALL_ONES))
        length = len("%x" % unit)
        yield unit, chance.bytes(chance.choice((chance.below(13), length, length - 1)))


def block(chance, offsets):
    """Properties whose names are at these offsets; at times another token among them, or bytes missing at the end."""
    parts = [prop(offset, chance.bytes(chance.below(9)), fill=chance.bytes(1)) for offset in offsets]
    for _ in range(chance.below(3)):
        parts.insert(chance.below(len(parts) + 1), NOP)
    if chance.below(16) == 0:
        parts.insert(chance.below(len(parts) + 1), cells(chance.choice((0, 1, 2, 3, 9, ALL_ONES))))
    data = b"".join(parts)
    return data[: -chance.between(1, 3)] if chance.below(16) == 0 else data


def lookups(chance, many):
    """(CPU block, parent's block, strings, name); the name is mostly that of a property, or the ending of one."""
    for place in range(many):
        names = [bytes(chance.choice(b"abcdefgh#?-09") for _ in range(chance.between(1, 6))) for _ in range(8)]
        if place % 4 == 0:
            names[chance.below(8)] = chance.choice((b"p" * 32, b"p" * 63, b"p" * 63, b"p" * 64, b"p@", b"\xff", b""))
        strings = b"\0".join(names) + (b"\0" if chance.below(8) else b"")
        firsts = [0, *[at + 1 for at, byte in enumerate(strings[:-1]) if byte == 0]]
        if place % 8 == 1:
            firsts += [chance.below(len(strings) + 2) for _ in range(2)]
        blocks = [block(chance, chance.shuffled(firsts)[: chance.below(6)]) for _ in range(2)]
        if place % 8 == 2:
            blocks[chance.below(2)] = mutated(chance, chance.choice(blocks))
        if place % 32 == 3:
            blocks[chance.below(2)] = chance.bytes(chance.below(40))
        name = chance.choice(names)[chance.choice((0, 0, 0, 1)) :]
        yield (*blocks, strings, chance.bytes(chance.below(72)) if place % 32 == 5 else name)
