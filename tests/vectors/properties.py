"""Vectors for document 01's "CPU properties and unit text".

| kind | bytes                                                                | line after kind and refusal number |
|------|----------------------------------------------------------------------|------------------------------------|
| u    | a unit text to read                                                  | the number |
| w    | a unit number (four bytes, big-endian), then the lent buffer's bytes | the length, and the buffer's bytes afterwards |
| p    | page sizes                                                           | count, 16 exponents |
| s    | segment sizes                                                        | count, 16 exponents, `none` for one that is no size |
| g    | segment page sizes                                                   | count, then 8 times base, encoding, count and 8 pairs of exponent and encoding |
| x    | radix encodings                                                      | count, 16 pairs of AP and exponent |
| a    | an edition (four bytes, big-endian), then `ibm,pa-features`          | 6 raw bytes, eight attributes, coprocessor word, 230 later bytes |
| i    | `ibm,pi-features`                                                    | count, 254 bytes |
| f    | `ibm,extended-bus-frequency`                                         | the frequency |

The eight attributes are data streams, vector, vector scalar, vector crypto and transactional memory, and those of the
later edition: copy and paste, radix translation, second watchpoint.

The lines come from the model (tests/model/properties.py). Wherever documents 01 and 02 fix what is to come, it is
written down here by hand as well, and a model that says something else is an error: each group yields (kind,
bytes, expected), where `expected` is the whole line, the refusal number, or None for whatever the model says.
"""

from model import properties as model
from vectors.chance import Chance

SEED = 20240101
SEED_A13 = 20240113

HEX_DIGITS = b"0123456789abcdefABCDEF"

# A cell of segment sizes that is none.
GAP = 0xFFFFFFFF

ANSWERS = {
    "u": model.read_unit,
    "w": lambda data: model.write_unit(int.from_bytes(data[:4], "big"), data[4:]),
    "p": model.page_sizes,
    "s": model.segment_sizes,
    "g": model.segment_page_sizes,
    "x": lambda data: model.radix_encodings(data),
    "a": lambda data: model.pa_features(data[4:], int.from_bytes(data[:4], "big")),
    "i": model.pi_features,
    "f": model.bus_frequency,
}


# Building blocks


def cells(*numbers):
    """The bytes of big-endian cells."""
    return b"".join(number.to_bytes(4, "big") for number in numbers)


def not_whole(above):
    """Cells with a part of one more, which have other faults as well. `above` is a cell that is out of range."""
    return (
        cells(*range(17)) + b"\0",
        cells(*[64] * 17) + b"\0",
        cells(*range(63)) + b"\0\0\0",
        cells(*range(16)) + b"\xff",
        cells(above) + b"\0",
        cells(5, 5) + b"\0\0",
        b"\x0c",
        b"\0\0\x0c",
    )


def descriptor(base, pairs, encoding=0, count=None):
    """A descriptor of segment page sizes. `pairs` are (exponent, encoding); `count` where it is to be wrong."""
    header = cells(base, encoding, len(pairs) if count is None else count)
    return header + b"".join(cells(*pair) for pair in pairs)


def attribute(kind, contents, length=None):
    """An attribute descriptor; `length` where it is to be wrong."""
    return bytes([len(contents) if length is None else length, kind]) + contents


def in_edition(edition, value):
    """The bytes of a vector of kind `a`."""
    return cells(edition) + value


def zeros_but(length, changes):
    """Zero bytes, but for those that `changes` gives by place."""
    contents = bytearray(length)
    for place, byte in changes.items():
        contents[place] = byte
    return bytes(contents)


def mutated(chance, value):
    """The value with one or two small changes at places that chance decides."""
    value = bytearray(value)
    for _ in range(chance.between(1, 2)):
        at = chance.below(len(value) + 1)
        change = chance.below(6)
        if change == 0:
            value[at : at + 1] = b""
        elif change == 1:
            value[at:at] = bytes([chance.choice((0, 1, 2, 63, 64, 254, 255))])
        elif change == 2:
            del value[at:]
        elif change == 3:
            value[at : at + 1] = chance.bytes(1)
        else:
            cell = at - at % 4
            value[cell : cell + 4] = cells(chance.choice((0, 1, 8, 9, 12, 63, 64, 2**32 - 1)))
    return bytes(value)


# Unit text


def unit_paper_cases():
    """Document 01, "Both sides"."""
    yield "w", cells(0) + b"\xaa", "w 0 1 48"
    yield "w", cells(255) + b"\xaa\xbb", "w 0 2 102 102"
    yield "u", b"FFFFFFFF", "u 0 4294967295"
    yield "u", b"100000000", "u 12 0"
    yield "u", b"", "u 20 0"
    yield "u", b"0" * 16, "u 0 0"
    yield "u", b"0" * 17, "u 20 0"


def unit_lengths():
    """Every length to 18, of the smallest and the largest digit."""
    for length in range(19):
        too_long = length == 0 or length > 16
        yield "u", b"0" * length, 20 if too_long else 0
        yield "u", b"f" * length, 20 if too_long else 12 if length > 8 else 0


def unit_characters():
    """Every byte alone, and at each place of a longer text in turn."""
    for byte in range(256):
        number = 0 if byte in HEX_DIGITS else 20
        yield "u", bytes([byte]), number
        text = bytearray(b"1234567")
        text.insert(byte % 8, byte)
        yield "u", bytes(text), number


def unit_values():
    """Both cases, leading zeros, both sides of 2^32, and faults of two kinds at once: 20 comes before 12."""
    for text, unit in (
        (b"a", 10),
        (b"A", 10),
        (b"10", 16),
        (b"0010", 16),
        (b"dEaDbEeF", 0xDEADBEEF),
        (b"0123456789", 0x123456789),
        (b"00abcdef", 0xABCDEF),
        (b"00ABCDEF", 0xABCDEF),
        (b"ffffffff", 0xFFFFFFFF),
        (b"0FfFfFfFf", 0xFFFFFFFF),
        (b"00000000ffffffff", 0xFFFFFFFF),
        (b"80000000", 0x80000000),
        (b"fffffffe", 0xFFFFFFFE),
        (b"0000000100000000", 0x100000000),
        (b"8000000000000000", 0x8000000000000000),
        (b"ffffffff00000000", 0xFFFFFFFF00000000),
        (b"0000000f00000001", 0xF00000001),
        (b"ffffffffffffffff", 0xFFFFFFFFFFFFFFFF),
    ):
        yield "u", text, "u 0 %d" % unit if unit < 2**32 else "u 12 0"
    for text in (
        b"g",
        b"0x10",
        b"0X10",
        b"-1",
        b"+1",
        b" 1",
        b"1 ",
        b"1\n",
        b"1\0",
        b"\0",
        b"1_0",
        b"ff,1",
        b"@0",
        b"1.0",
        b"\xef\xbc\x91",
        b"0000000000000000f",
        b"fffffffffffffffff",
        b"000000000ffffffff",
        b"gffffffffffffffff",
        b"gfffffffffffffff",
        b"fffffffgffffffff",
        b"fffffffffffffffg",
        b"10000000g",
        b"f" * 255,
        b"0" * 256,
        b"0" * 272,
    ):
        yield "u", text, 20


def unit_random(chance):
    for _ in range(20):
        unit = chance.below(2 ** chance.between(1, 32))
        text = format(unit, chance.choice("xX")).rjust(chance.between(1, 16), "0")
        yield "u", text.encode("ascii"), "u 0 %d" % unit


def unit_writes(chance):
    """Each number into a buffer that fits, one that is a byte shorter, and a longer one."""

    def written(unit, length):
        """A buffer of nonzero bytes, and what is expected of it."""
        before = [255 - place % 255 for place in range(length)]
        text = list(b"%x" % unit)
        if len(text) > length:
            after = [18, 0] + before
        else:
            after = [0, len(text)] + text + before[len(text) :]
        return "w", cells(unit) + bytes(before), "w " + " ".join(map(str, after))

    powers = [16**power for power in range(1, 8)]
    units = {0, 2**32 - 1, *powers, *(power - 1 for power in powers)}
    units.update(chance.below(2**bits) for bits in (7, 15, 22, 27, 32))
    for unit in sorted(units):
        length = len(b"%x" % unit)
        for room in (length - 1, length, length + 3):
            yield written(unit, room)
    for unit in (0, 0xFFFFFFFF):
        for room in range(13):
            yield written(unit, room)
    # A line that is longer than the program's buffer for output.
    yield written(0xFEDCBA98, 1200)


# Plain cells


def sizes_line(kind, exponents):
    """The line of a table of these exponents."""
    return " ".join(map(str, [kind, 0, len(exponents), *shown(kind, exponents), *[0] * (16 - len(exponents))]))


def shown(kind, values):
    """What a line shows of the values: segment sizes have places without a size."""
    return ["none" if kind == "s" and number == GAP else number for number in values]


def sizes_refused(kind, number):
    return " ".join(map(str, [kind, number] + [0] * 17))


def sizes_paper_cases(kind):
    """Document 01, "Both sides"."""
    yield kind, cells(12, 16, 24), sizes_line(kind, [12, 16, 24])
    yield kind, cells(12, 12), sizes_refused(kind, 19)
    yield kind, cells(63), sizes_line(kind, [63])
    yield kind, cells(64), sizes_refused(kind, 12)
    yield kind, b"", sizes_refused(kind, 11)


def sizes_lengths(kind, lengths):
    """The first bytes of eighteen ascending cells."""
    whole = cells(*range(3, 57, 3))
    for length in lengths:
        if length == 0 or length % 4:
            yield kind, whole[:length], 11
        else:
            yield kind, whole[:length], 8 if length > 64 else 0


def sizes_edges(kind):
    for exponents in (
        [0],
        [0, 1],
        [0, 63],
        [62, 63],
        list(range(16)),
        list(range(48, 64)),
        [28, 40],
    ):
        yield kind, cells(*exponents), sizes_line(kind, exponents)
    for exponents in (
        [65],
        [127],
        [256],
        [0x0C000000],
        [0x80000000],
        [63, 64],
        list(range(15)) + [64],
        # A cell that is too large, before one that does not ascend.
        [64, 64],
        [64, 5],
        [5, 64, 64],
        [5, 64, 3],
        [64] + list(range(15)),
    ):
        yield kind, cells(*exponents), sizes_refused(kind, 12)
    for exponents in (
        [0, 0],
        [1, 0],
        [63, 63],
        [63, 0],
        [10, 20, 15],
        [10, 20, 20],
        [10, 20, 10],
        [16, 12, 24],
        list(range(15)) + [14],
        list(range(15)) + [0],
        # A cell that does not ascend, before one that is too large.
        [5, 5, 64],
        [6, 5, 64],
        [63, 63, 64],
        [0, 0] + [64] * 14,
    ):
        yield kind, cells(*exponents), sizes_refused(kind, 19)
    # The maximum comes before every cell, and the length before the maximum.
    for exponents in (range(17), range(47, 64), [64] * 17, [5] * 17, [64] + list(range(16)), range(64), [0] * 18, range(257)):
        yield kind, cells(*exponents), sizes_refused(kind, 8)
    for value in not_whole(64):
        yield kind, value, sizes_refused(kind, 11)


def page_gaps():
    """Of page sizes a cell of all ones is out of range."""
    for exponents in ([GAP], [0, GAP], [28, 40, GAP, GAP], [GAP, 28], [28, GAP, 28], [GAP] * 16):
        yield "p", cells(*exponents), sizes_refused("p", 12)
    yield "p", cells(28, 28, GAP), sizes_refused("p", 19)
    yield "p", cells(*[GAP] * 17), sizes_refused("p", 8)


def segment_gaps():
    """Of segment sizes it is a place without a size."""
    for exponents in (
        # Those of POWER8, POWER9 and POWER10 under OPAL, and of QEMU's pseries.
        [28, 40, GAP, GAP],
        [GAP, 28],
        [28, GAP],
        [28, GAP, 40],
        [28, GAP, GAP, GAP, 40],
        [GAP, GAP, 28, GAP, GAP, 40, GAP, GAP],
        [GAP, 0],
        [0, GAP],
        [0, GAP, 1],
        [62, GAP, 63],
        [GAP, 63, GAP],
        [28] + [GAP] * 15,
        [GAP] * 15 + [28],
        [GAP] * 7 + [28, 40] + [GAP] * 7,
        [place if place % 2 else GAP for place in range(16)],
        [GAP if place % 2 else place for place in range(16)],
        list(range(15)) + [GAP],
        [GAP] + list(range(15)),
    ):
        yield "s", cells(*exponents), sizes_line("s", exponents)
    for exponents in (
        # All ones but for a bit, and other cells that are large.
        [0xFFFFFFFE],
        [0x7FFFFFFF],
        [28, 0xFFFFFFFE],
        [28, 0xFFFFFFFF ^ 0x00010000],
        [GAP, 0xFFFFFFFE],
        [0xFFFFFFFE, GAP],
        [28, 0xFFFF],
        [0xFF],
        # Gaps beside one size that is out of range.
        [64, GAP],
        [GAP, 64],
        [GAP, 64, GAP],
        [GAP] * 15 + [64],
        [64] + [GAP] * 15,
        [28, GAP, 64],
        # Before one that does not ascend.
        [28, GAP, 64, GAP, 28],
        [64, GAP, 63],
    ):
        yield "s", cells(*exponents), sizes_refused("s", 12)
    for exponents in (
        # Against the last size before, however many gaps stand between.
        [28, GAP, 28],
        [28, GAP, GAP, 28],
        [28] + [GAP] * 14 + [28],
        [40, GAP, 28],
        [63, GAP, 0],
        [0, GAP, 0],
        [GAP, 28, 28],
        [28, 28, GAP],
        [GAP, 28, 28, GAP],
        [28, GAP, 40, GAP, 28],
        [28, GAP, 40, GAP, 40],
        # Before one that is out of range.
        [28, GAP, 28, 64],
        [28, GAP, 28, GAP, 0xFFFFFFFE],
    ):
        yield "s", cells(*exponents), sizes_refused("s", 19)
    # Gaps alone, and cut cells; gaps count among the sixteen.
    for many in (1, 2, 15, 16):
        yield "s", cells(*[GAP] * many), sizes_refused("s", 11)
    for value in (b"\xff", b"\xff" * 5, b"\xff" * 67, b"\xff" * 71, cells(28, GAP) + b"\xff\xff"):
        yield "s", value, sizes_refused("s", 11)
    for exponents in ([GAP] * 17, [28] + [GAP] * 16, [GAP] * 16 + [64], [GAP] * 8 + [28, 28] + [GAP] * 8, [GAP] * 64):
        yield "s", cells(*exponents), sizes_refused("s", 8)


def gaps_random(chance, many):
    """Ascending sizes with gaps anywhere among them, up to seventeen cells; then out of order, or with bytes changed."""
    for place in range(many):
        exponents = sorted(chance.shuffled(range(64))[: chance.between(0, 6)])
        row = list(exponents)
        for _ in range(chance.between(0, 17 - len(row))):
            row.insert(chance.between(0, len(row)), GAP)
        if place % 4 < 2:
            good = exponents and len(row) <= 16
            yield "s", cells(*row), sizes_line("s", row) if good else None
        elif place % 4 == 2:
            yield "s", cells(*chance.shuffled(row)), None
        else:
            yield "s", mutated(chance, cells(*row)), None


def sizes_random(kind, chance, many):
    for place in range(many):
        exponents = sorted(chance.shuffled(range(64))[: chance.between(1, 16)])
        value = cells(*exponents)
        if place % 4 == 0:
            yield kind, value, sizes_line(kind, exponents)
        elif place % 4 == 1:
            yield kind, cells(*chance.shuffled(exponents)), None
        else:
            yield kind, mutated(chance, value), None


# Radix encodings


def encodings(*pairs):
    """The cells of pairs of AP and exponent."""
    return cells(*(2**29 * ap + exponent for ap, exponent in pairs))


def radix_line(*pairs):
    """The line of a table of these pairs."""
    return " ".join(map(str, ["x", 0, len(pairs), *(part for pair in pairs for part in pair), *[0, 0] * (16 - len(pairs))]))


def radix_refused(number):
    return " ".join(map(str, ["x", number] + [0] * 33))


def radix_edges():
    # That of a real host, POWER9.
    yield "x", cells(0x0C, 0xA0000010, 0x20000015, 0x4000001E), radix_line((0, 12), (5, 16), (1, 21), (2, 30))
    yield "x", cells(0xFFFFFFFF), radix_refused(12)
    yield "x", cells(0xE000003F), radix_line((7, 63))
    yield "x", cells(0xE0000040), radix_refused(12)
    yield "x", b"", radix_refused(11)
    # Every AP, the least and the largest exponent, and one above that.
    for ap in range(8):
        for exponent in (0, 1, 12, 32, 62, 63):
            yield "x", encodings((ap, exponent)), radix_line((ap, exponent))
        for exponent in (64, 65, 127, 255, 2**16, 2**27, 2**28, 2**28 + 12, 2**29 - 64, 2**29 - 1):
            yield "x", encodings((ap, exponent)), radix_refused(12)
        yield "x", encodings((ap, 12), (ap, 16), (ap, 30)), radix_line((ap, 12), (ap, 16), (ap, 30))
        yield "x", encodings((ap, 12), (ap, 12)), radix_refused(19)
    # The order is that of exponents: APs may repeat, rise or fall.
    for pairs in (
        [(0, 0), (0, 1)],
        [(7, 0), (0, 63)],
        [(7, 12), (6, 13)],
        [(5, 12), (1, 16), (0, 21)],
        [(0, 12), (5, 16), (5, 21), (0, 30)],
        [(3, 62), (2, 63)],
        [(place % 8, place) for place in range(16)],
        [(7 - place % 8, 48 + place) for place in range(16)],
        [(7, place) for place in range(16)],
        [(0, 4 * place) for place in range(16)],
    ):
        yield "x", encodings(*pairs), radix_line(*pairs)
    for pairs in (
        [(0, 12), (1, 12)],
        [(0, 12), (7, 12)],
        [(1, 12), (0, 12)],
        [(0, 12), (1, 11)],
        [(0, 63), (1, 0)],
        [(1, 63), (1, 62)],
        [(0, 12), (1, 16), (2, 16)],
        [(0, 12), (1, 16), (2, 14)],
        [(0, 12), (1, 16), (2, 12)],
        [(2, 12), (1, 16), (0, 12)],
        [(place % 8, place) for place in range(15)] + [(7, 14)],
        [(place % 8, place) for place in range(15)] + [(7, 0)],
        # Before one that is out of range.
        [(0, 12), (1, 12), (2, 64)],
        [(0, 12), (1, 11), (7, 2**29 - 1)],
        [(0, 0), (1, 0)] + [(7, 2**29 - 1)] * 14,
    ):
        yield "x", encodings(*pairs), radix_refused(19)
    for pairs in (
        [(0, 12), (1, 64)],
        [(place % 8, place) for place in range(15)] + [(7, 64)],
        # Before one that does not ascend.
        [(0, 64), (1, 64)],
        [(1, 64), (0, 5)],
        [(0, 5), (1, 64), (2, 3)],
        [(0, 2**29 - 1), (1, 2**28)],
        [(0, 12), (7, 2**29 - 1), (0, 13)],
        [(0, 12), (7, 2**29 - 1), (0, 12)],
    ):
        yield "x", encodings(*pairs), radix_refused(12)
    # A cell of all ones is no gap.
    for row in ([GAP, 12], [12, GAP], [12, GAP, 16], [12, 16, GAP, GAP], [GAP] * 16):
        yield "x", cells(*row), radix_refused(12)
    # The maximum comes before every cell, and the length before the maximum.
    for row in (range(17), range(47, 64), [64] * 17, [5] * 17, [GAP] * 17, range(64), [0xE0000040] + list(range(16)), range(257)):
        yield "x", cells(*row), radix_refused(8)
    for value in (*not_whole(0xE0000040), b"\xff" * 67):
        yield "x", value, radix_refused(11)


def radix_lengths():
    """The first bytes of eighteen cells, whose exponents ascend and whose APs fall."""
    pairs = [(7 - place % 8, 3 * place + 3) for place in range(18)]
    for length in range(73):
        if length == 0 or length % 4:
            yield "x", encodings(*pairs)[:length], radix_refused(11)
        else:
            yield "x", encodings(*pairs)[:length], radix_refused(8) if length > 64 else radix_line(*pairs[: length // 4])


def radix_random(chance, many):
    """Ascending exponents with any APs, up to seventeen cells; then out of order, with another exponent, or with bytes changed."""
    for place in range(many):
        pairs = [(chance.below(8), exponent) for exponent in sorted(chance.shuffled(range(64))[: chance.between(1, 17)])]
        if place % 4 == 0:
            yield "x", encodings(*pairs), radix_line(*pairs) if len(pairs) <= 16 else radix_refused(8)
        elif place % 4 == 1:
            yield "x", encodings(*chance.shuffled(pairs)), None
        elif place % 4 == 2:
            at = chance.below(len(pairs))
            exponent = chance.choice((pairs[at][1] + 1, pairs[at][1] + 64, 2 ** chance.between(0, 28), chance.below(2**29)))
            pairs[at] = pairs[at][0], exponent
            yield "x", encodings(*pairs), None
        else:
            yield "x", mutated(chance, encodings(*pairs)), None


# Segment page sizes


def segments_counts():
    """One to nine descriptors, with one pair and with eight."""
    for pairs in ([(24, 3)], [(24 + place, 100 + place) for place in range(8)]):
        for many in range(1, 10):
            value = b"".join(descriptor(12 + place, pairs, 256 * place) for place in range(many))
            yield "g", value, 8 if many > 8 else 0


def segments_trailing():
    """One to eleven bytes after the first descriptor and after the eighth."""
    one = descriptor(12, [(12, 0)])
    for many, number in ((1, 11), (8, 8)):
        for left in range(1, 12):
            yield "g", one * many + bytes([255 * (left % 2)]) * left, number
    yield "g", one * 7 + bytes(1), 11
    yield "g", one * 7 + bytes(11), 11
    yield "g", bytes(11), 11
    yield "g", b"", 11


def segments_cut():
    """Two descriptors, of one pair and of two, cut short at every byte."""
    whole = descriptor(12, [(12, 0)]) + descriptor(16, [(16, 1), (24, 8)], 0x110)
    for length in range(len(whole) + 1):
        yield "g", whole[:length], 0 if length in (20, 48) else 11


def segments_edges():
    pair = (20, 1)
    # Real tables, of POWER9 under OPAL and of a pseries machine.
    yield "g", bytes.fromhex(
        "0000000c00000000000000030000000c00000000000000100000000700000018000000380000001000000110"
        "0000000200000010000000010000001800000008000000180000010000000001000000180000000000000022"
        "00000120000000010000002200000003"
    ), 0
    yield "g", descriptor(12, [(12, 0)]) + descriptor(16, [(16, 1)], 0x110), 0
    # Counts.
    yield "g", descriptor(12, [pair] * 8), 0
    yield "g", descriptor(12, [], count=0), 12
    yield "g", descriptor(12, [pair], count=0), 12
    yield "g", descriptor(12, [pair] * 9), 8
    for count in (9, 10, 16, 255, 256, 0x01000000, 0x20000000, 0x7FFFFFFF, 0x80000001, 0xFFFFFFFF):
        yield "g", descriptor(12, [pair] * 8, count=count), 8
    # Exponents: at most 63, and none below the base.
    for base, exponents in (
        (0, [0]),
        (0, [63]),
        (63, [63]),
        (62, [63, 62]),
        (12, [24, 16, 12]),
        (12, [16, 16, 16]),
        (12, [12] * 8),
    ):
        yield "g", descriptor(base, [(exponent, 7) for exponent in exponents]), 0
    for base, exponents in (
        (64, [64]),
        (64, [63]),
        (64, [12]),
        (65, [70]),
        (0xFFFFFFFF, [12]),
        (0xFFFFFFFF, [0xFFFFFFFF]),
        (0x0C000000, [12]),
        (12, [64]),
        (63, [64]),
        (12, [0xFFFFFFFF]),
        (12, [0x0C000000]),
        (12, [11]),
        (1, [0]),
        (63, [62]),
        (12, [12, 64]),
        (12, [12, 11]),
        (12, [11, 12]),
        (12, [16] * 7 + [64]),
        (12, [16] * 7 + [11]),
        (12, [64] + [16] * 7),
        (12, [0, 64]),
    ):
        yield "g", descriptor(base, [(exponent, 7) for exponent in exponents]), 12
    # What is not asked: encodings below a limit, bases in order, no base twice, pages at least an earlier base.
    yield "g", descriptor(12, [(12, 0xFFFFFFFF), (13, 64)], 0xFFFFFFFF), 0
    yield "g", descriptor(24, [(24, 0)]) + descriptor(12, [(12, 0)]), 0
    yield "g", descriptor(12, [(12, 0)]) + descriptor(12, [(12, 0)]), 0
    yield "g", descriptor(0, [(0, 0)] * 3) * 8, 0


def segments_order():
    """Two faults in one descriptor, and in two: the first of document 01's order decides."""
    pair = (20, 1)
    good = descriptor(12, [pair])
    low = descriptor(12, [(11, 1)])
    large = descriptor(64, [(64, 1)])
    # A header cut short comes before its count, which would be 0 or above 8.
    yield "g", cells(12, 0) + b"\0\0\0", 11
    yield "g", cells(12, 0) + b"\xff\xff\xff", 11
    yield "g", good + cells(64, 0) + b"\0\0\0", 11
    # A count of 0 and one above 8 come before contents cut short, and before an exponent.
    yield "g", descriptor(64, [], count=0), 12
    yield "g", descriptor(64, [], count=9), 8
    yield "g", descriptor(12, [], count=9), 8
    yield "g", descriptor(12, [(64, 0)], count=9), 8
    yield "g", descriptor(12, [(64, 0)] * 9), 8
    yield "g", descriptor(64, [pair] * 9), 8
    yield "g", descriptor(12, [], count=0xFFFFFFFF), 8
    yield "g", good + descriptor(64, [pair], count=0xFFFFFFFF), 8
    # Contents cut short come before an exponent, the base's too.
    yield "g", descriptor(12, [], count=1), 11
    yield "g", descriptor(64, [], count=1), 11
    yield "g", descriptor(64, [(64, 0)], count=2), 11
    yield "g", descriptor(12, [(64, 0)], count=2), 11
    yield "g", descriptor(12, [(11, 0)], count=2), 11
    yield "g", descriptor(12, [(64, 0)])[:-1], 11
    yield "g", descriptor(12, [pair] * 7, count=8) + bytes(7), 11
    yield "g", good + descriptor(64, [pair] * 8)[:-1], 11
    # A ninth comes before all that could be wrong in it.
    yield "g", good * 8 + b"\0", 8
    yield "g", good * 8 + descriptor(12, [], count=0), 8
    yield "g", good * 8 + descriptor(12, [], count=1), 8
    yield "g", good * 8 + large, 8
    yield "g", good * 8 + good + b"\0", 8
    # An earlier descriptor's fault comes before a later one's.
    yield "g", low + descriptor(12, [pair] * 9), 12
    yield "g", low + b"\0", 12
    yield "g", low + good * 8, 12
    yield "g", large + descriptor(12, [], count=0), 12
    yield "g", descriptor(12, [pair] * 9) + large, 8
    yield "g", descriptor(12, [pair] * 9) + b"\0", 8
    yield "g", descriptor(12, [], count=0) + descriptor(12, [pair] * 9), 12
    yield "g", descriptor(12, [], count=0) + b"\0", 12
    yield "g", good + low + descriptor(12, [pair] * 9) + b"\0", 12
    yield "g", good + descriptor(12, [pair] * 9) + low + b"\0", 8
    yield "g", good * 7 + low + good, 12
    yield "g", good * 7 + descriptor(12, [], count=0) + good, 12
    yield "g", good * 7 + descriptor(12, [], count=9) + good, 8
    yield "g", good * 7 + descriptor(12, [pair], count=8) + good, 11
    yield "g", good * 7 + large + b"\0", 12


def segments_random(chance, many):
    for place in range(many):
        value = b""
        for _ in range(chance.between(1, 8)):
            base = chance.below(64)
            pairs = [(chance.between(base, 63), chance.below(2**32)) for _ in range(chance.between(1, 8))]
            value += descriptor(base, pairs, chance.below(2**32))
        if place % 4 == 0:
            yield "g", value, 0
        else:
            yield "g", mutated(chance, value), None


# Attributes


def attributes_edges(kind):
    """What `ibm,pa-features` and `ibm,pi-features` have in common."""
    zero = attribute(0, b"\x11\x22\x33")
    other = attribute(1, b"\x44\x55")
    for value in (
        zero,
        attribute(0, b"\0"),
        attribute(0, b"\xff"),
        attribute(0, bytes(range(1, 255))),
        attribute(0, b"\xff" * 254),
        other + zero,
        zero + other,
        other + zero + other,
        attribute(255, b"\0") + attribute(128, b"\0") + zero + attribute(2, b"\0"),
        attribute(1, b"\xff" * 254) + zero + attribute(1, b"\xff" * 254),
        # Contents that look like descriptors.
        attribute(0, zero + zero),
        attribute(1, zero) + zero,
        # There is no most number of descriptors.
        other * 40 + zero + other * 40,
        b"".join(attribute(place, bytes([place])) for place in range(256)),
    ):
        yield kind, value, 0
    for value in (
        other,
        other + other,
        attribute(255, b"\0"),
        attribute(128, b"\0" * 254),
        attribute(1, zero),
        other * 90,
    ):
        yield kind, value, 10
    for value in (
        zero + zero,
        zero * 3,
        zero + attribute(0, b"\x77" * 254),
        zero + other + zero,
        other + zero + zero + other,
        zero * 20,
    ):
        yield kind, value, 9
    # Length bytes of 0 and 255, before contents cut short, and before every type.
    for value in (
        b"\0\0",
        b"\0\1",
        b"\xff\0",
        b"\xff\1",
        attribute(0, b"\x11" * 255),
        attribute(0, b"", length=0) + zero,
        attribute(0, b"\x11" * 30, length=255),
        zero + b"\0\0",
        zero + b"\xff\0",
        zero + b"\0\1" + zero,
        other + b"\0\1",
        other + b"\xff\0",
        zero + zero + b"\0\0",
        zero + zero + b"\xff\1",
        zero * 3 + b"\0\2" + other,
        # Before a later descriptor that is cut short.
        b"\0\0\5",
        zero + b"\xff\0\5",
    ):
        yield kind, value, 12
    # A header cut short, whatever the one byte is, and contents cut short, before every type.
    for value in (
        b"",
        b"\0",
        b"\1",
        b"\xfe",
        b"\xff",
        zero + b"\0",
        zero + b"\1",
        zero + b"\xff",
        other + b"\0",
        other + b"\xff",
        zero + zero + b"\0",
        zero + zero + b"\xff",
        b"\1\0",
        b"\xfe\0",
        attribute(0, b"\x11" * 253, length=254),
        attribute(1, b"\x11" * 253, length=254),
        zero + b"\1\0",
        zero + b"\1\1",
        other + b"\1\1",
        zero + zero + b"\1\0",
        zero + zero + b"\2\1\0",
        zero * 3 + attribute(1, b"\0" * 29, length=30),
    ):
        yield kind, value, 11


def attributes_cut(kind):
    """Three descriptors, the second of type 0, cut short at every byte."""
    whole = attribute(1, b"\0\0") + attribute(0, b"\1\0\xff") + attribute(2, b"\0")
    for length in range(len(whole) + 1):
        yield kind, whole[:length], {4: 10, 9: 0, 12: 0}.get(length, 11)


def attributes_lengths(kind, lengths):
    """A descriptor of each length, every bit set: what is not supplied reads as zero."""
    for length in lengths:
        yield kind, attribute(0, b"\xff" * length), 0


def attributes_random(kind, chance, many):
    for place in range(many):
        used = attribute(0, chance.bytes(chance.choice((5, 7, 8, 12, 16, 22, 23, 24, 30))))
        others = [
            attribute(chance.between(1, 255), chance.bytes(chance.between(1, 12))) for _ in range(chance.below(4))
        ]
        value = b"".join(chance.shuffled([used] + others))
        if place % 4 == 0:
            yield kind, value, 0
        else:
            yield kind, mutated(chance, value), None


def in_both(values):
    """Values of `ibm,pa-features` in both editions, which refuse alike."""
    for kind, value, number in values:
        for edition in (0, 1):
            yield kind, in_edition(edition, value), number


NO_RAW = [0] * 6
NO_BITS = [0] * 5
NO_LATER_BITS = [0] * 3


def pa_line(raw, bits, coprocessor, later_bits=(0, 0, 0), later=()):
    """The line of an accepted value; in the first edition the last two are not given."""
    return " ".join(map(str, ["a", 0, *raw, *bits, *later_bits, coprocessor, *later, *[0] * (230 - len(later))]))


def pa_refused(number):
    return " ".join(map(str, ["a", number] + [0] * 245))


def pa_both(contents, raw=NO_RAW, bits=NO_BITS, coprocessor=0, later_bits=NO_LATER_BITS):
    """One descriptor in both editions: the later bits and the bytes from 24 on are those of the later one alone."""
    value = attribute(0, contents)
    yield "a", in_edition(0, value), pa_line(raw, bits, coprocessor)
    yield "a", in_edition(1, value), pa_line(raw, bits, coprocessor, later_bits, contents[24:])


def pa_bits():
    """Each bit of the bytes that hold an attribute, alone; and the bytes around them."""
    for attribute_place, byte_place in enumerate((6, 16, 18, 20, 22)):
        for bit in range(8):
            bits = [0] * 5
            bits[attribute_place] = 1 if bit == 7 else 0
            yield from pa_both(zeros_but(24, {byte_place: 2**bit}), bits=bits)
    for place in (7, 17, 19, 21, 23, 24, 25, 29):
        yield from pa_both(zeros_but(30, {place: 0xFF}))
    for place in range(8, 16):
        word = (0x80 + place) * 256 ** (15 - place)
        yield from pa_both(zeros_but(24, {place: 0x80 + place}), coprocessor=word)
    for place in range(6):
        raw = [0xC1 if place == at else 0 for at in range(6)]
        yield from pa_both(zeros_but(24, {place: 0xC1}), raw)
    every = {place: 0x7F for place in (6, 16, 18, 20, 22)}
    yield from pa_both(zeros_but(24, every))
    every = {place: 0x80 for place in (6, 16, 18, 20, 22)}
    yield from pa_both(zeros_but(24, every), bits=[1] * 5)
    yield from pa_both(bytes(24) + b"\xff" * 230, later_bits=[1] * 3)
    word = 0x0102030405060708
    yield from pa_both(bytes(8) + word.to_bytes(8, "big"), coprocessor=word)
    # Supplied up to the middle of the word.
    yield from pa_both(bytes(8) + b"\1\2\3", coprocessor=0x0102030000000000)
    # Real values, of POWER9 under OPAL and of a pseries machine.
    raw = [0xF6, 0x3F, 0xC7, 0xC0, 0x80, 0xF0]
    yield from pa_both(bytes.fromhex("f63fc7c080f0800000000000000000008000800080008000"), raw, [1, 1, 1, 1, 1])
    pseries = bytes.fromhex(
        "f63fc7c080f080000000000000000000800080008000000080008000800080008000c000800080008000"
        "800080008000800080008000800080008000800080000000"
    )
    yield from pa_both(pseries, raw, [1, 1, 1, 1, 0], later_bits=[1, 1, 0])


def pa_later_bits():
    """The same of bytes 38, 40 and 64, which are handed on raw as well."""
    for attribute_place, byte_place in enumerate((38, 40, 64)):
        for byte in (*[2**bit for bit in range(8)], 0x7F, 0x81, 0xFF):
            later_bits = [0] * 3
            later_bits[attribute_place] = 1 if byte >= 128 else 0
            yield from pa_both(zeros_but(254, {byte_place: byte}), later_bits=later_bits)
        # As the last byte supplied, and not supplied.
        later_bits = [1 if attribute_place == at else 0 for at in range(3)]
        yield from pa_both(zeros_but(byte_place + 1, {byte_place: 0x80}), later_bits=later_bits)
        yield from pa_both(bytes(byte_place + 1))
        yield from pa_both(bytes(byte_place))
        # All bits but this one.
        others = {place: 0xFF for place in range(254) if place != byte_place}
        yield from pa_both(zeros_but(254, others), [255] * 6, [1] * 5, 2**64 - 1, [1 - bit for bit in later_bits])
    for place in (24, 36, 37, 39, 41, 42, 62, 63, 65, 66, 128, 252, 253):
        yield from pa_both(zeros_but(254, {place: 0xFF}))
    for byte, bit in ((0x7F, 0), (0x01, 0), (0x80, 1)):
        yield from pa_both(zeros_but(66, {place: byte for place in (38, 40, 64)}), later_bits=[bit] * 3)


def pa_lengths():
    """A descriptor of each length. Byte k is 255 - k, so that no two are alike, but for the top bit of bytes 38, 40 and 64, which is
    set and clear in turn, and both where one of them is the last byte or the first that is not supplied."""
    word = 0xF7F6F5F4F3F2F1F0
    for length in range(1, 255):
        patterns = range(8) if length in (38, 39, 40, 41, 64, 65) else (length % 8,)
        for pattern in patterns:
            whole = bytearray(range(255, 1, -1))
            later_bits = [pattern & 1, pattern // 2 & 1, pattern // 4]
            for place, bit in zip((38, 40, 64), later_bits):
                whole[place] -= 0x80 * (1 - bit)
            yield from pa_both(
                bytes(whole[:length]),
                [255 - place if place < length else 0 for place in range(6)],
                [1 if place < length else 0 for place in (6, 16, 18, 20, 22)],
                word - word % 256 ** max(0, min(8, 16 - length)),
                [bit if place < length else 0 for place, bit in zip((38, 40, 64), later_bits)],
            )


def pa_beside_others():
    """Descriptors of other types before and behind the one of type 0, whose bytes end where it ends."""
    ones = attribute(255, b"\xff" * 254)
    for length in (5, 6, 23, 24, 25, 37, 38, 40, 64, 253, 254):
        contents = b"\x11" * length
        raw, word = [0x11 if place < length else 0 for place in range(6)], 0x1111111111111111 if length >= 16 else 0
        for value in (ones + attribute(0, contents), attribute(0, contents) + ones, ones + attribute(0, contents) + ones):
            yield "a", in_edition(0, value), pa_line(raw, NO_BITS, word)
            yield "a", in_edition(1, value), pa_line(raw, NO_BITS, word, NO_LATER_BITS, contents[24:])


def pa_editions():
    """15 for an edition other than the two, before 11, 12, 10 and 9."""
    good = attribute(0, b"\xff" * 66)
    values = (
        good,
        attribute(0, b"\x80"),
        attribute(1, b"\0") + good,
        b"",
        b"\0",
        good + b"\1",
        good[:-1],
        b"\0\0",
        b"\xff\0",
        good + b"\0\1",
        attribute(1, b"\0"),
        good + good,
    )
    for edition in (2, 3, 4, 255, 256, 257, 2**16, 2**24, 2**31, 2**31 + 1, 2**32 - 2, 2**32 - 1):
        for value in values:
            yield "a", in_edition(edition, value), pa_refused(15)
    for value, number in zip(values[3:], (11, 11, 11, 11, 12, 12, 12, 10, 9)):
        for edition in (0, 1):
            yield "a", in_edition(edition, value), pa_refused(number)


def pa_random(chance, many):
    """(kind, value, number) with contents of up to 254 bytes."""
    for place in range(many):
        used = attribute(0, chance.bytes(chance.choice((24, 25, 38, 39, 40, 41, 64, 65, 66, 254, chance.between(1, 254)))))
        others = [attribute(chance.between(1, 255), chance.bytes(chance.between(1, 12))) for _ in range(chance.below(3))]
        value = b"".join(chance.shuffled([used] + others))
        if place % 4 == 3:
            yield "a", mutated(chance, value), None
        else:
            yield "a", value, 0


# Extended bus frequency


def frequencies():
    whole = bytes(range(1, 13))
    for length in range(13):
        yield "f", whole[:length], "f 0 %d" % 0x0102030405060708 if length == 8 else "f 11 0"
    for frequency in (0, 1, 512000000, 2**32 - 1, 2**32, 2**63, 2**64 - 1, 0xFEDCBA9876543210):
        yield "f", frequency.to_bytes(8, "big"), "f 0 %d" % frequency


def cases():
    chance = Chance(SEED)
    yield from unit_paper_cases()
    yield from unit_lengths()
    yield from unit_characters()
    yield from unit_values()
    yield from unit_random(chance)
    yield from unit_writes(chance)
    yield from sizes_paper_cases("p")
    yield from sizes_lengths("p", range(73))
    yield from sizes_edges("p")
    yield from sizes_random("p", chance, 16)
    yield from sizes_paper_cases("s")
    yield from sizes_lengths("s", (1, 4, 5, 60, 61, 63, 64, 65, 67, 68, 69, 72))
    yield from sizes_edges("s")
    yield from sizes_random("s", chance, 8)
    yield from segments_counts()
    yield from segments_trailing()
    yield from segments_cut()
    yield from segments_edges()
    yield from segments_order()
    yield from segments_random(chance, 32)
    yield from in_both(attributes_edges("a"))
    yield from in_both(attributes_cut("a"))
    yield from in_both(attributes_lengths("a", range(1, 31)))
    yield from pa_bits()
    yield from in_both(attributes_random("a", chance, 24))
    yield from attributes_edges("i")
    yield from attributes_cut("i")
    yield from attributes_lengths("i", (1, 2, 3, 4, 6, 7, 8, 16, 23, 24, 25, 30, 100, 128, 253, 254))
    yield from attributes_random("i", chance, 12)
    yield from frequencies()
    yield from page_gaps()
    yield from segment_gaps()
    yield from gaps_random(chance, 32)
    chance = Chance(SEED_A13)
    yield from pa_later_bits()
    yield from pa_lengths()
    yield from pa_beside_others()
    yield from pa_editions()
    yield from in_both(pa_random(chance, 32))
    yield from radix_edges()
    yield from radix_lengths()
    yield from radix_random(chance, 64)


def held(cases):
    """(kind, bytes, line) of every case, held to what is expected of it. What two groups share is given once."""
    seen = set()
    for kind, data, expected in cases:
        number, values = ANSWERS[kind](data)
        line = " ".join(map(str, [kind, number, *shown(kind, values)]))
        if expected is not None and expected not in (line, number):
            raise ValueError("the model answers %r to %s %s, not %r" % (line, kind, data.hex(), expected))
        if (kind, data) not in seen:
            seen.add((kind, data))
            yield kind, data, line


def vectors():
    return held(cases())
