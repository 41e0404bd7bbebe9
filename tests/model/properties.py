"""CPU properties and unit text: document 01's section of that name, with what A1 and A13 of document 02 change, restated in Python.

A function for each property, and one each for reading and writing a unit text, take bytes and give
(number, values); that of `ibm,pa-features` takes an edition too. The number is the refusal's, or 0. The values
are a flat list of numbers: a table has its count first, and zeros in the places that it does not use. Beside a
refusal all values are zero; only a lent buffer's bytes, which follow the length written, stay as they were.

Standard library only, Python 3.9 or later.
"""

from model.refusals import (
    ACCEPTED,
    GIVEN_TWICE,
    LEVEL,
    NOT_ASCENDING,
    NOT_THERE,
    NO_UNIT_TEXT,
    OUT_OF_RANGE,
    SHORT_BUFFER,
    TOO_MANY,
    WRONG_LENGTH,
)

MOST_SIZES = 16
MOST_DESCRIPTORS = 8
MOST_PAIRS = 8
MOST_BYTES = 254
LARGEST_EXPONENT = 63
NO_SIZE = 2**32 - 1

# Of `ibm,pa-features`: how many bytes have a meaning in each edition, and the bytes whose top bit is an attribute.
MEANT = {0: 24, 1: MOST_BYTES}
PA_BITS = 6, 16, 18, 20, 22, 38, 40, 64


def with_zeros(values, width):
    """The values, and zeros up to the width."""
    return list(values) + [0] * (width - len(values))


def whole_cells(value):
    """The big-endian cells of a value; one to three bytes at its end that make no cell are left out."""
    return [int.from_bytes(value[at : at + 4], "big") for at in range(0, len(value) - 3, 4)]


# Plain cells


def is_gap(cell):
    """Whether a cell of segment sizes says that there is no size in its place (document 02, A1)."""
    return cell == NO_SIZE


def exponents_refusal(exponents):
    """One by one, the range before the order; then whether there are any."""
    for place, exponent in enumerate(exponents):
        if exponent > LARGEST_EXPONENT:
            return OUT_OF_RANGE
        if place and not exponents[place - 1] < exponent:
            return NOT_ASCENDING
    return ACCEPTED if exponents else WRONG_LENGTH


def sizes_refusal(value, exponents):
    """Length first, then the maximum, then the exponents among the cells."""
    if not value or len(value) % 4:
        return WRONG_LENGTH
    if len(value) > 4 * MOST_SIZES:
        return TOO_MANY
    return exponents_refusal(exponents)


def size_table(number, cells):
    """The count of cells, and sixteen cells."""
    places = [] if number else cells
    return number, [len(places)] + with_zeros(places, MOST_SIZES)


def page_sizes(value):
    """`ibm,processor-page-sizes`: each cell is an exponent."""
    cells = whole_cells(value)
    return size_table(sizes_refusal(value, cells), cells)


def segment_sizes(value):
    """`ibm,processor-segment-sizes`: each cell is an exponent or a gap."""
    cells = whole_cells(value)
    exponents = [cell for cell in cells if not is_gap(cell)]
    return size_table(sizes_refusal(value, exponents), cells)


def ap_and_exponent(cell):
    """Of a cell of radix encodings: the top three bits and the other 29 (document 02, A13)."""
    return divmod(cell, 2**29)


def radix_encodings(value):
    """`ibm,processor-radix-AP-encodings`: the count of cells, and sixteen pairs of AP and exponent."""
    pairs = [ap_and_exponent(cell) for cell in whole_cells(value)]
    number = sizes_refusal(value, [exponent for _, exponent in pairs])
    if number:
        pairs = []
    return number, [len(pairs)] + with_zeros([part for pair in pairs for part in pair], 2 * MOST_SIZES)


def bus_frequency(value):
    """`ibm,extended-bus-frequency`: two cells, high first."""
    if len(value) != 8:
        return WRONG_LENGTH, [0]
    high, low = whole_cells(value)
    return ACCEPTED, [high * 2**32 + low]


# Segment page sizes


def descriptor_refusal(before, left):
    """The refusal of the descriptor at the front of `left`, the bytes that are not read yet.

    `before` descriptors were read already. A header or a pair that is cut short has fewer whole cells
    than it needs, so only whole cells are counted.
    """
    if before == MOST_DESCRIPTORS:
        return TOO_MANY
    cells = whole_cells(left)
    if len(cells) < 3:
        return WRONG_LENGTH
    base, _, count = cells[:3]
    if count == 0:
        return OUT_OF_RANGE
    if count > MOST_PAIRS:
        return TOO_MANY
    exponents = cells[3::2][:count]
    encodings = cells[4::2][:count]
    if len(encodings) < count:
        return WRONG_LENGTH
    if max([base] + exponents) > LARGEST_EXPONENT or min(exponents) < base:
        return OUT_OF_RANGE
    return ACCEPTED


def descriptor_values(cells):
    """Base exponent, SLB encoding, count, and eight pairs of exponent and encoding."""
    count = cells[2]
    return cells[:3] + with_zeros(cells[3 : 3 + 2 * count], 2 * MOST_PAIRS)


def segment_page_sizes(value):
    """`ibm,segment-page-sizes`: the count of descriptors, and eight descriptors."""
    width = MOST_DESCRIPTORS * (3 + 2 * MOST_PAIRS)
    number = ACCEPTED if value else WRONG_LENGTH
    descriptors = []
    left = value
    while left and not number:
        number = descriptor_refusal(len(descriptors), left)
        if not number:
            values = descriptor_values(whole_cells(left))
            descriptors.append(values)
            left = left[12 + 8 * values[2] :]
    if number:
        descriptors = []
    flat = [cell for values in descriptors for cell in values]
    return number, [len(descriptors)] + with_zeros(flat, width)


# Attributes


def attribute_descriptors(value):
    """(number, list of type and bytes): every descriptor of a value, whatever its type."""
    if not value:
        return WRONG_LENGTH, []
    descriptors = []
    while value:
        if len(value) == 1:
            return WRONG_LENGTH, []
        length, kind = value[:2]
        if length in (0, 255):
            return OUT_OF_RANGE, []
        contents = value[2 : 2 + length]
        if len(contents) != length:
            return WRONG_LENGTH, []
        descriptors.append((kind, contents))
        value = value[2 + length :]
    return ACCEPTED, descriptors


def type_zero(value):
    """(number, bytes): the contents of the one descriptor of type 0. Types are looked at last."""
    number, descriptors = attribute_descriptors(value)
    if number:
        return number, b""
    used = [contents for kind, contents in descriptors if kind == 0]
    if not used:
        return NOT_THERE, b""
    if len(used) > 1:
        return GIVEN_TWICE, b""
    return ACCEPTED, used[0]


def pa_contents(value, edition):
    """(number, bytes): those of `ibm,pa-features` that have a meaning in an edition (document 02, A13)."""
    if edition not in MEANT:
        return LEVEL, b""
    number, contents = type_zero(value)
    return number, contents[: MEANT[edition]]


def pa_features(value, edition):
    """`ibm,pa-features`: bytes 0 to 5, the eight attribute bits, the coprocessor word and bytes 24 to 253."""
    number, contents = pa_contents(value, edition)
    supplied = contents.ljust(MOST_BYTES, b"\0")
    bits = [1 if supplied[place] >= 0x80 else 0 for place in PA_BITS]
    return number, [*supplied[:6], *bits, int.from_bytes(supplied[8:16], "big"), *supplied[24:]]


def pi_features(value):
    """`ibm,pi-features`: the number of bytes, and 254 bytes."""
    number, contents = type_zero(value)
    return number, [len(contents)] + list(contents.ljust(MOST_BYTES, b"\0"))


# Unit text


def read_unit(text):
    """The number of a unit text: hex, either case, leading zeros allowed, below 2^32."""
    if not 1 <= len(text) <= 16:
        return NO_UNIT_TEXT, [0]
    if any(character not in b"0123456789abcdefABCDEF" for character in text):
        return NO_UNIT_TEXT, [0]
    unit = int(text.decode("ascii"), 16)
    if unit >= 2**32:
        return OUT_OF_RANGE, [0]
    return ACCEPTED, [unit]


def write_unit(unit, buffer):
    """The length of a unit number's text, and all bytes of the lent buffer afterwards."""
    text = format(unit, "x").encode("ascii")
    if len(text) > len(buffer):
        return SHORT_BUFFER, [0] + list(buffer)
    return ACCEPTED, [len(text)] + list(text + buffer[len(text) :])
