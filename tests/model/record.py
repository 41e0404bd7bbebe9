"""The feature record: document 01's section of that name, with what A2 and A3 of document 02 change, restated in Python.

`read` gives (number, place, record) of a lent tree. The faults are a generator in the order of document 01's sentences,
of which only the first is asked for. Codes such as F5 name readings of document 01, such as 3c of document 02.

Standard library only, Python 3.9 or later.
"""

import collections

from model import tree
from model.properties import whole_cells, with_zeros
from model.refusals import (
    ACCEPTED,
    GIVEN_TWICE,
    NOT_THERE,
    OUT_OF_RANGE,
    TOO_MANY,
    UNKNOWN_PHANDLE,
    WRONG_LENGTH,
)
from model.strings import strings_of

MOST_FEATURES = 64
MOST_DEPENDENCIES = 16
HIGHEST_BIT = 63
ALL_ONES = 2**32 - 1

# The strings of the container; document 02, A3: "the binding's own example writes the container's `device_type` with the
# longer name".
COMPATIBLE = b"ibm,powerpc-cpu-features"
DEVICE_TYPES = (b"cpu-features", b"ibm,powerpc-cpu-features")

# "in this property order"
PROPERTIES = (
    b"isa",
    b"usable-privilege",
    b"hv-support",
    b"os-support",
    b"hfscr-bit-nr",
    b"fscr-bit-nr",
    b"hwcap-bit-nr",
    b"phandle",
    b"dependencies",
)

REQUIRED = (b"isa", b"usable-privilege")

# "required where that bit 0 is set": the bit number, and the cell that the bit is in. `hwcap-bit-nr` is required by no
# cell (document 02, A2: "11 and 14 for a missing `hwcap-bit-nr` are withdrawn").
BIT_NUMBERS = {
    b"hfscr-bit-nr": b"hv-support",
    b"fscr-bit-nr": b"os-support",
    b"hwcap-bit-nr": None,
}

# `given` has a bit for each of PROPERTIES, the first the lowest. Then come their cells, zero where the property is not
# given; `dependencies` is the number of its cells.
Feature = collections.namedtuple(
    "Feature",
    "offset given isa usable_privilege hv_support os_support"
    " hfscr_bit_nr fscr_bit_nr hwcap_bit_nr phandle dependencies",
)
Record = collections.namedtuple("Record", "isa count features slots")

NO_FEATURE = Feature(*[0] * len(Feature._fields))

# "Unused slots are zero, and so is all of a refused read's record."
NO_RECORD = Record(0, 0, [NO_FEATURE] * MOST_FEATURES, [0] * (MOST_FEATURES * MOST_DEPENDENCIES))


def children(nodes, parent):
    """The direct children of a node, in tree order."""
    return [node for node in nodes if node.parent is not None and nodes[node.parent] is parent]


def number_of(value):
    """The number of a value of one cell."""
    (number,) = whole_cells(value)
    return number


def dependencies(feature):
    """The phandles that a feature names."""
    return whole_cells(feature.properties.get(b"dependencies", b""))


def carriers(features):
    """The position of each phandle that a feature carries. Other nodes' phandles are not looked at (F8)."""
    given = [(feature.properties.get(b"phandle"), position) for position, feature in enumerate(features)]
    return {number_of(value): position for value, position in given if value is not None}


def is_required(name, given):
    """Whether a feature that gives these values has to give a property too (F6)."""
    support = BIT_NUMBERS.get(name)
    return name in REQUIRED or (support in given and number_of(given[support]) % 2 == 1)


def property_refusal(name, given, earlier):
    """The refusal of one property of a feature: "length before range".

    The properties before it are good already. `earlier` are the features before this one.
    """
    if name not in given:
        return WRONG_LENGTH if is_required(name, given) else ACCEPTED
    value = given[name]
    if name == b"dependencies":
        # "optional, whole cells, none to 16"
        if len(value) % 4:
            return WRONG_LENGTH
        return TOO_MANY if len(value) // 4 > MOST_DEPENDENCIES else ACCEPTED
    if len(value) != 4:
        return WRONG_LENGTH
    number = number_of(value)
    if name in BIT_NUMBERS and number > HIGHEST_BIT:
        return OUT_OF_RANGE
    if name == b"phandle":
        # "neither 0 nor all ones; one that an earlier feature carries is 9"
        if number in (0, ALL_ONES):
            return OUT_OF_RANGE
        if number in carriers(earlier):
            return GIVEN_TWICE
    return ACCEPTED


def is_device_type(value):
    """Whether a value is "either `device_type` as its only string" (3c)."""
    return strings_of(value) in [[text] for text in DEVICE_TYPES]


def is_compatible(value):
    """Whether a value has the container's name "at any place" of its list (3c)."""
    return COMPATIBLE in strings_of(value)


def container_refusal(given):
    """The refusal of the container's own properties: "11 stays for all else", so for one that is missing too."""
    if not is_device_type(given.get(b"device_type", b"")):
        return WRONG_LENGTH
    if not is_compatible(given.get(b"compatible", b"")):
        return WRONG_LENGTH
    return ACCEPTED if len(given.get(b"isa", b"")) == 4 else WRONG_LENGTH


def faults(nodes, start):
    """(number, place) of the faults of an accepted tree's record, in document 01's order (F2)."""
    found = [node for node in nodes if node.name == tree.CONTAINER]
    # "none is 10 at the structure's start, a second one 9 at its begin token"
    if not found:
        yield NOT_THERE, start
    if len(found) > 1:
        yield GIVEN_TWICE, found[1].at
    container = found[0]
    # "checked in that order, 11 at the container's begin token"
    number = container_refusal(container.properties)
    if number:
        yield number, container.at
    features = children(nodes, container)
    # "The 65th is 8 at its begin token."
    if len(features) > MOST_FEATURES:
        yield TOO_MANY, features[MOST_FEATURES].at
    # "the first earlier feature with the same name ends the search with 9 at the later one", whole names (F4)
    for position, feature in enumerate(features):
        if feature.name in [earlier.name for earlier in features[:position]]:
            yield GIVEN_TWICE, feature.at
    # "Then each feature, in this property order; place is its begin token" (F5)
    for position, feature in enumerate(features):
        for name in PROPERTIES:
            number = property_refusal(name, feature.properties, features[:position])
            if number:
                yield number, feature.at
    # "Last, in tree and list order, each dependency becomes the position of the feature with that phandle"
    for feature in features:
        for phandle in dependencies(feature):
            if phandle not in carriers(features):
                yield UNKNOWN_PHANDLE, feature.at


def feature_of(node):
    """A feature without fault: "its begin token's offset, its cells as read and which properties were given"."""
    values = [node.properties.get(name) for name in PROPERTIES]
    given = sum(2**bit for bit, value in enumerate(values) if value is not None)
    cells = [0 if value is None else number_of(value) for value in values[:-1]]
    return Feature(node.at, given, *cells, len(dependencies(node)))


def record_of(nodes):
    """The record of a tree without fault."""
    (container,) = [node for node in nodes if node.name == tree.CONTAINER]
    features = children(nodes, container)
    positions = carriers(features)
    # "one flat run of 1,024 dependency slots, 16 a feature"
    rows = [with_zeros([positions[phandle] for phandle in dependencies(node)], MOST_DEPENDENCIES) for node in features]
    slots = [slot for row in rows for slot in row]
    return Record(
        number_of(container.properties[b"isa"]),
        len(features),
        ([feature_of(node) for node in features] + NO_RECORD.features)[:MOST_FEATURES],
        with_zeros(slots, len(NO_RECORD.slots)),
    )


def read(data):
    """(number, place, record) of a lent tree. "All this comes after the whole walk." """
    number, place, nodes = tree.read(data)
    if not number:
        number, place = next(faults(nodes, tree.read_header(data).structure_at), (ACCEPTED, 0))
    return number, place, NO_RECORD if number else record_of(nodes)
