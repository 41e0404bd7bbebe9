"""Vectors for document 01's "The feature record": kind `r`.

The bytes are the lent tree. The line, after the kind: refusal number and place; the record's isa and count; then, for
each of the 64 positions whose feature and slots are not all zero, the position, the eleven numbers of its feature and
its sixteen slots. So a line says all of a record: what it does not name is zero.

Here are the trees that dtc built (tests/trees) and trees described by their nodes (vectors/nodes.py), most of them
accepted. The lines come from the model (tests/model/record.py), and the expected ones are written down by hand as well
(vectors/blocks.py, `held`). Codes such as F5 name readings of document 01.
"""

from model import record as model
from vectors.blocks import held, read_built
from vectors.nodes import (
    CONTAINER,
    backwards,
    container,
    deep,
    feature,
    flat,
    here,
    node,
    root,
    with_property,
)
from vectors.trees import TREES

ALL_ONES = 2**32 - 1

# The bits of `given`.
ISA, USABLE, HV, OS, HFSCR, FSCR, HWCAP, PHANDLE, DEPENDENCIES = (1 << bit for bit in range(9))

# What is required of every feature.
LEAST = ISA | USABLE


# Lines


def refused_line(number, place):
    return "r %d %d 0 0" % (number, place)


def row(offset, given, isa, usable, hv, os, hfscr, fscr, hwcap, phandle, *slots):
    """The numbers of a feature and of its slots."""
    numbers = [offset, given, isa, usable, hv, os, hfscr, fscr, hwcap, phandle, len(slots)]
    return [*numbers, *slots, *[0] * (16 - len(slots))]


def accepted_line(isa, rows):
    placed = [number for position, numbers in enumerate(rows) for number in (position, *numbers)]
    return " ".join(map(str, ["r", 0, 0, isa, len(rows), *placed]))


# A case is a root, and the line or number that is expected of it.


def refused_root(number, top):
    """The refusal is at the one marked node."""
    (place,) = flat(top)[1]
    return top, refused_line(number, place)


def refused(number, *nodes):
    """A root of these nodes."""
    return refused_root(number, root(*nodes))


def refused_features(number, *features):
    """A good container of these features."""
    return refused_root(number, root(container(*features)))


def accepted(*nodes, isa=3000, rows=None):
    """A root of these nodes; `rows` are those of the marked features, all but their offsets."""
    top = root(*nodes)
    if rows is None:
        return top, 0
    places = flat(top)[1]
    if len(places) != len(rows):
        raise ValueError("%d marked nodes, %d rows" % (len(places), len(rows)))
    return top, accepted_line(isa, [row(place, *numbers) for place, numbers in zip(places, rows)])


def accepted_features(*features, rows=None):
    return accepted(container(*features), rows=rows)


# The trees that dtc built. The places are those that `fdtdump --debug` prints.

# Of two trees that have the two names of `compatible` in either order (document 02, A3).
TWO_NAMES = accepted_line(
    3000,
    [
        row(0xD8, LEAST | HWCAP | PHANDLE, 3000, 7, 0, 0, 0, 0, 2, 1),
        row(0x128, LEAST | DEPENDENCIES, 3000, 6, 0, 0, 0, 0, 0, 0, 0),
    ],
)

BUILT = {
    # Document 02, A3: "the binding's own example writes the container's `device_type` with the longer name".
    "binding-example": accepted_line(
        3020,
        [
            row(0xCC, LEAST | HWCAP, 3000, 7, 0, 0, 0, 0, 53, 0),
            row(0x10C, LEAST | OS | HWCAP, 3000, 3, 0, 0, 0, 0, 52, 0),
            row(0x158, LEAST | HV | OS, 3000, 6, 0, 0, 0, 0, 0, 0),
            row(0x1A8, LEAST | HV | OS | HWCAP | PHANDLE, 3010, 7, 0, 0, 0, 0, 40, 1),
            row(0x218, LEAST | OS | FSCR | HWCAP | DEPENDENCIES, 3020, 7, 0, 1, 0, 14, 41, 0, 3),
        ],
    ),
    "binding-example-without-compatible": refused_line(11, 0x4C),
    "dependencies": accepted_line(
        3000,
        [
            row(0xB4, LEAST | DEPENDENCIES, 0, 0, 0, 0, 0, 0, 0, 0),
            row(0xF0, LEAST | HWCAP | DEPENDENCIES, 3100, 7, 0, 0, 0, 0, 63, 0, 2, 3, 4, 5),
            row(0x148, LEAST | PHANDLE | DEPENDENCIES, 2070, 6, 0, 0, 0, 0, 0, 1, 3),
            row(0x198, LEAST | PHANDLE | DEPENDENCIES, 2070, 6, 0, 0, 0, 0, 0, 2, 2),
            row(0x1E8, LEAST | PHANDLE | DEPENDENCIES, 2070, 4, 0, 0, 0, 0, 0, 3, 4),
            row(0x238, LEAST | PHANDLE | DEPENDENCIES, 2070, 2, 0, 0, 0, 0, 0, 4, 3, 3, 3),
        ],
    ),
    "empty-names": accepted_line(3000, [row(0xD0, LEAST, 3000, 6, 0, 0, 0, 0, 0, 0)]),
    "empty-values": refused_line(10, 0x38),
    # Document 01, "Both sides".
    "features": accepted_line(
        3000,
        [
            row(0xC0, LEAST | HWCAP | PHANDLE, 3000, 7, 0, 0, 0, 0, 2, 1),
            row(0x110, LEAST | OS | FSCR | HWCAP | PHANDLE | DEPENDENCIES, 3000, 7, 0, 1, 0, 9, 35, 2, 0),
            row(0x190, LEAST | OS | HWCAP | PHANDLE, 3000, 7, 0, 0, 0, 0, 5, 3),
            row(0x1F0, LEAST | HWCAP | DEPENDENCIES, 3000, 7, 0, 0, 0, 0, 6, 0, 1, 2),
            row(0x244, LEAST, 3000, 6, 0, 0, 0, 0, 0, 0),
        ],
    ),
    "grandchildren": accepted_line(
        3000,
        [
            row(0xC0, LEAST, 3000, 6, 0, 0, 0, 0, 0, 0),
            row(0x168, LEAST | PHANDLE, 3000, 6, 0, 0, 0, 0, 0, 9),
            row(0x1B8, LEAST | DEPENDENCIES, 3000, 6, 0, 0, 0, 0, 0, 0, 1),
        ],
    ),
    "levels-16": refused_line(11, 0x1A0),
    "levels-17": refused_line(8, 0x1B8),
    "longer-device-type": accepted_line(3000, [row(0xC0, LEAST, 3000, 6, 0, 0, 0, 0, 0, 0)]),
    "many-properties": refused_line(10, 0x38),
    "minimal": refused_line(10, 0x38),
    "names": refused_line(10, 0x38),
    "near-containers": refused_line(10, 0x38),
    "no-capability-bit": accepted_line(
        2070,
        [
            row(0xC0, LEAST | PHANDLE, 2050, 7, 0, 0, 0, 0, 0, 1),
            row(0x108, LEAST | HV | HFSCR | HWCAP | PHANDLE, 0, 7, 1, 0, 0, 0, 27, 2),
            row(0x180, LEAST | HWCAP | DEPENDENCIES, 2050, 7, 0, 0, 0, 0, 10, 0, 1, 0),
            row(0x1E4, LEAST | OS | FSCR | PHANDLE | DEPENDENCIES, 2070, 7, 0, 1, 0, 7, 0, 3, 1),
            row(0x260, LEAST | OS | PHANDLE, 0, 7, 0, 0, 0, 0, 0, 4),
            row(0x2B4, LEAST | HWCAP | DEPENDENCIES, 2060, 7, 0, 0, 0, 0, 1, 0, 4),
            row(0x314, LEAST | HWCAP, 0, 6, 0, 0, 0, 0, 2, 0),
            row(0x360, LEAST | OS | FSCR | HWCAP | DEPENDENCIES, 2070, 1, 0, 1, 0, 8, 58, 0, 3),
        ],
    ),
    "no-features": accepted_line(3000, []),
    "node-name-64": refused_line(7, 0x88),
    "power9": 0,
    # The tree of a real host, some of whose user features have no capability bit (document 02, A2).
    "power9-features": 0,
    "power9-reduced": 0,
    # All of that tree, which has a long property name (document 02, A13).
    "power9-whole": 0,
    "property-name-32": refused_line(10, 0x38),
    "property-name-63": refused_line(10, 0x38),
    "property-name-64": refused_line(7, 0x6C),
    "pseries": refused_line(10, 0x38),
    "same-names": refused_line(10, 0x38),
    "several-containers": refused_line(9, 0x7C),
    "shared-endings": refused_line(10, 0x38),
    "star": refused_line(7, 0x5C),
    "tokens-in-values": refused_line(10, 0x48),
    "two-names-first": TWO_NAMES,
    "two-names-second": TWO_NAMES,
}


def built():
    """The trees that dtc built. One that is not in the table, or the reverse, is an error."""
    trees = read_built(TREES)
    if set(trees) != set(BUILT):
        raise ValueError("tests/trees and the table BUILT differ: %s" % sorted(set(trees) ^ set(BUILT)))
    for name, data in trees.items():
        yield "r", data, BUILT[name]


# The container


def containers():
    """At any level, in any company, with any isa."""
    whole = container(here(feature("a", phandle=1)), here(feature("b", dependencies=[1])))
    rows = [(LEAST | PHANDLE, 3000, 6, 0, 0, 0, 0, 0, 1), (LEAST | DEPENDENCIES, 3000, 6, 0, 0, 0, 0, 0, 0, 0)]
    for level in (2, 3, 4, 9, 14, 15):
        yield accepted(deep(level, whole), rows=rows)
    # At level 16 it can have no features; the walk's own 8.
    yield accepted(deep(16, container(isa=7)), isa=7, rows=[])
    yield refused(8, deep(16, container(here(feature("a")))))
    # In a node that could be a feature, beside such ones, between nodes of all sorts.
    yield accepted(feature("a", whole, phandle=1), rows=rows)
    yield accepted(feature("a", phandle=1), node("cpus", feature("b"), whole, feature("a", isa=None)), rows=rows)
    yield accepted(node("cpus", node("cpu@0", isa=0), node("cpu@1", whole), node("cpu@2")), node("b"), rows=rows)
    yield accepted(node("cpus", node("a", node("a", node("a", isa=b"")), isa=b""), whole), rows=rows)
    yield accepted(backwards(whole), rows=rows)
    for isa in (0, 0x01020304, ALL_ONES):
        yield accepted(container(isa=isa), isa=isa, rows=[])
    # A unit address makes it another name (F1).
    yield accepted(node(CONTAINER + "@1"), whole, node(CONTAINER + "@0"), rows=rows)
    yield accepted_features(feature(CONTAINER + "@1"), feature("n" + CONTAINER))


def container_strings():
    """Either `device_type` as its only string; `compatible` at any place of its list (document 02, A3; 3c)."""
    short, long = b"cpu-features\0", b"ibm,powerpc-cpu-features\0"
    rows = [(LEAST, 3000, 6, 0, 0, 0, 0, 0, 0)]
    for device_type in (short, long):
        for compatible in (
            long,
            # First, last and between others.
            long + b"other\0",
            b"other\0" + long,
            b"other\0" + long + b"power9\0",
            b"a\0b\0c\0d\0e\0f\0g\0h\0" + long,
            # Beside the shorter name, its own parts and names of which it is a part.
            short + long,
            long + short,
            b"ibm,powerpc-cpu\0cpu-features\0powerpc-cpu-features\0" + long,
            b"ibm,powerpc-cpu-features2\0xibm,powerpc-cpu-features\0" + long,
            b"IBM,POWERPC-CPU-FEATURES\0" + long,
            # More than once.
            long + long,
            long + b"other\0" + long,
            # Beside empty strings, and strings of any bytes.
            long + b"\0",
            b"\0" + long,
            b"\0\0" + long + b"\0\0\0",
            b"other\0\0" + long,
            b"\x80 \xff\0" + long + b"\1\0",
            b"n" * 300 + b"\0" + long,
            # Past place 255.
            b"x\0" * 300 + long,
        ):
            strings = {"device_type": device_type, "compatible": compatible}
            yield accepted(container(here(feature("a")), **strings), rows=rows)
    # In another order of properties, deeper, and where a dependency is resolved.
    strings = {"device_type": long, "compatible": b"other\0" + long}
    whole = container(here(feature("a", phandle=1)), here(feature("b", dependencies=[1])), **strings)
    rows = [(LEAST | PHANDLE, 3000, 6, 0, 0, 0, 0, 0, 1), (LEAST | DEPENDENCIES, 3000, 6, 0, 0, 0, 0, 0, 0, 0)]
    yield accepted(whole, rows=rows)
    yield accepted(backwards(whole), rows=rows)
    yield accepted(deep(15, whole), rows=rows)
    yield accepted(container(isa=2070, **strings), isa=2070, rows=[])


# The features


def named(many):
    """Features of one character or two that have no properties."""
    digits = "0123456789abcdefghijklmnopqrstuvwxyz"
    return [node(digits[at % 36] + "+-"[: at // 36]) for at in range(many)]


def with_all_slots():
    """64 features that name sixteen others each, and their rows."""
    for position, bare in enumerate(named(64)):
        slots = [(position * 5 + place * 7) % 64 for place in range(16)]
        given = {"isa": 0, "usable_privilege": 0, "phandle": 1000 - position}
        whole = node(bare.name.decode("ascii"), **given, dependencies=[1000 - slot for slot in slots])
        yield here(whole), (LEAST | PHANDLE | DEPENDENCIES, 0, 0, 0, 0, 0, 0, 0, 1000 - position, *slots)


def counts():
    """At most 64; the 65th is 8 at its begin token."""
    least = [here(feature(bare.name.decode("ascii"), isa=at)) for at, bare in enumerate(named(64))]
    rows = [(LEAST, at, 6, 0, 0, 0, 0, 0, 0) for at in range(64)]
    for many in (0, 1, 2, 3, 64):
        yield accepted_features(*least[:many], rows=rows[:many])
    features, rows = zip(*with_all_slots())
    yield accepted_features(*features, rows=rows)
    bare = named(66)
    yield refused_features(8, *bare[:64], here(bare[64]))
    yield refused_features(8, *bare[:64], here(bare[64]), bare[65])
    # Child nodes of features are not counted, nor are other nodes.
    yield accepted_features(feature("a", *bare), feature("b"))
    yield accepted(node("cpus", *bare[:33]), container(feature("a")), *bare[:33])


def different_names():
    """Whole names count, unit address included (F4)."""
    for first, second in (
        ("a@1", "a@2"),
        ("a", "a@1"),
        ("a@1", "b@1"),
        ("a", "A"),
        ("a", "ab"),
        ("ab", "a"),
        ("ba", "a"),
        ("n" * 63, "n" * 62),
        ("n" * 62 + "a", "n" * 62 + "b"),
        ("a" + "n" * 62, "b" + "n" * 62),
    ):
        yield accepted_features(feature(first), feature(second))
    # Only features are compared, and with nothing else.
    inner = container(feature("a", node("a"), node("a")), feature("b", node("a"), node("b")))
    yield accepted(node("a"), node("a"), inner, node("a"))
    yield accepted_features(feature("isa"), feature("phandle"), feature("cpus"))


def values():
    """Cells as read. Absent and zero differ in `given` alone."""
    none = {"isa": 0, "usable_privilege": 0}
    yield accepted_features(
        here(feature("a", **none)),
        here(feature("b", **none, hv_support=0)),
        here(feature("c", **none, os_support=0)),
        here(feature("d", **none, hv_support=0, os_support=0)),
        here(feature("e", **none, hfscr_bit_nr=0, fscr_bit_nr=0, hwcap_bit_nr=0)),
        here(feature("f", **none, dependencies=[])),
        rows=[
            (LEAST, 0, 0, 0, 0, 0, 0, 0, 0),
            (LEAST | HV, 0, 0, 0, 0, 0, 0, 0, 0),
            (LEAST | OS, 0, 0, 0, 0, 0, 0, 0, 0),
            (LEAST | HV | OS, 0, 0, 0, 0, 0, 0, 0, 0),
            (LEAST | HFSCR | FSCR | HWCAP, 0, 0, 0, 0, 0, 0, 0, 0),
            (LEAST | DEPENDENCIES, 0, 0, 0, 0, 0, 0, 0, 0),
        ],
    )
    for first, second in ((0, ALL_ONES), (0x01020304, 0xFFFEFDFC), (2**31, 1)):
        yield accepted_features(
            here(feature("a", isa=first, usable_privilege=second, os_support=second, fscr_bit_nr=1, hwcap_bit_nr=2)),
            here(feature("b", isa=second, hv_support=second, hfscr_bit_nr=3, os_support=0)),
            rows=[
                (LEAST | OS | FSCR | HWCAP, first, second, 0, second, 0, 1, 2, 0),
                (LEAST | HV | HFSCR | OS, second, 6, second, 0, 3, 0, 0, 0),
            ],
        )
    for bit in (0, 1, 31, 32, 62, 63):
        bits = {"hfscr_bit_nr": 63 - bit, "fscr_bit_nr": bit // 2, "hwcap_bit_nr": bit}
        rows = [(LEAST | HFSCR | FSCR | HWCAP, 3000, 1, 0, 0, 63 - bit, bit // 2, bit, 0)]
        yield accepted_features(here(feature("a", usable_privilege=1, **bits)), rows=rows)
    # Two features may have the same bit numbers.
    same = {"usable_privilege": 1, "hwcap_bit_nr": 5}
    yield accepted_features(feature("a", **same), feature("b", **same))


def every_property():
    """All nine, in either order, and with each of them left out."""
    given = {"isa": 1, "usable_privilege": 7, "hv_support": 1, "os_support": 1}
    given.update({"hfscr_bit_nr": 60, "fscr_bit_nr": 61, "hwcap_bit_nr": 62, "phandle": 4, "dependencies": [4]})
    whole = feature("a", **given)
    rows = [(2**9 - 1, 1, 7, 1, 1, 60, 61, 62, 4, 0)]
    yield accepted_features(here(whole), rows=rows)
    yield accepted_features(here(backwards(whole)), rows=rows)
    for name in given:
        less = feature("a", **{**given, name: None})
        if name in ("hv_support", "os_support", "hwcap_bit_nr", "dependencies"):
            yield accepted_features(less)
        else:
            yield refused_features(13 if name == "phandle" else 11, here(less))


def capability_bits():
    """`hwcap-bit-nr` is optional (document 02, A2); one that is given is kept, with and without the user bit."""
    for usable in (0, 1, 2, 6, 7, 8, 2**31 + 1, ALL_ONES - 1, ALL_ONES):
        for given, number in ((LEAST, None), (LEAST | HWCAP, 0), (LEAST | HWCAP, 5), (LEAST | HWCAP, 63)):
            rows = [(given, 3000, usable, 0, 0, 0, 0, number or 0, 0)]
            yield accepted_features(here(feature("a", usable_privilege=usable, hwcap_bit_nr=number)), rows=rows)
    # User features in one container: none before one and behind it, and dependencies of either on the other.
    user = {"usable_privilege": 7}
    yield accepted_features(
        here(feature("a", **user, phandle=1)),
        here(feature("b", **user, hwcap_bit_nr=0, phandle=2, dependencies=[1, 3])),
        here(feature("c", **user, phandle=3, dependencies=[2])),
        here(feature("d", **user, hwcap_bit_nr=0, dependencies=[2])),
        here(feature("e", hwcap_bit_nr=9, dependencies=[3])),
        rows=[
            (LEAST | PHANDLE, 3000, 7, 0, 0, 0, 0, 0, 1),
            (LEAST | HWCAP | PHANDLE | DEPENDENCIES, 3000, 7, 0, 0, 0, 0, 0, 2, 0, 2),
            (LEAST | PHANDLE | DEPENDENCIES, 3000, 7, 0, 0, 0, 0, 0, 3, 1),
            (LEAST | HWCAP | DEPENDENCIES, 3000, 7, 0, 0, 0, 0, 0, 0, 1),
            (LEAST | HWCAP | DEPENDENCIES, 3000, 6, 0, 0, 0, 0, 9, 0, 2),
        ],
    )
    # The other bit numbers do not stand in for it, nor does that of the container or of a child node.
    registers = {"hv_support": 1, "hfscr_bit_nr": 5, "os_support": 1, "fscr_bit_nr": 6}
    rows = [(LEAST | HV | OS | HFSCR | FSCR, 3000, 7, 1, 1, 5, 6, 0, 0)]
    yield accepted_features(here(feature("a", **user, **registers)), rows=rows)
    rows = [(LEAST, 3000, 7, 0, 0, 0, 0, 0, 0)]
    child = node("n", hwcap_bit_nr=5)
    yield accepted(container(here(feature("a", child, **user)), hwcap_bit_nr=5), rows=rows)
    # Nor does a property of a name that is close.
    for name in (b"hwcap-bit", b"hwcap-bit-nr-", b"hwcap-bit-nr2", b"HWCAP-bit-nr", b"x-hwcap-bit-nr", b"bit-nr"):
        for value in (5, 64, b"\0\0\0"):
            yield accepted_features(here(with_property(feature("a", **user), name, value)), rows=rows)


# Phandles and dependencies


def phandles():
    """Those of features alone: those of other nodes are not looked at, and may be of any length and range (F8)."""
    for phandle in (1, 0xFFFF, 0x10000, 0x01000000, 2**31, ALL_ONES - 1):
        first, second = here(feature("a", phandle=phandle)), here(feature("b", dependencies=[phandle]))
        one = (LEAST | PHANDLE, 3000, 6, 0, 0, 0, 0, 0, phandle)
        yield accepted_features(first, second, rows=[one, (LEAST | DEPENDENCIES, 3000, 6, 0, 0, 0, 0, 0, 0, 0)])
    for first, second in ((1, 0x10001), (1, 0x01000000), (0x10000, 0x20000), (0xFF, 0xFFFF), (2**31 + 1, 1)):
        yield accepted_features(feature("a", phandle=first), feature("b", phandle=second))
    # The same phandle elsewhere: root, parent, container, other nodes, child nodes of features.
    one, by_one = feature("a", phandle=1), feature("b", dependencies=[1])
    yield root(container(one, by_one), phandle=1), 0
    yield accepted(node("cpus", container(one, by_one), phandle=1))
    yield accepted(container(one, by_one, phandle=1))
    yield accepted(node("x", phandle=1), container(one, by_one), node("y", phandle=1))
    yield accepted_features(feature("c", node("n", phandle=1)), one, by_one)
    yield accepted_features(one, feature("c", node("n", phandle=1)), by_one)
    yield accepted_features(feature("a", node("n", phandle=1), phandle=1), by_one)
    strange = [node("x%d" % at, phandle=value) for at, value in enumerate((0, ALL_ONES, b"", b"\0\0\1", [1, 2]))]
    yield accepted(*strange, container(one, by_one, phandle=0))
    yield accepted_features(feature("c", *strange), one, by_one)


def graph(*needs):
    """A feature for each list of positions, which are those that it needs; phandles from 11 on."""
    features = []
    rows = []
    for position, slots in enumerate(needs):
        given = {"phandle": 11 + position, "dependencies": [11 + slot for slot in slots]}
        features.append(here(feature("n%d" % position, **given)))
        rows.append((LEAST | PHANDLE | DEPENDENCIES, 3000, 6, 0, 0, 0, 0, 0, 11 + position, *slots))
    return accepted_features(*features, rows=rows)


def dependencies():
    """Positions in the order of the list: earlier ones, later ones, the feature itself, rings, repeats (F7)."""
    for needs in (
        [[]],
        [[0]],
        [[0, 0]],
        [[1], []],
        [[], [0]],
        [[1], [0]],
        [[1], [1]],
        [[0], [1]],
        [[1], [2], [0]],
        [[1, 2], [2, 0], [0, 1]],
        [[2, 1, 0], [0, 1, 2], [1, 0, 2]],
        [[], [0, 0, 0], [1, 0, 1]],
        [[0] * 16, [1] * 16],
        [[1] * 16, []],
        [[], [], [], [3, 2, 1, 0]],
        [list(range(8)) * 2, *[[]] * 7],
        [[1], [2], [3], [4], [5], [6], [7], [7]],
    ):
        yield graph(*needs)
    for many in (*range(6), 15, 16):
        yield accepted_features(feature("a", phandle=9), feature("b", dependencies=[9] * many))
    # None that is given, the first feature, none that is not given (F10).
    yield accepted_features(
        here(feature("a", phandle=3)),
        here(feature("b", dependencies=b"")),
        here(feature("c", dependencies=[3])),
        here(feature("d")),
        rows=[
            (LEAST | PHANDLE, 3000, 6, 0, 0, 0, 0, 0, 3),
            (LEAST | DEPENDENCIES, 3000, 6, 0, 0, 0, 0, 0, 0),
            (LEAST | DEPENDENCIES, 3000, 6, 0, 0, 0, 0, 0, 0, 0),
            (LEAST, 3000, 6, 0, 0, 0, 0, 0, 0),
        ],
    )


# What is ignored


def below_features():
    """Child nodes of features are walked and no more (F9). What one gives does not count for the feature."""
    rows = [(LEAST, 3000, 6, 0, 0, 0, 0, 0, 0), (LEAST | PHANDLE, 3000, 6, 0, 0, 0, 0, 0, 2)]
    second = feature("b", phandle=2)
    bad = {"isa": b"", "usable_privilege": b"\0", "hv_support": 1, "phandle": 0, "dependencies": b"\0"}
    for inner in (
        [node("n")],
        [node("a"), node("b"), node("a")],
        [node("b", phandle=2)],
        [feature("b", phandle=2, dependencies=[9])],
        [node("n", **bad)],
        [node("n", node("n", node("n", isa=5)))],
        [node("cpus", node("b", isa=1), node("b", isa=2)), node("b")],
        [node("n", device_type=b"cpu-features\0")],
    ):
        yield accepted_features(here(feature("a", *inner)), here(second), rows=rows)
        yield refused_features(11, here(node("a", *inner)), second)
    # A container's child is a feature, whatever it holds.
    yield refused_features(11, feature("a"), here(node("b", feature("c"))))


def unknown_properties():
    """Of container and features, of any length, and of names that are close to those sought (F9)."""
    rows = [(LEAST, 3000, 6, 0, 0, 0, 0, 0, 0)]
    for name in (b"x-isa", b"sa", b"isa2", b"ISA", b"usable-privileg", b"usable-privilege-", b"os-support-", b"bit-nr"):
        yield accepted_features(here(with_property(feature("a"), name, b"\0\0\0")), rows=rows)
        yield accepted_features(here(backwards(with_property(feature("a"), name, 64))), rows=rows)
    without = feature("a", isa=None)
    for name in (b"x-isa", b"sa", b"isa2", b"ISA"):
        yield refused_features(11, here(with_property(without, name, 3000)))
    # dtc keeps `isa` as the ending of `x-isa` where that comes first, which is in the container.
    ending = with_property(container(isa=None), b"x-isa", b"")
    yield accepted(with_property(ending, b"isa", 3000)._replace(children=[here(feature("a"))]), rows=rows)
    many = feature("a")
    for at in range(20):
        many = with_property(many, b"custom-%d" % at, bytes(at))
    yield accepted_features(here(backwards(many)), rows=rows)
    # What a container has is not what a feature has, and the reverse.
    odd = {"usable_privilege": b"", "hv_support": b"\0", "hwcap_bit_nr": 64, "phandle": 0, "dependencies": b"\0\0\0"}
    yield accepted(container(here(feature("a")), **odd), rows=rows)
    yield accepted_features(here(feature("a", device_type=b"", compatible=b"other")), rows=rows)


def described():
    """The cases that are described by their nodes."""
    yield from containers()
    yield from container_strings()
    yield from counts()
    yield from different_names()
    yield from values()
    yield from every_property()
    yield from capability_bits()
    yield from phandles()
    yield from dependencies()
    yield from below_features()
    yield from unknown_properties()


def cases():
    yield from built()
    for top, expected in described():
        yield "r", flat(top)[0], expected


def answer(data):
    """Refusal number and place, isa and count, and the rows of the positions that are not all zero."""
    number, place, record = model.read(data)
    line = [number, place, record.isa, record.count]
    for position, numbers in enumerate(record.features):
        slots = record.slots[16 * position : 16 * position + 16]
        if any(numbers) or any(slots):
            line += [position, *numbers, *slots]
    return line


def vectors():
    return held(cases(), answer)
