"""Vectors of kind `r` (vectors/records.py), most of them refused: each fault of a record alone, two at once so that the
order shows, and layouts that no dtc makes.
"""

from vectors.blocks import END, END_NODE, HERE, NOP, START, begin, held, joined, prop, tree
from vectors.damage import laid_out
from vectors.nodes import (
    CONTAINER,
    DTC_START,
    backwards,
    container,
    feature,
    flat,
    here,
    node,
    root,
    shared_strings,
    tokens,
    with_property,
)
from vectors.properties import cells
from vectors.records import (
    ALL_ONES,
    LEAST,
    PHANDLE,
    accepted,
    accepted_features,
    answer,
    graph,
    named,
    refused,
    refused_features,
    refused_line,
    refused_root,
)


# The container


def no_container():
    """None of that exact name is 10 at the structure's start (F1)."""
    good = container(feature("a"))
    for name in (CONTAINER + "@0", CONTAINER + "s", "x" + CONTAINER, CONTAINER[:-1], CONTAINER.upper(), "cpu-features"):
        yield root(good._replace(name=name.encode("ascii"))), refused_line(10, DTC_START)
    yield root(), refused_line(10, DTC_START)
    yield root(node("cpus", feature("a"), feature("a"))), refused_line(10, DTC_START)
    # The name in a value, and as a property's.
    yield root(node("cpus", compatible=b"ibm,powerpc-cpu-features\0")), refused_line(10, DTC_START)
    yield root(with_property(node("cpus"), CONTAINER.encode("ascii"), 3000)), refused_line(10, DTC_START)


def second_containers():
    """A second one, wherever it stands, is 9 at its begin token, before all that is wrong in either (F1)."""
    good, bare = container(feature("a")), node(CONTAINER)
    for first in (good, bare, container(feature("a", isa=None)), container(compatible=None)):
        yield refused(9, first, here(bare))
        yield refused(9, node("cpus", first), node("spare", here(container())))
        # Inside the first: as a feature, as the child of one.
        yield refused(9, first._replace(children=[here(container())]))
        yield refused(9, first._replace(children=[feature("a"), node("b", here(bare)), feature("a")]))
    yield refused(9, good, here(good), good)
    yield refused(9, node("a", node("b", good)), node("c", here(good), good), good)
    yield refused(9, container(here(container(container()))))
    yield refused(9, container(*named(65), here(bare)))


SHORT, LONG = b"cpu-features", b"ibm,powerpc-cpu-features"


def without_text(text):
    """No list that has the text as a string: missing, of no bytes, without its last zero byte, of other strings."""
    return (
        None,
        b"",
        b"\0",
        b"\0\0",
        text,
        b"\0" + text,
        b"other\0" + text,
        text + b"\0" + text,
        text + b"\0other",
        text + b"\0\0x",
        text[:-1] + b"\0",
        text[:-1] + b"\0\0",
        text[1:] + b"\0",
        text[:4] + b"\0" + text[4:] + b"\0",
        text + b"s\0",
        b"x" + text + b"\0",
        text.upper() + b"\0",
        text + b" ",
        text + b" \0",
        text + b"\n\0",
        b"t" + text[1:] + b"\0",
        bytes([text[0] ^ 0x80]) + text[1:] + b"\0",
        text[:-1] + bytes([text[-1] ^ 0x80]) + b"\0",
        b"other\0another\0",
    )


def with_more(text):
    """Lists that have the text as a string, and not as their only one."""
    return (
        text + b"\0\0",
        b"\0" + text + b"\0",
        b"\0\0" + text + b"\0\0",
        text + b"\0" + text + b"\0",
        b"other\0" + text + b"\0",
        text + b"\0other\0",
        text + b"\0x\0",
        SHORT + b"\0" + LONG + b"\0",
        LONG + b"\0" + SHORT + b"\0",
    )


# What is not one cell: of no bytes, 3, 5 and 8.
NO_CELLS = (b"", b"\0\0\x0b", b"\0\0\0\0\1", b"\0\0\0\1" * 2)


def container_properties():
    """11 at the container's begin token (F3). What is accepted is in vectors/records.py (document 02, A3)."""
    for text in (SHORT, LONG):
        for value in (*without_text(text), *with_more(text)):
            yield refused(11, here(container(feature("a"), device_type=value)))
    for value in without_text(LONG):
        for text in (SHORT, LONG):
            yield refused(11, here(container(feature("a"), device_type=text + b"\0", compatible=value)))
    # The shorter name is none of `compatible`.
    for value in (SHORT + b"\0", b"other\0" + SHORT + b"\0", SHORT + b"\0" + LONG, LONG + b"\0" + SHORT):
        yield refused(11, here(container(feature("a"), compatible=value)))
    for value in (None, *NO_CELLS):
        yield refused(11, here(container(feature("a"), isa=value)))
    # One of the three, beside two that are good in the other way.
    good = {"device_type": LONG + b"\0", "compatible": b"other\0" + LONG + b"\0", "isa": 2070}
    for name, values in (
        ("device_type", (None, LONG, LONG + b"\0\0", good["compatible"])),
        ("compatible", (None, LONG, b"other\0", LONG + b"\0other")),
        ("isa", (None, *NO_CELLS)),
    ):
        for value in values:
            yield refused(11, here(container(feature("a"), **{**good, name: value})))
    # Where all three are good the features decide.
    for number, changes in ((11, {"isa": None}), (12, {"phandle": 0}), (8, {"dependencies": [1] * 17}), (13, {"dependencies": [1]})):
        yield refused(number, container(here(feature("a", **changes)), **good))
    yield refused(9, container(node("a"), here(node("a")), **good))
    yield refused(11, here(node(CONTAINER)))
    yield refused(11, here(container(device_type=b"ibm,powerpc-cpu-features\0", compatible=b"cpu-features\0")))
    # What its parent or its features give does not count for it, nor what it gives for them.
    yield refused(11, node("cpus", here(container(feature("a"), isa=None)), isa=3000))
    yield refused(11, here(container(feature("a", compatible=b"ibm,powerpc-cpu-features\0"), compatible=None)))
    yield refused_features(11, here(feature("a", isa=None)))


# The features


def same_names():
    """The first feature that has an earlier one of its name."""
    for letters in ("aa", "aba", "abb", "abca", "abab", "abba", "aab", "aaa", "abcdefga", "abcdefgc", "abcdefgg"):
        later = min(at for at in range(len(letters)) if letters[at] in letters[:at])
        features = [here(node(letter)) if at == later else node(letter) for at, letter in enumerate(letters)]
        yield refused_features(9, *features)
    bare = named(64)
    yield refused_features(9, *bare[:63], here(bare[0]))
    yield refused_features(9, *bare[:63], here(bare[62]))
    for name in ("a@1", "a,b", "n" * 63):
        yield refused_features(9, node(name), node("b"), here(node(name)))


BIT_NUMBERS = ("hfscr_bit_nr", "fscr_bit_nr", "hwcap_bit_nr")

# The cell whose bit 0 requires a bit number; no cell requires a capability bit (document 02, A2).
SUPPORTS = {"hfscr_bit_nr": "hv_support", "fscr_bit_nr": "os_support"}

BIT_FAULTS = {11: NO_CELLS, 12: (64, 256, 0x3F000000, 2**31, ALL_ONES)}
NO_LISTS = tuple((b"\0\0\0\1" * 18)[:length] for length in (1, 2, 3, 5, 7, 63, 65, 69))

# The values of each property that are a fault of it, by number; the properties in document 01's order.
FAULTS = {
    "isa": {11: (None, *NO_CELLS)},
    "usable_privilege": {11: (None, *NO_CELLS)},
    "hv_support": {11: NO_CELLS},
    "os_support": {11: NO_CELLS},
    "hfscr_bit_nr": BIT_FAULTS,
    "fscr_bit_nr": BIT_FAULTS,
    "hwcap_bit_nr": BIT_FAULTS,
    "phandle": {11: NO_CELLS, 12: (0, ALL_ONES)},
    "dependencies": {11: NO_LISTS, 8: ([1] * 17, [1] * 18, [9] * 40)},
}


def faults():
    """Each fault of each property alone; and one of each number in a later feature, between good ones."""
    for name, numbers in FAULTS.items():
        for number, values in numbers.items():
            for value in values:
                yield refused_features(number, here(feature("a", **{name: value})))
            bad = feature("b", **{"phandle": 1, name: values[0]})
            yield refused_features(number, feature("a", phandle=2), here(bad), feature("c", phandle=3))


def required():
    """Bit numbers: required where bit 0 is set, and checked wherever they are given (F6)."""
    for name, support in SUPPORTS.items():
        for value in (1, 7, 0x80000001, ALL_ONES):
            yield refused_features(11, here(feature("a", **{support: value})))
            yield accepted_features(feature("a", **{support: value, name: 63}))
        for value in (0, 2, 0x01000000, ALL_ONES - 1):
            yield accepted_features(feature("a", **{support: value}))
            yield accepted_features(feature("a", **{support: value, name: 0}))
        yield refused_features(12, here(feature("a", **{support: 0, name: 64})))
        yield refused_features(12, here(feature("a", **{support: 1, name: 64})))
        yield refused_features(11, here(feature("a", **{support: 2, name: b"\0\0\0"})))
        # The other two do not stand in for it, nor does that of the container or of a child node.
        others = {other: 5 for other in BIT_NUMBERS if other != name}
        yield refused_features(11, here(feature("a", **{support: 1, **others})))
        yield refused(11, container(here(feature("a", node("n", **{name: 5}), **{support: 1})), **{name: 5}))


def capability_bits():
    """`hwcap-bit-nr` is checked where it is given, with and without the user bit (document 02, A2)."""
    for usable in (0, 1, 7):
        for number, values in BIT_FAULTS.items():
            for value in values:
                yield refused_features(number, here(feature("a", usable_privilege=usable, hwcap_bit_nr=value)))
        # Between user features that have none.
        bad = here(feature("b", usable_privilege=usable, hwcap_bit_nr=64))
        yield refused_features(12, feature("a", usable_privilege=7), bad, feature("c", usable_privilege=7))
    # The other bit numbers are required of a user feature that has none.
    for support in SUPPORTS.values():
        yield refused_features(11, here(feature("a", **{"usable_privilege": 7, support: 1})))


def same_phandles():
    """One that an earlier feature carries is 9 at the later one."""
    for carried in ("11", "121", "122", "1231", "1221", "1-1", "-11", "-1-1", "12345673"):
        later = min(at for at in range(len(carried)) if carried[at] != "-" and carried[at] in carried[:at])
        features = [feature("n%d" % at, phandle=None if one == "-" else int(one)) for at, one in enumerate(carried)]
        features[later] = here(features[later])
        yield refused_features(9, *features)


def unknown_phandles():
    """13 at the feature that names one, never a position; 0 and all ones are no 12 (F7)."""
    for phandle in (0, ALL_ONES, 1, 2, 0x03000000, 0x10003, ALL_ONES - 1):
        named_there = here(feature("b", dependencies=[phandle]))
        yield refused_features(13, named_there)
        yield refused_features(13, feature("a", phandle=3), named_there)
        # The features before it have no phandle: that is not one of 0.
        yield refused_features(13, feature("a"), feature("c"), named_there, feature("d", phandle=3))
    # First, in the middle and last of a list; before and behind the feature that it also names.
    one = feature("a", phandle=3)
    for phandles in ([0, 3], [3, 0], [3, 3, 0, 3], [3] * 15 + [4], [4] + [3] * 15):
        bad = here(feature("b", dependencies=phandles))
        yield refused_features(13, one, bad)
        yield refused_features(13, bad, one)
    # In a later feature, and before one that is good.
    good, bad = feature("b", dependencies=[3]), here(feature("c", dependencies=[2]))
    yield refused_features(13, one, good, bad)
    yield refused_features(13, one, bad, good)
    yield refused_features(13, bad, good, one)
    # Carried by other nodes alone (F8): root, parent, container, others, child nodes of features.
    by_one = here(feature("b", dependencies=[1]))
    yield refused_root(13, root(container(feature("a"), by_one), phandle=1))
    yield refused(13, node("cpus", container(feature("a"), by_one), phandle=1))
    yield refused(13, container(feature("a"), by_one, phandle=1))
    yield refused(13, node("x", phandle=1), container(feature("a"), by_one), node("y", phandle=1))
    yield refused_features(13, feature("a", node("n", phandle=1)), by_one)
    yield refused_features(13, feature("a", node("n", node("m", phandle=1))), by_one)
    yield refused_features(13, here(feature("b", node("n", phandle=1), dependencies=[1])))
    # Under another name.
    for name in (b"linux,phandle", b"ibm,phandle", b"phandle2", b"Phandle"):
        yield refused_features(13, with_property(feature("a"), name, 1), by_one)
    yield refused_features(13, with_property(feature("a", phandle=2), b"linux,phandle", 1), by_one)
    # Alike in some bytes only.
    for carried, phandle in ((1, 0x10001), (0x10001, 1), (1, 0x01000000), (0xFF, 0xFFFF), (2**31 + 1, 1)):
        yield refused_features(13, feature("a", phandle=carried), here(feature("b", dependencies=[phandle])))
    # The offset of a feature is no phandle.
    (place,) = flat(root(container(here(feature("a")))))[1]
    yield refused_features(13, feature("a"), here(feature("b", dependencies=[place])))


# Two faults


def two_faults():
    """Of two properties of one feature the first in document 01's order decides, whatever the tree's order (F5)."""
    order = list(FAULTS)
    alone = {name: {number: values[0] for number, values in numbers.items()} for name, numbers in FAULTS.items()}
    # The phandle of an earlier feature.
    alone["phandle"][9] = 1
    for place, name in enumerate(order):
        for later in order[place + 1 :]:
            pairs = [(one, two) for one in alone[name] for two in alone[later] if one != two]
            for number, other in pairs:
                bad = feature("b", **{name: alone[name][number], later: alone[later][other]})
                first = [feature("a", phandle=1)] if 9 in (number, other) else []
                yield refused_features(number, *first, here(backwards(bad)))
                if (number, other) == pairs[-1]:
                    yield refused_features(number, *first, here(bad))
    # Missing where required, against what comes before and behind it.
    yield refused_features(11, here(feature("a", hv_support=1, fscr_bit_nr=64)))
    yield refused_features(11, here(feature("a", os_support=1, hwcap_bit_nr=64)))
    yield refused_features(12, here(feature("a", os_support=1, hfscr_bit_nr=64)))
    yield refused_features(12, here(feature("a", usable_privilege=1, fscr_bit_nr=64)))
    yield refused_features(12, here(feature("a", usable_privilege=1, hfscr_bit_nr=64, os_support=1)))
    # A user feature without a capability bit has no fault there, and what comes behind it decides.
    yield refused_features(12, here(feature("a", usable_privilege=1, phandle=0)))
    yield refused_features(8, here(feature("a", usable_privilege=1, dependencies=[1] * 17)))
    yield refused_features(13, here(feature("a", usable_privilege=1, dependencies=[1])))
    # Length before range: a cell of the value would be out of range.
    for name in (*BIT_NUMBERS, "phandle"):
        high = ALL_ONES if name == "phandle" else 64
        yield refused_features(11, here(feature("a", **{name: [high, 1]})))
        yield refused_features(11, here(feature("a", **{name: [1, high]})))
        yield refused_features(11, here(feature("a", **{name: b"\xff" * 5})))
    # Whole cells before their number.
    yield refused_features(11, here(feature("a", dependencies=bytes(4 * 17 + 1))))
    yield refused_features(11, here(feature("a", dependencies=bytes(4 * 40 + 3))))


def two_features():
    """The last fault of a feature comes before the first of the next."""
    bad = (
        (8, {"dependencies": [1] * 17}),
        (11, {"dependencies": b"\0\0\0"}),
        (12, {"phandle": 0}),
        (12, {"hwcap_bit_nr": 64}),
        (11, {"hv_support": 1}),
        (11, {"isa": None}),
    )
    for number, changes in bad:
        for other, other_changes in bad:
            if number != other or changes == other_changes:
                yield refused_features(number, here(feature("a", **changes)), feature("b", **other_changes))
    # A phandle that an earlier feature carries is a fault of the later one.
    one, again = feature("a", phandle=1), feature("b", phandle=1)
    for number, changes in bad:
        other = feature("c", **changes)
        yield refused_features(9, one, here(again), other)
        yield refused_features(number, one, here(other), again)


def stages():
    """Container, number of features, names, properties, dependencies: each before the next (F2)."""
    unknown = {"dependencies": [77]}
    bad_container = {"compatible": b"other\0"}
    many = named(65)
    # 11 of the container before all of its features.
    yield refused(11, here(container(*many, **bad_container)))
    yield refused(11, here(container(node("a"), node("a"), **bad_container)))
    for changes in ({"isa": None}, {"phandle": 0}, {"dependencies": [1] * 17}, unknown):
        faulty = feature("a", **changes)
        yield refused(11, here(container(faulty, **bad_container)))
        yield refused(11, here(container(faulty, isa=b"")))
        # Names before properties and dependencies, wherever these stand.
        yield refused_features(9, faulty, feature("b"), here(feature("a")))
        yield refused_features(9, feature("b"), here(feature("b")), faulty)
        yield refused_features(9, feature("a"), here(faulty))
    # The 65th before names, properties and dependencies.
    yield refused_features(8, *many[:64], here(many[0]))
    yield refused_features(8, many[0], *many[:63], here(many[64]))
    yield refused_features(8, feature("0", **unknown), *many[1:64], here(many[64]))
    # Properties before dependencies: of a later feature, and of the same one.
    for number, changes in (
        (11, {"isa": None}),
        (11, {"hv_support": b""}),
        (12, {"hfscr_bit_nr": 64}),
        (11, {"os_support": 1}),
        (12, {"phandle": ALL_ONES}),
        (9, {"phandle": 5}),
        (11, {"dependencies": b"\0"}),
        (8, {"dependencies": [5] * 17}),
    ):
        first = feature("a", phandle=5)
        yield refused_features(number, with_property(first, b"dependencies", [77]), here(feature("b", **changes)))
        yield refused_features(number, first, here(feature("b", **{**unknown, **changes})))
    # Of two features that name what no feature carries, the first.
    yield refused_features(13, here(feature("a", **unknown)), feature("b", **unknown))
    carried = [feature("c", phandle=1), here(feature("a", dependencies=[1, 77]))]
    yield refused_features(13, *carried, feature("b", **unknown))


# Trees that no dtc makes


def spread(parts, between):
    """The parts with more before each of them; HERE stays with the part behind it."""
    apart = []
    for before, part in zip([None, *parts], parts):
        apart.extend([part] if before is HERE else [between, part])
    return apart


def own_strings(strings):
    """Each use of a name has a string of its own."""

    def offset_of(name):
        strings.extend(name + b"\0")
        return len(strings) - len(name) - 1

    return offset_of


SAMPLES = (
    accepted_features(rows=[]),
    accepted_features(here(feature("a")), rows=[(LEAST, 3000, 6, 0, 0, 0, 0, 0, 0)]),
    graph([1], [0]),
    graph([], [0], [0, 1, 2]),
    refused(11, here(container(feature("a"), isa=None))),
    refused_features(11, feature("a"), here(feature("b", usable_privilege=b""))),
    refused_features(12, here(feature("a", usable_privilege=1, hwcap_bit_nr=64))),
    refused_features(9, feature("a", phandle=5), feature("b"), here(feature("c", phandle=5))),
    refused_features(9, feature("a"), feature("b"), here(feature("a"))),
    refused_features(13, feature("a", node("n", phandle=1)), here(feature("b", dependencies=[1]))),
    refused(9, node("cpus", container()), here(container())),
    accepted(
        node("cpus", container(here(feature("a", node("n", node("m", isa=1)), phandle=1)))),
        rows=[(LEAST | PHANDLE, 3000, 6, 0, 0, 0, 0, 0, 1)],
    ),
)


def moved(line, before, behind):
    """The line, whose places are those of another layout."""
    new = dict(zip(before, behind))
    numbers = list(map(int, line.split()[1:]))
    if numbers[0]:
        return refused_line(numbers[0], new[numbers[1]])
    # A row has 28 numbers, of which the second is the offset.
    for at in range(5, len(numbers), 28):
        numbers[at] = new[numbers[at]]
    return " ".join(map(str, ["r", *numbers]))


def layouts():
    """NOPs between all tokens, padding of any bytes, a string for each use of a name, blocks anywhere in the tree."""
    for top, line in SAMPLES:
        before = flat(top)[1]
        strings = bytearray()
        structure, places = joined(spread([*tokens(top, shared_strings(strings)), END], NOP))
        yield "r", tree(structure, bytes(strings)), moved(line, before, [START + at for at in places])
        strings = bytearray()
        structure, places = joined(spread([*tokens(top, own_strings(strings), b"\xff"), END], NOP * 3))
        strings_at = START + 5
        structure_at = strings_at + len(strings) + 7
        structure_at += -structure_at % 4
        data = laid_out(structure, bytes(strings), structure_at, strings_at, structure_at + len(structure) + 3, b"\xff")
        yield "r", data + b"\0\0\0\1", moved(line, before, [structure_at + at for at in places])
    # No container: the structure's start, though NOPs stand there (F1).
    for structure_at in (START, START + 4, 400):
        structure, _ = joined([NOP, NOP, begin(b""), NOP, END_NODE, END])
        data = laid_out(structure, b"", structure_at, START, structure_at + len(structure))
        yield "r", data, refused_line(10, structure_at)


def after_the_walk():
    """Faults of header and walk come before those of the record, wherever they stand (W14)."""
    for top, _ in SAMPLES[::2]:
        strings = bytearray()
        parts = [part for part in tokens(top, shared_strings(strings)) if part is not HERE]
        for number, at, fault in (
            (6, len(parts), cells(77)),
            (7, len(parts) - 1, begin(b"n*")),
            (7, 1, prop(len(strings))),
            (6, len(parts), b""),
        ):
            # A fault of no bytes stands for the block's end.
            structure, (place,) = joined([*parts[:at], HERE, fault, *(parts[at:] + [END] if fault else [])])
            yield "r", tree(structure, bytes(strings)), refused_line(number, START + place)
    structure = joined([*parts, END])[0]
    yield "r", tree(structure, bytes(strings), version=16), refused_line(4, 20)
    yield "r", tree(structure, bytes(strings), magic=0), refused_line(2, 0)
    yield "r", tree(structure, bytes(strings))[:-1], refused_line(1, 4)
    yield "r", b"", refused_line(1, 0)
    # A property that is given twice is the walk's 9, at its token: of the container, and of a feature.
    strings = bytearray()
    top, _ = accepted_features(feature("a", phandle=1), feature("b", dependencies=[1]))
    parts = tokens(top, shared_strings(strings))
    for place, part in enumerate(parts):
        if part[:4] == cells(3):
            structure, (at,) = joined([*parts[: place + 1], HERE, *parts[place:], END])
            yield "r", tree(structure, bytes(strings)), refused_line(9, START + at)


def described():
    """The cases that are described by their nodes."""
    yield from no_container()
    yield from second_containers()
    yield from container_properties()
    yield from same_names()
    yield from faults()
    yield from required()
    yield from capability_bits()
    yield from same_phandles()
    yield from unknown_phandles()
    yield from two_faults()
    yield from two_features()
    yield from stages()


def cases():
    for top, expected in described():
        yield "r", flat(top)[0], expected
    yield from layouts()
    yield from after_the_walk()


def vectors():
    return held(cases(), answer)
