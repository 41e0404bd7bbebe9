"""Trees by chance for the differential test: well formed ones of many shapes, ones with a fault, and damaged ones."""

from model import tree as model
from vectors.blocks import END, END_NODE, FIELDS, HERE, NOP, START, begin, joined, prop, read_built, tree
from vectors.damage import chance_bytes, chance_strings, chance_structure, laid_out
from vectors.nodes import container, deep, node, root, shared_strings, tokens, with_property
from vectors.properties import cells
from vectors.record_chance import chance_given, chance_root, spoil
from vectors.record_faults import own_strings
from vectors.trees import TREES

ALL_ONES = 2**32 - 1

# Names that are bad for a node; some of them are good for a property.
BAD_NAMES = (b"", b"a@", b"@0", b"a@0@1", b"a b", b"a/b", b"a\x80", b"n" * 64, b"\n", b"a#", b"a?")

# Cells that mean something in some place of a tree.
CELLS = (0, 1, 2, 3, 4, 5, 8, 9, 16, 63, 64, 65, 3000, 0x01000000, 2**31, ALL_ONES - 3, ALL_ONES)


# Layouts


def placed(chance, structure, strings):
    """A tree of these blocks: in either order, with gaps of any bytes, and bytes behind the total size."""
    if chance.below(3) == 0:
        return tree(structure, strings)
    gaps = [4 * chance.below(3), chance.below(7), chance.below(7)]
    if chance.below(2):
        structure_at = START + gaps[0]
        strings_at = structure_at + len(structure) + gaps[1]
        total = strings_at + len(strings) + gaps[2]
    else:
        strings_at = START + gaps[1]
        structure_at = -(-(strings_at + len(strings)) // 4) * 4 + gaps[0]
        total = structure_at + len(structure) + gaps[2]
    data = laid_out(structure, strings, structure_at, strings_at, total, chance.bytes(1))
    data = with_field(data, "reserve_at", chance.below(2**32))
    data = with_field(data, "boot_cpu", chance.below(2**32))
    data = with_field(data, "version", chance.choice((17, 17, 18, ALL_ONES)))
    data = with_field(data, "last_compatible", chance.choice((16, 16, 17, 0)))
    return data + chance.bytes(chance.choice((0, 0, 1, 4, 40)))


def with_field(data, field, value):
    """The tree with another value in a field of its header."""
    at = 4 * FIELDS.index(field)
    return data[:at] + cells(value) + data[at + 4 :]


def with_nops(chance, parts):
    """NOPs before some of the parts, or before none."""
    rarely = chance.choice((1000, 1000, 2, 8))
    apart = []
    for part in parts:
        if chance.below(rarely) == 0:
            apart.extend([NOP] * chance.between(1, 3))
        apart.append(part)
    return apart


def in_one_block(chance, top):
    """The bytes of a tree whose strings block begins with the structure block, or inside it."""
    strings = bytearray()
    names = shared_strings(strings)
    before = joined(tokens(top, names))[0]
    skipped = chance.choice((0, 1, 4, len(before)))
    behind = len(before) + len(END) - skipped
    structure = joined([*tokens(top, lambda name: behind + names(name)), END])[0]
    return tree(structure, bytes(strings), strings_at=START + skipped, strings_size=behind + len(strings))


def flattened(chance, top):
    """The bytes of a tree described by its nodes: strings shared or not, NOPs, padding of some byte, any layout."""
    if chance.below(12) == 0:
        return in_one_block(chance, top)
    strings = bytearray(chance.choice((b"", b"", b"\0", b"x-isa\0", b"\xff\0")))
    offset_of = chance.choice((shared_strings, shared_strings, own_strings))(strings)
    parts = [part for part in tokens(top, offset_of, chance.choice((b"\0", b"\xff", b"\1"))) if part is not HERE]
    structure = b"".join(with_nops(chance, [*parts, END]))
    return placed(chance, structure, bytes(strings))


# Trees by their nodes


def feature_name(chance, position):
    """A name of its own for each position."""
    return chance.choice(("f%d", "f@%d", "f,%d", "%d", "vector-%d@a.b", "n" * 60 + "-%02d")) % position


def many_features(chance, count):
    """Features of this count, with any properties, that depend on each other."""
    first = chance.choice((1, 2, 0x100, 2**31, ALL_ONES - 100))
    often = chance.choice((1, 2, 8))
    phandles = [first + at if chance.below(often) == 0 else None for at in range(count)]
    carried = chance.shuffled([phandle for phandle in phandles if phandle is not None])
    features = []
    for position, phandle in enumerate(phandles):
        given = chance_given(chance, phandle, carried)
        inner = [node("n", phandle=first)] if chance.below(16) == 0 else []
        features.append(node(feature_name(chance, position), *inner, **given))
    return features


DEVICE_TYPES = b"cpu-features\0", b"ibm,powerpc-cpu-features\0"

# What may stand beside the container's name in `compatible`.
OTHER_NAMES = b"\0", b"a\0", b"ibm,power9-cpu-features\0", b"ibm,powerpc-cpu-feature\0", b"\xff\0", *DEVICE_TYPES


def good_strings(chance):
    """The `device_type` and the `compatible` of a container: either one, and names at any place of a list."""
    names = [chance.choice(OTHER_NAMES) for _ in range(chance.choice((0, 0, 1, 1, 2, 5)))]
    names.insert(chance.below(len(names) + 1), DEVICE_TYPES[1])
    return {"device_type": chance.choice(DEVICE_TYPES), "compatible": b"".join(names)}


def of_many_features(chance):
    """A container of 0 to 66 features, at any level."""
    most = chance.choice((4, 16, 16, 32, 66))
    count = chance.between(60 if most == 66 else 0, most)
    changes = {"isa": chance.choice((3000, 2070, chance.below(2**32))), **good_strings(chance)}
    whole = container(*many_features(chance, count), **changes)
    return flattened(chance, root(deep(chance.choice((2, 3, 3, 9, 14, 15, 16)), whole)))


def of_few_features(chance):
    """Up to four features, half of them with a fault or two."""
    return flattened(chance, chance_root(chance))


def of_one_fault(chance):
    """Some features, of which one has a fault, or the name of another."""
    carried = [5, 6, 7]
    every = [chance_given(chance, phandle, carried) for phandle in carried]
    spoil(chance, chance.choice(every), carried)
    names = chance.choice((("a", "b", "c"), ("a@1", "a@2", "a"), [chance.choice("abcdefgh") for _ in range(3)]))
    features = [node(name, **given) for name, given in zip(names, every)]
    return flattened(chance, root(node("cpus", container(*features))))


def of_levels(chance):
    """Nodes within nodes, from one level to 18, with a container among them, or none, or two."""
    levels = chance.choice((1, 2, 15, 16, 17, 18))
    there = chance.below(levels)
    again = chance.below(levels) if chance.below(4) == 0 else there
    inner = []
    for level in range(levels - 1, 0, -1):
        if level in (there, again):
            inner = [container(*inner)]
        else:
            inner = [node("n%d" % level, *inner, isa=1, usable_privilege=0)]
    return flattened(chance, root(*inner))


def other_strings(chance, value):
    """Close to a string list: a string more or less, no zero byte at its end, a byte changed; or missing."""
    name, at = chance.choice(OTHER_NAMES), chance.below(len(value))
    changed = value[:at] + chance.choice((b"\0", b"x", bytes([value[at] ^ 1 << chance.below(8)]))) + value[at + 1 :]
    lists = (None, b"", b"\0", name, name + value, value + name, value + value, value[:-1], value + b"x", value[1:], value[:at], changed)
    return chance.choice(lists)


def of_wrong_container(chance):
    """A container whose own properties are good or close to that, or whose name is another."""
    changes = {**good_strings(chance), "isa": 3000}
    strings = ("device_type", "compatible")
    for name in chance.choice((strings[:1], strings[:1], strings[1:], strings[1:], strings, ())):
        changes[name] = other_strings(chance, changes[name])
    if chance.below(6) == 0:
        changes["isa"] = chance.choice((None, b"", b"abc", b"abcde"))
    whole = container(*many_features(chance, chance.below(3)), **changes)
    if chance.below(4) == 0:
        name = chance.choice((b"ibm,powerpc-cpu-features@0", b"ibm,powerpc-cpu-feature", b"ibm.powerpc-cpu-features"))
        whole = whole._replace(name=name)
    beside = [container()] if chance.below(6) == 0 else [node("n")]
    return flattened(chance, root(*chance.shuffled([whole, *beside])))


def of_many_properties(chance):
    """Three nodes with up to 90 properties each, of names that are alike; at times one is given twice."""
    length, letters = chance.choice((2, 4, 31, 63)), chance.choice((b"ab", b"aQ-0", b"abcdefgh#?,.09"))
    many = chance.between(1, 90)
    names = {bytes(chance.choice(letters) for _ in range(chance.between(1, length))) for _ in range(many)}
    names = chance.shuffled(sorted(names))
    strings = bytearray()
    offset_of = own_strings(strings)
    offsets = [offset_of(name) for name in names]
    inner = chance.shuffled(offsets)
    if chance.below(3) == 0:
        chance.choice((offsets, inner)).append(offset_of(chance.choice(names)))
    values = chance.bytes(chance.below(5))
    properties = [[prop(offset, values) for offset in some] for some in (offsets, inner)]
    parts = [begin(b""), *properties[0], begin(b"n"), *properties[1], END_NODE, begin(b"m"), *properties[1], END_NODE]
    return placed(chance, b"".join([*parts, END_NODE, END]), bytes(strings))


def of_tokens(chance):
    """Tokens that are mostly in place, in names by chance."""
    strings = chance_strings(chance)
    return placed(chance, chance_structure(chance, strings), strings)


def of_bad_names(chance):
    """A good tree with one name of a node or of a property that may be bad."""
    one = node("f", isa=1, usable_privilege=0)
    any_name = b"p" + chance.bytes(1).replace(b"\0", b"") + b"q"
    if chance.below(2):
        one = one._replace(name=chance.choice((*BAD_NAMES, any_name, any_name, any_name)))
    else:
        long = b"p" * chance.choice((31, 32, 62, 63, 63, 64, 65))
        name = chance.choice((*BAD_NAMES, long, long, b"p?#", b"p@", any_name, any_name, any_name))
        one = with_property(one, name, chance.bytes(chance.below(5)))
    return flattened(chance, root(container(node("e", isa=1, usable_privilege=0), one)))


# Damage


def small_tree(chance):
    return chance.choice((of_few_features, of_few_features, of_tokens, of_many_features))(chance)


def blocks_of(data):
    """The structure block and the strings block of a tree whose header is good."""
    header = model.read_header(data)
    structure = data[header.structure_at :][: header.structure_size]
    return structure, data[header.strings_at :][: header.strings_size]


def cut_tokens(structure):
    """The bytes of each token of a structure block."""
    places = [token.at for token in model.tokens(structure)]
    return [structure[here:there] for here, there in zip(places, [*places[1:], len(structure)])]


def changed_tokens(chance, data):
    """A token left out, given twice, exchanged with another, moved, or another token in its place."""
    structure, strings = blocks_of(data)
    parts = cut_tokens(structure)
    here, there = chance.below(len(parts)), chance.below(len(parts))
    change = chance.below(6)
    if change == 0:
        del parts[here]
    elif change == 1:
        parts.insert(here, parts[here])
    elif change == 2:
        parts[here], parts[there] = parts[there], parts[here]
    elif change == 3:
        parts.insert(there, parts.pop(here))
    elif change == 4:
        parts[here] = chance.choice((END_NODE, NOP, END, begin(b"n"), begin(b""), cells(chance.choice(CELLS))))
    else:
        parts.insert(here, chance.choice((END_NODE, NOP, END, begin(b"n"), cells(chance.choice(CELLS)))))
    return placed(chance, b"".join(parts), strings)


def changed_cells(chance, data):
    """A cell of the structure block changed, or two exchanged."""
    header = model.read_header(data)
    data = bytearray(data)
    many = header.structure_size // 4
    here, there = (header.structure_at + 4 * chance.below(many) for _ in range(2))
    if chance.below(4) == 0:
        data[here : here + 4], data[there : there + 4] = data[there : there + 4], data[here : here + 4]
    else:
        number = int.from_bytes(data[here : here + 4], "big")
        data[here : here + 4] = cells(chance.choice((*CELLS, (number + 1) % 2**32, (number - 1) % 2**32, number ^ 4)))
    return bytes(data)


def changed_bytes(chance, data):
    """One to three bytes changed, in the header at times."""
    data = bytearray(data)
    for _ in range(chance.between(1, 3)):
        at = chance.below(len(data)) if chance.below(8) == 0 else chance.between(40, len(data) - 1)
        data[at] = chance.choice((0, 1, 2, 3, 4, 9, 64, 255, chance.below(256), data[at] ^ 1 << chance.below(8)))
    return bytes(data)


def cut_short(chance, data):
    """Fewer bytes lent; or a total size, or a block's size, that is smaller or larger."""
    header = model.read_header(data)
    length = chance.below(len(data))
    change = chance.below(5)
    if change == 0:
        return data[:length]
    if change == 1:
        return with_field(data, "total", chance.choice((length, header.total - 1, len(data), len(data) + 1, 39, 40)))
    if change == 2:
        size = chance.choice((4 * chance.below(header.structure_size // 4), header.structure_size + 4))
        return with_field(data, "structure_size", size)
    if change == 3:
        return with_field(data, "strings_size", chance.below(header.strings_size + 9))
    return with_field(data[:length], "total", length) if length >= 8 else data[:length]


# Values of header fields, beside those near what they were.
FIELD_VALUES = (0, 1, 16, 17, 18, 36, 39, 40, 41, 44, 65535, 65536, 65537, 2**31, 2**32 - 40, ALL_ONES - 3, ALL_ONES)


def changed_header(chance, data):
    """One field of the header changed, or two."""
    for _ in range(chance.choice((1, 1, 2))):
        field = chance.choice(FIELDS)
        at = 4 * FIELDS.index(field)
        before = int.from_bytes(data[at : at + 4], "big")
        near = [(before + step) % 2**32 for step in (-4, -1, 1, 2, 4, len(data))]
        data = with_field(data, field, chance.choice((*FIELD_VALUES, *near)))
    return data


DAMAGES = (*[changed_tokens, changed_cells, changed_bytes] * 2, cut_short, changed_header)


class Damaged:
    """Damage to trees of a pool, which holds trees that dtc built and some by chance."""

    def __init__(self, chance):
        good = [small_tree(chance) for _ in range(40)]
        built = [data for data in read_built(TREES).values() if len(data) < 2000]
        self.pool = [data for data in good + built if model.header_fault(data)[0] == 0 and len(data) < 4000]

    def __call__(self, chance):
        return chance.choice(DAMAGES)(chance, chance.choice(self.pool))


def of_bytes(chance):
    """Bytes alone, behind a magic, or as blocks behind a good header."""
    _, data, _ = chance.choice(list(chance_bytes(chance, 3)))
    return data


def large(chance):
    """A tree of up to 65,536 bytes, at, below or above the limit, or with less lent than that."""
    total = chance.choice((65535, 65536, 65537, 70000, chance.between(20000, 65536)))
    strings = bytearray()
    structure, _ = joined([*tokens(root(container()), shared_strings(strings)), END])
    strings_at = chance.choice((START + len(structure), total - len(strings)))
    data = laid_out(structure, bytes(strings), START, strings_at, total)
    return data[: len(data) - chance.choice((0, 0, 0, 1))] + chance.bytes(chance.choice((0, 1)))


def several(chance):
    """The ways to make a tree, each as often as it is to be taken; each is called with chance alone."""
    damaged = Damaged(chance)
    ways = {
        of_few_features: 24,
        of_many_features: 20,
        of_one_fault: 9,
        of_levels: 5,
        of_wrong_container: 10,
        of_bad_names: 4,
        of_many_properties: 2,
        of_tokens: 6,
        of_bytes: 4,
        damaged: 21,
    }
    return [way for way, times in ways.items() for _ in range(times)]


def trees(chance, many):
    ways = several(chance)
    for place in range(many):
        yield large(chance) if place % 50 == 7 else chance.choice(ways)(chance)
