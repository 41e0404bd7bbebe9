"""Vectors of kind `r` (vectors/records.py) by chance: trees of some features, many of them with a fault, and accepted
trees of which one byte is changed.
"""

from model import tree as model
from vectors.blocks import held
from vectors.chance import Chance
from vectors.nodes import DTC_START, container, deep, feature, flat, node, root, with_property
from vectors.record_faults import FAULTS, SUPPORTS
from vectors.records import ALL_ONES, answer

SEED = 20240404

NAMES = ("a", "b", "c", "fp", "vsx", "mmu", "a@0", "a@1", "smt-2")


def chance_cell(chance):
    return chance.choice((0, 1, 2, 3, 7, 3000, chance.below(2**32), ALL_ONES))


def chance_given(chance, phandle, carried):
    """The properties of a good feature that carries this phandle, in some order; it names some that are carried."""
    given = {"isa": chance_cell(chance), "usable_privilege": chance.choice((0, 2, 4, 6, 1, 7, chance_cell(chance)))}
    for name in ("hv_support", "os_support"):
        if chance.below(2):
            given[name] = chance_cell(chance)
    for name, support in SUPPORTS.items():
        if given.get(support, 0) % 2 or chance.below(4) == 0:
            given[name] = chance.below(64)
    if chance.below(2):
        given["hwcap_bit_nr"] = chance.below(64)
    if phandle is not None:
        given["phandle"] = phandle
    if chance.below(2):
        many = chance.choice((1, 1, 2, 2, 3, 16)) if carried and chance.below(6) else 0
        given["dependencies"] = [chance.choice(carried) for _ in range(many)]
    return {name: given[name] for name in chance.shuffled(given)}


def spoil(chance, given, carried):
    """One property as it must not be: a fault of its own, one left out, or a phandle of another feature or of none."""
    choice = chance.below(8)
    if choice == 0:
        given[chance.choice(list(given))] = None
    elif choice == 1 and carried:
        given["phandle"] = chance.choice(carried)
    elif choice < 4:
        given["dependencies"] = [*carried[:3], chance.choice((0, 7, ALL_ONES, chance.below(2**32)))]
    else:
        name = chance.choice(list(FAULTS))
        numbers = FAULTS[name]
        given[name] = chance.choice(numbers[chance.choice(list(numbers))])


def chance_features(chance, faults):
    """Some features with this many faults in them."""
    names = chance.shuffled(NAMES)[: chance.choice((1, 1, 2, 2, 2, 3, 3, 4))]
    pool = [chance.choice((8, 16, 0x8000, 2**31)) + at for at in range(len(names))]
    phandles = [phandle if chance.below(4) else None for phandle in pool]
    carried = [phandle for phandle in phandles if phandle is not None]
    every = [chance_given(chance, phandle, carried) for phandle in phandles]
    for _ in range(faults):
        spoil(chance, chance.choice(every), carried)
    if faults and chance.below(8) == 0:
        names = [chance.choice(names[:2]) for _ in names]
    features = []
    for name, given in zip(names, every):
        inner = [node(chance.choice(NAMES), phandle=chance.below(4))] if chance.below(6) == 0 else []
        one = node(name, *inner, **given)
        features.append(with_property(one, b"custom", chance.bytes(chance.below(7))) if chance.below(6) == 0 else one)
    return features


def chance_root(chance):
    """A container at some level, with nodes beside it; in half of the trees something is wrong."""
    faults = chance.choice((0, 0, 0, 1, 1, 2))
    changes = {}
    if faults and chance.below(12) == 0:
        changes = {chance.choice(("device_type", "compatible", "isa")): chance.choice((None, b"", b"\0\0\0\1\0"))}
    whole = container(*chance_features(chance, faults), **{**changes, "phandle": chance.choice((None, 8, 0))})
    nodes = [deep(chance.choice((2, 2, 2, 3, 5)), whole)]
    if chance.below(3) == 0:
        nodes.insert(chance.below(2), feature(chance.choice(NAMES), phandle=chance.choice((7, 8, 16))))
    if faults and chance.below(24) == 0:
        nodes.append(container())
    return root(*nodes)


def described():
    """The cases that are described by their nodes: whatever the model says."""
    chance = Chance(SEED)
    for _ in range(300):
        yield chance_root(chance), None


def value_places(data):
    """The places of all bytes of values in a tree."""
    structure = data[DTC_START : int.from_bytes(data[12:16], "big")]
    found = [token for token in model.tokens(structure) if token.kind == model.PROPERTY]
    return [DTC_START + place for token in found for place in range(token.at + 12, token.at + token.length)]


def damaged(chance, many):
    """A byte changed in an accepted tree, half of them in values."""
    accepted = []
    while len(accepted) < 12:
        data = flat(chance_root(chance))[0]
        number, _, _, count = answer(data)[:4]
        if number == 0 and count > 1 and len(data) < 520:
            accepted.append(data)
    for _ in range(many):
        data = bytearray(chance.choice(accepted))
        at = chance.choice(value_places(data)) if chance.below(2) else chance.between(DTC_START, len(data) - 1)
        change = chance.below(3)
        if change == 0:
            data[at] = chance.below(256)
        elif change == 1:
            data[at] ^= 1 << chance.below(8)
        else:
            data[at] = chance.choice((0, 1, 2, 3, 4, 5, 8, 9, 64, 255))
        yield "r", bytes(data), None


def cases():
    for top, expected in described():
        yield "r", flat(top)[0], expected
    yield from damaged(Chance(SEED + 1), 150)


def vectors():
    return held(cases(), answer)
