"""Vectors of kinds `b`, `c`, `e` and `n` (vectors/queries.py) for the row of 14 in document 01's table: records that
are not well formed, each for one reason, and records that come close and are (R1).
"""

from model.resolver import SYSTEM, USER
from vectors.features import (
    ALL_ONES,
    EVERYTHING,
    NOTHING,
    REGISTERS,
    chain_case,
    enabled_case,
    feature,
    reach_case,
    record,
    room,
    table_case,
    with_zeros,
)
from vectors.queries import chain_bytes, enabled_bytes, held_queries, record_bytes, table_bytes
from vectors.record_faults import BIT_NUMBERS, SUPPORTS

TOO_HIGH = (64, 65, 255, 256, 2**16, 2**31, ALL_ONES)

# Nothing is wrong with it, and it names the first and the last of three features.
GOOD = feature([0, 2], usable_privilege=7, hwcap_bit_nr=63, hv_support=1, hfscr_bit_nr=63, os_support=1, fscr_bit_nr=63)

BARE = feature(isa=None, usable_privilege=None)


def among_good(one):
    """A feature as the first, the second and the last of three."""
    for at in range(3):
        yield record(*[one if place == at else GOOD for place in range(3)])


def last_of_most(one):
    """A feature as the last of 64, the others with nothing given."""
    return record(*[BARE] * 63, one)


# Not well formed


def counts():
    """Above 64, whatever the features are."""
    for count in (65, 66, 128, 255, 256, 2**16, 2**16 + 1, 2**31, ALL_ONES):
        yield record(*[GOOD] * 3, count=count)
    yield record(count=65)
    yield record(*[GOOD] * 64, count=65)


def high_numbers():
    """A given bit number above 63, required or not; a capability bit also without the user bit (document 02, A2)."""
    for name in BIT_NUMBERS:
        for number in TOO_HIGH:
            yield record(feature(**{name: number}))
        yield from among_good(feature(**{name: 64}))
        yield last_of_most(feature(**{name: 64}))
    for name, support in SUPPORTS.items():
        yield record(feature(**{"hwcap_bit_nr": 0, name: 64, support: 7}))
    for usable in (None, 0, 1, 7):
        yield record(feature(usable_privilege=usable, hwcap_bit_nr=64))


def missing_numbers():
    """One that is required and not given, whatever its cell."""
    for name, support in SUPPORTS.items():
        for value in (1, 3, 7, ALL_ONES):
            yield record(feature(**{"hwcap_bit_nr": 0, support: value}))
        yield record(feature(**{"hwcap_bit_nr": 0, support: 1}, not_given={name: 5}))
        # Others are given in its place.
        others = {other: 1 for other in BIT_NUMBERS if other != name}
        yield record(feature(**others, **{support: 1}))
        yield from among_good(feature(**others, **{support: 1}))
        yield last_of_most(feature(**others, **{support: 1}))
        # A user feature without a capability bit.
        yield record(feature(usable_privilege=7, **{support: 1}))


def many_dependencies():
    """More than sixteen."""
    for many in (17, 18, 32, 255, 256, 2**16, 2**16 + 1, 2**31, ALL_ONES):
        yield record(feature(dependencies=many), feature())
    yield from among_good(feature(dependencies=17))
    yield last_of_most(feature(dependencies=17))


def high_dependencies():
    """One that is not below the count."""
    for needed in (1, 2, 63, 64, 255, 256, 257, 2**15, 2**16 - 1):
        yield record(feature([needed]))
    yield from among_good(feature([3]))
    for place in (0, 1, 7, 15):
        needs = [1] * 16
        needs[place] = 3
        yield from among_good(feature(needs))
    for needed in (64, 65, 127, 128, 320):
        yield last_of_most(feature([63, needed]))


def malformed_cases(whole):
    """All calls are refused, and 14 comes before 15 and 16."""
    yield enabled_case(whole, *[(level, NOTHING, 14) for level in (USER, 3, ALL_ONES)], form=14)
    yield reach_case(whole, [], form=14)
    yield table_case(whole, (SYSTEM, NOTHING, [1, 2, 4], 14), (3, EVERYTHING, [], 14), form=14)
    chains = [(0, room(3), 14), (2, b"", 14), (ALL_ONES, room(1), 14)]
    yield chain_case(whole, (SYSTEM, NOTHING, chains), (3, EVERYTHING, chains), form=14)


def malformed():
    yield from counts()
    yield from high_numbers()
    yield from missing_numbers()
    yield from many_dependencies()
    yield from high_dependencies()


# Well formed


def not_given():
    """The cells of properties that are not given may be anything."""
    for name in BIT_NUMBERS:
        for number in (64, ALL_ONES):
            yield record(feature([0], not_given={name: number}), feature([0]))
        yield from among_good(feature(not_given={name: 64}))
    for support in (*SUPPORTS.values(), "usable_privilege"):
        # Bit 0 of a cell that is not given requires nothing.
        yield from among_good(feature(**{support: None}, not_given={support: 7}))
        yield from among_good(feature(**{support: 6}))
    for many in (1, 16, 17, ALL_ONES):
        yield record(feature(not_given={"dependencies": many}, slots=[64, 2**16 - 1]), feature([0]))
    yield from among_good(feature(not_given={"dependencies": 17}, slots=[3] * 16))


def no_capability_bit():
    """One that is not given is none, with and without the user bit, whatever its cell (document 02, A2)."""
    for usable in (1, 6, 7, ALL_ONES):
        for number in (0, 5, 63, 64, ALL_ONES):
            none = feature([1], usable_privilege=usable, not_given={"hwcap_bit_nr": number})
            yield record(none, feature([0], usable_privilege=7, hwcap_bit_nr=40))
    yield from among_good(feature([1], usable_privilege=7))
    yield last_of_most(feature(usable_privilege=7))


def unused_slots():
    """Slots past a feature's own dependencies may be anything."""
    for needs in ([], [0], [2, 1], [1] * 15):
        yield from among_good(feature(needs, slots=needs + [3] * (16 - len(needs))))
    yield last_of_most(feature([63], slots=[63] + [64] * 15))


def unused_features():
    """From the count on nothing is looked at."""
    bad = feature(usable_privilege=7, hv_support=1, os_support=1, hwcap_bit_nr=64, dependencies=17, slots=[64] * 16)
    for count in (0, 1, 3, 63):
        yield record(*[feature([0])] * count, *[bad] * (64 - count), count=count)
    yield record(feature([1]), feature([0]), feature([2]), count=2)


def limits():
    """Sixty-four features, sixteen dependencies, the last position, bit number 63."""
    yield record(*[GOOD] * 64)
    yield record(*[feature([63] * 16, hwcap_bit_nr=63, hfscr_bit_nr=63, fscr_bit_nr=63)] * 64)
    for count in (1, 2, 33, 64):
        yield record(*[feature([count - 1, 0])] * count)


def not_asked_for():
    """No isa, no privilege; phandles that are zero, all ones or the same; the same offset, or none."""
    yield record(feature(isa=None), feature(usable_privilege=None), feature(isa=None, usable_privilege=None))
    yield record(*[feature(phandle=value) for value in (0, ALL_ONES, 7, 7)])
    yield record(*[(one._replace(offset=offset), slots) for offset in (0, 5, 5, ALL_ONES) for one, slots in [GOOD]])
    yield record(feature(high_given=2**32 - 2**9), feature([1], high_given=2**9))


def near_misses():
    yield from not_given()
    yield from no_capability_bit()
    yield from unused_slots()
    yield from unused_features()
    yield from limits()
    yield from not_asked_for()


def near_miss_vectors(whole):
    """No call is refused; the answers are the model's."""
    yield "e", enabled_bytes(whole, [(USER, REGISTERS), (SYSTEM, NOTHING), (3, NOTHING)]), 0
    yield "n", record_bytes(whole), 0
    yield "b", table_bytes(whole, [(SYSTEM, NOTHING, with_zeros([1, 2, 4]))]), 0
    yield "c", chain_bytes(whole, [(USER, NOTHING, [(at, room(4)) for at in (0, 1, 2)])]), 0


def cases():
    for whole in malformed():
        yield from malformed_cases(whole)
    for whole in near_misses():
        yield from near_miss_vectors(whole)


def vectors():
    return held_queries(cases())
