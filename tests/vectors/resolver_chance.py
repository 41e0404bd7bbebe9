"""Vectors of kinds `b`, `c`, `e` and `n` (vectors/queries.py) by chance: records of any features, at all levels, under
grants of all sorts. Some of the records are not well formed. The answers are the model's.
"""

from model import resolver
from model.resolver import Grants
from vectors.chance import Chance
from vectors.features import ALL_BITS, ALL_ONES, EVERYTHING, NOTHING, feature, record, room
from vectors.graphs import by_chance, earlier_by_chance, few_by_chance
from vectors.queries import chain_bytes, enabled_bytes, held_queries, record_bytes, table_bytes
from vectors.record_faults import BIT_NUMBERS, SUPPORTS
from vectors.resolver_faults import TOO_HIGH
from vectors.resolver_graphs import asked_chains

SEED = 20240606


# Records


def chance_cell(chance):
    return chance.choice((0, 1, 2, 3, 6, 7, chance.below(2**32), ALL_ONES))


def chance_number(chance):
    return chance.choice((0, 31, 32, 63, chance.below(64), chance.below(64)))


def chance_cells(chance):
    """(given, not given): the cells of a feature, its register bits where they are required, and sometimes where not.

    Half of the features have a capability bit.
    """
    given = {"isa": chance.choice((0, 2070, 3000, chance_cell(chance)))}
    given["usable_privilege"] = chance.choice((7, 7, 7, 7, 7, 7, 7, 3, 5, 6, None, chance_cell(chance)))
    for support in ("hv_support", "os_support"):
        given[support] = chance.choice((None, None, 0, 1, 1, 1, 2, chance_cell(chance)))
    for number, support in SUPPORTS.items():
        required = resolver.is_odd(given[support])
        given[number] = chance_number(chance) if required or chance.below(4) == 0 else None
    given["hwcap_bit_nr"] = chance_number(chance) if chance.below(2) else None
    given["phandle"] = chance.choice((None, chance.below(2**32)))
    absent = [name for name, value in given.items() if value is None]
    return given, {name: chance.choice((64, chance_cell(chance))) for name in absent if chance.below(3) == 0}


def chance_feature(chance, needs):
    """A feature that needs these positions; sometimes there is more in its slots."""
    given, not_given = chance_cells(chance)
    more = [chance.below(2**16) for _ in range(min(2, 16 - len(needs)))] if chance.below(6) == 0 else []
    one, slots = feature(needs if needs or chance.below(2) else None, not_given, needs + more, **given)
    return one._replace(offset=chance.choice((0, chance.below(2**16)))), slots


def chance_graph(chance, count):
    many = chance.choice((1, 2, 3, 16))
    make = chance.choice((by_chance, earlier_by_chance, few_by_chance))
    return make(chance, count, count * many // 2 if make is few_by_chance else many)


def chance_record(chance, count):
    features = [chance_feature(chance, needs) for needs in chance_graph(chance, count)]
    return record(*features, isa=chance.choice((3000, chance.below(2**32))))


def spoil(chance, whole):
    """The record with one thing changed: often so that it is not well formed, else within bounds or where nobody looks."""
    at = chance.below(64 if chance.below(4) == 0 else whole.count)
    features, slots = list(whole.features), list(whole.slots)
    choice = chance.below(5)
    if choice == 0:
        return whole._replace(count=chance.choice((65, 64, ALL_ONES, max(whole.count - 1, 0))))
    if choice == 1:
        slots[16 * at + chance.below(3)] = chance.choice((whole.count, 64, chance.below(2**16)))
    elif choice == 2:
        features[at] = features[at]._replace(dependencies=chance.choice((17, 16, ALL_ONES)))
    elif choice == 3:
        features[at] = features[at]._replace(**{chance.choice(BIT_NUMBERS): chance.choice(TOO_HIGH)})
    else:
        features[at] = features[at]._replace(given=features[at].given ^ 1 << chance.between(2, 6))
    return whole._replace(features=features, slots=slots)


# Queries


def chance_mask(chance):
    """None, all, one, all but one, about half."""
    word = chance.below(2**32) << 32 | chance.below(2**32)
    one = 1 << chance.below(64)
    return chance.choice((0, ALL_BITS, ALL_BITS, one, ALL_BITS - one, word, word))


def chance_grants(chance):
    return chance.choice((NOTHING, EVERYTHING, *[Grants(*[chance_mask(chance) for _ in range(4)])] * 5))


def chance_level(chance):
    return chance.choice((0, 0, 0, 0, 0, 1, 1, 1, 2, chance.choice((3, 4, 255, 256, ALL_ONES))))


def chance_asked(chance, many):
    return [(chance_level(chance), chance_grants(chance)) for _ in range(many)]


def chance_rows(chance, whole):
    """The right rows, with or without a wrong bit, or rows of some bits."""
    rows = list(resolver.reach(whole)[1])
    choice = chance.below(4)
    if choice == 0:
        return [resolver.word_of(chance.below(64) for _ in range(chance.below(3))) for _ in range(64)]
    if choice == 1:
        rows[chance.below(64)] ^= 1 << chance.below(64)
    return rows


def chance_chains(chance, whole, level, grants):
    """Some positions; those that are left out, where there are any."""
    if resolver.asked_refusal(whole, level):
        return [(chance.choice((0, whole.count, chance.below(64))), room(chance.below(4)))]
    return asked_chains(chance, whole, resolver.permitted_positions(whole, level, grants), 10)


def record_vectors(chance, whole):
    """All four kinds of one record."""
    yield "e", enabled_bytes(whole, chance_asked(chance, 6)), None
    yield "n", record_bytes(whole), None
    yield "b", table_bytes(whole, [(*asked, chance_rows(chance, whole)) for asked in chance_asked(chance, 2)]), None
    groups = [(*asked, chance_chains(chance, whole, *asked)) for asked in chance_asked(chance, 2)]
    yield "c", chain_bytes(whole, groups), None


def cases():
    chance = Chance(SEED)
    for at in range(80):
        count = chance.choice((chance.between(1, 6), chance.between(7, 20), chance.between(21, 64)))
        whole = chance_record(chance, 64 if at % 20 == 0 else count)
        yield from record_vectors(chance, spoil(chance, whole) if at % 4 == 3 else whole)


def vectors():
    return held_queries(cases())
