"""Records by chance for the differential test, and what is asked of them: levels, grants, rows, positions, buffers."""

import itertools

from model import resolver
from model.record import MOST_DEPENDENCIES, Feature, Record
from vectors import graphs
from vectors.features import EVERYTHING, NOTHING, REGISTERS, feature, record, room
from vectors.resolver_chance import ALL_ONES, chance_cell, chance_feature, chance_graph, chance_mask, spoil
from vectors.resolver_graphs import lent, some_tables

DEPENDENCIES = 2 ** resolver.GIVEN_BITS["dependencies"]


# Records


def shaped_graph(chance):
    """A line, a ring, layers, steps, a grid, a tree, a star, two parts; the positions in some order."""
    count = chance.between(1, 64)
    width = chance.choice((2, 3, 4, 8))
    half = count // 2 + 1
    hub = chance.below(count)
    shape = chance.choice(
        (
            lambda: graphs.along(range(count)),
            lambda: graphs.ring(range(count)),
            lambda: graphs.layers(64 // width, width),
            lambda: graphs.steps(count, width),
            lambda: graphs.steps_around(count, min(width, count)),
            lambda: graphs.grid(width, 64 // width),
            lambda: graphs.halves(count),
            lambda: [[hub] if at != hub else [] for at in range(count)],
            lambda: graphs.beside(graphs.ring(range(half)), graphs.along(range(64 - half))),
        )
    )
    graph = shape()
    if chance.below(2):
        graph = graphs.renamed(graph, chance.shuffled(range(len(graph))))
    return graphs.shuffled_lists(chance, graph) if chance.below(3) == 0 else graph


def mixed_graph(chance):
    count = chance.choice((chance.below(7), chance.between(7, 20), chance.between(21, 64), 64))
    return chance_graph(chance, count)


def with_needs(chance, one, needs):
    """(feature, slots): the feature with these dependencies; at times there is more in its slots."""
    if needs:
        one = one._replace(given=one.given | DEPENDENCIES, dependencies=len(needs))
    unused = [chance.below(2**16) if chance.below(8) == 0 else 0] * (MOST_DEPENDENCIES - len(needs))
    return one, needs + unused


def permitted_feature(chance):
    """A feature that is permitted at all levels; half of them have no capability bit, whatever stands in its cell."""
    if chance.below(2):
        return feature(usable_privilege=7, hwcap_bit_nr=chance.below(64))[0]
    number = chance.choice((0, 63, 64, chance.below(64), chance_cell(chance)))
    return feature(usable_privilege=7, not_given={"hwcap_bit_nr": number})[0]


class Records:
    """Makes records of the features of a pool."""

    def __init__(self, chance):
        self.mixed = [chance_feature(chance, [])[0] for _ in range(200)]
        self.permitted = [permitted_feature(chance) for _ in range(50)]
        self.never = [feature(usable_privilege=0)[0]]

    def pools(self, chance, count):
        """Which pool each feature is of: all mixed, or nearly all permitted, so that sets are large and chains long."""
        if chance.below(2):
            return [self.mixed] * count
        rarely = chance.choice((2, 8, 64))
        return [self.never if chance.below(rarely) == 0 else self.permitted for _ in range(count)]

    def good(self, chance):
        graph = chance.choice((shaped_graph, mixed_graph))(chance)
        pools = self.pools(chance, len(graph))
        features = [with_needs(chance, chance.choice(pool), needs) for pool, needs in zip(pools, graph)]
        return record(*features, isa=chance.below(2**32))

    def any(self, chance):
        choice = chance.below(20)
        if choice == 0:
            return any_record(chance)
        whole = self.good(chance)
        return spoil(chance, whole) if choice < 5 and whole.count else whole


def any_record(chance):
    """A record with any numbers in all its fields; it is rarely well formed unless its count is small."""
    features = [Feature(*[chance_cell(chance) for _ in Feature._fields]) for _ in range(8)] * 8
    slots = [chance.choice((0, 1, 2, chance.below(64), chance.below(2**16))) for _ in range(256)] * 4
    return Record(chance.below(2**32), chance.choice((0, 1, 2, 3, 64, 65, ALL_ONES)), features, slots)


# Queries


def chance_level(chance):
    return chance.choice((0, 0, 0, 0, 1, 1, 1, 2, 2, chance.choice((3, 4, 256, ALL_ONES, chance.below(2**32)))))


def chance_grants(chance):
    several = resolver.Grants(*[chance_mask(chance) for _ in range(4)])
    return chance.choice((NOTHING, EVERYTHING, REGISTERS, several, several, several))


def chance_rows(chance, whole):
    """Its own rows, with or without a wrong bit; each feature alone; zero; few bits; any bits; bits past the count."""
    if chance.below(6) == 0:
        return [chance_mask(chance) for _ in range(64)]
    tables = some_tables(chance, resolver.reach(whole)[1], whole.count)
    return next(itertools.islice(tables, chance.choice((0, 0, 1, 2, 3, 4, 5)), None))


def chance_chain(chance, asked):
    """A position, and a buffer that is long enough for its chain or not."""
    whole = asked[0]
    position = chance.below(max(1, min(whole.count, 64)))
    if chance.below(8) == 0:
        position = chance.choice((whole.count, 63, 64, 2**31, ALL_ONES, chance.below(64)))
    number, length, _ = resolver.chain(*asked, position, bytes(64))
    return position, lent(chance, [0] * length) if number == 0 else room(chance.choice((0, 1, 64, chance.below(80))))
