"""Vectors of kinds `b`, `c`, `e` and `n` (vectors/queries.py): graphs of all shapes, what is permitted by position.

What is expected of small graphs is worked out from document 01's definitions: the largest closed set among all sets,
the first chain among all lists. Of lines and rings it is known; of other graphs it is what the model says.
"""

import itertools

from model import resolver
from vectors.chance import Chance
from vectors.features import (
    all_but,
    chain_case,
    graph_case,
    graph_record,
    own,
    reach_case,
    room,
    table_case,
)
from vectors.graphs import along, by_chance, earlier_by_chance, families, few_by_chance, ring
from vectors.queries import chain_bytes, enabled_bytes, held_queries, record_bytes, table_bytes

SEED = 20240505


# Small graphs


def subsets(positions):
    """All sets of some positions."""
    some = list(positions)
    return [set(chosen) for many in range(len(some) + 1) for chosen in itertools.combinations(some, many)]


def is_closed(graph, chosen):
    """ "with each member's dependencies among its members" """
    return all(set(graph[member]) <= chosen for member in chosen)


def largest_closed(graph, permitted):
    """ "every other such set lies inside it" """
    closed = [chosen for chosen in subsets(permitted) if is_closed(graph, chosen)]
    (largest,) = [chosen for chosen in closed if all(other <= chosen for other in closed)]
    return largest


def smallest_closed(graph, position):
    """A feature and all that it needs: the closed set with it that lies inside every other."""
    closed = [chosen for chosen in subsets(range(len(graph))) if position in chosen and is_closed(graph, chosen)]
    (smallest,) = [chosen for chosen in closed if all(chosen <= other for other in closed)]
    return smallest


def is_chain(graph, permitted, positions):
    """ "each next is a dependency of the one before, the last is unpermitted" """
    linked = all(there in graph[here] for here, there in zip(positions, positions[1:]))
    return linked and positions[-1] not in permitted


def first_chain(graph, permitted, position):
    """The first chain in the order of length, and of equally short lists from the front; 17 where there is none."""
    for more in range(len(graph)):
        for rest in itertools.product(range(len(graph)), repeat=more):
            if is_chain(graph, permitted, [position, *rest]):
                return [position, *rest]
    return 17


def small_cases(graph, every_permitted):
    """All that the definitions say of a graph, where each of these sets is permitted."""
    whole = graph_record(graph)
    rows = [smallest_closed(graph, position) for position in range(len(graph))]
    words = [resolver.word_of(row) for row in rows]
    enabled = [(permitted, largest_closed(graph, permitted)) for permitted in every_permitted]
    yield reach_case(whole, rows)
    yield graph_case(graph, *enabled)
    yield table_case(whole, *[(*own(permitted), words, closed) for permitted, closed in enabled])
    groups = []
    for permitted in every_permitted:
        chains = [(at, room(len(graph)), first_chain(graph, permitted, at)) for at in range(len(graph))]
        groups.append((*own(permitted), chains))
    yield chain_case(whole, *groups)


def small_graphs():
    """Every graph of one and of two features, some of three and four; every set of them permitted."""
    for count in (1, 2):
        for graph in itertools.product(subsets(range(count)), repeat=count):
            yield from small_cases([sorted(needs) for needs in graph], subsets(range(count)))
    chance = Chance(SEED)
    for count, many in ((3, 16), (4, 12)):
        for _ in range(many):
            graph = by_chance(chance, count, 3)
            yield from small_cases(graph, chance.shuffled(subsets(range(count)))[:6])


# Lines and rings


def line_chains(order, place, asked):
    """The chains in a line where one place is not permitted: all up to there are left out, those behind it are not."""
    return [(order[at], room(len(order) + 1), order[at : place + 1] if at <= place else 17) for at in asked]


def line_cases(order, places, asked):
    """A line where one of these places is not permitted."""
    graph, every = along(order), range(len(order))
    permitted = [all_but(len(order), order[place]) for place in places]
    enabled = [(some, order[place + 1 :]) for some, place in zip(permitted, places)]
    yield graph_case(graph, (every, every), *enabled, ([], []))
    yield reach_case(graph_record(graph), [order[order.index(at) :] for at in every])
    groups = [(*own(some), line_chains(order, place, asked)) for some, place in zip(permitted, places)]
    yield chain_case(graph_record(graph), *groups)


def ring_chains(order, place, asked):
    """The chains in a ring where one place is not permitted: all are left out."""
    lengths = [(place - at) % len(order) + 1 for at in asked]
    return [(order[at], room(length), (order * 2)[at : at + length]) for at, length in zip(asked, lengths)]


def ring_cases(order, places, asked):
    """A ring where one of these places is not permitted."""
    graph, every = ring(order), range(len(order))
    permitted = [all_but(len(order), order[place]) for place in places]
    yield graph_case(graph, (every, every), *[(some, []) for some in permitted], ([], []))
    yield reach_case(graph_record(graph), [every] * len(order))
    groups = [(*own(some), ring_chains(order, place, asked)) for some, place in zip(permitted, places)]
    yield chain_case(graph_record(graph), *groups)


def lines_and_rings():
    """In both directions and in no order."""
    chance = Chance(SEED + 1)
    for count in (2, 3, 5, 33, 64):
        upward = list(range(count))
        few = upward if count < 6 else [0, 1, count // 2, count - 2, count - 1]
        for order in (upward, upward[::-1], chance.shuffled(upward)):
            yield from line_cases(order, [0, count // 2, count - 1], few)
            yield from ring_cases(order, [0, count // 2, count - 1], few)
    # Asked at every place of the longest.
    order = chance.shuffled(range(64))
    yield from line_cases(order, [63], range(64))
    yield from ring_cases(order, [40], range(64))


# Graphs of all shapes, and by chance


def some_permitted(chance, count):
    """All, none, all but one or a few, about half."""
    yield set(range(count))
    yield set()
    if count:
        for left_out in sorted({0, count // 2, count - 1}):
            yield all_but(count, left_out)
        for few in (2, 4):
            yield all_but(count, *[chance.below(count) for _ in range(few)])
        yield {at for at in range(count) if chance.below(2)}


def some_tables(chance, rows, count):
    """The right one; each feature alone; zero; rows of few bits; one bit wrong; bits past the count."""
    yield rows
    yield [2**at if at < count else 0 for at in range(64)]
    yield [0] * 64
    yield [resolver.word_of(chance.below(64) for _ in range(chance.below(4))) for _ in range(64)]
    wrong = list(rows)
    wrong[chance.below(64)] ^= 2 ** chance.below(64)
    yield wrong
    yield [row | 2 ** chance.between(min(count, 63), 63) if chance.below(3) == 0 else row for row in rows]


def lent(chance, found):
    """A buffer that is exactly long enough, longer, one byte short, or empty."""
    length = 0 if found is None else len(found)
    return room(chance.choice((length, length, length, length + 1, length + 3, max(length - 1, 0), 0)))


def asked_chains(chance, whole, permitted, most):
    """The positions that are left out, or some of them, one that is not, and one that is no position."""
    enabled = resolver.enabled_positions(whole, permitted)
    left_out = [at for at in range(whole.count) if at not in enabled]
    asked = sorted(chance.shuffled(left_out)[:most]) + sorted(enabled)[:1] + [whole.count]
    found = [resolver.shortest_chain(whole, permitted, at) if at < whole.count else None for at in asked]
    return [(at, lent(chance, chain)) for at, chain in zip(asked, found)]


def graph_vectors(chance, graph, most_chains):
    """All four kinds of one graph."""
    whole, count = graph_record(graph), len(graph)
    every = list(some_permitted(chance, count))
    yield "n", record_bytes(whole), 0
    yield "e", enabled_bytes(whole, [own(permitted) for permitted in every]), 0
    right, *others = some_tables(chance, resolver.reach(whole)[1], count)
    tables = [right, chance.choice(others)]
    yield "b", table_bytes(whole, [(*own(chance.choice(every)), table) for table in tables]), 0
    groups = [(*own(some), asked_chains(chance, whole, some, most_chains)) for some in every[3:5] + every[6:]]
    yield "c", chain_bytes(whole, groups), 0


def all_shapes():
    chance = Chance(SEED + 2)
    for graph in families(chance):
        yield from graph_vectors(chance, graph, 20)


def chance_graphs():
    """Few dependencies, one a feature, several, many; with rings and without."""
    chance = Chance(SEED + 3)
    for at in range(60):
        count = chance.choice((chance.between(1, 8), chance.between(9, 24), chance.between(25, 64)))
        if at % 4 == 0:
            graph = few_by_chance(chance, count, chance.choice((count // 4, count // 2, count, 2 * count)))
        elif at % 4 == 1:
            graph = earlier_by_chance(chance, count, chance.choice((1, 2, 3, 16)))
        else:
            graph = by_chance(chance, count, chance.choice((1, 1, 2, 3, 5, 16)))
        yield from graph_vectors(chance, graph, 8)


def vectors():
    yield from held_queries(itertools.chain(small_graphs(), lines_and_rings(), all_shapes(), chance_graphs()))
