"""Graphs of features: for each position the list of those that it needs."""

import itertools

MOST = 64


def along(order):
    """Each of the order's positions needs the next one, and the last one nothing."""
    graph = [[] for _ in order]
    for here, there in zip(order, order[1:]):
        graph[here] = [there]
    return graph


def ring(order):
    """Each of the order's positions needs the next one, and the last one the first."""
    graph = along(order)
    graph[order[-1]] = [order[0]]
    return graph


def renamed(graph, order):
    """The same graph with `order[i]` for position i."""
    other = [[] for _ in graph]
    for position, needs in enumerate(graph):
        other[order[position]] = [order[needed] for needed in needs]
    return other


def layers(many, width):
    """Each position needs all of the layer that follows its own."""
    starts = [(at // width + 1) * width for at in range(many * width)]
    return [list(range(start, start + width)) if start < many * width else [] for start in starts]


def steps(count, most):
    """Each position needs the next ones, up to this many."""
    return [list(range(at + 1, min(at + most, count - 1) + 1)) for at in range(count)]


def steps_around(count, most):
    """The same, and the first follows the last."""
    return [[(at + step) % count for step in range(1, most + 1)] for at in range(count)]


def grid(width, height):
    """Each position needs the one to its right and the one below it."""
    graph = []
    for row, column in itertools.product(range(height), range(width)):
        right = [row * width + column + 1] if column + 1 < width else []
        below = [(row + 1) * width + column] if row + 1 < height else []
        graph.append(right + below)
    return graph


def halves(count):
    """Each position needs two that no other one needs: a tree."""
    return [[needed for needed in (2 * at + 1, 2 * at + 2) if needed < count] for at in range(count)]


def beside(first, second):
    """Two graphs in one, with nothing between them."""
    return first + [[needed + len(first) for needed in needs] for needs in second]


def with_need(graph, here, there):
    """The graph with one dependency more."""
    return [[*needs, there] if position == here else needs for position, needs in enumerate(graph)]


def shuffled_lists(chance, graph):
    return [chance.shuffled(needs) for needs in graph]


def by_chance(chance, count, most):
    """Each position needs up to this many others, or itself, some of them twice."""
    return [[chance.below(count) for _ in range(chance.below(most + 1))] for _ in range(count)]


def earlier_by_chance(chance, count, most):
    """The same without rings: each position needs earlier ones."""
    return [[chance.below(at) for _ in range(chance.below(most + 1))] if at else [] for at in range(count)]


def few_by_chance(chance, count, many):
    """This many dependencies in the whole graph."""
    graph = [[] for _ in range(count)]
    for _ in range(many):
        needs = graph[chance.below(count)]
        if len(needs) < 16:
            needs.append(chance.below(count))
    return graph


def stars():
    """One feature that all others need, or that needs many."""
    for hub in (0, 31, 63):
        yield [[hub] if at != hub else [] for at in range(MOST)]
        yield [[hub, at] for at in range(MOST)]
        yield [[(hub + step) % MOST for step in range(1, 17)] if at == hub else [] for at in range(MOST)]


def many_ways():
    """Several ways from one feature to another, of one length or of different lengths."""
    yield layers(4, 16)
    yield layers(8, 8)
    yield layers(32, 2)
    yield steps(MOST, 2)
    yield steps(MOST, 16)
    yield steps_around(MOST, 2)
    yield steps_around(MOST, 16)
    yield steps_around(17, 16)
    yield grid(8, 8)
    yield grid(2, 32)
    yield halves(63)


def joined_rings():
    """Rings with something behind them, before them, between them."""
    two = beside(ring(range(20)), ring(range(30)))
    yield two
    yield with_need(two, 7, 33)
    yield with_need(with_need(two, 7, 33), 40, 2)
    yield with_need(beside(ring(range(9)), along(range(9))), 4, 9)
    yield with_need(beside(along(range(9)), ring(range(9))), 8, 12)


def families(chance):
    """Graphs of all shapes, up to 64 features."""
    yield []
    for count in (1, 2, 63, MOST):
        yield [[]] * count
        yield [[at] for at in range(count)]
    yield [[0] * 16, [2] * 16, [2] * 15 + [1]]
    yield from stars()
    for graph in many_ways():
        yield graph
        yield shuffled_lists(chance, renamed(graph, chance.shuffled(range(len(graph)))))
    yield from joined_rings()
    yield [[chance.below(MOST) for _ in range(16)] for _ in range(MOST)]
