"""Records and grants for the resolver, and what is expected of them, written down by hand."""

from model.record import MOST_DEPENDENCIES, MOST_FEATURES, NO_FEATURE, Record
from model.resolver import GIVEN_BITS, SYSTEM, Grants, word_of
from vectors.queries import chain_bytes, enabled_bytes, record_bytes, table_bytes

ALL_ONES = 2**32 - 1
ALL_BITS = 2**64 - 1

NOTHING = Grants(0, 0, 0, 0)
EVERYTHING = Grants(ALL_BITS, ALL_BITS, ALL_BITS, ALL_BITS)

# All HFSCR and FSCR bits, no own code.
REGISTERS = Grants(0, 0, ALL_BITS, ALL_BITS)


# Records


def feature(needs=None, not_given=None, slots=None, high_given=0, **cells):
    """(feature, slots) of one that gives these cells; None is one that it does not give.

    `needs` are the positions that it depends on, if it gives any. `not_given` are cells that stand in the record though
    the property is not given. `slots` and `high_given` are for records that no reader makes.
    """
    cells = {"isa": 3000, "usable_privilege": 6, **cells}
    if needs is not None:
        cells["dependencies"] = len(needs)
    cells = {name: value for name, value in cells.items() if value is not None}
    given = high_given + word_of(GIVEN_BITS[name] for name in cells)
    one = NO_FEATURE._replace(**{"given": given, **(not_given or {}), **cells})
    slots = list(slots or needs or [])
    return one, slots + [0] * (MOST_DEPENDENCIES - len(slots))


def record(*features, isa=3000, count=None):
    """A record of these features; `count` where it is to be wrong."""
    unused = MOST_FEATURES - len(features)
    return Record(
        isa,
        len(features) if count is None else count,
        [one for one, _ in features] + [NO_FEATURE] * unused,
        [slot for _, slots in features for slot in slots] + [0] * (MOST_DEPENDENCIES * unused),
    )


def graph_record(graph):
    """A record of features that need what the graph says. At system level those are permitted that `own` grants."""
    return record(*[feature(needs, isa=3, hv_support=0) for needs in graph])


def own(positions):
    """The level and the grants at which these positions of a graph's record are permitted."""
    return SYSTEM, Grants(word_of(positions), 0, 0, 0)


def all_but(count, *positions):
    return set(range(count)) - set(positions)


# What is expected: of each query a refusal number, or what is told


def line(kind, parts, form=0):
    return " ".join(map(str, [kind, form, *[number for part in parts for number in part]]))


def told(permitted, enabled, words=(0, 0, 0, 0)):
    """The numbers of a query of kind `e`."""
    return [0, word_of(permitted), 0, word_of(enabled), len(set(enabled)), 0, *words]


def enabled_numbers(expected):
    return [expected, 0, expected, 0, 0, expected, 0, 0, 0, 0] if isinstance(expected, int) else expected


def table_numbers(expected):
    """The expected ones are the positions enabled."""
    return [expected, 0, 0] if isinstance(expected, int) else [0, word_of(expected), len(set(expected))]


def chain_numbers(buffer, expected):
    """The expected ones are the positions of the chain."""
    if isinstance(expected, int):
        return [expected, 0, *buffer]
    return [0, len(expected), *expected, *buffer[len(expected) :]]


def enabled_case(whole, *queries, form=0):
    """Kind `e`; a query is (level, grants, expected)."""
    data = enabled_bytes(whole, [query[:2] for query in queries])
    return "e", data, line("e", [enabled_numbers(expected) for _, _, expected in queries], form)


def with_zeros(rows):
    return rows + [0] * (MOST_FEATURES - len(rows))


def reach_case(whole, rows, form=0):
    """Kind `n`; `rows` are the positions in each row below the count."""
    return "n", record_bytes(whole), line("n", [with_zeros([word_of(row) for row in rows])], form)


def table_case(whole, *queries, form=0):
    """Kind `b`; a query is (level, grants, rows, expected). Rows that are left out are zero."""
    data = table_bytes(whole, [(level, grants, with_zeros(rows)) for level, grants, rows, _ in queries])
    return "b", data, line("b", [table_numbers(expected) for _, _, _, expected in queries], form)


def chain_case(whole, *groups, form=0):
    """Kind `c`; a group is (level, grants, queries), a query (position, buffer, expected)."""
    asked = [(level, grants, [query[:2] for query in queries]) for level, grants, queries in groups]
    expected = [chain_numbers(buffer, chain) for _, _, queries in groups for _, buffer, chain in queries]
    return "c", chain_bytes(whole, asked), line("c", expected, form)


def graph_case(graph, *queries):
    """Kind `e`, of a graph's record; a query is (permitted, enabled)."""
    asked = [(*own(permitted), told(permitted, enabled)) for permitted, enabled in queries]
    return enabled_case(graph_record(graph), *asked)


def room(length):
    """A buffer whose bytes are no positions and all differ."""
    return bytes(255 - place for place in range(length))
