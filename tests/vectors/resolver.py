"""Vectors for document 01's "Permitted and enabled" that are written down by hand: kinds `b`, `c`, `e` and `n`
(vectors/queries.py). Codes such as R3 name readings of document 01.
"""

from model.resolver import HYPERVISOR, SYSTEM, USER, Grants, word_of
from vectors.features import (
    ALL_BITS,
    ALL_ONES,
    EVERYTHING,
    NOTHING,
    REGISTERS,
    all_but,
    chain_case,
    enabled_case,
    feature,
    graph_case,
    graph_record,
    own,
    reach_case,
    record,
    room,
    table_case,
    told,
)
from vectors.queries import held_queries

LEVELS = (USER, SYSTEM, HYPERVISOR)
NO_LEVELS = (3, 4, 8, 255, 256, 65536, ALL_ONES)

BITS = (0, 1, 31, 32, 62, 63)


# Document 01, "Both sides"


def two_features():
    """A and B need each other."""
    ring = [[1], [0]]
    yield graph_case(ring, ({0, 1}, {0, 1}), ({0}, []), ({1}, []), ([], []))
    chains = [(0, room(2), [0, 1]), (1, room(2), [1])]
    yield chain_case(graph_record(ring), (*own({0}), chains), (*own({0, 1}), [(0, room(2), 17), (1, room(2), 17)]))
    yield reach_case(graph_record(ring), [{0, 1}, {0, 1}])


def no_features():
    """The empty set."""
    yield enabled_case(record(), *[(level, EVERYTHING, told([], [])) for level in LEVELS])
    yield enabled_case(record(isa=ALL_ONES), *[(level, NOTHING, told([], [])) for level in LEVELS], (3, NOTHING, 15))
    yield reach_case(record(), [])
    yield table_case(record(), (USER, EVERYTHING, [], []), (SYSTEM, EVERYTHING, [ALL_BITS] * 64, []))
    yield chain_case(record(), (USER, NOTHING, [(0, room(3), 16), (63, b"", 16), (64, room(1), 16)]))


def lister_example():
    """The lister's five features, also under other grants and at other levels."""
    whole = record(
        feature(usable_privilege=7, hwcap_bit_nr=2, phandle=1),
        feature([0], usable_privilege=7, os_support=1, fscr_bit_nr=9, hwcap_bit_nr=35, phandle=2),
        feature(usable_privilege=7, os_support=0, hwcap_bit_nr=5, phandle=3),
        feature([1, 2], usable_privilege=7, hwcap_bit_nr=6),
        feature(),
    )
    own_code = Grants(0, 2**2, 0, ALL_BITS)
    yield enabled_case(
        whole,
        (USER, REGISTERS, told({0, 1, 3}, {0, 1}, (0x4, 0x8, 0, 0x200))),
        (USER, NOTHING, told({0, 3}, {0}, (0x4, 0, 0, 0))),
        (USER, own_code, told({0, 1, 2, 3}, {0, 1, 2, 3}, (0x64, 0x8, 0, 0x200))),
        (SYSTEM, NOTHING, told(range(5), range(5))),
        (HYPERVISOR, NOTHING, told(range(5), range(5))),
    )
    chains = [(0, room(1), 17), (1, room(1), 17), (2, room(1), [2]), (3, room(4), [3, 2]), (4, room(2), [4])]
    yield chain_case(whole, (USER, REGISTERS, chains), (USER, NOTHING, [(1, room(1), [1]), (3, room(2), [3, 1])]))
    yield reach_case(whole, [{0}, {0, 1}, {2}, {0, 1, 2, 3}, {4}])


def older_host():
    """The features of tests/trees/no-capability-bit.dts, some of them without a capability bit (document 02, A2).

    `given` says which of them: the answers are the same, whatever stands in their cells. No feature has bit 0.
    """
    for cells in ((0, 0, 0), (5, 63, 0), (64, ALL_ONES, 2**31)):
        integer, branch, endian = ({"usable_privilege": 7, "not_given": {"hwcap_bit_nr": cell}} for cell in cells)
        whole = record(
            feature(**integer, phandle=1),
            feature(usable_privilege=7, hv_support=1, hfscr_bit_nr=0, hwcap_bit_nr=27, phandle=2),
            feature([1, 0], usable_privilege=7, hwcap_bit_nr=10),
            feature([1], **branch, os_support=1, fscr_bit_nr=7, phandle=3),
            feature(**endian, os_support=0, phandle=4),
            feature([4], usable_privilege=7, hwcap_bit_nr=1),
            feature(hwcap_bit_nr=2),
            feature([3], usable_privilege=1, os_support=1, fscr_bit_nr=8, hwcap_bit_nr=58),
            isa=2070,
        )
        all_but_last, without_hfscr = range(7), {0, 4, 5, 6}
        yield enabled_case(
            whole,
            (USER, REGISTERS, told({0, 1, 2, 3, 5, 7}, {0, 1, 2, 3, 7}, (0x08000400, 0x04000000, 0x1, 0x180))),
            (USER, NOTHING, told({0, 2, 5}, {0})),
            (USER, EVERYTHING, told(all_but(8, 6), all_but(8, 6), (0x08000402, 0x04000000, 0x1, 0x180))),
            (SYSTEM, NOTHING, told(all_but(7, 1), without_hfscr)),
            (SYSTEM, REGISTERS, told(all_but_last, all_but_last, (0, 0, 0x1, 0))),
            (HYPERVISOR, NOTHING, told(all_but_last, all_but_last)),
            (3, REGISTERS, 15),
        )
        of_registers = [(0, b"", 17), (3, room(1), 17), (4, room(2), [4]), (5, room(2), [5, 4]), (6, room(1), [6])]
        of_nothing = [(0, room(1), 17), (2, room(3), [2, 1]), (3, room(2), [3]), (7, room(1), [7])]
        yield chain_case(whole, (USER, REGISTERS, of_registers), (USER, NOTHING, of_nothing))
        rows = [{0}, {1}, {0, 1, 2}, {1, 3}, {4}, {4, 5}, {6}, {1, 3, 7}]
        yield reach_case(whole, rows)
        table = [word_of(row) for row in rows]
        yield table_case(
            whole,
            (USER, REGISTERS, table, {0, 1, 2, 3, 7}),
            (USER, NOTHING, table, {0}),
            (SYSTEM, NOTHING, table, without_hfscr),
            (HYPERVISOR, NOTHING, table, all_but_last),
        )


# Permitted


def levels():
    """Each level asks for its own bit of `usable-privilege`; other bits are ignored (R4), an absent cell has none."""
    usable = [0, 1, 2, 3, 4, 5, 6, 7, 8, ALL_ONES - 7, ALL_ONES, 2**31 + 2]
    features = [feature(usable_privilege=value, hwcap_bit_nr=at) for at, value in enumerate(usable)]
    whole = record(*features, feature(usable_privilege=None, not_given={"usable_privilege": 7}))
    user, system, hypervisor = [1, 3, 5, 7, 10], [2, 3, 6, 7, 10, 11], [4, 5, 6, 7, 10]
    for grants in (NOTHING, REGISTERS, EVERYTHING):
        yield enabled_case(
            whole,
            (USER, grants, told(user, user, (word_of(user), 0, 0, 0))),
            (SYSTEM, grants, told(system, system)),
            (HYPERVISOR, grants, told(hypervisor, hypervisor)),
            *[(level, grants, 15) for level in NO_LEVELS],
        )


def support_cases(support, number, level, own_code, register):
    """Absent; bit 0 set and granted; own code. Bits above the lowest are ignored (R4), and so is what is not given."""
    here = {"usable_privilege": 7, "hwcap_bit_nr": 0}
    given = [0, 1, 2, 3, ALL_ONES, ALL_ONES - 1]
    features = [feature(**here, **{support: value, number: 10 + at}) for at, value in enumerate(given)]
    features += [feature(**here), feature(**here, not_given={support: 0, number: 64})]
    odd, absent, every = [1, 3, 4], [6, 7], range(8)
    others = EVERYTHING._replace(**{own_code: 0, register: 0})
    for granted, own_mask, permitted in (
        (0, 0, absent),
        (ALL_BITS, 0, odd + absent),
        (2**11, 0, [1] + absent),
        (ALL_BITS - 2**11, 0, [3, 4] + absent),
        (0, ALL_BITS, every),
        (0, 2**0 + 2**4, [0, 4] + absent),
        (2**13, 2**2, [2, 3] + absent),
    ):
        # The other level's grants do not help.
        grants = others._replace(**{own_code: own_mask, register: granted})
        bits = word_of(10 + at for at in odd if at in permitted) & granted
        words = (1, 0, 0, bits) if level == USER else (0, 0, bits, 0)
        here_told = (level, grants, told(permitted, permitted, words))
        yield enabled_case(record(*features), here_told, (HYPERVISOR, grants, told(every, every)))


def supports():
    yield from support_cases("hv_support", "hfscr_bit_nr", SYSTEM, "hypervisor", "hfscr")
    yield from support_cases("os_support", "fscr_bit_nr", USER, "system", "fscr")


def both_supports():
    """At user level both are asked for, at system level the hypervisor's alone, at hypervisor level neither (R6)."""
    here = {"usable_privilege": 7, "hwcap_bit_nr": 40}
    whole = record(
        feature(**here, hv_support=1, hfscr_bit_nr=3, os_support=1, fscr_bit_nr=7),
        feature(**here, hv_support=1, hfscr_bit_nr=3, os_support=0),
        feature(**here, hv_support=0, os_support=1, fscr_bit_nr=7),
        feature(**here, hv_support=0, os_support=0),
    )
    hfscr, fscr = 2**3, 2**7
    every = range(4)
    for grants, user, system, words in (
        (NOTHING, [], [], (0, 0, 0, 0)),
        (Grants(0, 0, hfscr, 0), [], [0, 1], (0, 0, 0, 0)),
        (Grants(0, 0, 0, fscr), [], [], (0, 0, 0, 0)),
        (Grants(0, 0, hfscr, fscr), [0], [0, 1], (0, 2**8, hfscr, fscr)),
        (Grants(0, 0, fscr, hfscr), [], [], (0, 0, 0, 0)),
        (Grants(ALL_BITS, 0, 0, 0), [], every, (0, 0, 0, 0)),
        (Grants(0, ALL_BITS, 0, 0), [], [], (0, 0, 0, 0)),
        (Grants(ALL_BITS, ALL_BITS, 0, 0), every, every, (0, 2**8, 0, 0)),
        (Grants(ALL_BITS, 0, 0, fscr), [0, 2], every, (0, 2**8, 0, fscr)),
        (Grants(0, ALL_BITS, hfscr, 0), [0, 1], [0, 1], (0, 2**8, hfscr, 0)),
        (Grants(0b1000, 0b1000, hfscr, fscr), [0, 3], [0, 1, 3], (0, 2**8, hfscr, fscr)),
    ):
        yield enabled_case(
            whole,
            (USER, grants, told(user, user, words)),
            (SYSTEM, grants, told(system, system, (0, 0, grants.hfscr & hfscr, 0))),
            (HYPERVISOR, grants, told(every, every)),
        )


def register_numbers():
    """Each bit of the registers is granted by itself."""
    hv = record(*[feature(hv_support=1, hfscr_bit_nr=number) for number in BITS])
    os = record(*[feature(usable_privilege=7, hwcap_bit_nr=63, os_support=1, fscr_bit_nr=number) for number in BITS])
    of_hv, of_os = [], []
    for at, number in enumerate(BITS):
        others = [other for other in range(len(BITS)) if other != at]
        bits = word_of(BITS) - 2**number
        of_hv.append((SYSTEM, Grants(0, 0, 2**number, 0), told([at], [at], (0, 0, 2**number, 0))))
        of_hv.append((SYSTEM, Grants(0, 0, ALL_BITS - 2**number, 0), told(others, others, (0, 0, bits, 0))))
        of_os.append((USER, Grants(0, 0, 0, 2**number), told([at], [at], (0, 2**31, 0, 2**number))))
        of_os.append((USER, Grants(0, 0, 0, ALL_BITS - 2**number), told(others, others, (0, 2**31, 0, bits))))
    yield enabled_case(hv, *of_hv)
    yield enabled_case(os, *of_os)


def masks():
    """By position; bits at or above the count are ignored."""
    for count in (1, 3, 31, 32, 33, 63, 64):
        whole = record(*[feature(usable_privilege=7, hwcap_bit_nr=9, hv_support=0, os_support=0)] * count)
        every, below = range(count), 2**count - 1
        queries = [
            (USER, EVERYTHING, told(every, every, (2**9, 0, 0, 0))),
            (SYSTEM, EVERYTHING, told(every, every)),
            (USER, Grants(below, below, 0, 0), told(every, every, (2**9, 0, 0, 0))),
            (USER, Grants(ALL_BITS - below, ALL_BITS - below, 0, 0), told([], [])),
            (SYSTEM, Grants(ALL_BITS - below, 0, 0, 0), told([], [])),
        ]
        for at in sorted({0, count // 2, count - 1}):
            queries.append((USER, Grants(2**at, 2**at, 0, 0), told([at], [at], (2**9, 0, 0, 0))))
            queries.append((SYSTEM, Grants(2**at, 0, 0, 0), told([at], [at])))
        yield enabled_case(whole, *queries)


# Enabled


def ignored():
    """Isa filters nothing; what is not given does not count, whatever its cell; nor do higher bits of `given`."""
    cells = [0, 1, 2060, 3000, 3100, ALL_ONES]
    for isa in cells:
        whole = record(*[feature([(at + 1) % 6], isa=value) for at, value in enumerate(cells)], isa=isa)
        yield enabled_case(whole, (SYSTEM, NOTHING, told(range(6), range(6))), (USER, EVERYTHING, told([], [])))
    slots = [1, 1, 1, 1, 1]
    whole = record(
        feature(isa=None, not_given={"dependencies": 3}, slots=slots),
        feature(usable_privilege=None, not_given={"usable_privilege": ALL_ONES, "isa": 7}),
        feature([0], slots=[0, 1, 1, 1]),
        feature([1, 0]),
        feature([], slots=slots, high_given=2**32 - 2**9),
        feature([], slots=slots, high_given=2**9, not_given={"hv_support": 1, "hfscr_bit_nr": ALL_ONES}),
    )
    yield enabled_case(whole, (SYSTEM, NOTHING, told({0, 2, 3, 4, 5}, {0, 2, 4, 5})))
    yield reach_case(whole, [{0}, {1}, {0, 2}, {0, 1, 3}, {4}, {5}])
    chains = [(0, room(2), 17), (1, room(2), [1]), (2, b"", 17), (3, room(3), [3, 1])]
    yield chain_case(whole, (SYSTEM, NOTHING, chains))


def closed_sets():
    """Rings are enabled, and features that name themselves; not what needs an unpermitted one, directly or not."""
    yield graph_case([[0]], ({0}, {0}), ([], []))
    yield graph_case([[0], [0, 1]], ({0, 1}, {0, 1}), ({0}, {0}), ({1}, []))
    yield graph_case([[1], [2], [0], []], ({0, 1, 2}, {0, 1, 2}), ({0, 1, 2, 3}, range(4)), ({0, 1, 3}, {3}))
    # A ring that needs something else, and something else that needs a ring.
    ring = [[1], [2], [0, 3], [], [1]]
    yield graph_case(ring, (range(5), range(5)), ({0, 1, 2, 4}, []), ({0, 1, 2, 3}, range(4)), ({1, 2, 3, 4}, {3}))
    # One sweep over direct dependents is not enough, in either order.
    yield graph_case([[1], [2], [3], [4], []], (range(4), []), ({0, 1, 2, 4}, {4}), (range(1, 5), range(1, 5)))
    yield graph_case([[], [0], [1], [2], [3]], (range(1, 5), []), ({0, 2, 3, 4}, {0}), (range(4), range(4)))
    # Repeats.
    yield graph_case([[1] * 16, [], [0, 1, 0, 1]], ({0, 2}, []), ({0, 1, 2}, range(3)), ({1, 2}, {1}))


# Words


def capability_words():
    """Bits 0 to 31 in the first, 32 to 63 in the second; two features may share one (R9)."""
    numbers = [0, 31, 32, 63, 5, 5, 62, 33]
    here = [feature(usable_privilege=7, hwcap_bit_nr=number, os_support=0) for number in numbers]
    queries = []
    for at, number in enumerate(numbers):
        words = (2**number, 0, 0, 0) if number < 32 else (0, 2 ** (number - 32), 0, 0)
        queries.append((USER, Grants(0, 2**at, 0, 0), told([at], [at], words)))
    whole = (2**0 + 2**31 + 2**5, 2**0 + 2**31 + 2**30 + 2**1, 0, 0)
    queries.append((USER, EVERYTHING, told(range(8), range(8), whole)))
    # "Elsewhere zero."
    queries.append((SYSTEM, EVERYTHING, told(range(8), range(8))))
    queries.append((HYPERVISOR, EVERYTHING, told(range(8), range(8))))
    yield enabled_case(record(*here), *queries)
    # Only enabled features count, and only those with bit 0 of `usable-privilege` are enabled at user level.
    whole = record(
        feature([1], usable_privilege=7, hwcap_bit_nr=1),
        feature(hwcap_bit_nr=2),
        feature([3], usable_privilege=1, hwcap_bit_nr=3),
        feature(usable_privilege=1, hwcap_bit_nr=4),
    )
    yield enabled_case(
        whole, (USER, EVERYTHING, told({0, 2, 3}, {2, 3}, (0x18, 0, 0, 0))), (SYSTEM, EVERYTHING, told({0, 1}, {0, 1}))
    )


def register_words():
    """The granted bits of enabled features whose support bit 0 is set: own code sets none, and takes none away (R5)."""
    here = {"usable_privilege": 7, "hwcap_bit_nr": 0}
    whole = record(
        feature(**here, hv_support=1, hfscr_bit_nr=1, os_support=1, fscr_bit_nr=33),
        feature(**here, hv_support=2, hfscr_bit_nr=2, os_support=2, fscr_bit_nr=34),
        feature(**here, hfscr_bit_nr=3, fscr_bit_nr=35),
        feature([4], **here, hv_support=1, hfscr_bit_nr=4, os_support=1, fscr_bit_nr=36),
        feature(usable_privilege=4, hv_support=1, hfscr_bit_nr=5, os_support=1, fscr_bit_nr=37),
        feature(**here, hv_support=1, hfscr_bit_nr=1, os_support=1, fscr_bit_nr=63),
    )
    all_own = Grants(ALL_BITS, ALL_BITS, 0, 0)
    below, enabled = {0, 1, 2, 3, 5}, {0, 1, 2, 5}
    yield enabled_case(
        whole,
        (USER, all_own, told(below, enabled, (1, 0, 0, 0))),
        (USER, all_own._replace(hfscr=2**1), told(below, enabled, (1, 0, 2**1, 0))),
        (USER, all_own._replace(fscr=2**63), told(below, enabled, (1, 0, 0, 2**63))),
        (USER, EVERYTHING, told(below, enabled, (1, 0, 2**1, 2**33 + 2**63))),
        (USER, REGISTERS, told({0, 2, 3, 5}, {0, 2, 5}, (1, 0, 2**1, 2**33 + 2**63))),
        (SYSTEM, EVERYTHING, told(below, enabled, (0, 0, 2**1, 0))),
        (SYSTEM, all_own, told(below, enabled)),
        (SYSTEM, REGISTERS, told({0, 2, 3, 5}, {0, 2, 5}, (0, 0, 2**1, 0))),
        (HYPERVISOR, EVERYTHING, told(range(6), range(6))),
    )


# Enabled by a table


def any_rows():
    """Only features below the count are enabled, and only their rows are looked at (R3)."""
    right, alone = [0b1, 0b11, 0b111, 0b1111], [0b1, 0b10, 0b100, 0b1000]
    some = own({0, 2})
    return table_case(
        graph_record([[], [0], [1], [2]]),
        (*some, right, [0]),
        (*some, alone, [0, 2]),
        # A row of zeros enables its feature, permitted or not.
        (*some, [], range(4)),
        (*some, [0, 0b10, 0b1000, 0], [0, 3]),
        (*own([]), [], range(4)),
        # A bit at or above the count is no permitted feature, even where it is granted.
        (*some, [0b10001, 0b1, 2**63, 2**63 + 1], [1]),
        (SYSTEM, EVERYTHING, [2**4, 2**5, 2**63, 0b1111], [3]),
        (SYSTEM, EVERYTHING, [2**4] * 64, []),
        # Rows from the count on.
        (*some, right + [0b1] * 60, [0]),
        (*some, right + [ALL_BITS] * 60, [0]),
        # What a row has of its own feature does not matter.
        (*some, [0b100, 0b100, 0b10, 0b101], [0, 1, 3]),
        (HYPERVISOR, NOTHING, [0b1111] * 4, range(4)),
        (USER, EVERYTHING, right, []),
        (3, EVERYTHING, right, 15),
        (ALL_ONES, EVERYTHING, [], 15),
    )


def rows_of_most():
    """The same of 64 features."""
    return table_case(
        graph_record([[]] * 64),
        (SYSTEM, EVERYTHING, [ALL_BITS] * 64, range(64)),
        (*own(range(63)), [ALL_BITS] * 64, []),
        (*own(range(63)), [2**at for at in range(64)], range(63)),
        (*own([63]), [2**at for at in range(64)], [63]),
        (*own(range(1, 64)), [2 ** (63 - at) for at in range(64)], range(63)),
        (*own([]), [], range(64)),
    )


# Chains


def shortest():
    """The shortest; among equally short ones the smallest from the front, whatever the order of the dependencies."""
    for graph, permitted, chain in (
        ([[]], [], [0]),
        # Of an unpermitted feature itself, whatever it needs (R7).
        ([[0]], [], [0]),
        ([[1], []], [], [0]),
        ([[1], [0]], {1}, [0]),
        ([[0, 1], []], {0}, [0, 1]),
        ([[1, 2], [2], []], {0, 1}, [0, 2]),
        ([[2, 1], [3], [], []], {0, 1}, [0, 2]),
        ([[3, 1, 2], [5], [4], [4], [], []], {0, 1, 2, 3}, [0, 1, 5]),
        ([[2, 1], [5, 4], [3], [], [], []], {0, 1, 2}, [0, 1, 4]),
        ([[3, 2], [], [5, 4], [1], [], []], {0, 2, 3}, [0, 2, 4]),
        # The smaller second one leads to a longer chain.
        ([[1, 2], [3], [4], [4], []], {0, 1, 2, 3}, [0, 2, 4]),
        # The smaller last one comes from a larger one before it.
        ([[1, 2], [4], [3], [], []], {0, 1, 2}, [0, 1, 4]),
        ([[2, 1], [4], [3], [5], [5], []], {0, 1, 2, 3, 4}, [0, 1, 4, 5]),
        # Through rings.
        ([[1], [2], [0, 3], []], {0, 1, 2}, [0, 1, 2, 3]),
        ([[0, 1], [1, 0, 2], [0, 1, 2]], {0, 1}, [0, 1, 2]),
        # Equal ones.
        ([[1] * 16, [2] * 16, [0] * 16], {0, 1}, [0, 1, 2]),
    ):
        exact, longer, short = room(len(chain)), room(len(chain) + 5), room(len(chain) - 1)
        queries = [(0, exact, chain), (0, longer, chain), (0, short, 18), (0, b"", 18)]
        yield chain_case(graph_record(graph), (*own(permitted), queries))


def buffers():
    """A buffer may be as long as it likes: the bytes behind the chain stay, and all of a refused call's."""
    whole = graph_record([[1], [2], [3], [], []])
    permitted = {0, 1, 2, 4}
    queries = [(0, room(length), [0, 1, 2, 3]) for length in (4, 5, 6, 63, 64, 65, 256)]
    queries += [(0, room(length), 18) for length in range(4)]
    queries += [(at, bytes(length), 17 if at == 4 else 16) for at in (4, 5) for length in (0, 1, 4, 64)]
    queries += [(0, bytes(7), [0, 1, 2, 3]), (3, bytes([255] * 3), [3]), (2, bytes([3, 2, 1]), [2, 3])]
    yield chain_case(whole, (*own(permitted), queries))
    # A chain of all 64, and the last position first.
    line = graph_record([[at + 1] for at in range(63)] + [[]])
    yield chain_case(line, (*own(range(63)), [(0, room(64), list(range(64))), (0, room(63), 18), (63, room(1), [63])]))


def chain_refusals():
    """In the order 15, 16, 17, 18; 14 is in vectors/resolver_faults.py."""
    whole = graph_record([[1], [], []])
    none = own({0, 2})
    no_positions = (3, 4, 63, 64, 65, 255, 256, 258, 65536, 65538, 2**31, ALL_ONES)
    for level in NO_LEVELS[::3]:
        queries = [(at, buffer, 15) for at in (0, 1, 2, 3, ALL_ONES) for buffer in (b"", room(3))]
        yield chain_case(whole, (level, EVERYTHING, queries), (level, NOTHING, queries))
    queries = [(at, buffer, 16) for at in no_positions for buffer in (b"", room(3))]
    yield chain_case(whole, (*none, queries), (SYSTEM, EVERYTHING, queries), (HYPERVISOR, NOTHING, queries))
    yield chain_case(whole, (*none, [(2, b"", 17), (2, room(3), 17), (0, b"", 18), (0, room(1), 18), (1, b"", 18)]))
    every = [(at, buffer, 17) for at in range(3) for buffer in (b"", room(3))]
    yield chain_case(whole, (SYSTEM, EVERYTHING, every), (HYPERVISOR, NOTHING, every))


def cases():
    yield from two_features()
    yield from no_features()
    yield from lister_example()
    yield from older_host()
    yield from levels()
    yield from supports()
    yield from both_supports()
    yield from register_numbers()
    yield from masks()
    yield from ignored()
    yield from closed_sets()
    yield from capability_words()
    yield from register_words()
    yield any_rows()
    yield rows_of_most()
    yield from shortest()
    yield from buffers()
    yield from chain_refusals()


def vectors():
    return held_queries(cases())
