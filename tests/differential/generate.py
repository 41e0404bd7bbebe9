"""Writes the cases of the differential test to standard output: inputs by chance, and the model's answers to them.

    python3 tests/differential/generate.py                   all cases
    python3 tests/differential/generate.py --part 20         a twentieth of those by chance
    python3 tests/differential/generate.py --fault NAME      answers of a model with a fault (differential/faults.py)
    python3 tests/differential/generate.py --case N          the case of this number alone, counted from 1

Beside the cases by chance there are the inputs of the stored vectors. The cases are made in chunks, by as many
processes as there are processors; a chunk's cases depend on its number alone. tests/differential/harness.c says what a
case's bytes are. Standard library only, Python 3.9 or later.
"""

import argparse
import collections
import itertools
import multiprocessing
import pathlib
import struct
import sys

# No compiled files beside the sources.
sys.dont_write_bytecode = True

sys.path.insert(0, str(pathlib.Path(__file__).resolve().parent.parent))

# Found by the path above.
from differential import faults, quick, records, stored, trees, values  # noqa: E402
from model import properties, record, resolver, strings, tree  # noqa: E402
from vectors.chance import Chance  # noqa: E402
from vectors.properties import ANSWERS  # noqa: E402
from vectors.queries import Vector  # noqa: E402
from vectors.strings import list_and_text  # noqa: E402

SEED = 20240707

# How many cases there are of each kind, and how many in a chunk.
PLAN = (
    ("t", 21000, 250),
    ("r", 20000, 250),
    ("l", 5000, 1000),
    ("p", 2000, 1000),
    ("s", 2000, 1000),
    ("g", 3000, 1000),
    ("x", 3000, 1000),
    ("a", 4000, 1000),
    ("i", 3000, 1000),
    ("f", 1000, 1000),
    ("m", 6000, 1000),
    ("u", 4000, 1000),
    ("w", 3000, 1000),
)

Chunk = collections.namedtuple("Chunk", "kind number cases")

RECORD = struct.Struct("<2I704I1024H")
ROWS = struct.Struct("<64Q")


# Bytes


def run(data):
    return struct.pack("<I", len(data)) + data


def record_bytes(whole):
    return RECORD.pack(whole.isa, whole.count, *itertools.chain.from_iterable(whole.features), *whole.slots)


NO_RECORD = record_bytes(record.NO_RECORD)


def tree_case(data):
    number, place, whole = record.read(data)
    told = NO_RECORD if whole is record.NO_RECORD else record_bytes(whole)
    return run(data) + struct.pack("<2I", number, place) + told


def table_answer(asked, rows):
    number, members, count = resolver.enable_by_table(asked[0], rows, *asked[1:])
    return ROWS.pack(*rows) + struct.pack("<IQI", number, members, count)


def chain_answer(asked, position, buffer):
    number, length, later = resolver.chain(*asked, position, buffer)
    return struct.pack("<I", position) + run(buffer) + struct.pack("<2I", number, length) + later


def query_answer(whole, level, grants, tables, chains):
    asked = whole, level, grants
    parts = [
        struct.pack("<I4Q", level, *grants),
        struct.pack("<IQ", *resolver.permitted(*asked)),
        struct.pack("<IQI", *resolver.enable(*asked)),
        struct.pack("<3I2Q", *resolver.words(*asked)),
        struct.pack("<I", len(tables)),
        *[table_answer(asked, rows) for rows in tables],
        struct.pack("<I", len(chains)),
        *[chain_answer(asked, *chain) for chain in chains],
    ]
    return b"".join(parts)


def record_case(whole, queries):
    """A query is (level, grants, tables, chains)."""
    number, rows = resolver.reach(whole)
    form = struct.pack("<2I", resolver.form_refusal(whole), number) + ROWS.pack(*rows) + struct.pack("<I", len(queries))
    return record_bytes(whole) + form + b"".join(query_answer(whole, *query) for query in queries)


def lookup_case(cpu, parent, strings, name):
    number, which, offset, length = tree.lookup(cpu, parent, strings, name)
    lent = b"".join(map(run, (cpu, parent, strings, name)))
    return lent + struct.pack("<2I2QI", number, which, offset, length, number)


def told_case(value, answer):
    """A value's bytes, and the number and the values that are expected."""
    number, told = answer
    return run(value) + struct.pack("<2I%dQ" % len(told), number, len(told), *told)


def bytes_case(kind, data):
    return told_case(data, ANSWERS[kind](data))


def attributes_case(value, edition):
    return struct.pack("<I", edition) + told_case(value, properties.pa_features(value, edition))


def string_case(data, text):
    return run(data) + run(text) + struct.pack("<IQ", *strings.place(data, text))


def unit_case(unit, buffer):
    number, (length, *later) = properties.write_unit(unit, buffer)
    return struct.pack("<I", unit) + run(buffer) + struct.pack("<2I", number, length) + bytes(later)


# Cases by chance


def chance_records(chance, many):
    wholes = records.Records(chance)
    for _ in range(many):
        quick.forget()
        whole = wholes.any(chance)
        queries = []
        for _ in range(chance.choice((1, 1, 2))):
            level, grants = records.chance_level(chance), records.chance_grants(chance)
            tables = [records.chance_rows(chance, whole)]
            chains = [records.chance_chain(chance, (whole, level, grants)) for _ in range(3)]
            queries.append((level, grants, tables, chains))
        yield record_case(whole, queries)


def chance_trees(chance, many):
    for data in trees.trees(chance, many):
        quick.forget()
        yield tree_case(data)


BY_CHANCE = {
    "t": chance_trees,
    "r": chance_records,
    "l": lambda *asked: (lookup_case(*case) for case in values.lookups(*asked)),
    "p": lambda *asked: (bytes_case("p", value) for value in values.sizes("p", *asked)),
    "s": lambda *asked: (bytes_case("s", value) for value in values.sizes("s", *asked)),
    "g": lambda *asked: (bytes_case("g", value) for value in values.segments(*asked)),
    "x": lambda *asked: (bytes_case("x", value) for value in values.radix(*asked)),
    "a": lambda *asked: (attributes_case(*case) for case in values.editions(*asked)),
    "i": lambda *asked: (bytes_case("i", value) for value in values.attributes("i", *asked)),
    "f": lambda *asked: (bytes_case("f", value) for value in values.frequencies(*asked)),
    "m": lambda *asked: (string_case(*case) for case in values.string_lists(*asked)),
    "u": lambda *asked: (bytes_case("u", value) for value in values.texts(*asked)),
    "w": lambda *asked: (unit_case(*case) for case in values.units(*asked)),
}


# Stored vectors: their inputs, through the C interface


def stored_query(kind, data):
    """The case of a vector of kind `b`, `c`, `e` or `n`."""
    vector = Vector(data)
    whole = vector.record()
    queries = []
    for _ in range(0 if kind == "n" else vector.number()):
        level, grants = vector.asked()
        tables = [vector.numbers(record.MOST_FEATURES)] if kind == "b" else []
        many = vector.number() if kind == "c" else 0
        chains = [(vector.number(), vector.bytes(vector.number())) for _ in range(many)]
        queries.append((level, grants, tables, chains))
    return record_case(whole, queries)


def stored_case(kind, data):
    """(kind, bytes) of a stored vector."""
    quick.forget()
    if kind in "tr":
        return "t", tree_case(data)
    if kind in "bcen":
        return "r", stored_query(kind, data)
    if kind == "l":
        vector = Vector(data[12:])
        lengths = [int.from_bytes(data[at : at + 4], "big") for at in (0, 4, 8)]
        return "l", lookup_case(*[vector.bytes(length) for length in lengths], vector.left)
    if kind == "m":
        return "m", string_case(*list_and_text(data))
    if kind == "a":
        return "a", attributes_case(data[4:], int.from_bytes(data[:4], "big"))
    if kind == "w":
        return "w", unit_case(int.from_bytes(data[:4], "big"), data[4:])
    return kind, bytes_case(kind, data)


# Chunks

STORED = "stored"


def chunks(part):
    """All chunks, in order; in a part there is no stored case, and at least one chunk of each kind."""
    if part == 1:
        yield Chunk(STORED, 0, None)
    for kind, many, size in PLAN:
        for number in range(max(1, many // part // size)):
            yield Chunk(kind, number, min(size, max(1, many // part)))


def cases_of(chunk):
    """(kind, bytes) of each case."""
    if chunk.kind == STORED:
        return [stored_case(*vector) for vector in stored.vectors()]
    chance = Chance("%d %s %d" % (SEED, chunk.kind, chunk.number))
    return [(chunk.kind, case) for case in BY_CHANCE[chunk.kind](chance, chunk.cases)]


def encoded(chunk):
    return b"".join(kind.encode("ascii") + run(case) for kind, case in cases_of(chunk))


def start(fault):
    """What each process does first."""
    if fault is not None:
        faults.seed(fault)
    quick.start()


def one_case(part, wanted):
    """The case of this number, encoded."""
    for chunk in chunks(part):
        cases = cases_of(chunk) if chunk.kind == STORED or wanted <= chunk.cases else range(chunk.cases)
        if wanted <= len(cases):
            kind, case = cases[wanted - 1]
            return kind.encode("ascii") + run(case)
        wanted -= len(cases)
    raise SystemExit("there are not so many cases")


def main():
    parser = argparse.ArgumentParser()
    parser.add_argument("--part", type=int, default=1)
    parser.add_argument("--fault", choices=faults.FAULTS)
    parser.add_argument("--case", type=int)
    arguments = parser.parse_args()
    if arguments.case is not None:
        start(arguments.fault)
        sys.stdout.buffer.write(one_case(arguments.part, arguments.case))
        return
    with multiprocessing.Pool(initializer=start, initargs=(arguments.fault,)) as pool:
        for data in pool.imap(encoded, chunks(arguments.part)):
            sys.stdout.buffer.write(data)


if __name__ == "__main__":
    main()
