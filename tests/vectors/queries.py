"""The kinds of vectors that ask the resolver about a record, `b`, `c`, `e` and `n`: their bytes and their lines.

The bytes are numbers, each of seven bits a byte, the highest first, with the top bit set in all bytes but its last. A
record is its isa, its count, how many rows follow, and the rows; a row is a position, the eleven numbers of its
feature, how many slots follow, and its slots from the first. What no row names is zero. Grants are four masks, a table
is 64 words. A buffer is its length, and its bytes as they are. Queries and groups are their number, and then they
themselves.

- `e`: a record and queries, each level and grants. For each query the line has number and set of permitted; number, set
  and count of enabled; number, both capability words, HFSCR and FSCR.
- `n`: a record. The line has the 64 rows of its reach table.
- `b`: a record and queries, each level, grants and a table. For each query the line has number, set and count.
- `c`: a record and groups, each level, grants and queries, each of these position and buffer. For each query the line
  has number, length, and the buffer's bytes afterwards.

All that comes after the kind and a first number: for `n` the refusal's, for the others 14 where the record is not well
formed, else 0. The lines come from the model (tests/model/resolver.py), of these bytes alone.
"""

from model import resolver
from model.record import MOST_DEPENDENCIES, MOST_FEATURES, NO_RECORD, Feature, Record
from vectors.blocks import held

NUMBERS = len(Feature._fields)


# Bytes


def number(value):
    data = [value % 128]
    while value > 127:
        value //= 128
        data.append(128 + value % 128)
    return bytes(data[::-1])


def numbers(*values):
    return b"".join(number(value) for value in values)


def row(position, feature, slots):
    """A position's feature and slots; zeros at the end of the slots are left out."""
    used = max((place + 1 for place, slot in enumerate(slots) if slot), default=0)
    return numbers(position, *feature, used, *slots[:used])


def record_bytes(record):
    rows = []
    for position, feature in enumerate(record.features):
        first = MOST_DEPENDENCIES * position
        slots = record.slots[first : first + MOST_DEPENDENCIES]
        if any(feature) or any(slots):
            rows.append(row(position, feature, slots))
    return numbers(record.isa, record.count, len(rows)) + b"".join(rows)


def enabled_bytes(record, queries):
    """Kind `e`; a query is (level, grants)."""
    asked = [numbers(level, *grants) for level, grants in queries]
    return record_bytes(record) + number(len(asked)) + b"".join(asked)


def table_bytes(record, queries):
    """Kind `b`; a query is (level, grants, rows)."""
    asked = [numbers(level, *grants, *rows) for level, grants, rows in queries]
    return record_bytes(record) + number(len(asked)) + b"".join(asked)


def chain_bytes(record, groups):
    """Kind `c`; a group is (level, grants, queries), a query (position, buffer)."""
    asked = [record_bytes(record), number(len(groups))]
    for level, grants, queries in groups:
        asked.append(numbers(level, *grants, len(queries)))
        asked += [numbers(position, len(buffer)) + buffer for position, buffer in queries]
    return b"".join(asked)


# Reading them back


class Vector:
    """A vector's bytes, read from the front."""

    def __init__(self, data):
        self.left = data

    def bytes(self, many):
        """The next bytes; too few are an error."""
        data, self.left = self.left[:many], self.left[many:]
        if len(data) < many:
            raise ValueError("a vector ends %d bytes early" % (many - len(data)))
        return data

    def number(self):
        value = 0
        while True:
            (byte,) = self.bytes(1)
            value = value * 128 + byte % 128
            if byte < 128:
                return value

    def numbers(self, many):
        return [self.number() for _ in range(many)]

    def record(self):
        isa, count, rows = self.numbers(3)
        features, slots = list(NO_RECORD.features), list(NO_RECORD.slots)
        for _ in range(rows):
            position = self.number()
            features[position] = Feature(*self.numbers(NUMBERS))
            first = MOST_DEPENDENCIES * position
            used = self.number()
            slots[first : first + used] = self.numbers(used)
        return Record(isa, count, features, slots)

    def asked(self):
        """Level and grants."""
        return self.number(), resolver.Grants(*self.numbers(4))

    def end(self):
        if self.left:
            raise ValueError("a vector goes on: %s" % self.left.hex())


# Lines


def enabled_answer(vector):
    record = vector.record()
    line = [resolver.form_refusal(record)]
    for _ in range(vector.number()):
        asked = (record, *vector.asked())
        line += [*resolver.permitted(*asked), *resolver.enable(*asked), *resolver.words(*asked)]
    return line


def reach_answer(vector):
    refusal, rows = resolver.reach(vector.record())
    return [refusal, *rows]


def table_answer(vector):
    record = vector.record()
    line = [resolver.form_refusal(record)]
    for _ in range(vector.number()):
        level, grants = vector.asked()
        line += resolver.enable_by_table(record, vector.numbers(MOST_FEATURES), level, grants)
    return line


def chain_answer(vector):
    record = vector.record()
    line = [resolver.form_refusal(record)]
    for _ in range(vector.number()):
        asked = (record, *vector.asked())
        for _ in range(vector.number()):
            position = vector.number()
            refusal, length, later = resolver.chain(*asked, position, vector.bytes(vector.number()))
            line += [refusal, length, *later]
    return line


ANSWERS = {"b": table_answer, "c": chain_answer, "e": enabled_answer, "n": reach_answer}


def answer(kind, data):
    """The numbers of a vector's line."""
    vector = Vector(data)
    line = ANSWERS[kind](vector)
    vector.end()
    return line


def held_queries(cases):
    """As `held`, for cases of these kinds."""
    cases = list(cases)
    for kind in ANSWERS:
        yield from held([case for case in cases if case[0] == kind], lambda data, kind=kind: answer(kind, data))
