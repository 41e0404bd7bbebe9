"""Makes the stored vectors of crates/vectors: what the program reads and what it must print.

    python3 tests/vectors/make.py            writes crates/vectors/stdin and crates/vectors/stdout anew
    python3 tests/vectors/make.py --check    compares the two files with what would be written

`stdin` is a run of vectors: the kind (one ASCII byte), the length (four bytes, big-endian) and that
many bytes. `stdout` has a line for each. Each module of MODULES has a function `vectors` that yields
(kind, bytes, line), the same ones in the same order each time.

Standard library only, Python 3.9 or later.
"""

import collections
import pathlib
import sys

# No compiled files beside the sources.
sys.dont_write_bytecode = True

TESTS = pathlib.Path(__file__).resolve().parent.parent
PROGRAM = TESTS.parent / "crates" / "vectors"

sys.path.insert(0, str(TESTS))

# Found by the path above.
from vectors import damage, lookups, properties, record_chance, record_faults, records, strings, trees  # noqa: E402
from vectors import resolver, resolver_chance, resolver_faults, resolver_graphs  # noqa: E402

READER = (records, record_faults, record_chance)
RESOLVER = (resolver, resolver_faults, resolver_graphs, resolver_chance)
MODULES = (properties, strings, trees, damage, lookups, *READER, *RESOLVER)

# The most bytes of a vector that the program has room for.
MOST_BYTES = 70000


def all_vectors():
    """The vectors of all modules, in order."""
    vectors = [vector for module in MODULES for vector in module.vectors()]
    for kind, data, line in vectors:
        if len(kind) != 1 or len(data) > MOST_BYTES or not line.startswith(kind + " ") or "\n" in line:
            raise ValueError("no vector: %r %r %r" % (kind, data, line))
    return vectors


def encode(kind, data):
    return kind.encode("ascii") + len(data).to_bytes(4, "big") + data


def compare(vectors, stdin, stdout):
    """What differs first between the vectors and the two files' contents, or None."""
    lines = stdout.split(b"\n")
    at = 0
    for place, (kind, data, line) in enumerate(vectors):
        name = "vector %d (kind %s, bytes %s)" % (place + 1, kind, data[:40].hex() or "none")
        written = encode(kind, data)
        if stdin[at : at + len(written)] != written:
            return "stdin differs at byte %d, in %s" % (at, name)
        at += len(written)
        stored = lines[place].decode("ascii", "replace") if place < len(lines) else ""
        if stored != line:
            return "stdout differs at line %d, of %s:\n  stored   %s\n  expected %s" % (place + 1, name, stored, line)
    if at != len(stdin):
        return "stdin goes on after vector %d, at byte %d" % (len(vectors), at)
    if lines[len(vectors) :] != [b""]:
        return "stdout does not end with line %d" % len(vectors)
    return None


def main(arguments):
    if arguments not in ([], ["--check"]):
        print(__doc__, file=sys.stderr)
        return 2
    vectors = all_vectors()
    counts = collections.Counter(kind for kind, _, _ in vectors)
    total = "%d vectors: %s" % (len(vectors), ", ".join("%s %d" % item for item in sorted(counts.items())))
    if arguments:
        difference = compare(vectors, (PROGRAM / "stdin").read_bytes(), (PROGRAM / "stdout").read_bytes())
        if difference:
            print("the stored vectors are not those of the model: " + difference, file=sys.stderr)
            return 1
        print(total + ", as stored")
        return 0
    (PROGRAM / "stdin").write_bytes(b"".join(encode(kind, data) for kind, data, _ in vectors))
    (PROGRAM / "stdout").write_bytes("".join(line + "\n" for _, _, line in vectors).encode("ascii"))
    print(total + ", written")
    return 0


if __name__ == "__main__":
    sys.exit(main(sys.argv[1:]))
