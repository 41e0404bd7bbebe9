"""Runs the lister on every stored tree, and on inputs of special lengths, and compares its text with the model's.

    python3 tests/differential/lister.py             crates/lister/out/lister, which ./list builds
    python3 tests/differential/lister.py PROGRAM..   these programs, which read a tree on standard input

The stored trees are those of tests/trees and of the stored vectors. Standard library only, Python 3.9 or later.
"""

import collections
import contextlib
import pathlib
import subprocess
import sys
import tempfile
import time

# No compiled files beside the sources.
sys.dont_write_bytecode = True

TESTS = pathlib.Path(__file__).resolve().parent.parent

sys.path.insert(0, str(TESTS))

# Found by the path above.
from differential import quick, stored  # noqa: E402
from model import listing  # noqa: E402
from vectors.blocks import read_built  # noqa: E402
from vectors.chance import Chance  # noqa: E402
from vectors.damage import laid_out  # noqa: E402

SEED = 20240808

LISTER = TESTS.parent / "crates" / "lister" / "out" / "lister"

# A program that takes longer than this, in seconds, has failed.
LONGEST = 10


def stored_trees():
    """(name, bytes)"""
    for name, data in read_built(TESTS / "trees").items():
        yield name + ".dtb", data
    for place, (kind, data) in enumerate(stored.vectors(), 1):
        if kind in "rt":
            yield "stored vector %d" % place, data


def with_total(data, total):
    """The tree with another total size: as many bytes, its own and then ones."""
    at = [int.from_bytes(data[place : place + 4], "big") for place in (8, 12)]
    structure, strings = data[at[0] : at[1]], data[at[1] :]
    return laid_out(structure, strings, *at, total, b"\xff")


def special_inputs():
    """No input; 65,536 and 70,000 bytes and lengths beside them: a tree and bytes behind it, one tree, noise, zeros."""
    chance = Chance(SEED)
    features = read_built(TESTS / "trees")["features"]
    yield "no input", b""
    for length in (1, 39, 40, 65535, 65536, 65537, 70000):
        noise = chance.bytes(length)
        yield "%d bytes of noise" % length, noise
        yield "%d zeros" % length, bytes(length)
        yield "%d bytes, a magic first" % length, (features[:4] + noise)[:length]
        if length > len(features):
            yield "a tree in %d bytes" % length, (features + noise)[:length]
            yield "a tree of %d bytes" % length, with_total(features, length)
            yield "a tree of %d bytes, one not lent" % length, with_total(features, length)[:-1]


def run(program, data):
    """What a program prints of bytes in a pipe."""
    return subprocess.run([program], input=data, stdout=subprocess.PIPE, timeout=LONGEST).stdout


def run_on_file(program, data):
    with tempfile.TemporaryFile() as file:
        file.write(data)
        file.seek(0)
        return subprocess.run([program], stdin=file, stdout=subprocess.PIPE, timeout=LONGEST).stdout


def run_in_pieces(program, data):
    """The bytes come in three pieces, with time between them. A program may end before it has read them all."""
    piece = len(data) // 3 + 1
    with subprocess.Popen([program], stdin=subprocess.PIPE, stdout=subprocess.PIPE) as process:
        with contextlib.suppress(BrokenPipeError):
            for at in range(0, len(data), piece):
                process.stdin.write(data[at : at + piece])
                process.stdin.flush()
                time.sleep(0.005)
        return process.communicate(timeout=LONGEST)[0]


def expected_texts():
    """(name, bytes, text, ways to run it) of every input; few are run in more ways than one."""
    for name, data in stored_trees():
        quick.forget()
        ways = (run, run_on_file, run_in_pieces) if name.endswith(".dtb") else (run,)
        yield name, data, listing.text(data).encode("ascii"), ways
    for name, data in special_inputs():
        quick.forget()
        yield name, data, listing.text(data).encode("ascii"), (run, run_on_file, run_in_pieces)


def differences(program, inputs):
    for name, data, text, ways in inputs:
        for way in ways:
            printed = way(program, data)
            if printed != text:
                told = name, way.__name__, printed, text, data[:6000].hex()
                yield "%s (%s): printed %r, expected %r, input %s" % told


def main(programs):
    quick.start()
    inputs = list(expected_texts())
    starts = collections.Counter(b" ".join(text.split()[:2]).decode("ascii") for _, _, text, _ in inputs)
    refused = {name: many for name, many in starts.items() if name.startswith("refused")}
    accepted = len(inputs) - sum(refused.values())
    failed = False
    for program in programs or [LISTER]:
        if not pathlib.Path(program).is_file():
            sys.exit("lister: there is no program %s" % program)
        found = list(differences(str(program), inputs))
        for difference in found[:5]:
            print("lister: " + difference)
        print("lister %s: %d inputs, %d accepted, %d texts differ" % (program, len(inputs), accepted, len(found)))
        failed = failed or bool(found)
    numbers = sorted((int(name.split()[1]), many) for name, many in refused.items())
    print("lister: refusals expected: " + " ".join("%d:%d" % item for item in numbers))
    if failed or accepted == 0 or [number for number, _ in numbers] != list(range(1, 14)):
        sys.exit(1)


if __name__ == "__main__":
    main(sys.argv[1:])
