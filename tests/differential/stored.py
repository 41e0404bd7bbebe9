"""The stored vectors of crates/vectors, which tests/vectors/make.py writes."""

import pathlib

STDIN = pathlib.Path(__file__).resolve().parents[2] / "crates" / "vectors" / "stdin"


def vectors():
    """(kind, bytes) of each."""
    data = STDIN.read_bytes()
    at = 0
    while at < len(data):
        end = at + 5 + int.from_bytes(data[at + 1 : at + 5], "big")
        yield chr(data[at]), data[at + 5 : end]
        at = end
