"""Builds the described trees of kind `r` (vectors/nodes.py) with dtc, and compares them byte for byte with the vectors.

    python3 tests/vectors/dtc.py

tests/trees/build installs dtc where it is missing. Standard library only, Python 3.9 or later.
"""

import concurrent.futures
import pathlib
import subprocess
import sys

# No compiled files beside the sources.
sys.dont_write_bytecode = True

sys.path.insert(0, str(pathlib.Path(__file__).resolve().parent.parent))

# Found by the path above.
from vectors import record_chance, record_faults, records  # noqa: E402
from vectors.nodes import flat, source  # noqa: E402


def built(text):
    """What dtc makes of a source. It is made to go on, since it finds fault with some phandles and equal names."""
    command = ["dtc", "-q", "-q", "-f", "-I", "dts", "-O", "dtb"]
    return subprocess.run(command, input=text.encode("ascii"), capture_output=True, check=True).stdout


def main():
    roots = [root for module in (records, record_faults, record_chance) for root, _ in module.described()]
    texts = [source(root) for root in roots]
    with concurrent.futures.ThreadPoolExecutor() as pool:
        for root, text, data in zip(roots, texts, pool.map(built, texts)):
            if data != flat(root)[0]:
                print("dtc makes something else of this source:\n" + text, file=sys.stderr)
                return 1
    print("%d described trees, as dtc builds them" % len(roots))
    return 0


if __name__ == "__main__":
    sys.exit(main())
