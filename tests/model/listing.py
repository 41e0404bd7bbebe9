"""The lister's text: document 01's "Both sides", restated in Python. Codes such as L1 name readings of document 01.

Standard library only, Python 3.9 or later.
"""

from model import record, resolver, tree

ALL_BITS = 2**64 - 1

# "at user level, all HFSCR and FSCR bits granted, no own code"
LEVEL = resolver.USER
GRANTS = resolver.Grants(0, 0, ALL_BITS, ALL_BITS)


def name_of(data, feature):
    """The whole name, unit address included (L3): it follows the begin token."""
    return tree.string(data, feature.offset + 4).decode("ascii")


def state(whole, names, position):
    """ "on", or "off" and the names of the chain"""
    number, length, positions = resolver.chain(whole, LEVEL, GRANTS, position, bytes(record.MOST_FEATURES))
    if number == resolver.FEATURE_ENABLED:
        return "on"
    return "off " + ">".join(names[at] for at in positions[:length])


def lines(data):
    number, place, whole = record.read(data)
    if number:
        yield "refused %d at %d" % (number, place)
        return
    _, _, count = resolver.enable(whole, LEVEL, GRANTS)
    _, first, second, hfscr, fscr = resolver.words(whole, LEVEL, GRANTS)
    names = [name_of(data, feature) for feature in whole.features[: whole.count]]
    yield "isa %d features %d enabled %d" % (whole.isa, whole.count, count)
    for position, name in enumerate(names):
        yield "%d %s %s" % (position, name, state(whole, names, position))
    yield "hwcap %08x %08x fscr %016x hfscr %016x" % (first, second, fscr, hfscr)


def text(data):
    """What is printed of the bytes on standard input; every line ends in one newline (L1)."""
    return "".join(line + "\n" for line in lines(data))
