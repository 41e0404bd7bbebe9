"""Trees described by their nodes: their bytes in the layout of dtc, and the source of which dtc makes these bytes.

vectors/dtc.py builds the sources with dtc and compares, so that the bytes are those of an independent builder.
"""

import collections

from vectors.blocks import END, END_NODE, HERE, begin, joined, prop, tree
from vectors.properties import cells

# `properties` are pairs of name and value. A marked node's begin token is a place to be told.
Node = collections.namedtuple("Node", "name properties children marked", defaults=(False,))

# dtc puts an empty reserve block of 16 bytes between header and structure block.
RESERVE = bytes(16)
DTC_START = 40 + len(RESERVE)

CONTAINER = "ibm,powerpc-cpu-features"


# Descriptions


def here(node):
    """The node, marked."""
    return node._replace(marked=True)


def value_of(value):
    """A value's bytes: a number is one cell, a list is cells."""
    if isinstance(value, int):
        return cells(value)
    return cells(*value) if isinstance(value, list) else value


def property_name(keyword):
    """An underscore stands for a hyphen, but for the one name that has an underscore."""
    return (keyword if keyword == "device_type" else keyword.replace("_", "-")).encode("ascii")


def node(name, *children, **given):
    """A node with these properties; None stands for a property that is not given."""
    pairs = [(property_name(keyword), value_of(value)) for keyword, value in given.items() if value is not None]
    return Node(name.encode("ascii"), pairs, list(children))


def with_property(node, name, value):
    """The node with one more property, of any name."""
    return node._replace(properties=[*node.properties, (name, value_of(value))])


def backwards(node):
    """The node with its properties from the last to the first."""
    return node._replace(properties=node.properties[::-1])


def root(*nodes, **given):
    return node("", *nodes, **given)


def container(*features, **changes):
    """A good container of these features, but for the changes."""
    good = {"device_type": b"cpu-features\0", "compatible": b"ibm,powerpc-cpu-features\0", "isa": 3000}
    return node(CONTAINER, *features, **{**good, **changes})


def feature(name, *children, **changes):
    """A good feature with as few properties as there may be, but for the changes."""
    return node(name, *children, **{"isa": 3000, "usable_privilege": 6, **changes})


def deep(level, node_there):
    """A node at a level, the root's being 1: the node of level 2 that it is in."""
    for above in range(level - 1, 1, -1):
        node_there = node("n%d" % above, node_there)
    return node_there


# Bytes


def tokens(node, offset_of, fill=b"\0"):
    """The tokens of a node, and HERE before the begin tokens of marked ones; `offset_of` gives a name's offset."""
    parts = [HERE] if node.marked else []
    parts.append(begin(node.name, fill))
    parts.extend(prop(offset_of(name), value, fill=fill) for name, value in node.properties)
    for child in node.children:
        parts.extend(tokens(child, offset_of, fill))
    return [*parts, END_NODE]


def shared_strings(strings):
    """As dtc has it: a name is added to the strings where none of them has it as its ending."""

    def offset_of(name):
        if name + b"\0" not in strings:
            strings.extend(name + b"\0")
        return strings.index(name + b"\0")

    return offset_of


def flat(root):
    """The bytes that dtc makes of the root's source, and the places of the marked nodes."""
    strings = bytearray()
    structure, places = joined([*tokens(root, shared_strings(strings)), END])
    strings_at = DTC_START + len(structure)
    layout = {"total": strings_at + len(strings), "structure_at": DTC_START, "strings_at": strings_at}
    whole = tree(structure, bytes(strings), **layout)
    return whole[:40] + RESERVE + whole[40:], [DTC_START + place for place in places]


# Sources


def source_lines(node, indent):
    yield indent + (node.name.decode("ascii") or "/") + " {"
    for name, value in node.properties:
        given = " = [%s]" % value.hex(" ") if value else ""
        yield "%s\t%s%s;" % (indent, name.decode("ascii"), given)
    for child in node.children:
        yield from source_lines(child, indent + "\t")
    yield indent + "};"


def source(root):
    """The text of a .dts file."""
    return "\n".join(["/dts-v1/;", "", *source_lines(root, ""), ""])
