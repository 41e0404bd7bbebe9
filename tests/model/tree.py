"""Header, walk and property lookup: document 01's "The walk" and "CPU properties and unit text", with the length of
property names that A13 of document 02 allows, restated in Python.

`check` gives (number, place) of a lent tree: the first fault of header or walk, or (0, 0). `read` gives the nodes of an
accepted one beside it, and `containers` the offsets of those that bear the container's name. `lookup` looks for a
property in two blocks of properties.

A block is first cut into tokens, as far as that can be done; the walk then goes through the list of tokens with a
table of what is in place in which state, and a stack of the nodes that are open. Codes such as W2 and P1 name
readings of document 01.

Standard library only, Python 3.9 or later.
"""

import collections
import re

from model.refusals import (
    ACCEPTED,
    BLOCK_BOUNDS,
    GIVEN_TWICE,
    MAGIC,
    NAME,
    NOT_THERE,
    TOKEN,
    TOO_MANY,
    TREE_LENGTH,
    TREE_SIZE,
    VERSION,
)

HEADER_BYTES = 40
MOST_TREE_BYTES = 65536
MOST_LEVELS = 16

CONTAINER = b"ibm,powerpc-cpu-features"

# A node name has 1 to 63 characters in all, and so has a property name (document 02, A13).
NODE_NAME = re.compile(rb"(?=.{1,63}\Z)[0-9A-Za-z,._+-]+(@[0-9A-Za-z,._+-]+)?", re.DOTALL)
PROPERTY_NAME = re.compile(rb"[0-9A-Za-z,._+?#-]{1,63}")


def cell(data, at):
    """The big-endian cell at a place."""
    return int.from_bytes(data[at : at + 4], "big")


def string(data, at):
    """The characters from a place up to the next zero byte; None if the data has no such byte from there on."""
    end = data.find(b"\0", at)
    return None if end < 0 else data[at:end]


def up_to_four(number):
    """The next multiple of four."""
    return -(-number // 4) * 4


# Header

Header = collections.namedtuple(
    "Header",
    "magic total structure_at strings_at reserve_at version last_compatible boot_cpu strings_size structure_size",
)


def read_header(tree):
    return Header(*(cell(tree, at) for at in range(0, HEADER_BYTES, 4)))


def within(header, at, size):
    """A block lies behind the header, and ends at the total size at the latest. Python's sums do not wrap (H1)."""
    return HEADER_BYTES <= at and at + size <= header.total


def header_fault(tree):
    """(number, place) of the first header check that fails, or (0, 0)."""
    if len(tree) < HEADER_BYTES:
        return TREE_LENGTH, 0
    header = read_header(tree)
    aligned = header.structure_at % 4 == 0 and header.structure_size % 4 == 0
    checks = (
        (header.magic == 0xD00DFEED, MAGIC, 0),
        (header.total <= MOST_TREE_BYTES, TREE_SIZE, 4),
        (HEADER_BYTES <= header.total <= len(tree), TREE_LENGTH, 4),
        (header.version >= 17, VERSION, 20),
        (header.last_compatible <= 17, VERSION, 24),
        (within(header, header.structure_at, header.structure_size) and aligned, BLOCK_BOUNDS, 8),
        (within(header, header.strings_at, header.strings_size), BLOCK_BOUNDS, 12),
    )
    for good, number, place in checks:
        if not good:
            return number, place
    return ACCEPTED, 0


# Tokens

BEGIN, END_NODE, PROPERTY, NOP, END = 1, 2, 3, 4, 9

# What is no token in any place: unknown, cut short, or an end token with something after it (W2).
FAULTY = None

# `at` counts from the start of the block. `name` is a node's name, None if it has no end; `name_at` is the place of
# a property's name in the strings block; `length` runs from the token to the last byte of a property's value.
Token = collections.namedtuple("Token", "kind at name name_at length", defaults=(None, None, None))


def token_at(block, at):
    """The token at a place, and the place after it. Padding belongs to it, whatever its bytes are."""
    left = len(block) - at
    kind = cell(block, at) if left >= 4 else FAULTY
    if kind == BEGIN:
        name = string(block, at + 4)
        behind = len(block) if name is None else up_to_four(at + 4 + len(name) + 1)
        return Token(BEGIN, at, name=name), behind
    if kind == PROPERTY and left >= 12:
        length = 12 + cell(block, at + 4)
        behind = up_to_four(at + length)
        if behind <= len(block):
            return Token(PROPERTY, at, name_at=cell(block, at + 8), length=length), behind
    if kind in (END_NODE, NOP) or (kind == END and left == 4):
        return Token(kind, at), at + 4
    return Token(FAULTY, at), len(block)


def tokens(block):
    """All tokens of a block, up to the first that is faulty whatever stands before it."""
    found = []
    behind = 0
    while behind < len(block):
        token, behind = token_at(block, behind)
        found.append(token)
    return found


def property_name(token, strings):
    """The name of a property, or None where it is not as document 01 says (W8)."""
    name = string(strings, token.name_at)
    return name if name is not None and PROPERTY_NAME.fullmatch(name) else None


# The walk

BEFORE_ROOT, PROPERTIES, CHILDREN, AFTER_ROOT, DONE = range(5)

# NOP is in place everywhere. PROPERTIES: in a node that has no child yet; CHILDREN: in one that has.
IN_PLACE = {
    BEFORE_ROOT: {BEGIN},
    PROPERTIES: {PROPERTY, BEGIN, END_NODE},
    CHILDREN: {BEGIN, END_NODE},
    AFTER_ROOT: {END},
}

# `at` is the place of the begin token, `parent` the index of the node that holds it, None for the root; `properties`
# are values by name.
Node = collections.namedtuple("Node", "at parent name properties")


def walk(block, strings):
    """(number, place in the block, nodes in tree order) of a structure block; `at` counts from the block's start."""
    state = BEFORE_ROOT
    nodes = []
    open_nodes = []  # their indices
    for token in tokens(block):
        if token.kind == NOP:
            continue
        if token.kind not in IN_PLACE[state]:
            return TOKEN, token.at, []
        if token.kind == BEGIN:
            if token.name is None:
                return NAME, token.at, []
            if not (NODE_NAME.fullmatch(token.name) if open_nodes else token.name == b""):
                return NAME, token.at, []
            if len(open_nodes) == MOST_LEVELS:
                return TOO_MANY, token.at, []
            parent = open_nodes[-1] if open_nodes else None
            open_nodes.append(len(nodes))
            nodes.append(Node(token.at, parent, token.name, {}))
            state = PROPERTIES
        elif token.kind == PROPERTY:
            name = property_name(token, strings)
            if name is None:
                return NAME, token.at, []
            given = nodes[open_nodes[-1]].properties
            if name in given:
                return GIVEN_TWICE, token.at, []
            given[name] = block[token.at + 12 : token.at + token.length]
        elif token.kind == END_NODE:
            open_nodes.pop()
            state = CHILDREN if open_nodes else AFTER_ROOT
        else:
            state = DONE
    if state != DONE:
        return TOKEN, len(block), []
    return ACCEPTED, 0, nodes


def read(tree):
    """(number, place, nodes in tree order) of a lent tree; no nodes of a refused one."""
    number, place = header_fault(tree)
    if number:
        return number, place, []
    header = read_header(tree)
    block = tree[header.structure_at :][: header.structure_size]
    strings = tree[header.strings_at :][: header.strings_size]
    number, place, nodes = walk(block, strings)
    if number:
        return number, header.structure_at + place, []
    return ACCEPTED, 0, [node._replace(at=header.structure_at + node.at) for node in nodes]


def check(tree):
    """(number, place) of a lent tree, up to the end of the walk."""
    return read(tree)[:2]


def containers(tree):
    """The offsets of the begin tokens of the container's name, in tree order; none in a refused tree."""
    return [node.at for node in read(tree)[2] if node.name == CONTAINER]


# Property lookup


def properties(block, strings):
    """(number, token by name) of a block of properties, read to its end (P1)."""
    found = {}
    for token in tokens(block):
        if token.kind == NOP:
            continue
        if token.kind != PROPERTY:
            return TOKEN, {}
        name = property_name(token, strings)
        if name is None:
            return NAME, {}
        if name in found:
            return GIVEN_TWICE, {}
        found[name] = token
    return ACCEPTED, found


def lookup(cpu_block, parent_block, strings, name):
    """(number, which, offset, length): the part of the CPU node's block (1) or of its parent's (2), or zeros."""
    readings = [properties(block, strings) for block in (cpu_block, parent_block)]
    for number, _ in readings:
        if number:
            return number, 0, 0, 0
    for which, (_, found) in enumerate(readings, 1):
        if name in found:
            return ACCEPTED, which, found[name].at, found[name].length
    return NOT_THERE, 0, 0, 0
