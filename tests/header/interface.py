"""What a C interface is, as both sides are brought to: constants, structs, functions.

A type is the name of an integer type of C, the name of a struct, `Array` of a type, or `Bytes`, a lent buffer."""
from typing import NamedTuple


class Array(NamedTuple):
    element: object
    count: int


class Bytes(NamedTuple):
    writable: bool


class Function(NamedTuple):
    answer: object
    parameters: list  # of (name, type)


class Interface(NamedTuple):
    constants: dict  # name: number
    structs: dict  # name: list of (field, type)
    functions: dict  # name: Function


INTEGERS = {"uint8_t": 1, "uint16_t": 2, "uint32_t": 4, "uint64_t": 8, "size_t": 8}


def layout(interface, kind):
    """The size and the alignment of a type, by the rules of C."""
    if isinstance(kind, Array):
        size, alignment = layout(interface, kind.element)
        return size * kind.count, alignment
    if kind in INTEGERS:
        return INTEGERS[kind], INTEGERS[kind]
    size, alignment, _ = struct_layout(interface, kind)
    return size, alignment


def struct_layout(interface, name):
    """The size, the alignment and the fields' offsets of a struct."""
    at, widest, offsets = 0, 1, {}
    for field, kind in interface.structs[name]:
        size, alignment = layout(interface, kind)
        at = -(-at // alignment) * alignment
        offsets[field] = at
        at += size
        widest = max(widest, alignment)
    return -(-at // widest) * widest, widest, offsets


def differences(wanted, found):
    """A line for each difference of two interfaces."""
    lines = []
    for what in Interface._fields:
        mine, theirs = getattr(wanted, what), getattr(found, what)
        for name in sorted(mine.keys() | theirs.keys()):
            if name not in theirs:
                lines.append(f"{what}: the header has no {name}")
            elif name not in mine:
                lines.append(f"{what}: the header's {name} is not in the code")
            elif mine[name] != theirs[name]:
                lines.append(f"{what}: {name} is {mine[name]} in the code and {theirs[name]} in the header")
    return lines
