"""The interface as the C header has it."""
import re

from interface import Array, Bytes, Function, INTEGERS, Interface


class Header:
    def __init__(self, text):
        text = re.sub(r"/\*.*?\*/", " ", text, flags=re.S)
        self.constants = {}
        for name, value in re.findall(r"^#define (\w+) +(\S+) *$", text, re.M):
            if name in self.constants:
                raise ValueError(f"{name} is defined twice")
            self.constants[name] = int(value.rstrip("u"), 0)
        text = re.sub(r"^#.*$", "", text, flags=re.M).replace('extern "C" {', "")
        self.structs = {}
        for tag, body, name in re.findall(r"typedef struct (\w+) \{(.*?)\} (\w+);", text, re.S):
            if tag != name or name in self.structs:
                raise ValueError(f"struct {tag} {name}")
            self.structs[name] = [self.field(line) for line in body.split(";") if line.strip()]
        text = re.sub(r"typedef struct (\w+) \{(.*?)\} (\w+);", "", text, flags=re.S)
        self.functions = {}
        for declaration in (part.strip() for part in text.split(";")):
            if declaration in ("", "}"):
                continue
            answer, name, parameters = re.fullmatch(r"(\w+) (\w+)\((.*)\)", declaration, re.S).groups()
            if name in self.functions:
                raise ValueError(f"{name} is declared twice")
            self.functions[name] = Function(self.kind(answer), self.parameters(parameters))

    def kind(self, name):
        if name not in INTEGERS and name not in self.structs:
            raise ValueError(f"{name} is no type")
        return name

    def field(self, text):
        kind, name, count = re.fullmatch(r"(\w+) (\w+)(?:\[(\w+)\])?", text.strip()).groups()
        if count is None:
            return name, self.kind(kind)
        number = self.constants[count] if count in self.constants else int(count.rstrip("u"), 0)
        return name, Array(self.kind(kind), number)

    def parameters(self, text):
        """Parameters; a pointer and the length after it are one lent buffer."""
        found, pointer = [], None
        for part in text.split(","):
            part = " ".join(part.split())
            lent = re.fullmatch(r"(const )?uint8_t \*(\w+)", part)
            kind, name = (None, lent.group(2)) if lent else part.split(" ")
            if pointer and part != f"size_t {pointer[0]}_length":
                raise ValueError(f"{part} is not the length of {pointer[0]}")
            if lent:
                pointer = (name, Bytes(lent.group(1) is None))
            elif pointer:
                found.append(pointer)
                pointer = None
            else:
                found.append((name, self.kind(kind)))
        if pointer:
            raise ValueError(f"{pointer[0]} has no length")
        return found


def interface(text):
    header = Header(text)
    return Interface(header.constants, header.structs, header.functions)
