"""The interface as the Rattle code has it: what crates/capi_c exports, and the structs and limits of the crates behind it."""
import re
from pathlib import Path

from interface import Array, Bytes, Function, Interface

TYPES = {"u8": "uint8_t", "u16": "uint16_t", "u32": "uint32_t", "u64": "uint64_t", "usize": "size_t"}

# The limits and editions that the header names: crate and constant. Others that are public concern the crates alone.
LIMITS = [
    ("header", "HEADER_BYTES"),
    ("header", "LARGEST_TREE"),
    ("walk", "MOST_LEVELS"),
    ("names", "MOST_NODE_NAME"),
    ("names", "MOST_PROPERTY_NAME"),
    ("record", "MOST_FEATURES"),
    ("record", "MOST_DEPENDENCIES"),
    ("record", "SLOTS"),
    ("record", "HIGHEST_HFSCR_BIT"),
    ("record", "HIGHEST_FSCR_BIT"),
    ("record", "HIGHEST_HWCAP_BIT"),
    ("positions", "WORDS"),
    ("tables", "TABLE_WORDS"),
    ("sizes", "MOST_SIZES"),
    ("sizes", "LARGEST_EXPONENT"),
    ("sizes", "NO_SIZE"),
    ("segments", "MOST_DESCRIPTORS"),
    ("segments", "MOST_PAGES"),
    ("attributes", "MOST_BYTES"),
    ("attributes", "LATER_BYTES"),
    ("attributes", "EDITION_FIRST"),
    ("attributes", "EDITION_LATER"),
    ("unit", "MOST_DIGITS"),
    ("unit", "LARGEST_UNIT"),
    ("capi", "CPU_BLOCK"),
    ("capi", "PARENT_BLOCK"),
]

# Parameters that have a longer name in the header.
PARAMETERS = {"r": "record", "g": "grants"}


def texts(crates):
    """The text of each crate, without its comments."""
    return {
        folder.name: "".join(re.sub(r"//.*", "", file.read_text()) for file in sorted(folder.glob("src/*.rt")))
        for folder in sorted(Path(crates).iterdir())
        if (folder / "src").is_dir()
    }


class Sources:
    def __init__(self, crates):
        self.texts = texts(crates)
        self.values = {}
        for crate, text in self.texts.items():
            for name, value in re.findall(r"\bconst (\w+): \w+ = ([^;\[{]+);", text):
                self.values.setdefault(name, {})[crate] = value
        self.repr_c = {}
        for crate, text in self.texts.items():
            for name, body in re.findall(r"#\[repr\(C\)\]\s*(?:#\[[^\]]*\]\s*)*pub struct (\w+) \{(.*?)\}", text, re.S):
                if name in self.repr_c:
                    raise ValueError(f"two structs for C have the name {name}")
                self.repr_c[name] = (crate, body)

    def constant(self, crate, name):
        """The number of a constant that a crate declares or brings in by `use`."""
        declared = self.values[name]
        if crate not in declared:
            crate = re.search(rf"\buse (\w+)::(?:{name}|\{{[^}}]*\b{name}\b[^}}]*\}});", self.texts[crate]).group(1)
        return self.number(crate, declared[crate])

    def number(self, crate, text):
        result = 1
        for factor in text.split("*"):
            factor = factor.strip()
            result *= self.constant(crate, factor) if re.fullmatch(r"[A-Z]\w*", factor) else int(factor.replace("_", ""), 0)
        return result

    def enum(self, crate, name):
        """The variants of an enum whose variants hold nothing."""
        body = re.search(rf"pub enum {name} \{{(.*?)\}}", self.texts[crate], re.S).group(1)
        return [variant.strip() for variant in body.split(",") if variant.strip()]

    def kind(self, crate, text):
        """The type that a type's text stands for."""
        text = text.strip()
        array = re.fullmatch(r"\[(\w+); (\w+)\]", text)
        if array:
            return Array(self.kind(crate, array.group(1)), self.number(crate, array.group(2)))
        if text in ("&[u8]", "&mut [u8]"):
            return Bytes(text.startswith("&mut"))
        if text in TYPES:
            return TYPES[text]
        if text not in self.repr_c:
            raise ValueError(f"{text} of crate {crate} cannot go to C")
        return prefixed(text)

    def fields(self, name):
        crate, body = self.repr_c[name]
        return [(field, self.kind(crate, kind)) for field, kind in re.findall(r"pub (\w+): ([^,]+),", body)]

    def same_clauses(self):
        """Each function of `capi` is an export of `capi_c`, of the same signature and clauses, and there is no other."""
        heads = {}
        for crate, before in (("capi", "pub fn"), ("capi_c", '#[unsafe(no_mangle)] pub extern "C" fn')):
            text = re.sub(r"(?<=\() |,? (?=\))", "", " ".join(self.texts[crate].split()))
            heads[crate] = set(re.findall(re.escape(before) + r" (yebkuzan_\w+\(.*?\}) \{ ", text))
            if len(heads[crate]) != text.count(before):
                raise ValueError(f"not every function of {crate} reads")
        if heads["capi"] != heads["capi_c"]:
            names = sorted({head.split("(")[0] for head in heads["capi"] ^ heads["capi_c"]})
            raise ValueError(f"capi and capi_c differ in {', '.join(names)}")

    def functions(self):
        self.same_clauses()
        found = {}
        for name, parameters, answer in re.findall(
            r"#\[unsafe\(no_mangle\)\]\s*pub extern \"C\" fn (\w+)\((.*?)\) -> (\w+)", self.texts["capi_c"], re.S
        ):
            pairs = [p.split(":") for p in parameters.split(",") if p.strip()]
            found[name] = Function(
                self.kind("capi_c", answer), [(PARAMETERS.get(p.strip(), p.strip()), self.kind("capi_c", k)) for p, k in pairs]
            )
        return found


def prefixed(name):
    return name if name.startswith("Yebkuzan") else "Yebkuzan" + name


def capitals(name):
    """TreeLength as TREE_LENGTH."""
    return re.sub(r"(?<=[a-z0-9])(?=[A-Z])", "_", name).upper()


def constants(sources):
    found = {f"YEBKUZAN_{name}": sources.constant(crate, name) for crate, name in LIMITS}
    found["YEBKUZAN_REFUSAL_NONE"] = 0
    for number, variant in enumerate(sources.enum("refusal", "Refusal"), start=1):
        found[f"YEBKUZAN_REFUSAL_{capitals(variant)}"] = number
    for bit, variant in enumerate(sources.enum("record", "Property")):
        found[f"YEBKUZAN_GIVEN_{capitals(variant)}"] = 1 << bit
    found["YEBKUZAN_LEVEL_USER"] = 0
    found["YEBKUZAN_LEVEL_SYSTEM"] = sources.constant("permitted", "SYSTEM")
    found["YEBKUZAN_LEVEL_HYPERVISOR"] = sources.constant("permitted", "HYPERVISOR")
    found["YEBKUZAN_PROPERTY_HEAD"] = sources.constant("lookup", "HEAD")
    found["YEBKUZAN_UNIT_TEXT_BYTES"] = len(f"{sources.constant('unit', 'LARGEST_UNIT'):x}")
    return found


def structs(sources, functions):
    """The structs that the functions take and answer, and those that these hold."""
    found = {}
    plain = {prefixed(name): name for name in sources.repr_c}

    def add(kind):
        if isinstance(kind, Array):
            add(kind.element)
        elif kind in plain and kind not in found:
            found[kind] = sources.fields(plain[kind])
            for _, field in found[kind]:
                add(field)

    for function in functions.values():
        add(function.answer)
        for _, kind in function.parameters:
            add(kind)
    return found


def interface(crates):
    sources = Sources(crates)
    functions = sources.functions()
    return Interface(constants(sources), structs(sources, functions), functions)
