"""Writes the trees that bench/run measures, as dtc builds them: trees.py DIRECTORY."""

import pathlib
import string
import subprocess
import sys

LARGEST = 65536
SOURCE = pathlib.Path(__file__).parent / "trees" / "power9-opal.dts"


def compiled(text):
    """The bytes of a tree from its source."""
    result = subprocess.run(["dtc", "-q", "-I", "dts", "-O", "dtb"], input=text.encode(), stdout=subprocess.PIPE, check=True)
    return result.stdout


def device(k):
    """A node like those of a real tree, with eight properties."""
    return f"""
    device@{k:x} {{
        compatible = "ibm,device", "ibm,generic-device";
        device_type = "device";
        reg = <0 {k} 0 0x1000>;
        status = "okay";
        interrupts = <{k} 4>;
        interrupt-parent = <1>;
        ibm,chip-id = <0>;
        ibm,loc-code = "U78D3.001.WZS00-P1-C{k}";
    }};
"""


def feature(k):
    needs = f"dependencies = <{k}>;" if k % 3 == 2 else ""
    return f"""
        feature-{k} {{
            isa = <3000>;
            usable-privilege = <7>;
            hwcap-bit-nr = <{k}>;
            phandle = <{k + 1}>;
            {needs}
        }};
"""


def few_features(devices):
    """A tree of eight features and so many devices."""
    features = "".join(feature(k) for k in range(8))
    return f"""/dts-v1/;
/ {{
    ibm,powerpc-cpu-features {{
        device_type = "cpu-features";
        compatible = "ibm,powerpc-cpu-features";
        isa = <3000>;
        {features}
    }};
    {"".join(device(k) for k in range(devices))}
}};
"""


def real(devices):
    """The real tree, and so many devices."""
    text = SOURCE.read_text()
    end = text.rindex("};")
    return text[:end] + "".join(device(k) for k in range(devices)) + text[end:]


def of_size(source, size):
    """The largest tree of at most so many bytes that a source gives, by its number of devices."""
    some, more = len(compiled(source(1))), len(compiled(source(201)))
    devices = max(0, (size - some) * 200 // (more - some))
    while len(compiled(source(devices))) > size:
        devices -= 1
    return compiled(source(devices))


def distinct_names(many):
    """One node with so many properties, all of distinct names and no bytes."""
    letters = string.ascii_lowercase
    names = [a + b + c for a in letters for b in letters for c in letters][:many]
    return "/dts-v1/;\n/ {\n" + "".join(f"    {n};\n" for n in names) + "};\n"


def worst():
    """The tree of one node with the most properties: dtc lays out 12 bytes for each, and four of its name."""
    many = (LARGEST - 128) // 16
    while len(compiled(distinct_names(many))) > LARGEST:
        many -= 1
    return compiled(distinct_names(many))


def main():
    directory = pathlib.Path(sys.argv[1])
    trees = {"26": compiled(SOURCE.read_text()), "64": of_size(real, LARGEST), "worst": worst()}
    for kilobytes in (4, 8, 16, 32, 64):
        trees[f"size-{kilobytes:02}"] = of_size(few_features, kilobytes * 1024)
    for name, tree in trees.items():
        (directory / f"{name}.dtb").write_bytes(tree)


if __name__ == "__main__":
    main()
