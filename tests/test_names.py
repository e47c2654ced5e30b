"""The constants of include/terminfo_names.h against the library: each has the place that its name has.

First, that the header is what include/generate writes, and the counts of both editions. Then its
constants, as a C compiler sees them, against terminfo_capability at every place of the three lists,
and terminfo_find of every name in both editions, in one that ends before the name's place and in one
that ends with it.
"""

import re
import struct
import subprocess
import sys

import library
import model

HEADER = library.ROOT / "include" / "terminfo_names.h"
PREFIX = "TERMINFO_"
EDITIONS = {"FIRST": model.FIRST_EDITION, "SECOND": model.SECOND_EDITION}
UNKNOWN = library.pack(11, kind=library.REFUSED)
ENUM = re.compile(r"^enum \{\n(.*?)^\};$", re.MULTILINE | re.DOTALL)


def same(found, expected, where):
    if found != expected:
        sys.exit(f"{where}: {found} instead of {expected}")


def values(constants):
    """The value of each constant by the compiler."""
    program = "#include <stdio.h>\n#include \"terminfo_c.h\"\nint main(void) {\n"
    program += "".join(f'    printf("%d\\n", {constant});\n' for constant in constants)
    made = library.ROOT / "target" / "tests" / "names"
    subprocess.run(["gcc", "-I", library.ROOT / "include", "-o", made, "-x", "c", "-"],
                   input=program + "    return 0;\n}\n", text=True, check=True)
    return [int(line) for line in subprocess.check_output([made], text=True).split()]


def check(kind, place, constant):
    """One constant: its place's name, and its name's place in four editions."""
    name = constant.removeprefix(PREFIX).lower().encode()
    packed, = struct.unpack("<Q", name.ljust(8, b"\0"))
    same(library.capability(kind, place), packed, f"{constant}, the name of its place")
    there = library.pack(kind=kind, value=place)
    edition = [0, 0, 0]
    for edition[kind], expected in (place, UNKNOWN), (place + 1, there):
        same(library.find(name, edition), expected, f"{constant} in the edition {edition}")
    for edition in EDITIONS.values():
        same(library.find(name, edition), there if place < edition[kind] else UNKNOWN,
             f"{constant} in the edition {edition}")


def main():
    subprocess.run([library.ROOT / "include" / "generate", "--check"], check=True)
    text = HEADER.read_text(encoding="utf-8")
    enums = [re.findall(r"\w+(?= =)", enum) for enum in ENUM.findall(text)]
    same(len(enums), len(model.LISTS), "enums")
    for name, edition in EDITIONS.items():
        given = f"#define {PREFIX}{name}_EDITION " + ", ".join(map(str, edition)) + "\n"
        same(given in text, True, given)
        counts = [f"{PREFIX}{name}_{kind}S" for kind in ("BOOLEAN", "NUMBER", "STRING")]
        same(values(counts), list(edition), f"counts of {name}")
    for kind, (constants, count) in enumerate(zip(enums, model.SECOND_EDITION)):
        same(len(constants), count, f"constants of kind {kind}")
        same(values(constants), list(range(count)), f"constants of kind {kind}")
        for place, constant in enumerate(constants):
            check(kind, place, constant)
        same(library.capability(kind, count), library.pack(17), f"the name after kind {kind}")
    print(f"{sum(map(len, enums))} constants have the places of their names")


main()
