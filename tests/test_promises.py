"""Holds docs/PROMISES.md and the must-fail edits to each other, and crates.txt to what crates name.

Each edit of crates/CRATE/must-fail is named in PROMISES as `CRATE/LABEL`, and each name of that form is
an edit, a file or a folder below crates/. A crate lists the crates that its files name, and no other.
"""

import re
import sys
from itertools import chain
from pathlib import Path

ROOT = Path(__file__).resolve().parent.parent
CRATES = ROOT / "crates"
KIT = ("std", "check", "libc", "io", "os", "bytes")


def braces(word):
    """The words that a{b,c}d stands for."""
    found = re.match(r"^(.*)\{([^}]*)\}(.*)$", word)
    if not found:
        return [word]
    return [w for part in found[2].split(",") for w in braces(found[1] + part.strip() + found[3])]


def promised():
    """Each `CRATE/LABEL` that stands behind "Must fail:"."""
    text = (ROOT / "docs/PROMISES.md").read_text(encoding="utf-8")
    names = set()
    for part in re.findall(r"^ +- Must fail: (.*?)(?=^ *- |^$|\Z)", text, re.MULTILINE | re.DOTALL):
        for word in re.findall(r"`([^`]+)`", part):
            names.update(w for w in braces(word) if re.fullmatch(r"\w+/\w+", w))
    return names


def named(crate, listed):
    """The crates that a crate's files name."""
    names, called, of_std = set(), set(), set()
    for file in chain(*((CRATES / crate / part).rglob("*") for part in ("src", "specs", "proofs"))):
        if file.suffix not in (".rt", ".antt"):
            continue
        text = file.read_text(encoding="utf-8")
        names.update(re.findall(r"Rattle\.(\w+)\.", text))
        if file.suffix == ".rt":
            code = "\n".join(line.split("//")[0] for line in text.split("\n"))
            called.update(re.findall(r"(?<![\w:])([a-z_]\w*)::", code))
            for use in re.findall(r"\buse std::([^;]*);", code):
                of_std.update(re.findall(r"(\w+)::\{self\b", use), re.findall(r"\w+", re.sub(r"\w+::", "", use)))
    own = {file.stem for file in (CRATES / crate / "src").rglob("*.rt")}
    names |= called - of_std  # `io::Error` behind `use std::io` names no crate
    return {name for name in names if name in listed or name in KIT} - own - {crate, "std"}


def main():
    wrong = []
    edits = {f"{file.parts[-3]}/{file.stem}" for file in CRATES.glob("*/must-fail/*.edit")}
    wrong += [f"{edit}: an edit that no promise names" for edit in sorted(edits - promised())]
    wrong += [f"{edit}: promised, and there is no such edit" for edit in sorted(promised() - edits)]
    listed = {}
    for line in (ROOT / "crates.txt").read_text(encoding="utf-8").split("\n"):
        line = line.split("#")[0]
        if line.strip():
            crate, _, names = line.partition(":")
            listed[crate.split()[0]] = set(names.split())
    for crate, names in listed.items():
        has = named(crate, listed)
        wrong += [f"crates.txt: {crate} names {name} and doesn't list it" for name in sorted(has - names)]
        wrong += [f"crates.txt: {crate} lists {name} and doesn't name it" for name in sorted(names - has)]
    if wrong:
        sys.exit("\n".join(wrong))
    print(f"{len(edits)} edits are promised, {len(listed)} crates list what they name")


main()
