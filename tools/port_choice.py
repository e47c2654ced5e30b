#!/usr/bin/env python3
"""Names the repository's choice by a test `when◌then◌else◌`, since `if◌then◌else◌` is the library's own.

Run once, after port_names.py, at the top: in definitions, proofs, clauses and must-fail edits.
"""
import os
import re

CRATES = "crates"
WORD = re.compile(r"(?<![\w.'«◌-])if(?![\w'»-])")
CLAUSE = re.compile(r"^ *(?:requires|ensures)\*?(?: \w+)? \{")


def of_line(line):
    """The line, but for its comment and its texts."""
    code, mark, comment = line.partition("--")
    parts = re.split(r'("[^"]*")', code)
    return "".join(p if p.startswith('"') else WORD.sub("when", p) for p in parts) + mark + comment


def of_source(text):
    """The clauses of a source and its imports."""
    lines, depth = [], 0
    for line in text.split("\n"):
        if depth or CLAUSE.match(line):
            depth += line.count("{") - line.count("}")
            line = of_line(line)
        elif line.startswith("ghost use"):
            line = of_line(line)
        lines.append(line)
    return "\n".join(lines)


def of_edit(text):
    file = re.search(r"^file: (\S+)", text, re.MULTILINE)
    if not file or not file[1].endswith(".antt"):
        return text
    lines = text.split("\n")
    return "\n".join(of_line(line) if line.startswith(("old:", "new:")) else line for line in lines)


def main():
    for folder, dirs, names in os.walk(CRATES):
        dirs[:] = sorted(d for d in dirs if d != "out")
        for name in sorted(names):
            path = os.path.join(folder, name)
            turn = {".antt": lambda t: "\n".join(map(of_line, t.split("\n"))), ".rt": of_source, ".edit": of_edit}.get(
                os.path.splitext(name)[1]
            )
            if not turn:
                continue
            with open(path, encoding="utf-8") as file:
                text = file.read()
            new = turn(text).replace("if◌then◌else◌", "when◌then◌else◌")
            if new != text:
                with open(path, "w", encoding="utf-8") as file:
                    file.write(new)


if __name__ == "__main__":
    main()
