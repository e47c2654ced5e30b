"""Runs the commands in README.md and docs/, and compares what they print with what stands there.

A block that is fenced as console holds commands, each after "$ ", and under each its whole output;
they run one after another in a folder of the document's own that has the repository's ti, examples,
include and crates. A block fenced as c or rust begins with a comment that names the file that it is
put into.
"""

import os
import re
import subprocess
import sys
import tempfile
from pathlib import Path

ROOT = Path(__file__).resolve().parent.parent
FENCED = re.compile(r"^```(console|c|rust)\n(.*?)^```$", re.MULTILINE | re.DOTALL)
NAMED = re.compile(r"^(?:/\*|//) (\S+)")


def commands(block):
    """Each command of a block, and the output under it."""
    for part in re.split(r"^\$ ", block, flags=re.MULTILINE)[1:]:
        command, _, output = part.partition("\n")
        yield command, output


def run(document, folder):
    """Runs the commands of a document; how many there are."""
    count = 0
    for kind, block in FENCED.findall(document.read_text(encoding="utf-8")):
        if kind != "console":
            (folder / NAMED.match(block)[1]).write_text(block, encoding="utf-8")
            continue
        for command, output in commands(block):
            done = subprocess.run(["sh", "-c", command], cwd=folder, stdout=subprocess.PIPE,
                                  stderr=subprocess.STDOUT, check=False)
            printed = done.stdout.decode("utf-8")
            if printed != output:
                sys.exit(f"{document.name}: $ {command}\nprinted\n{printed}instead of\n{output}")
            count += 1
    return count


def main():
    total = 0
    for document in [ROOT / "README.md", *sorted((ROOT / "docs").glob("*.md"))]:
        with tempfile.TemporaryDirectory() as name:
            folder = Path(name)
            for part in ("ti", "examples", "include", "crates"):
                os.symlink(ROOT / part, folder / part)
            total += run(document, folder)
    print(f"{total} commands of the documents print what stands there")


main()
