"""Names the description of 600 bytes or more that takes the most instructions per byte to compile.

    worst.py FOLDER TEXTS

FOLDER has the profiles call.1 and so on that callgrind wrote before each call, of three rounds over the
texts of the file TEXTS, each of which has a NUL behind it. The calls of the second round count.
"""

import re
import sys
from pathlib import Path

LEAST = 600
SUMMARY = re.compile(r"^summary: (\d+)$", re.MULTILINE)


def instructions(folder, call):
    """What a call took, counted from 1: it is in the profile that was written before the next one."""
    return int(SUMMARY.search((folder / f"call.{call + 1}").read_text(encoding="utf-8"))[1])


def main(folder, texts):
    texts = Path(texts).read_bytes().split(b"\0")[:-1]
    figures = []
    for call, text in enumerate(texts, len(texts) + 1):
        if len(text) >= LEAST:
            name = text.split(b"|")[0].decode("ascii")
            figures.append((instructions(Path(folder), call) / len(text), len(text), name))
    figure, size, name = max(figures)
    print(f"- compile all: the worst description of {LEAST} bytes or more is {name} "
          f"({size:,} bytes) with {figure:.1f} instructions per byte;")


main(*sys.argv[1:])
