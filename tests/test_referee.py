"""Holds docs/REFEREE.md to the files that it lists: each exists and has the lines that stand beside it,
no line of them is wider than 120 characters, and the sums are those that the document gives.
"""

import re
import sys
from pathlib import Path

ROOT = Path(__file__).resolve().parent.parent
ROW = re.compile(r"^\| `([^`]+)` \| (\d+) \|", re.MULTILINE)
SUM = re.compile(r"^In all (\d+) lines .* first five parts have (\d+) lines", re.MULTILINE)
OTHER = ("--", "use ", "pub use ")


def main():
    text = (ROOT / "docs/REFEREE.md").read_text(encoding="utf-8")
    wrong, total, rows = [], 0, ROW.findall(text)
    definitions, first_parts = 0, dict(ROW.findall("## ".join(text.split("\n## ")[:6])))
    for name, count in rows:
        file = ROOT / "crates" / name
        if not file.is_file():
            wrong.append(f"{name}: no such file")
            continue
        lines = file.read_text(encoding="utf-8").split("\n")[:-1]
        total += len(lines)
        if name in first_parts:
            definitions += sum(bool(line.strip()) and not line.strip().startswith(OTHER) for line in lines)
        if len(lines) != int(count):
            wrong.append(f"{name}: {len(lines)} lines, and {count} stand beside it")
        wrong += [f"{name}:{at}: {len(line)} characters" for at, line in enumerate(lines, 1) if len(line) > 120]
    said = SUM.search(text)
    if not said or (int(said[1]), int(said[2])) != (total, definitions):
        wrong.append(f"the sums are {total} and {definitions}")
    if wrong:
        sys.exit("\n".join(wrong))
    print(f"{len(rows)} files to believe, {total} lines, {definitions} of definitions in the first parts")


main()
