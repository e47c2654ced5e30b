"""Writes what bench/run measures into a folder: strings, entries, texts, and notes on them.

A file of strings or texts has a NUL after each one.
"""

import os
import re
import subprocess
import sys
from pathlib import Path

sys.path.insert(0, str(Path(__file__).resolve().parent.parent / "tests"))

import expand_model  # noqa: E402
import model  # noqa: E402
import text_model  # noqa: E402
import text_strings  # noqa: E402
import use_texts  # noqa: E402

ENVIRONMENT = {"PATH": os.environ["PATH"], "LC_ALL": "C"}
MERGED_SIZE = 1100
MIX_ARGUMENTS = [1, 2, 3, 4, 5, 6, 7, 8, 9]
KEY_TEXT = b"make all\r"
KEY_ARGUMENTS = [1, expand_model.Text(0, len(KEY_TEXT)), 0, 0, 0, 0, 0, 0, 0]
MAGIC_OF_WIDE_NUMBERS = 0o1036
PFKEY = b"\x1b&f%p1%dk%p2%l%dL%p2%s"
SETAF = (b"\x1b[%?%p1%{8}%<%t3%p1%d%e%p1%{16}%<%t9%p1%{8}%-%d%e38;5;%p1%d%;m")


def run(*words):
    return subprocess.run(words, env=ENVIRONMENT, capture_output=True, check=True).stdout


def entries():
    """Directory and name of every installed entry."""
    for directory in run("infocmp", "-D").decode().split():
        for path in sorted(Path(directory).glob("?/*")):
            if not path.is_symlink():
                yield directory, path.name


def short(file, at):
    return int.from_bytes(file[at:at + 2], "little")


def strings(file):
    """The strings of a compiled entry before its extended section, by place."""
    width = 4 if short(file, 0) == MAGIC_OF_WIDE_NUMBERS else 2
    names, booleans, numbers, count = (short(file, at) for at in (2, 4, 6, 8))
    slots = 12 + names + booleans + (names + booleans) % 2 + width * numbers
    table = slots + 2 * count
    for place in range(count):
        offset = short(file, slots + 2 * place)
        if offset < 32768:
            yield place, file[table + offset:file.index(b"\0", table + offset)]


def accepted(string, arguments):
    """Whether a string is expanded with these arguments."""
    try:
        expand_model.expand(string, arguments, 26 * [0], 4096, 0, KEY_TEXT)
    except model.Refusal:
        return False
    return True


def recompiled(folder, directory, name):
    """An entry as tic compiles it without an extended section."""
    source = folder / "entry.ti"
    text = run("infocmp", "-1", "-A", directory, name)
    source.write_bytes(text)
    run("tic", "-o", str(folder / "tic"), str(source))
    first = re.search(rb"^[^#|,]+", text, re.MULTILINE)[0].decode("ascii")
    return (folder / "tic" / first[0] / first).read_bytes()


def cut(text, edition):
    """What infocmp -1 prints, cut to an edition's names and document 01's limits and spelling."""
    known = {name for names, count in zip(model.LISTS, edition) for name in names[:count]}
    header, *lines = [line for line in text.split(b"\n") if line and not line.startswith(b"#")]
    *aliases, last = header.removesuffix(b",").split(b"|")
    names = b"".join(alias[:text_model.LONGEST_ALIAS] + b"|" for alias in aliases)
    kept = [names + last[:text_model.LONGEST_NAMES - len(names)] + b","]
    for line in lines:
        name, mark, value = re.fullmatch(rb"\t([^=#@,]+)([=#@]?)(.*),", line).groups()
        if name.decode("ascii") not in known:
            continue
        if mark == b"#" and int(value, 0) > model.LARGEST_SHORT:
            value = b"%d" % model.LARGEST_SHORT
        if mark == b"=":
            value = value.replace(b"%^", b"%\\^")
        kept.append(b"\t" + name + mark + value + b",")
    return b"\n".join(kept) + b"\n"


def compiled(text, edition):
    """The file of a text in an edition."""
    number, values, file = text_model.compile(text, model.LARGEST_FILE, edition)
    if file is None:
        sys.exit(f"refused {number} {values}: {text}")
    return file


def last_slot_bad(file):
    """The file with an offset past any string table in its last string slot."""
    at = len(file) - short(file, 10) - 2
    return file[:at] + b"\xff\x7f" + file[at + 2:]


def text_of_strings(size):
    """A text of a multiple of 128 bytes: 128 bytes for the header, then for each string."""
    header = b"bench|strings in octal,\n"
    lines = [b"#" + (127 - 1 - len(header)) * b"-" + b"\n" + header]
    for name in model.STRINGS[:size // 128 - 1]:
        field = name.encode() + b"=" + 6 * rb"\033\133\061\155" + b",\n"
        lines.append((128 - len(field)) * b" " + field)
    return b"".join(lines)


def fill(start, unit, size):
    """The start, then as many units as fit, then line ends."""
    text = start + (size - len(start)) // len(unit) * unit
    return text + (size - len(text)) * b"\n"


def text_of_aliases(size):
    header = b"|".join(((size - 10) // 2) * [b"a"]) + b"|last,\n"
    return header + (size - len(header)) * b"\n"


def text_of_lines(size):
    """A string that goes on over many lines."""
    return fill(b"bench|one string,\n bel=\n", b" a\n", size - 4).rstrip(b"\n") + b"\n b,\n"


def shared(size):
    """A file of which half is string slots that share one string, which is the other half."""
    count = min(512, size // 4)
    table = size - 14 - 2 * count
    shorts = [0o432, 2, 0, 0, count, table]
    return (b"".join(number.to_bytes(2, "little") for number in shorts) + b"a\0"
            + 2 * count * b"\0" + (table - 1) * b"a" + b"\0")


# Conditionals that are skipped where the first argument is 0: 16 within each other, and 12 in turn.
NESTED = 16 * b"%?%p1%t" + b"x" + 16 * b"%;"
ELSES = b"%?" + 12 * b"%p1%tab%e" + b"c%;"


def put_strings(folder, name, contents):
    (folder / name).write_bytes(b"".join(content + b"\0" for content in contents))


def put_rows(folder):
    """Strings, texts and files of growing size."""
    for size in (10, 100, 1000):
        put_strings(folder, f"items-{size}", [size // 10 * b"%p1%d;abcd"])
        put_strings(folder, f"plain-{size}", [size * b"a"])
    for size in (250, 500, 1000):
        (folder / f"lent-{size}").write_bytes(size * b"a")
    for count in (2, 4, 6):
        put_strings(folder, f"nested-{count}", [count * NESTED])
    for count in (2, 4, 8):
        put_strings(folder, f"elses-{count}", [count * ELSES])
    for kib in (1, 4, 16):
        size = 1024 * kib
        (folder / f"text-{kib}").write_bytes(text_of_strings(size))
        (folder / f"duplicates-{kib}").write_bytes(
            fill(b"bench|duplicates,\n", b" am, cols#80, bel=^G,\n", size))
        (folder / f"aliases-{kib}").write_bytes(text_of_aliases(size))
        (folder / f"lines-{kib}").write_bytes(text_of_lines(size))
        (folder / f"comments-{kib}").write_bytes(fill(b"bench|comments,\n", b"#\n", size))
    for size in (1024, 2048, 4096):
        (folder / f"shared-{size}").write_bytes(shared(size))
    for name, text in use_texts.TEXTS.items():
        (folder / f"uses-{name}").write_bytes(text)


def main(folder):
    (folder / "tic").mkdir(parents=True, exist_ok=True)
    mix, sized, texts, xterm = set(), [], [], None
    for directory, name in entries():
        file = (Path(directory) / name[0] / name).read_bytes()
        mix.update(string for _, string in strings(file)
                   if b"%" in string and accepted(string, MIX_ARGUMENTS))
        printed = run("infocmp", "-1", "-A", directory, name)
        first, second = (cut(printed, edition)
                         for edition in (model.FIRST_EDITION, model.SECOND_EDITION))
        first_edition = compiled(first, model.FIRST_EDITION)
        compiled(second, model.SECOND_EDITION)
        texts.append(second)
        sized.append((abs(len(first_edition) - MERGED_SIZE), name, first_edition))
        if name == "xterm":
            xterm = recompiled(folder, directory, name), first_edition, first, second
    file, first_edition, first, second = xterm
    (folder / "xterm").write_bytes(file)
    (folder / "xterm-first").write_bytes(first_edition)
    (folder / "xterm-bad").write_bytes(last_slot_bad(first_edition))
    (folder / "xterm-first.ti").write_bytes(first)
    (folder / "xterm-second.ti").write_bytes(second)
    put_strings(folder, "texts", texts)
    of_xterm = dict(strings(file))
    put_strings(folder, "cup", [of_xterm[model.STRINGS.index("cup")]])
    put_strings(folder, "characters", [b"\x14%p1%c%p2%c"])
    put_strings(folder, "sgr", [of_xterm[model.STRINGS.index("sgr")]])
    put_strings(folder, "setaf", [SETAF])
    put_strings(folder, "decimal", [b"%p1%d"])
    put_strings(folder, "mix", sorted(mix))
    put_strings(folder, "pfkey", [PFKEY])
    text_mix = sorted({string for _, _, string in text_strings.STRINGS
                       if accepted(string, KEY_ARGUMENTS)})
    put_strings(folder, "text-mix", text_mix)
    notes = [f"- mix: {len(mix)} distinct strings of {len(sized)} installed entries;",
             f"- pfkey is that of hpterm; mix of strings that print a text: {len(text_mix)} of "
             "Debian's ncurses-term;",
             f"- open: xterm without extended section, in the first edition "
             f"({len(first_edition):,} bytes) and as tic compiles it ({len(file):,} bytes), "
             "read in the first edition;",
             f"- compile xterm: its capabilities of each edition, {len(first):,} and "
             f"{len(second):,} bytes of text; in the column of ncurses what tic takes;",
             f"- compile all: {len(texts)} descriptions of {sum(map(len, texts)):,} bytes, their "
             "capabilities of the second edition, one after the other;"]
    pair = []
    for which, (_, name, first_edition) in zip(("first", "second"), sorted(sized)):
        (folder / which).write_bytes(first_edition)
        pair.append(f"{name} ({len(first_edition):,} bytes)")
    notes.append(f"- merge: {' over '.join(pair)}, both of the first edition;")
    (folder / "notes").write_text("\n".join(notes) + "\n")
    put_rows(folder)


if __name__ == "__main__":
    main(Path(sys.argv[1]))
