"""Compares the library with ncurses: entries that tic compiles and entries that are installed.

The order of the lists is held to what tic compiles for each capability alone, and so are the files
that the library compiles of the same texts. Of installed entries, and of the same ones compiled
again without an extended section, every capability of the second edition is held to what infocmp
prints. The library compiles the source text of the same entries, and infocmp must print the same
capabilities for its files; compiled in the first and in the second edition, each is read by the
other. No entry is left out: where document 01 refuses a file, its names or a number, that refusal
is checked. Descriptions that use others are held to what tic makes of them; where a used one cancels
a capability, tic leaves it absent in the one that uses it.
"""

import os
import re
import subprocess
import sys
import tempfile
from collections import Counter
from pathlib import Path

import act4
import library
import model
import text_model
from library import Reader, contents, pack, part_of, state_of
from model import FIRST_EDITION, LARGEST_FILE, LARGEST_SHORT, SECOND_EDITION
from test_random import below, chance, pick, rng

SEED = 85
USE_TEXTS = 40
ENVIRONMENT = {"PATH": os.environ["PATH"], "LC_ALL": "C"}
ESCAPES = {"E": 27, "e": 27, "n": 10, "l": 10, "r": 13, "t": 9, "b": 8, "f": 12, "s": 32}
ESCAPE = re.compile(rb"\\([0-7]{1,3})|\\(.)|\^(.)", re.DOTALL)
# A field with a string; in a string, %%, after which ^ isn't the operator's, or a bare %^.
STRING_FIELD = re.compile(rb"^(\t[^=#@,]+=)(.*)", re.MULTILINE)
BARE_OPERATOR = re.compile(rb"(%%)|%\^")
# Strings with the operator %^ as document 01 spells it, and with what could be taken for it.
OPERATORS = (rb"\E%p1%p2%\^%c", rb"%\^", rb"%\^A", rb"%%%\^A", rb"\\%\^",
             rb"%%\^A", rb"%%^A", rb"%'\^'", rb"^^%d")


def fail(*words):
    sys.exit(" ".join(map(str, words)))


def run(*words):
    """What a program of ncurses prints."""
    done = subprocess.run(words, env=ENVIRONMENT, capture_output=True, check=False)
    if done.returncode:
        fail(*words, "ends with", done.returncode, done.stderr.decode("latin-1"))
    return done.stdout


def printed(directory, name):
    """What infocmp -1 prints for an entry, its strings spelled as document 01 asks.

    infocmp prints the operator %^ bare, document 01 asks for %\\^. A % before a control character
    can be printed like the operator and a letter; such an entry is reported as different.
    """
    def spelled(field):
        return field[1] + BARE_OPERATOR.sub(lambda part: part[1] or rb"%\^", field[2])
    return STRING_FIELD.sub(spelled, run("infocmp", "-1", "-A", str(directory), name))


def compile_text(text, folder):
    """Has tic compile a text into a folder, without extended sections."""
    source = folder / "source"
    source.write_bytes(text)
    run("tic", "-o", str(folder), str(source))


def compiled(folder, name):
    return (folder / name[0] / name).read_bytes()


def unescape(content):
    """The bytes that a string stands for; a result of 0 is stored as 128."""
    def byte(match):
        octal, escaped, control = match.groups()
        if octal:
            code = int(octal, 8)
        elif escaped:
            code = ESCAPES.get(escaped.decode("latin-1"), escaped[0])
        else:
            code = 127 if control == b"?" else control[0] % 32
        return bytes([code or 128])
    return ESCAPE.sub(byte, content)


def fields(text):
    """Names, and states by capability name, of a text with a field on each line."""
    header, *lines = [line for line in text.split(b"\n") if line and not line.startswith(b"#")]
    states = {}
    for line in lines:
        name, mark, value = re.fullmatch(rb"\t([^=#@,]+)([=#@]?)(.*),", line).groups()
        if mark == b"@":
            state = model.CANCELLED, None
        elif mark == b"#":
            state = model.PRESENT, int(value, 0)
        else:
            state = model.PRESENT, unescape(value) if mark else None
        states[name.decode("ascii")] = state
    return header.removesuffix(b","), states


def in_order(name, state):
    """The state as infocmp prints it: the pairs of acsc in order."""
    kind, content = state
    if name != "acsc" or kind != model.PRESENT:
        return state
    pairs = [content[at:at + 2] for at in range(0, len(content), 2)]
    return kind, b"".join(sorted(pairs, key=lambda pair: pair[0]))


def opened(file):
    """The refusal of a file in the second edition, or 0, its names and the states not absent."""
    reader = Reader(file, SECOND_EDITION)
    answer, _ = reader.open()
    if answer:
        return answer >> 56, None, None
    names = part_of(file, reader.names())
    states = {}
    for kind, count in enumerate(SECOND_EDITION):
        for place in range(count):
            answer = reader.state(kind, place)
            if answer >> 56:
                fail("kind", kind, "place", place, "is refused", answer >> 56)
            if answer:
                states[kind, place] = state_of(file, kind, answer)
    return 0, names, states


def capabilities():
    """Kind, place and name of every capability, by the library."""
    for kind, count in enumerate(SECOND_EDITION):
        for place in range(count):
            name = library.capability(kind, place).to_bytes(8, "little").rstrip(b"\0")
            yield kind, place, name.decode("ascii")


CAPABILITIES = list(capabilities())
NEW = [(kind, place, name) for kind, place, name in CAPABILITIES if place >= FIRST_EDITION[kind]]
CANCEL = (model.CANCELLED, None)


def field_of(kind, place, name):
    """A field with a content of its own for a capability, and its state."""
    return {
        model.BOOLEAN: (name, (model.PRESENT, None)),
        model.NUMBER: (f"{name}#{place + 1}", (model.PRESENT, place + 1)),
        model.STRING: (f"{name}={name}", (model.PRESENT, name.encode())),
    }[kind]


def ordered():
    """Entries and their fields and states: each capability present and cancelled, alone.

    All of them, and all that the first edition doesn't know, present, cancelled, and by turns.
    """
    for kind, place, name in CAPABILITIES:
        field, state = field_of(kind, place, name)
        yield f"present-{kind}-{place}", [field], {(kind, place): state}
        yield f"cancel-{kind}-{place}", [name + "@"], {(kind, place): CANCEL}
    for which, some in (("all", CAPABILITIES), ("new", NEW)):
        for form, cancels in (("present", ()), ("cancelled", (0, 1)), ("turns", (0,)),
                              ("others", (1,))):
            fields_made, states = [], {}
            for at, (kind, place, name) in enumerate(some):
                field, state = field_of(kind, place, name)
                cancelled = at % 2 in cancels
                fields_made.append(name + "@" if cancelled else field)
                states[kind, place] = CANCEL if cancelled else state
            yield f"{which}-{form}", fields_made, states


def check_order(folder):
    """What tic and the library compile of each entry; tic leaves cancelled booleans absent."""
    texts, expected = {}, {}
    for entry, fields_made, states in ordered():
        lines = "".join(f"\t{field},\n" for field in fields_made)
        texts[entry] = f"{entry}|an entry of {len(states)},\n{lines}".encode()
        expected[entry] = states
    compile_text(b"".join(texts.values()), folder)
    for entry, states in expected.items():
        by_tic = {at: state for at, state in states.items() if (at[0], state) != (0, CANCEL)}
        answer, file = library.compile_text(texts[entry], LARGEST_FILE, SECOND_EDITION)
        if file is None:
            fail(entry, "is refused", hex(answer))
        for by, of, right in (("tic", compiled(folder, entry), by_tic), ("us", file, states)):
            refused, names, found = opened(of)
            if refused or found != right or not names.startswith(entry.encode() + b"|"):
                fail(entry, "by", by, "refusal", refused, "names", names, "states", found)
    return len(expected)


def check_entry(where, file, text):
    """Compares one file with what infocmp prints; gives the refusal or 0."""
    refused, names, found = opened(file)
    if refused:
        return refused
    expected_names, states = fields(text)
    if names != expected_names:
        fail(where, "names", names, "instead of", expected_names)
    for kind, place, name in CAPABILITIES:
        state = in_order(name, found.get((kind, place), (model.ABSENT, None)))
        expected = states.get(name, (model.ABSENT, None))
        if state != expected:
            fail(where, name, state, "instead of", expected)
    return 0


def refusal_expected(file):
    """How document 01 refuses a file of ncurses: wide numbers, long names, extended section."""
    shorts = [int.from_bytes(file[at:at + 2], "little") for at in range(0, 12, 2)]
    if len(file) > 4096:
        return 1
    if shorts[0] == 0o1036:
        return 2
    if shorts[1] > 128:
        return 3
    first, booleans, numbers, strings, table = shorts[1:]
    size = 12 + first + booleans + (first + booleans) % 2 + 2 * numbers + 2 * strings + table
    return 1 if len(file) > size else 0


def installed():
    """The path of every installed entry, and what infocmp -1 prints for it.

    A link to a file that was met already is another name of the same entry.
    """
    files = set()
    for directory in run("infocmp", "-D").decode().split():
        paths = Path(directory).glob("?/*")
        for path in sorted(paths, key=lambda path: (path.is_symlink(), path)):
            file = path.resolve()
            if file not in files:
                files.add(file)
                yield path, printed(directory, path.name)


def check_installed(folder, entries):
    """Every installed entry, as it is and compiled again without an extended section."""
    outcomes = {"installed": Counter(), "compiled again": Counter()}
    for path, text in entries:
        compile_text(text, folder)
        first_name = fields(text)[0].split(b"|")[0].decode("ascii")
        for form, file in (("installed", path.read_bytes()),
                           ("compiled again", compiled(folder, first_name))):
            refused = check_entry(f"{path.name} {form}", file, text)
            if refused != refusal_expected(file):
                fail(path.name, form, "is refused", refused)
            outcomes[form][refused] += 1
    if not all(outcome[0] for outcome in outcomes.values()):
        fail("no entry of ncurses was accepted")
    return "; ".join(
        f"{form} {outcome[0]} read" + "".join(
            f", {outcome[refusal]} refused {refusal}" for refusal in sorted(outcome) if refusal)
        for form, outcome in outcomes.items())


def of_edition(text, edition):
    """Names, and the lines of an edition's capabilities, in what infocmp -1 prints."""
    known = {name for kind, place, name in CAPABILITIES if place < edition[kind]}
    header, *lines = [line for line in text.split(b"\n") if line and not line.startswith(b"#")]
    return header.removesuffix(b","), [
        line for line in lines if re.match(rb"\t([^=#@,]+)", line)[1].decode("ascii") in known]


def cut_number(line):
    """A line whose number, if it has one, is at most 32,767."""
    number = re.fullmatch(rb"(\t[^=#@,]+#)(\w+),", line)
    if number is None or int(number[2], 0) <= LARGEST_SHORT:
        return line
    return number[1] + b"%d," % LARGEST_SHORT


def cut(names):
    """Names cut to the limits of document 01."""
    *aliases, last = names.split(b"|")
    before = b"".join(alias[:text_model.LONGEST_ALIAS] + b"|" for alias in aliases)
    return before + last[:text_model.LONGEST_NAMES - len(before)]


def source_text(names, lines):
    return b"\n".join([names + b",", *lines, b""])


def check_printed(folder, text, lines):
    """Compiles a text by the library and compares what infocmp prints and the library reads.

    The same text in lines of one field each says what that must be.
    """
    answer, file = library.compile_text(text, LARGEST_FILE, SECOND_EDITION)
    if file is None:
        fail(text, "is refused", hex(answer))
    names, states = fields(lines)
    first = names.split(b"|")[0].decode("ascii")
    (folder / first[0]).mkdir(exist_ok=True)
    (folder / first[0] / first).write_bytes(file)
    found = fields(printed(folder, first))
    if found != (names, states):
        fail(first, "compiled by the library is printed as", found, "instead of", (names, states))
    refused = check_entry(f"{first} compiled by the library", file, lines)
    if refused:
        fail(first, "compiled by the library is refused", refused)


def first_place(text, lines):
    """The first byte of the first field of a text that is one of these lines, past its tab."""
    return min(text.index(b"\n" + line + b"\n") for line in lines) + 2


def limit_place(names, lines):
    """The place that refusal 13 gives for a text; None where all of it is within the limits."""
    *aliases, _ = names.split(b"|")
    if any(len(alias) > text_model.LONGEST_ALIAS for alias in aliases):
        return 0
    large = [line for line in lines if cut_number(line) != line]
    if large:
        return first_place(source_text(names, lines), large)
    return 0 if len(names) > text_model.LONGEST_NAMES else None


def check_limits(path, names, lines):
    """Refusal 13 of a text for a number or its names past a limit; gives the text cut to them."""
    cut_lines = [cut_number(line) for line in lines]
    for kept in (lines, cut_lines):
        place = limit_place(names, kept)
        if place is not None:
            answer, _ = library.compile_text(source_text(names, kept), LARGEST_FILE, SECOND_EDITION)
            if answer != pack(13, place):
                fail(path.name, "past a limit gives", hex(answer))
    return source_text(cut(names), cut_lines)


def check_compiled(folder, entries):
    """The source texts of installed entries, that of act4, and two with what those lack.

    A text with names or a number past a limit must be refused before they are cut.
    """
    texts = [
        source_text(b"none|all are cancelled", [
            f"\t{name}@,".encode() for _, _, name in CAPABILITIES]),
        source_text(b"operators|strings with %^", [
            b"\t%s=%s," % (name.encode(), string)
            for name, string in zip(model.STRINGS, OPERATORS)]),
    ]
    refused = 0
    for path, text in entries:
        names, lines = of_edition(text, SECOND_EDITION)
        texts.append(check_limits(path, names, lines))
        refused += texts[-1] != source_text(names, lines)
    for text in texts:
        check_printed(folder, text, text)
        check_editions(text)
    by_line = re.sub(rb", +", b",\n\t", act4.TEXT).replace(b"    ", b"\t")
    check_printed(folder, act4.TEXT, by_line)
    return (f"{len(texts) + 1} texts compiled, {refused} of them refused 13 until cut to the "
            "limits, in both editions and each read by the other")


def read(file, edition, beyond):
    """Names and states of a file in an edition, beyond which it has so many slots."""
    refused, tables = Reader(file, edition).open()
    if refused or tuple(tables[7:]) != beyond:
        fail("refused", refused, "or slots beyond", tables, "for", file)
    return contents(file, edition)


def check_editions(text):
    """A text in both editions: every place that both know is alike, any other absent or beyond."""
    names, lines = of_edition(text, FIRST_EDITION)
    older = source_text(names, lines)
    _, first = library.compile_text(older, LARGEST_FILE, FIRST_EDITION)
    _, wider = library.compile_text(older, LARGEST_FILE, SECOND_EDITION)
    _, second = library.compile_text(text, LARGEST_FILE, SECOND_EDITION)
    none, more = (0, 0, 0), tuple(b - a for a, b in zip(FIRST_EDITION, SECOND_EDITION))
    known = read(first, FIRST_EDITION, none)
    if known[0] != names or read(second, FIRST_EDITION, more) != known:
        fail(names, "of the second edition differs in the first")
    absent = {(kind, place): (model.ABSENT, None) for kind, place, _ in NEW}
    for file in first, wider:
        if read(file, SECOND_EDITION, none) != (names, {**known[1], **absent}):
            fail(names, "of the first edition differs in the second")
    _, states = read(second, SECOND_EDITION, none)
    if {at: state for at, state in states.items() if at not in absent} != known[1]:
        fail(names, "differs in the second edition at a place that both know")
    for kind, place in enumerate(FIRST_EDITION):
        if Reader(second, FIRST_EDITION).state(kind, place) >> 56 != 17:
            fail(names, "kind", kind, "place", place, "is not beyond the first edition")
    beyond = [line for line in of_edition(text, SECOND_EDITION)[1] if line not in lines]
    answer, file = library.compile_text(text, LARGEST_FILE, FIRST_EDITION)
    if (answer, file) != ((pack(11, first_place(text, beyond)), None) if beyond
                          else (len(first), first)):
        fail(names, "compiled in the first edition gives", hex(answer))


def own_field(kind, name, entry, cancels):
    """A field whose content tells its entry, or now and then one that cancels."""
    if cancels and chance() < 0.3:
        return name + "@"
    if kind == model.NUMBER:
        return f"{name}#{below(1000)}"
    return f"{name}={entry}" if kind == model.STRING else name


def use_text(at):
    """A text of descriptions in layers, which use some of the two layers below; all their names.

    No capability has two fields in one, since of those tic takes the last, and none has smacs, for
    which tic adds an acsc. Only descriptions of the first layer, which no other uses, cancel some.
    """
    known = [capability for capability in CAPABILITIES if capability[2] != "smacs"]
    layers = [[f"u{at}-{depth}-{number}" for number in range(4)] for depth in range(8)]
    texts = {}
    for depth, layer in enumerate(layers):
        lower = [entry for used in layers[depth + 1:depth + 3] for entry in used]
        for entry in layer:
            uses = rng.sample(lower, min(len(lower), pick(0, 1, 1, 2, 3)))
            made = [f"use={used}" for used in uses]
            made += [own_field(kind, name, entry, depth == 0)
                     for kind, _, name in rng.sample(known, pick(0, 2, 5, 15))]
            rng.shuffle(made)
            texts[entry] = f"{entry}|an entry that uses {len(uses)},\n" + "".join(
                f"\t{field},\n" for field in made)
    order = rng.sample(list(texts), len(texts))
    return "".join(texts[entry] for entry in order).encode(), order


def check_used(folder, text, entry, absent=()):
    """A description by the library and by tic, which leaves those named absent where ours cancel."""
    answer, file = library.compile_text(text, LARGEST_FILE, SECOND_EDITION, entry.encode())
    if file is None:
        fail(entry, "is refused", hex(answer), "in", text)
    _, names, states = opened(file)
    for kind, place, name in CAPABILITIES:
        if states.get((kind, place)) == CANCEL and (kind == model.BOOLEAN or name in absent):
            del states[kind, place]
    by_tic = opened(compiled(folder, entry))
    if by_tic != (0, names, states):
        fail(entry, "by tic", by_tic, "by us", names, states, "of", text)
    return len(states)


def check_uses(folder):
    """Generated texts, and the family of consoles, of which one uses a panel that cancels ri."""
    rng.seed(SEED)
    count = states = 0
    for at in range(USE_TEXTS):
        text, entries = use_text(at)
        compile_text(text, folder)
        states += sum(check_used(folder, text, entry) for entry in entries)
        count += len(entries)
    text = (library.ROOT / "examples" / "family.ti").read_bytes()
    compile_text(text, folder)
    for entry, absent in (("base", ()), ("wide", ()), ("one-way", ()), ("relay", ("ri",))):
        states += check_used(folder, text, entry, absent)
        count += 1
    return f"{count} descriptions with {states} states, by uses of others, agree with tic"


if __name__ == "__main__":
    all_installed = list(installed())
    with tempfile.TemporaryDirectory() as name:
        order = check_order(Path(name))
        used = check_uses(Path(name))
        outcome = check_installed(Path(name), all_installed)
    with tempfile.TemporaryDirectory() as name:
        texts_compiled = check_compiled(Path(name), all_installed)
    print(f"{order} entries of one or all capabilities agree with tic; {used}; {outcome}; "
          f"{texts_compiled}; infocmp prints the same")
