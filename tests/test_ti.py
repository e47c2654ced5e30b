"""Runs every command of ti: exit statuses, what it prints, the file that it writes, what it leaves.

Answers are held to the documents' examples and, on generated input in generated editions, to the
models.
"""

import fcntl
import os
import re
import resource
import shutil
import struct
import subprocess
import sys
import tempfile
from collections import Counter
from pathlib import Path

import act4
import expand_model
import model
import text_model
import use_texts
from expand_model import LARGEST_TEXT, Text
from model import FIRST_EDITION, LARGEST_EDITION, LARGEST_FILE, SECOND_EDITION, Refusal
from test_compile import larger, pick_text
from test_expand import PFKEY, for_arguments, lend, pick_lent, pick_string, pick_values
from test_random import NO_NULS, below, make_pair, pick, pick_file, rng, upto
from test_uses import EXAMPLES, HEADERS
from test_uses import pick_text as pick_uses, pick_wanted
from test_vectors import same

TI = str(Path(__file__).resolve().parent.parent / "ti")
SEED = 21
GENERATED = 400
FILES, MERGES, STRINGS, SHOWS = 300, 200, 300, 40
OLD = b"the file that was there before"
# What act4 is compiled to in the second edition, which ti gives, and what ti says of it.
ACT4 = text_model.compile(act4.TEXT, LARGEST_FILE, SECOND_EDITION)[2]
COMPILED = (0, f"compiled: {len(ACT4)} bytes\n", "")
# What ti expand -v prints for cup of act4 with 5 and 70.
ACT4_CUP = b"\\024\\005F\n5 steps (at most 11), 3 bytes (at most 275)\n"
TOO_LARGE = ("ti: the edition is too large: at most 64 booleans, 64 numbers, 512 strings "
             "(refusal 3)\n")
REFUSED = re.compile(r"ti: (.*?): (.*) \(refusal (\d+)(?:, byte (\d+))?\)\n")
FIELD = re.compile(r"ti: (.*):(\d+):(\d+): (.*) \(refusal (\d+), byte (\d+)\)\n")
FILE_SENTENCES = {
    1: "wrong length: a file has 12 to 4,096 bytes, as many as its header says",
    2: "the first short is not 282, the mark of compiled entries",
    3: "a size in the header is out of range: names 2 to 128, others at most 32,767",
    4: "the names do not end in their only NUL",
    9: "the merged file would be longer than 4,096 bytes",
}
TEXT_SENTENCES = {
    1: "the text is longer than 16,384 bytes",
    9: "the compiled file would be longer than 4,096 bytes",
}
HEADER_SENTENCES = {
    10: "the header is malformed, or there is none",
    13: "an alias is longer than 14 bytes, or all names than 127",
}
LATER_SENTENCES = {
    10: "malformed header, or a field that is not indented",
    13: "an alias is longer than 14 bytes, all names than 127, or this is the 65th header",
}
USE_SENTENCES = {
    18: "nothing is named {}",
    19: "{} is being worked on already: its uses come back to it",
    20: "{} is the ninth use of a chain, which may have eight",
}
STRING_SENTENCES = {
    1: "the string or a text is longer than 1,000 bytes",
    14: "malformed item, or a conditional that is not closed",
    15: "an item takes a value from the empty stack",
    16: "an item puts a value on the full stack of 20",
    21: "an item takes a value of the other kind, a number or a text",
}
NUMBER_WORD = re.compile(rb"-?[0-9]+")
OTHER_KIND = {
    model.BOOLEAN: "is a boolean, which is written alone",
    model.NUMBER: "is a number, which is written with #",
    model.STRING: "is a string, which is written with =",
}
NO_NAME = "ti: no name stands behind -n\n"
COMPILE_USAGE = "usage: ti compile [-e EDITION] [-n NAME] [FILE] OUT\n"
OTHER_USER = ["setpriv", "--reuid=65534", "--regid=65534", "--clear-groups"]
PATH_MOST = 4095  # the most bytes of a path on Linux, and of a name
folder = Path()  # where ti is run


def ti(*words, text=b"", **other):
    """Status, standard output and standard error of a run."""
    if "stdin" not in other:
        other["input"] = text
    done = subprocess.run([TI, *words], cwd=folder, capture_output=True, check=False, **other)
    return done.returncode, done.stdout.decode("ascii"), done.stderr.decode("utf-8")


def files():
    """The files in the folder and their bytes."""
    return {str(path.relative_to(folder)): path.read_bytes()
            for path in folder.rglob("*") if path.is_file()}


def option(edition):
    """The words that give ti an edition; the second one needs none."""
    forms = [["-e", ",".join(map(str, edition))]]
    if edition in (FIRST_EDITION, SECOND_EDITION):
        forms.append(["-e", "2" if edition == SECOND_EDITION else "1"])
    if edition == SECOND_EDITION:
        forms += [[], []]
    chosen = pick(*forms)
    if rng.random() < 0.1:  # the last -e counts
        chosen = ["-e", pick("1", "2", "0,0,0", "64,64,512")] + (chosen or ["-e", "2"])
    return chosen


def wanted_words(wanted):
    """The words that give ti a wanted name (None: the text's first description is wanted)."""
    if wanted is None:
        return []
    return [*pick([], [], ["-n", pick("", "x", "-n", "--")]), "-n", wanted]  # the last -n counts


def pick_edition():
    """The second edition, the first, smaller or larger ones."""
    return pick(SECOND_EDITION, SECOND_EDITION, FIRST_EDITION, FIRST_EDITION,
                larger(SECOND_EDITION), tuple(upto(count) for count in SECOND_EDITION))


def field_sentence(text, number, byte, edition):
    """What ti says of the field at a byte, compiled in an edition."""
    if text[byte - 1:byte] == b"\n":
        return LATER_SENTENCES[number]
    if number == 10:
        return "malformed field"
    if number in USE_SENTENCES:
        name, _ = text_model.read_string(text, byte + len(b"use="))
        return USE_SENTENCES[number].format(f"'{shown(name, 32)}'")
    name = re.match(rb"[!-~]*?(?=[^!-~]|[,=#@]|$)", text[byte:])[0]
    kind = next((kind for kind, names in enumerate(model.LISTS) if name.decode() in names), None)
    quoted = f"'{shown(name, 32)}'"
    if number == 11:
        if name == b"use":
            return "'use' names a description, and is written with ="
        if kind is None:
            return f"unknown capability {quoted}"
        known = name.decode() in model.LISTS[kind][:edition[kind]]
        return f"{quoted} {OTHER_KIND[kind] if known else 'is not in the edition'}"
    return quoted + (" is above 32,767, or has more than 99 digits" if kind == model.NUMBER
                     else " is longer than 1,000 bytes")


def text_refusal(source, text, errors, edition, wanted):
    """The number and the byte of a text's refusal, whose message is held to its form."""
    found = FIELD.fullmatch(errors)
    if found is None:
        name, sentence, number, byte = REFUSED.fullmatch(errors).groups()
        same((name, byte in (None, "0")), (source, True), errors)
        sentences = TEXT_SENTENCES if byte is None else HEADER_SENTENCES
        if wanted is not None and byte is not None:
            sentences = {18: f"nothing is named '{shown(wanted, 32)}'", **sentences}
        same(sentence, sentences[int(number)], errors)
        return int(number), None if byte is None else 0
    name, line, column, sentence, number, byte = found.groups()
    number, byte = int(number), int(byte)
    start = text.rfind(b"\n", 0, byte) + 1
    same((name, int(line), int(column)),
         (source, text.count(b"\n", 0, byte) + 1, byte - start + 1), errors)
    same(sentence, field_sentence(text, number, byte, edition), errors)
    return number, byte


def compiled(name, text, edition, wanted=None):
    """The number of the refusal, or 0, and its place, as ti gives them for a text in an edition.

    The file is there if and only if the number is 0; else an old one stays, or none comes.
    """
    before = files()
    first, second = rng.sample([option(edition), wanted_words(wanted)], 2)
    status, printed, errors = ti("compile", *first, *second, name, text=text)
    after = files()
    if status == 0:
        file = after.get(name)
        same((printed, errors), (f"compiled: {len(file)} bytes\n", ""), text)
        same(after, {**before, name: file}, "files")
        return 0, None, file
    same((status, printed, after), (1, "", before), text)
    return *text_refusal("standard input", text, errors, edition, wanted), None


def expected(text, edition, wanted=None):
    number, values, file = text_model.compile(text, LARGEST_FILE, edition, wanted)
    return number, values[0] if values else None, file


def check_examples():
    (folder / "old").write_bytes(OLD)
    same(ti("compile", "-e", "1", "act4", text=act4.TEXT), (0, "compiled: 392 bytes\n", ""), "act4")
    same((folder / "act4").read_bytes(), act4.dumped(), "act4")
    same(ti("compile", "act4", text=act4.TEXT), (0, "compiled: 464 bytes\n", ""), "act4")
    same((folder / "act4").read_bytes(), ACT4, "act4")
    texts = [b"", b"a|b,", b"a|b,\0", b"a|b,\n\tam,\n\0", b"a|b,\n\tam,\n\tzz,\n", b"a|b,\n use=x,",
             b"a|b,\n\tam, it#32768,\n", b"# note\n" + 15 * b"a" + b"|b,", b"a|b,\n\tam\n",
             b"a|b,\n" + 16379 * b" ", b"a|b,\n" + 16380 * b" ", b"a|b,\n" + 90000 * b"\n",
             b"a|b,\n" + b"".join(b" %s=%s,\n" % (name, 960 * b"x")
                                  for name in (b"cr", b"el", b"ed", b"cup")),
             b"a|b,\n\tam, bce, colors#8, pairs@, acsc=``aa,\n", b"a|b,\n\tcolors=8,\n",
             b"a|b,\n\tam,\n\t.colors#8,\n\tncv#32768,\n"]
    for text in texts:
        for name, edition in (("old", SECOND_EDITION), ("none", SECOND_EDITION),
                              ("old", FIRST_EDITION), ("none", LARGEST_EDITION)):
            (folder / "old").write_bytes(OLD)
            same(compiled(name, text, edition), expected(text, edition), text)
            (folder / "none").unlink(missing_ok=True)
    return 4 * len(texts) + 2


def check_uses():
    """Descriptions that use others, wanted by name: document 02's examples, names in messages."""
    put("old", OLD)
    examples = [example[:2] for example in EXAMPLES if b"\0" not in (example[1] or b"")]
    examples += [(text, None) for text in use_texts.TEXTS.values()]
    for text, wanted in examples:
        same(compiled("old", text, SECOND_EDITION, wanted), expected(text, SECOND_EDITION, wanted),
             (text, wanted))
        put("old", OLD)
    comments = 9 * (b"#" + 21 * b"x" + b"\n") + b"#" + 24 * b"x" + b"\n"
    chain = b"".join(b"a%d|b,\n\tuse=a%d,\n" % (link, link + 1) for link in range(10))
    nothing = "nothing is named "
    back = " is being worked on already: its uses come back to it"
    long = "an alias is longer than 14 bytes, all names than 127, or this is the 65th header"
    for text, wanted, place, sentence, end in (
            (b"a|b,\n" + comments + b"  use=vt999,\n", None, ":12:3", nothing + "'vt999'",
             "18, byte 240"),
            (b"a|b,\n\tam, use=v\\1640^[\\377x\n y,\n", None, ":2:6",
             nothing + "'vt0\\033\\377xy'", "18, byte 10"),
            (b"a|b,\n\tuse=,\n", None, ":2:2", nothing + "''", "18, byte 6"),
            (b"a|b,\n", b"vt999", "", nothing + "'vt999'", "18, byte 0"),
            (b"a|b,\n", b"", "", nothing + "''", "18, byte 0"),
            (b"a|b,\n", b"b", "", nothing + "'b'", "18, byte 0"),
            (b"a|b,\n", b"a\n\\\xff", "", nothing + "'a\\012\\134\\377'", "18, byte 0"),
            (b"a|b,\n\tuse=a,\n", None, ":2:2", "'a'" + back, "19, byte 6"),
            (b"a|b,\n\tuse=c,\nc|d,\n\tam, use=a,\n", b"a", ":4:6", "'a'" + back, "19, byte 23"),
            (b"a|b,\n\tuse=c,\nc|d,\n\tam, use=a,\n", b"c", ":2:2", "'c'" + back, "19, byte 6"),
            (chain, None, ":18:2", "'a9' is the ninth use of a chain, which may have eight",
             "20, byte 127"),
            (chain, b"a2", ":20:2", nothing + "'a10'", "18, byte 142"),
            (b"".join(HEADERS) + b"e|x,\n", b"d63", ":65:1", long, "13, byte 448"),
            (b"a|b,\n" + 15 * b"c" + b"|d,\n", None, ":2:1", long, "13, byte 5")):
        words = [] if wanted is None else ["-n", wanted]
        for name, source in (("standard input", []), ("text.ti", [put("text.ti", text)])):
            same(ti("compile", *words, *source, "old", text=text),
                 (1, "", f"ti: {name}{place}: {sentence} (refusal {end})\n"), (text, wanted))
    same((folder / "old").read_bytes(), OLD, "old")
    return len(examples) + 28


def check_wanted():
    """-n and its word: of several the last counts; missing, too long, before `--`, elsewhere."""
    put("act", act4.dumped())
    put("two.ti", b"a|b|c,\n\tam,\n-n|--|d,\n\tbw, use=a,\n")
    (folder / "out").unlink(missing_ok=True)
    before = files()
    first, second = (expected((folder / "two.ti").read_bytes(), SECOND_EDITION, wanted)[2]
                     for wanted in (b"a", b"-n"))
    words = [([], first), (["-n", "a"], first), (["-n", "b"], first), (["-n", "-n"], second),
             (["-n", "--"], second), (["-n", "a", "-n", "-n", "-e", "2"], second),
             (["-n", "-n", "-n", "a", "--"], first),
             (["-n", "none", "-e", "1", "-e", "2", "-n", "b"], first)]
    for given, file in words:
        same(ti("compile", *given, "two.ti", "out"),
             (0, f"compiled: {len(file)} bytes\n", ""), given)
        same(files(), {**before, "out": file}, given)
        (folder / "out").unlink()
    same(ti("compile", "-n", "a", "--", "two.ti", "-n")[0], 0, "a file -n")
    same((folder / "-n").read_bytes(), first, "a file -n")
    (folder / "-n").unlink()
    for given in (["-n"], ["-e", "1", "-n"], ["-n", "a", "-n"]):
        same(ti("compile", *given), (2, "", NO_NAME + COMPILE_USAGE), given)
    for given in (["-n", "two.ti"], ["-n", "a"], ["-n", "a", "two.ti", "out", "more"],
                  ["-n", "a", "--"]):
        same(ti("compile", *given), (2, "", COMPILE_USAGE), given)
    for word in ("-na", "--n", "-N"):
        same(ti("compile", word, "a", "two.ti", "out"),
             (2, "", f"ti: unknown option '{word}'\n" + COMPILE_USAGE), word)
    for command, operands in OPERANDS.items():
        if command != "compile":
            status, printed, errors = ti(command, "-n", "a", *operands)
            same((status, printed, errors.partition("\n")[0]), (2, "", "ti: unknown option '-n'"),
                 command)
    same(ti("compile", "-n", PATH_MOST * "n", "two.ti", "out")[0], 1, "a long name")
    same(ti("compile", "-n", 5000 * "n", "two.ti", "out")[:2], (2, ""), "a longer name")
    same(ti("compile", "-n", "a", "-e", "65,0,0", "missing", "out"), (1, "", TOO_LARGE), "edition")
    same(ti("compile", "-n", "none", "missing", "out")[:2], (2, ""), "missing")
    same(files(), before, "files")
    return len(words) + 19


def check_names():
    """Names of the file: in a folder, from outside, with signs, and as long as a name may be."""
    (folder / "in").mkdir()
    names = ["in/file", "./in/../file", "a b", "*", "$(x)", "in/" + 255 * "n",
             str(folder / "whole"), "-file", "--"]
    put("act4.ti", act4.TEXT)
    for name in names:
        end = ["--"] if name[0] == "-" else []
        same(ti("compile", *end, name, text=act4.TEXT), COMPILED, name)
        same((folder / name).read_bytes(), ACT4, name)
        for source in ("act4.ti", "-", "./act4.ti"):
            put(name, OLD)
            same(ti("compile", source, name, text=act4.TEXT), COMPILED, name)
            same((folder / name).read_bytes(), ACT4, name)
    old = os.umask(0o027)
    same(ti("compile", "closed", text=act4.TEXT)[0], 0, "closed")
    os.umask(old)
    same(oct((folder / "closed").stat().st_mode), "0o100640", "mode of the file")
    return 4 * len(names) + 1


def check_terminal():
    """The line and a caret below a refusal, where standard error is a terminal."""
    text = b"a|b,\n\tam,\tcols#80, wrong, it#8,\n"
    put("wrong.ti", text)
    said = b"ti: wrong.ti:2:15: unknown capability 'wrong' (refusal 11, byte 19)\n"
    same(raw("compile", "wrong.ti", "out"), (1, b"", said.decode()), "no terminal")
    for name, source in (("wrong.ti", ["wrong.ti"]), ("standard input", [])):
        ours, theirs = os.openpty()
        with open(folder / "wrong.ti", "rb") as stdin:
            done = subprocess.run([TI, "compile", *source, "out"], cwd=folder, stderr=theirs,
                                  stdin=stdin, stdout=subprocess.PIPE, check=False)
        os.close(theirs)
        told = os.read(ours, 10_000).replace(b"\r\n", b"\n")
        os.close(ours)
        same((done.returncode, done.stdout), (1, b""), name)
        same(told, said.replace(b"wrong.ti", name.encode())
             + b" am, cols#80, wrong, it#8,\n" + 14 * b" " + b"^\n", name)
    put("uses.ti", b"a|b,\n\tuse=c,\nc|d,\n\tam,\tuse=a,\n")
    put("header.ti", b"a|b,\n\tam,\nc|d\x7f,\n")
    for name, end in (("uses.ti", b" am, use=a,\n     ^\n"), ("header.ti", b"c|d?,\n^\n")):
        ours, theirs = os.openpty()
        subprocess.run([TI, "compile", name, "out"], cwd=folder, stderr=theirs, check=False)
        os.close(theirs)
        told = os.read(ours, 10_000).replace(b"\r\n", b"\n")
        os.close(ours)
        same(told.partition(b"\n")[2], end, name)
    return 5


def check_failures():
    """Wrong usage, and input or output that fails: status 2, a message, and no file changed."""
    (folder / "taken").mkdir()
    os.mkfifo(folder / "pipe")  # no regular file: a device could be lost
    before = files()
    unreadable = os.open(folder, os.O_RDONLY)
    runs = [ti(), ti("compile"), ti("compile", "old", stdin=unreadable)]
    os.close(unreadable)
    for words in (["expand", "out"], ["compile", "in", "out", "more"], ["compile", ""],
                  ["compile", "-x", "out"], ["compile", "-"], ["compile", "missing", "out"],
                  ["compile", "taken", "out"], ["compile", "missing/out"], ["compile", "taken"],
                  ["compile", "taken/"],
                  ["compile", "pipe"], ["compile", 256 * "n"], ["compile", 2100 * "n/"]):
        runs.append(ti(*words, text=act4.TEXT))
    for status, printed, errors in runs:
        same((status, printed, errors == ""), (2, "", False), errors)
    same(files(), before, "files")
    same((folder / "pipe").is_fifo(), True, "pipe")
    (folder / "pipe").unlink()
    return len(runs)


def raw(*words, given=b""):
    """Status, the bytes of standard output, and standard error of a run."""
    done = subprocess.run([TI, *words], cwd=folder, capture_output=True, check=False, input=given)
    return done.returncode, done.stdout, done.stderr.decode("utf-8")


def put(name, file):
    (folder / name).write_bytes(file)
    return name


def refused(found, name, number, sentence=None, byte=None):
    """A run that refuses what has this name, by the number, the sentence and the byte."""
    status, printed, errors = found
    same((status, printed), (1, b""), errors)
    place = "" if byte is None else f", byte {byte}"
    sentence = sentence or FILE_SENTENCES[number]
    same(errors, f"ti: {name}: {sentence} (refusal {number}{place})\n", errors)


def judged(file):
    """The number of the file's refusal, or 0, and its position; the edition has no part in it."""
    try:
        model.open_entry(file, SECOND_EDITION)
        return 0, None
    except Refusal as refusal:
        return refusal.number, refusal.value or None


def whose(kind, place, edition):
    """How a slot is told: by the capability that the edition knows, or by its place."""
    names = model.LISTS[kind][:edition[kind]]
    return f"of {names[place]}" if place < len(names) else str(place)


def file_sentence(file, number, byte, edition):
    """What ti says of a refused file."""
    if number < 5:
        return FILE_SENTENCES[number]
    names, booleans, numbers, strings, table = struct.unpack_from("<5H", file, 2)
    if number == 5:
        place = byte - 12 - names
        if place == booleans:
            return "the pad byte is not 0"
        return f"boolean {whose(model.BOOLEAN, place, edition)} is none of 0, 1 and 254"
    ahead = 12 + names + booleans + (names + booleans) % 2
    if number == 6:
        slot = f"number slot {whose(model.NUMBER, (byte - ahead) // 2, edition)}"
        return slot + " is above 32,767 and neither absent nor cancelled"
    slot = f"string slot {whose(model.STRING, (byte - ahead - 2 * numbers) // 2, edition)}"
    if file[byte] + 256 * file[byte + 1] < table:
        return slot + " is an offset with no NUL at or after it in the string table"
    return slot + " is no offset into the string table"


def refused_file(found, name, file, edition):
    """A run that refuses a file of this name."""
    number, byte = judged(file)
    refused(found, name, number, file_sentence(file, number, byte, edition), byte)


def shown(content, least):
    return "".join(chr(byte) if least <= byte <= 126 and byte != 92 else f"\\{byte:03o}"
                   for byte in content)


def shown_state(name, kind, state):
    state_kind, value = state
    if state_kind == model.CANCELLED:
        return f"{name}@"
    if kind == model.BOOLEAN:
        return name
    return f"{name}#{value}" if kind == model.NUMBER else f"{name}={shown(value, 33)}"


def label(kind, place):
    """How a capability is shown: by its name, or by kind and place where it has none."""
    names = model.LISTS[kind]
    word = ("boolean", "number", "string")[kind]
    return names[place] if place < len(names) else f"{word} {place}"


def shown_file(file, edition=SECOND_EDITION):
    """What ti show prints of an accepted file."""
    entry = model.open_entry(file, edition)
    start, length = entry.names()
    counts = "{} booleans, {} numbers, {} strings"
    lines = ["names: " + shown(file[start:start + length], 32),
             "edition: " + counts.format(*edition)]
    for kind, known in enumerate(edition):
        for place in range(known):
            state = model.content_state(entry, kind, place)
            if state[0] != model.ABSENT:
                lines.append(shown_state(label(kind, place), kind, state))
    lines.append("beyond the edition: " + counts.format(*entry.beyond()))
    return "\n".join(lines) + "\n"


def check_file(file, given=None, edition=SECOND_EDITION):
    """ti check and ti show on a file in an edition, by its name or as standard input."""
    name = put("file", file) if given is None else given
    number = judged(file)[0]
    checked = raw("check", *option(edition), name, given=file)
    showed = raw("show", *option(edition), name, given=file)
    if number:
        said = "standard input" if name == "-" else name
        refused_file(checked, said, file, edition)
        refused_file(showed, said, file, edition)
    else:
        same(checked, (0, f"accepted: {len(file)} bytes\n".encode(), ""), file)
        same(showed, (0, shown_file(file, edition).encode(), ""), file)
    return number


def refused_beyond(found, said, name):
    """A run that refuses a name which the lists have and the edition doesn't."""
    status, printed, errors = found
    same((status, printed), (1, b""), errors)
    same(errors in [f"ti: {said}: {sentence} (refusal 11)\n"
                    for sentence in (f"unknown capability '{name}'",
                                     f"'{name}' is not in the edition")], True, errors)


def check_some(file, edition=SECOND_EDITION):
    """ti show of a few capabilities of an accepted file: their lines, in the order asked."""
    put("file", file)
    entry = model.open_entry(file, edition)
    names = [(kind, place, name) for kind, names in enumerate(model.LISTS)
             for place, name in enumerate(names[:edition[kind]])]
    asked = rng.choices(names, k=7) if names else []
    asked += asked[:1]
    lines = ""
    for kind, place, name in asked:
        state = model.content_state(entry, kind, place)
        lines += (f"{name} is absent" if state[0] == model.ABSENT
                  else shown_state(name, kind, state)) + "\n"
    words = [name for _, _, name in asked]
    if words:
        same(raw("show", *option(edition), "file", *words), (0, lines.encode(), ""), words)
        same(raw("show", *option(edition), "-", *words, given=file), (0, lines.encode(), ""), words)
    for wrong in ("wrong", "", "cup=", "\n", "number 20"):
        refused(raw("show", *option(edition), "file", *words, wrong), "file", 11,
                f"unknown capability '{shown(wrong.encode(), 32)}'")
    for known, names in zip(edition, model.LISTS):
        if known < len(names):
            name = pick(*names[known:])
            refused_beyond(raw("show", *option(edition), "file", *words, name), "file", name)


def check_files():
    """The lengths around the limits, by name and as standard input, then generated files."""
    ends = [b"", b"\x1a", bytes(11), bytes(12), act4.dumped(), act4.dumped() + b"\0", ACT4,
            bytes(4096), bytes(4097), bytes(100_000)]
    for file in ends:
        check_file(file)
        check_file(file, "-")
    numbers, shows = Counter(), 0
    for _ in range(FILES):
        file = bytes(pick_file()[0])
        edition = pick_edition()
        number = check_file(file, edition=edition)
        numbers[number] += 1
        if number == 0 and shows < SHOWS:
            check_some(file, edition)
            shows += 1
    check_some(act4.dumped())
    missing = set(range(8)) - set(numbers)
    if missing:
        sys.exit(f"check and show: never seen: {missing}")
    return 4 * len(ends) + 2 * FILES + 7 * (shows + 1)


def check_unnamed():
    """ti show of capabilities that the edition counts and the lists don't name."""
    states = [[(model.ABSENT, None)] * count for count in LARGEST_EDITION]
    for kind, place, state in ((0, 1, (1, None)), (0, 40, (1, None)), (0, 63, (2, None)),
                               (1, 13, (1, 8)), (1, 20, (1, 5)), (1, 16, (2, None)),
                               (2, 157, (1, b"x")), (2, 158, (1, b"\x1b[m")), (2, 511, (2, None))):
        states[kind][place] = state
    file = model.written(b"a|b", states, LARGEST_FILE)
    put("unnamed", file)
    lines = ["names: a|b", "edition: 64 booleans, 64 numbers, 512 strings", "am", "boolean 40",
             "boolean 63@", "colors#8", "number 16@", "number 20#5", "rmln=x",
             "string 158=\\033[m", "string 511@",
             "beyond the edition: 0 booleans, 0 numbers, 0 strings"]
    same(raw("show", "-e", "64,64,512", "unnamed"), (0, ("\n".join(lines) + "\n").encode(), ""),
         "unnamed")
    lines = ["names: a|b", "edition: 37 booleans, 16 numbers, 158 strings", "am", "colors#8",
             "rmln=x", "beyond the edition: 27 booleans, 48 numbers, 354 strings"]
    same(raw("show", "unnamed"), (0, ("\n".join(lines) + "\n").encode(), ""), "unnamed")
    lines = ["names: a|b", "edition: 21 booleans, 8 numbers, 138 strings", "am",
             "beyond the edition: 43 booleans, 56 numbers, 374 strings"]
    same(raw("show", "-e", "1", "unnamed"), (0, ("\n".join(lines) + "\n").encode(), ""), "unnamed")
    for edition in ((0, 0, 0), (41, 17, 159), (38, 64, 158)):
        check_file(file, edition=edition)
    return 9


# Each command with words that it takes; `-e` and its word stand before them.
OPERANDS = {"compile": ["act4.ti", "out"], "check": ["act"], "show": ["act", "cup"],
            "merge": ["act", "act", "out"], "expand": ["act", "cup"]}
WRONG_EDITIONS = ["3", "0", "x", "", " ", "-1", "1,2", "1,2,3,4", "-1,2,3", "1,,3", "1,2,", ",1,2",
                  ",,", ",", "1,2,3,", "1, 2,3", "+1,2,3", "1,2,x", "0x1,2,3", "1.2,3", "1\n",
                  "21,8,138 ", "1;2;3", "first", "--", "-"]
LARGE_EDITIONS = ["65,64,512", "64,65,512", "64,64,513", "99999999999999999999999,0,0",
                  "0,18446744073709551616,0", "0,0,4294967296", "256,0,0", "65,65,513",
                  "0,0,18446744073709552128"]


def check_editions():
    """-e of each command: wrong words, no word, too large before any file is read, the last one."""
    put("act4.ti", act4.TEXT)
    put("act", act4.dumped())
    put("out", OLD)
    before = files()
    runs = 0
    for command, operands in OPERANDS.items():
        for words in ([["-e", wrong, *operands] for wrong in WRONG_EDITIONS]
                      + [["-e"], ["-e", *operands], ["-e", "1", "-e", *operands],
                         ["-e", "3", "-e", "1", *operands], ["-e", "1", "-e", "3", *operands],
                         ["-e", "1"], ["-e", "65,0,0", "-e", "x", *operands],
                         ["-e", "1", "-x", *operands]]):
            status, printed, errors = raw(command, *words, given=act4.TEXT)
            same((status, printed), (2, b""), [command, *words, errors])
            same(f"usage: ti {command} " in errors, True, [command, *words, errors])
            runs += 1
        missing = ["missing"] * len(operands)
        for large in LARGE_EDITIONS:
            for words in (["-e", large, *operands], ["-e", "1", "-e", large, "--", *missing]):
                same(raw(command, *words), (1, b"", TOO_LARGE), [command, *words])
                runs += 1
        same(files(), before, command)
        for words in (["-e", "65,0,0", "-e", "2"], ["-e", "1", "-e", "37,16,158"],
                      ["-e", "2", "--"], []):
            put("out", OLD)
            found = raw(command, *words, *operands)
            same((found[0], found[2]), (0, ""), [command, *words])
            if "out" in operands:
                same((folder / "out").read_bytes(), ACT4, [command, *words])
            runs += 1
        put("out", OLD)
    for words in (["-v", "-e", "1"], ["-e", "1", "-v"], ["-e", "1", "-v", "-e", "2", "--"]):
        same(raw("expand", *words, "act", "cup", "5", "70"), (0, ACT4_CUP, ""), words)
    for command, words in (("compile", ["out"]), ("merge", ["act", "act", "out"])):
        same(raw(command, "-e", "1", *words, given=act4.TEXT)[0], 0, command)
        same((folder / "out").read_bytes(), act4.dumped(), command)
        same(raw(command, "-e", "64,64,512", *words, given=act4.TEXT)[0], 0, command)
        same((folder / "out").read_bytes(), expected(act4.TEXT, LARGEST_EDITION)[2], command)
    text = b"a|b,\n\tam, colors#8,\n"
    same(raw("compile", "-e", "1", "out", given=text),
         (1, b"", "ti: standard input:2:6: 'colors' is not in the edition (refusal 11, byte 10)\n"),
         "colors")
    return runs + 8


def check_merge(first, second, edition=SECOND_EDITION):
    """ti merge on two files in an edition; the old file stays where it is refused."""
    put("first", first)
    put("second", second)
    put("merged", OLD)
    found = raw("merge", *option(edition), "first", "second", "merged")
    for name, file in (("first", first), ("second", second)):
        if judged(file)[0]:
            refused_file(found, name, file, edition)
            same((folder / "merged").read_bytes(), OLD, "merged")
            return judged(file)[0]
    try:
        merged = model.merge(first, second, edition, LARGEST_FILE)
    except Refusal as refusal:
        refused(found, "merged", refusal.number)
        same((folder / "merged").read_bytes(), OLD, "merged")
        return refusal.number
    same(found, (0, f"merged: {len(merged)} bytes\n".encode(), ""), "merge")
    same((folder / "merged").read_bytes(), merged, "merged")
    return 0


def check_faults():
    """Where act4 is bad once bytes of it are changed, in words; by merge under the file's name."""
    act, runs = act4.dumped(), 0
    for changes, sentence, known in (
            ({20: 0}, "the names do not end in their only NUL (refusal 4, byte 20)", 1),
            ({43: 1}, "the names do not end in their only NUL (refusal 4, byte 43)", 1),
            ({45: 2}, "boolean of am is none of 0, 1 and 254 (refusal 5, byte 45)", 1),
            ({45: 2}, "boolean 1 is none of 0, 1 and 254 (refusal 5, byte 45)", 0),
            ({65: 1}, "the pad byte is not 0 (refusal 5, byte 65)", 1),
            ({67: 128}, "number slot of cols is above 32,767 and neither absent nor cancelled "
             "(refusal 6, byte 66)", 1),
            ({67: 128}, "number slot 0 is above 32,767 and neither absent nor cancelled "
             "(refusal 6, byte 66)", 0),
            ({102: 34}, "string slot of cup is no offset into the string table "
             "(refusal 7, byte 102)", 1),
            ({102: 34}, "string slot 10 is no offset into the string table "
             "(refusal 7, byte 102)", 0),
            ({102: 33, 103: 0, 391: 1}, "string slot of cup is an offset with no NUL at or after "
             "it in the string table (refusal 7, byte 102)", 1)):
        edition = FIRST_EDITION if known else (0, 0, 0)
        bad = bytes(changes.get(i, byte) for i, byte in enumerate(act))
        put("good", act)
        put("bad", bad)
        error = f"ti: bad: {sentence}\n"
        for words in (["check", "bad"], ["show", "bad"], ["merge", "bad", "good", "out"],
                      ["merge", "good", "bad", "out"], ["merge", "bad", "bad", "out"]):
            found = raw(words[0], *option(edition), *words[1:])
            same(found, (1, b"", error), words)
            runs += 1
    return runs


def check_merges():
    act = act4.dumped()
    for pair in ((act, act), (act, b""), (b"", act), (act, bytes(4097))):
        check_merge(*pair)
    same(raw("merge", "-", "first", "merged", given=act)[0], 0, "merge from standard input")
    numbers = Counter(check_merge(*map(bytes, make_pair()[0]), pick_edition())
                      for _ in range(MERGES))
    if not {0, 9} <= set(numbers):
        sys.exit(f"merge: never seen 0 or 9: {numbers}")
    left = [path for path in files() if "/.ti-" in "/" + path]
    same(left, [], "temporary files")
    return MERGES + 5


def with_string(string, place):
    """A file of the second edition whose string at a place is this one."""
    states = [[(model.ABSENT, None)] * count for count in SECOND_EDITION]
    states[model.STRING][place] = model.PRESENT, string
    return model.written(b"a|b", states, LARGEST_FILE)


def verbose_lines(made, string, longest):
    """What ti expand -v prints for a string where the longest text has so many bytes."""
    most = 25 * len(string) + longest * expand_model.texts_of(string)
    return (f"{shown(made.output, 33)}\n{made.steps} steps (at most {len(string)}), "
            f"{len(made.output)} bytes (at most {most})\n").encode()


def word_of(value):
    """A word that gives ti an argument: a number, or bytes for a text."""
    if isinstance(value, int):
        return b"%d" % value
    marked = NUMBER_WORD.fullmatch(value) or value.startswith(b"=") or pick(True, False)
    return b"=" + value if marked else value


def check_expansion(string, values):
    """ti expand and ti expand -v on a string with some values; bytes stand for a text."""
    name = pick("cup", "cup", "sgr", "mc5p", "pln")
    place = model.STRINGS.index(name)
    put("file", with_string(string, place))
    edition = pick(SECOND_EDITION, LARGEST_EDITION, (0, 0, place + 1))
    words = ["file", name, *map(word_of, values)]
    found = raw("expand", *option(edition), *words)
    verbose = raw("expand", *pick([*option(edition), "-v"], ["-v", *option(edition)]), *words)
    nine, lent = lend(values)
    try:
        made = expand_model.expand(string, nine, [0] * 26, 1 << 20, 0, lent)
    except Refusal as refusal:
        for run in found, verbose:
            refused(run, f"file: {name}", refusal.number, STRING_SENTENCES[refusal.number],
                    refusal.value if refusal.number in (14, 15, 16, 21) else None)
        return refusal.number
    longest = max((argument.length for argument in nine if isinstance(argument, Text)), default=0)
    same(found, (0, made.output, ""), string)
    same(verbose, (0, verbose_lines(made, string, longest), ""), string)
    return 0


def check_arguments():
    """Words that are numbers, texts and neither; pfkey and pln of hpterm, as ti compiles it."""
    hpterm = (Path(TI).parent / "examples" / "hpterm.ti").read_bytes()
    put("hpterm", expected(hpterm, SECOND_EDITION)[2])
    put("length", with_string(b"%p1%l%d", model.STRINGS.index("cup")))
    put("text", with_string(b"<%p1%s>", model.STRINGS.index("cup")))
    put("number", with_string(b"<%p1%d>", model.STRINGS.index("cup")))
    same(raw("expand", "hpterm", "pfkey", "1", "ls -l\r"), (0, b"\33&f1k6Lls -l\r", ""), "pfkey")
    same(raw("expand", "-v", "hpterm", "pfkey", "1", "ls -l"),
         (0, b"\\033&f1k5Lls\\040-l\n12 steps (at most 22), 12 bytes (at most 555)\n", ""), "pfkey")
    same(raw("expand", "-v", "hpterm", "pfkey", "1", "a", "ninety"),
         (0, b"\\033&f1k1La\n12 steps (at most 22), 8 bytes (at most 556)\n", ""), "longest text")
    same(raw("expand", "hpterm", "pln", "8", "=8"), (0, b"\33&f8k1d0L8", ""), "pln")
    refused(raw("expand", "hpterm", "pfkey", "1"), "hpterm: pfkey", 21, STRING_SENTENCES[21], 12)
    refused(raw("expand", "hpterm", "pfkey", "x", "y"), "hpterm: pfkey", 21, STRING_SENTENCES[21], 6)
    for number in (0, 1, -1, 2**31 - 1, -2**31):
        for word in (f"{number}", f"{number:040d}"):
            same(raw("expand", "number", "cup", word), (0, b"<%d>" % number, ""), word)
            refused(raw("expand", "text", "cup", word), "text: cup", 21, STRING_SENTENCES[21], 4)
            same(raw("expand", "text", "cup", "=" + word), (0, f"<{word}>".encode(), ""), word)
    texts = [b"", b"x", b"-", b"--", b"-v", b"-x1", b"+1", b"1x", b" 1", b"1 ", b"0x10", b"1.5", b"--1",
             b"1-", b"a=b", b"\xff\x80", bytes(range(1, 256)), (LARGEST_TEXT - 1) * b"x"]
    for text in texts:
        for word in (text, b"=" + text):
            same(raw("expand", "length", "cup", word), (0, b"%d" % len(text), ""), word)
            same(raw("expand", "text", "cup", word), (0, b"<" + text + b">", ""), word)
        same(raw("expand", "text", "cup", b"==" + text), (0, b"<=" + text + b">", ""), text)
    for size in (1001, 2000, 4000):
        for words in ([size * "x"], ["0", size * "x"], [*8 * "0", size * "x"], ["=" + size * "9"]):
            refused(raw("expand", "act", "cup", *words), "act: cup", 1, STRING_SENTENCES[1])
    for word in ("2147483648", "-2147483649", "00002147483648", 20 * "9", "-" + 20 * "9", 70 * "1"):
        for words in ([word], ["x", word], [*8 * "0", word]):
            same(raw("expand", "act", "cup", *words)[:2], (2, b""), words)
        same(raw("expand", "text", "cup", "=" + word), (0, f"<{word}>".encode(), ""), word)
    return 6 + 30 + 5 * len(texts) + 12 + 24


def check_expansions():
    """Examples, states that can't be expanded, wrong words, then generated strings."""
    put("act", act4.dumped())
    same(raw("expand", "act", "cup", "5", "70"), (0, b"\x14\x05F", ""), "cup of act4")
    same(raw("expand", "-v", "-", "cup", "5", "70", given=act4.dumped()),
         (0, ACT4_CUP, ""), "cup of act4")
    same(raw("expand", "act", "cup", "0", "70"), (0, b"\x14\x80F", ""), "cup of act4 at row 0")
    same(raw("expand", "act", "cup"), (0, b"\x14\x80\x80", ""), "cup of act4 at row 0, column 0")
    examples = [(b"\x1b=%p1%' '%+%c%p2%' '%+%c", (3, 12)), (b"%p1%p2%-%d", (7, 5)),
                (b"%p1%03d", (-5,)), (b"%?%p2%|%t;4%;", ()), (b"\x1b[%i%p1%d;%p2%dH", (0, 0)),
                (21 * b"%p1", ()), (20 * b"%p1", ()), (b"%", ()), (1000 * b"x", ()),
                (1001 * b"x", ()),
                (b"%p9%d", tuple(range(1, 10))), (b"%p1%d%p2%d", (-2**31, 2**31 - 1)), (b"", ())]
    examples += [(PFKEY, (1, b"ls -l")), (PFKEY, (1, b"")), (PFKEY, (1, 2)), (PFKEY, ()),
                 (b"%p1%s%p9%s", (b"a", *7 * [0], b"b")), (b"%p1%+", (b"a",)), (b"%s", (b"a",)),
                 (b"%i%p1%s%p2%d", (b"5", 5)), (b"%p1%5s", (b"a",)), (b"x", (1001 * b"x",)),
                 (b"%?%p2%t%s%;%p1%s", (b"a",)), (200 * b"%p1%s", (LARGEST_TEXT * b"x",)),
                 (200 * b"%p9%s", 9 * (LARGEST_TEXT * b"y",)), (500 * b"%s", (b"x",))]
    for string, values in examples:
        check_expansion(string, values)
    _, _, changed = text_model.compile(b"a|b,\n cup@, ri=,\n", LARGEST_FILE, SECOND_EDITION)
    put("changed", changed)
    same(raw("expand", "changed", "cup"), (1, b"", "ti: changed: cup is cancelled\n"), "cancelled")
    same(raw("expand", "changed", "el"), (1, b"", "ti: changed: el is absent\n"), "absent")
    same(raw("expand", "changed", "ri"), (0, b"", ""), "an empty string")
    for name, sentence in (("zz", "unknown capability 'zz'"), ("", "unknown capability ''"),
                           ("am", "'am' is a boolean, not a string"),
                           ("cols", "'cols' is a number, not a string"),
                           ("cup\n", "unknown capability 'cup\\012'")):
        refused(raw("expand", "changed", name), "changed", 11, sentence)
    refused_beyond(raw("expand", "-e", "1", "changed", "acsc"), "changed", "acsc")
    refused_beyond(raw("expand", "-e", "37,16,10", "changed", "cup"), "changed", "cup")
    same(raw("expand", "act", "acsc"), (1, b"", "ti: act: acsc is absent\n"), "beyond the file")
    same(raw("expand", "changed", 5000 * "c")[:2], (2, b""), "a long name")
    numbers = Counter()
    for _ in range(STRINGS):
        values = pick_values(pick(0, 1, 2, 9))
        if below(3):
            most = pick(LARGEST_TEXT, LARGEST_TEXT, LARGEST_TEXT, 3 * LARGEST_TEXT)
            values = [pick_lent().translate(NO_NULS)[:most] if below(2) else value
                      for value in values]
        for_arguments(lend(values)[0])
        numbers[check_expansion(pick_string().replace(b"\0", b"0"), values)] += 1
    missing = {0, 1, 14, 15, 16, 21} - set(numbers)
    if missing:
        sys.exit(f"expand: never seen: {missing}")
    return 2 * len(examples) + 15 + 2 * STRINGS + check_arguments()


def check_bad_files():
    """Files that can't be read and output that can't be written: status 2 and a message."""
    put("act", act4.dumped())
    (folder / "dir").mkdir(exist_ok=True)
    os.mkfifo(folder / "pipe")
    before = files()
    runs = []
    for name in ("missing", "dir", "dir/", "", 256 * "n", 2100 * "n/", "act/x"):
        runs += [raw("check", name), raw("show", name), raw("expand", name, "cup"),
                 raw("merge", name, "act", "out"), raw("merge", "act", name, "out")]
    runs += [raw("merge", "act", "act", out)
             for out in ("dir", "dir/", "missing/out", "pipe", "", 256 * "n")]
    runs += [raw("compile", "-"), raw("merge", "act", "act", "-"), raw("merge", "-", "-", "out")]
    runs += [raw("check"), raw("show"), raw("check", "act", "act"), raw("merge", "act", "act"),
             raw("expand", "act"), raw("expand", "-v", "act"),
             raw("expand", "act", "cup", *"1234567890"),
             raw("help", "act"), raw("help", "show", "show"), raw("list"), raw(""), raw("help", ""),
             raw("check", "-x", "act"), raw("show", "-x", "act"), raw("show", "--", "-x"),
             raw("expand", "-x", "act", "cup"), raw("expand", "-v", "-x", "act", "cup"),
             raw("expand", "-v"), raw("expand", "--", "-v", "act", "cup"), raw("merge", "-x"),
             raw("merge", "-x", "act", "act", "out"), raw("merge"), raw("show", "act", 5000 * "c")]
    for words in (["check", "act"], ["show", "act"], ["show", "act", "cup"],
                  ["expand", "act", "cup"],
                  ["expand", "-v", "act", "cup"]):
        with open("/dev/full", "wb") as full:
            done = subprocess.run([TI, *words], cwd=folder, stdout=full,
                                  stderr=subprocess.PIPE, check=False)
        runs.append((done.returncode, b"", done.stderr.decode()))
        done = subprocess.run(["sh", "-c", 'exec "$@" >&-', "sh", TI, *words], cwd=folder,
                              stderr=subprocess.PIPE, check=False)
        runs.append((done.returncode, b"", done.stderr.decode()))
        ends = os.pipe()
        os.close(ends[0])
        done = subprocess.run([TI, *words], cwd=folder, stdout=ends[1], stderr=subprocess.PIPE,
                              check=False)
        os.close(ends[1])
        same((done.returncode, done.stderr), (2, b"ti: standard output: Broken pipe\n"), words)
    for status, printed, errors in runs:
        same((status, printed, errors == ""), (2, b"", False), errors)
    same(files(), before, "files")
    same((folder / "pipe").is_fifo(), True, "pipe")
    (folder / "pipe").unlink()
    return len(runs) + 6


def long_path(name):
    """A path as long as the system takes, to a file of this name in the folder."""
    fill = PATH_MOST - len(name)
    return fill // 2 * "./" + fill % 2 * "/" + name


def check_long_names():
    """Names of 255 bytes and paths of 4,095: read, written and shown in a refusal."""
    act = ACT4
    name = 255 * "n"
    runs = 0
    for path in (name, long_path(name), long_path("long"), str(folder / name)):
        if "long" in path:
            put("long", act)
        else:
            same(ti("compile", path, text=act4.TEXT), COMPILED, path)
            same((folder / name).read_bytes(), act, path)
            same(raw("merge", path, path, path), (0, b"merged: 464 bytes\n", ""), path)
        same(raw("check", path), (0, b"accepted: 464 bytes\n", ""), path)
        same(raw("show", path), (0, shown_file(act).encode(), ""), path)
        same(raw("expand", path, "cup", "5", "70"), (0, b"\x14\x05F", ""), path)
        put("long" if "long" in path else name, act[:-1])
        refused(raw("check", path), path, 1)
        (folder / ("long" if "long" in path else name)).unlink()
        runs += 6
    before = files()
    for path in (long_path("long") + "x", "./" * 2048 + "long", long_path("x")):
        same(ti("compile", path, text=act4.TEXT)[:2], (2, ""), path)
    same(files(), before, "files")
    return runs + 3


def check_closed_streams():
    """Standard input or output closed or full, for the commands that write a file.

    A closed output changes no file. A full one is told of after the file was saved.
    """
    put("act", act4.dumped())
    runs = 0
    for words in (["compile", "out"], ["merge", "act", "act", "out"]):
        put("out", OLD)
        before = files()
        done = subprocess.run(["sh", "-c", 'exec "$@" >&-', "sh", TI, *words], cwd=folder,
                              input=act4.TEXT, stderr=subprocess.PIPE, check=False)
        same((done.returncode, done.stderr), (2, b"ti: standard output is closed\n"), words)
        same(files(), before, words)
        with open("/dev/full", "wb") as full:
            done = subprocess.run([TI, *words], cwd=folder, input=act4.TEXT, stdout=full,
                                  stderr=subprocess.PIPE, check=False)
        same((done.returncode, done.stderr),
             (2, b"ti: standard output: No space left on device\n"), words)
        same(files(), {**before, "out": ACT4}, words)
        runs += 2
    put("out", OLD)
    before = files()
    for words in (["compile", "out"], ["check", "-"], ["show", "-"], ["expand", "-", "cup"],
                  ["merge", "-", "act", "out"]):
        done = subprocess.run(["sh", "-c", 'exec "$@" <&-', "sh", TI, *words], cwd=folder,
                              capture_output=True, check=False)
        same((done.returncode, done.stdout), (2, b""), words)
        same(done.stderr, b"ti: standard input: Bad file descriptor\n", words)
        runs += 1
    same(files(), before, "files")
    return runs


def check_full_disk():
    """A disk that takes no byte, or only some, by a limit on the size of files.

    The signal of that limit stays ignored, so that a write fails as on a full disk.
    """
    put("act", act4.dumped())
    runs = 0
    for most in (0, 100):
        for words in (["compile", "out"], ["compile", "new"], ["merge", "act", "act", "out"],
                      ["merge", "act", "act", "new"]):
            put("out", OLD)
            before = files()
            done = subprocess.run(
                [TI, *words], cwd=folder, input=act4.TEXT, capture_output=True, check=False,
                restore_signals=False,
                preexec_fn=lambda most=most: resource.setrlimit(resource.RLIMIT_FSIZE,
                                                                (most, most)))
            same((done.returncode, done.stdout), (2, b""), words)
            same(done.stderr, f"ti: {words[-1]}: File too large\n".encode(), words)
            same(files(), before, words)
            runs += 1
    return runs


def check_full_pipe():
    """An output that takes some bytes and then none: what fits of each piece behind that is written all the same."""
    put("act", act4.dumped())
    put("b", b"")
    full = b"ti: standard output: Resource temporarily unavailable\n"
    runs = [(["check", "act"], "stdout", 10, b"accepted: ", (2, full)),
            (["show", "act"], "stdout", 5, b"am\n", (2, full)),
            (["expand", "-v", "act", "cup", "5", "70"], "stdout", 2, b"\n5", (2, full)),
            (["check", "b"], "stderr", 2, b"b1", (1, b""))]
    for words, stream, room, fits, ends in runs:
        given, taken = os.pipe()
        size = fcntl.fcntl(taken, fcntl.F_SETPIPE_SZ, resource.getpagesize())
        os.set_blocking(taken, False)
        os.write(taken, bytes(size - room))
        streams = {"stdout": subprocess.PIPE, "stderr": subprocess.PIPE, stream: taken}
        done = subprocess.run([TI, *words], cwd=folder, check=False, **streams)
        os.close(taken)
        with open(given, "rb") as pipe:
            same(pipe.read()[size - room:], fits, words)
        same((done.returncode, done.stderr or done.stdout or b""), ends, words)
    return len(runs)


def check_no_rights():
    """A file that may not be read, and a folder that may not be written to.

    Root may do both, so that as root ti is run as another user.
    """
    user = OTHER_USER if os.geteuid() == 0 else []
    folder.chmod(0o755)
    closed = folder / "no-rights"
    closed.mkdir()
    put("no-rights/act", act4.dumped())
    put("secret", act4.dumped())
    (closed / "act").chmod(0o644)
    closed.chmod(0o555)
    (folder / "secret").chmod(0)
    if user and (not shutil.which(user[0]) or subprocess.run(
            [*user, TI, "check", "no-rights/act"], cwd=folder, capture_output=True,
            check=False).returncode):
        print("rights of files: not tried, another user can't run ti here")
        return 0
    before = {name: file for name, file in files().items() if name != "secret"}
    act, secret, out = "no-rights/act", "secret", "no-rights/out"
    runs = [(["check", secret], secret), (["show", secret], secret),
            (["expand", secret, "cup"], secret), (["merge", secret, act, out], secret),
            (["merge", act, secret, out], secret), (["merge", act, act, out], out),
            (["merge", act, act, act], act), (["compile", out], out), (["compile", act], act)]
    for words, named in runs:
        done = subprocess.run([*user, TI, *words], cwd=folder, input=act4.TEXT,
                              capture_output=True, check=False)
        same((done.returncode, done.stdout), (2, b""), words)
        same(done.stderr, f"ti: {named}: Permission denied\n".encode(), words)
    closed.chmod(0o755)
    (folder / "secret").unlink()
    same(files(), before, "files")
    return len(runs)


def check_help():
    status, printed, errors = raw("help")
    same((status, errors), (0, ""), "help")
    words = [line.split()[1] for line in printed.decode().splitlines() if line.startswith("ti ")]
    for word in words:
        found = raw("help", word)
        same((found[0], found[2], found[1].startswith(f"ti {word}".encode())), (0, "", True), word)
    for word in ("--help", "-h"):
        same(raw(word), raw("help"), word)
    return len(words) + 3


def check_generated():
    rng.seed(SEED)
    numbers = Counter()
    for _ in range(GENERATED):
        edition = pick_edition()
        text, wanted = pick_text(edition), None
        if rng.random() < 0.5:
            text, names = pick_uses(edition)
            wanted = pick_wanted(text, names)
            wanted = text[wanted] if isinstance(wanted, slice) else wanted
            if wanted and (b"\0" in wanted or len(wanted) > PATH_MOST):  # no word of a command
                wanted = b""
        found = compiled("out", text, edition, wanted)
        same(found, expected(text, edition, wanted), (text, wanted))
        numbers[found[0]] += 1
    missing = {0, 1, 9, 10, 11, 13, 18, 19} - set(numbers)
    if missing:
        sys.exit(f"never seen: {missing}")
    return GENERATED


if __name__ == "__main__":
    with tempfile.TemporaryDirectory() as name:
        folder = Path(name)
        rng.seed(SEED)
        counts = [check() for check in (
            check_help, check_examples, check_uses, check_wanted, check_names, check_terminal,
            check_failures, check_editions, check_generated, check_files, check_unnamed,
            check_faults, check_merges, check_expansions, check_bad_files, check_long_names,
            check_closed_streams, check_full_disk, check_full_pipe, check_no_rights)]
    print(f"{sum(counts)} runs of ti as stated, on the documents' examples and generated input")
