"""Holds compiling by the library to the vectors, document 01's examples and the model.

The texts that go to library and model are all short ones of some kinds, and generated ones in
editions of all sizes, the same in every run. Their first description is compiled; test_uses.py has
what concerns others. Fails at the first difference, and if a refusal, or a case that NEEDED names,
never came.
"""

import sys
from collections import Counter
from itertools import product

import act4
import library
import model
from library import ROOT, pack
from model import (ABSENT, CANCELLED, FIRST_EDITION, LARGEST_EDITION, LARGEST_FILE, PRESENT,
                   SECOND_EDITION)
from test_random import HUGE, below, chance, fixed_size, pick, rng, split, too_large, upto
from test_vectors import bytes_of, check_written, lines, same
from text_model import LARGEST_TEXT, NAME

SEED = 138
GENERATED = 120_000
REFUSALS = (0, 1, 3, 8, 9, 10, 11, 13, 18)  # 0 is success

# Counting and comparing

# The cases that must come, besides the refusals.
NEEDED = [(8, "by one byte"), (0, "with no room to spare"), (0, "with room to spare")]
NEEDED += [(0, f"file of {size} bytes") for size in (4095, 4096)]
NEEDED += [(0, f"text of {size} bytes") for size in (LARGEST_TEXT - 1, LARGEST_TEXT)]
NEEDED += [(1, f"text of {LARGEST_TEXT + 1} bytes"), (10, "text of 0 bytes")]
NEEDED += [(0, "names of 126 bytes"), (0, "names of 127 bytes"), (13, "names of 128 bytes")]
NEEDED += [(0, "string of 1,000 bytes"), (13, "string of 1,001 bytes")]
NEEDED += [(0, "number of 99 digits"), (13, "number of 100 digits")]
NEEDED += [(10, "NUL last"), (0, "no line end last"), (0, "a field twice")]
NEEDED += [(number, where) for number in (10, 11, 13, 18) for where in ("first field", "later")]
NEEDED += [(10, "header"), (13, "header"), (10, "column 1")]
EDITIONS = ("the first edition", "the second edition", "an edition with unnamed places",
            "another edition")
NEEDED += [(number, edition) for number in (0, 8, 9, 11) for edition in EDITIONS]
NEEDED += [(11, "a name of the lists beyond the edition"), (3, "text of more than 16,384 bytes"),
           (3, "a text that the second edition accepts")]
NEEDED += [(number, "in a larger edition, accepted in the smaller") for number in (0, 9)]

tally = Counter()
seen = Counter()
tags = []  # the cases that the generated text was made for


def check(text, room, edition=SECOND_EDITION, wanted=None):
    """Compares library and model; returns the answer and the file that they give."""
    found = library.compile_text(text, room, edition, wanted)
    expected = library.model_compile(text, room, edition, wanted)
    if found != expected:
        print("the library gives", *shown(found), "\nthe model gives", *shown(expected))
        sys.exit(f"compiling {wanted} in the edition {edition} with room {room} of {text} differs")
    tally[found[0] >> 56] += 1
    return found


def shown(given):
    answer, file = given
    return hex(answer), file and file.hex()


def note(text, room, edition, answer):
    """Counts the cases that a generated text belongs to, by its answer."""
    number, value = answer >> 56, answer & (1 << 56) - 1
    seen.update((number, tag) for tag in tags)
    seen[number, f"text of {len(text)} bytes"] += 1
    seen[number, "text of more than 16,384 bytes"] += len(text) > LARGEST_TEXT
    seen[number, words_for(edition)] += 1
    if number == 0:
        seen[0, f"file of {value} bytes"] += 1
        seen[0, "with no room to spare" if value == room else "with room to spare"] += 1
        seen[0, "no line end last"] += not text.endswith(b"\n")
    elif number == 8:
        seen[8, "by one byte" if value == room + 1 else "by more"] += 1
    elif number >= 10:
        seen[number, "a name of the lists beyond the edition"] += beyond(text, value, edition)
        seen[number, where(text, value)] += 1
        seen[number, "NUL last"] += text.endswith(b"\0") and value == len(text) - 1


def words_for(edition):
    """Which of EDITIONS one is that is not too large."""
    if edition in (FIRST_EDITION, SECOND_EDITION):
        return EDITIONS[edition == SECOND_EDITION]
    return EDITIONS[2 if any(map(int.__gt__, edition, SECOND_EDITION)) else 3]


def beyond(text, place, edition):
    """Whether the field at a place has a name of the lists that the edition doesn't know."""
    name = NAME.match(text, place)
    return name is not None and any(name[0].decode("ascii") in names[known:]
                                    for names, known in zip(model.LISTS, edition))


def where(text, place):
    """Where a field starts that is refused."""
    if place == 0:
        return "header"
    if text[place - 1:place] == b"\n":
        return "column 1"
    return "first field" if text[:place].count(b",") == 1 else "later"


# Vectors and examples

def run_vectors():
    total = 0
    for line, given, out in lines("compile"):
        wanted = given["wanted"] and bytes_of(given["wanted"])
        arguments = bytes_of(given["text"]), given["room"], given["edition"], wanted
        check_written(line, library.compile_text(*arguments), library.model_compile(*arguments),
                      out)
        total += 1
    return total


def run_act4():
    same((ROOT / "examples" / "act4.ti").read_bytes(), act4.TEXT, "examples/act4.ti")
    file = act4.dumped()
    same(len(file), act4.SIZE, "bytes of the dump")
    for room in (392, 393, 4096):
        same(check(act4.TEXT, room, FIRST_EDITION), (392, file), f"act4 with room {room}")
    same(check(act4.TEXT, 391, FIRST_EDITION), (pack(8, 392), None), "act4 with room 391")
    answer, second = check(act4.TEXT, 4096)
    same(answer, act4.SECOND_SIZE, "act4 in the second edition")
    names, states = library.contents(file, FIRST_EDITION)
    same(library.contents(second, SECOND_EDITION), (names, extended(states, SECOND_EDITION)),
         "act4 in the second edition")


HEADER = b"a|b,\n\t"
FIELD = len(HEADER)
CANCEL = (CANCELLED, None)
LONG = 1001 * b"x"
ZEROS = 98 * b"0"
# Fields after HEADER, and what document 01 says: states by name, or a refusal and where, counted
# from the first field on.
FIELDS = [
    (b"it#021,", {"it": 17}), (b"it#0x10,", {"it": 16}), (b"it#0X1f,", {"it": 31}),
    (b"it#08,", (10, 0)), (b"lm#0,", {"lm": 0}), (b"lm#00,", {"lm": 0}),
    (b"it#0x,", (10, 0)), (b"it#,", (10, 0)), (b"it#-1,", (10, 0)), (b"it#+1,", (10, 0)),
    (b"it#1L,", (10, 0)), (b"it# 1,", (10, 0)), (b"it#1 ,", (10, 0)), (b"it #1,", (10, 0)),
    (b"it#32767,", {"it": 32767}), (b"it#32768,", (13, 0)), (b"it#4294967297,", (13, 0)),
    (b"it#0" + ZEROS + b",", {"it": 0}), (b"it#00" + ZEROS + b",", (13, 0)),
    (b"it#0x1" + ZEROS + b",", (13, 0)), (b"it#0x" + ZEROS + b"1,", {"it": 1}),
    (b"it#0x0" + ZEROS + b"1,", (13, 0)), (b"it#" + 99 * b"9" + b",", (13, 0)),
    (b"am, it#" + 16000 * b"1" + b",", (13, 4)), (b"zz#0x" + 100 * b"0" + b",", (11, 0)),
    (b"cr=\\0^@\\000,", {"cr": bytes([128, 128, 128])}), (b"cr=\\47^h,", {"cr": b"'\b"}),
    (b"cr=\\E\\e\\n\\l\\r\\t\\b\\f\\s,", {"cr": bytes([27, 27, 10, 10, 13, 9, 8, 12, 32])}),
    (b"cr=\\^\\\\\\,\\:,", {"cr": b"^\\,:"}), (b"cr=^?^_^^^]^\\^[^A^z,",
                                                {"cr": bytes([127, 31, 30, 29, 28, 27, 1, 26])}),
    (b"cr=\\377\\12\\1238\\08,", {"cr": b"\xff\nS8\x808"}), (b"cr=\\400,", (10, 0)),
    (b"cr=\\4000,", (10, 0)), (b"cr=\\777,", (10, 0)), (b"cr=\\8,", (10, 0)),
    (b"cr=\\a,", (10, 0)), (b"cr=^`,", (10, 0)), (b"cr=^{,", (10, 0)), (b"cr=^,", (10, 0)),
    (b"cr=^%,", (10, 0)), (b"cr=:=#@|$<5>,", {"cr": b":=#@|$<5>"}), (b"cr=,", {"cr": b""}),
    (b"cr=a \n \t b,", {"cr": b"a b"}), (b"cr=a\t\n b,", (10, 0)), (b"cr=a\tb,", (10, 0)),
    (b"cr=\n\ta\n ,", {"cr": b"a"}), (b"cr=a\n \n\tb,", {"cr": b"ab"}),
    (b"cr=a\n\n\tb,", (10, 0)), (b"cr=a\nb,", (10, 0)), (b"cr=a\n\t# b,", {"cr": b"a# b"}),
    (b"cr=a\r\n\tb,", (10, 0)), (b"cr=\\1\n 2,", {"cr": b"\0012"}), (b"cr=\\\n n,", (10, 0)),
    (b"cr=^\n M,", (10, 0)), (b"cr=a", (10, 0)), (b"cr=a\n\t", (10, 0)), (b"cr=\x7f,", (10, 0)),
    (b"cr=\x80,", (10, 0)), (b"cr=\0,", (10, 0)), (b"cr=a\n\t,am,", {"cr": b"a", "am": None}),
    (b"cr=" + LONG[1:] + b",", {"cr": LONG[1:]}), (b"cr=" + LONG + b",", (13, 0)),
    (b"am=" + LONG + b",", (11, 0)), (b"use=" + LONG + b",", (13, 0)),
    (b"am, bw@,\tit@,cr@,", {"am": None, "bw": CANCEL, "it": CANCEL, "cr": CANCEL}),
    (b"am,\n am@,", {"am": None}), (b"am@, am,", {"am": CANCEL}),
    (b"it#1, it#2,", {"it": 1}), (b"cr=a, cr=b, cr@,", {"cr": b"a"}),
    (b"cr=a, cr=\\a,", (10, 6)), (b"it#1, it#99999,", (13, 6)), (b"am, am#1,", (11, 4)),
    (b"kf10=a, kf2=b,", {"kf10": b"a", "kf2": b"b"}),
    (b"am", (10, 0)), (b"am,\0", (10, 3)), (b"am,\n\0", (10, 4)), (b"am,\n\t\0", (10, 5)),
    (b"am\0,", (10, 0)), (b"am ,", (10, 0)), (b"am\n,", (10, 0)), (b"am\r\n", (10, 0)),
    (b"am,\r\n", (10, 3)), (b"am@@,", (10, 0)), (b"am,,", (10, 3)), (b",", (10, 0)),
    (b"am, ,", (10, 4)), (b"am, # note", (10, 4)), (b"am,# note", (10, 3)),
    (b"am,\n# note\n", {"am": None}), (b"am,\n \t# \0\r\xff", {"am": None}),
    (b"am,\n\n \n\tbw,", {"am": None, "bw": None}), (b"am,\nbw,", (10, 4)),
    (b"am,\na|b,\n", {"am": None}), (b"am,\n a|b,\n", (11, 5)), (b"=x,", (10, 0)), (b"@,", (10, 0)),
    (b".am,", {}), (b".zz#99999,am,", {"am": None}), (b".am, am@,", {"am": CANCEL}),
    (b"..,", {}), (b".,", (10, 0)), (b".#5,", (10, 0)), (b". am,", (10, 0)),
    (b".use=x,", {}), (b".it#0" + 100 * b"0" + b",", {}), (b".cr=" + LONG + b",", {}),
    (b".it#08,", (10, 0)), (b".it#0x,", (10, 0)), (b".cr=\\400,", (10, 0)), (b".am", (10, 0)),
    (b"zz,", (11, 0)), (b"zz@,", (11, 0)), (b"AM,", (11, 0)), (b"am#1,", (11, 0)),
    (b"am=x,", (11, 0)), (b"it,", (11, 0)), (b"it=1,", (11, 0)), (b"cr,", (11, 0)),
    (b"cr#1,", (11, 0)), (b"am#99999,", (11, 0)), (b"use=x,", (18, 0)), (b"use=,", (18, 0)),
    (b"use=\\a,", (10, 0)), (b"use,", (11, 0)), (b"use@,", (11, 0)), (b"use#1,", (11, 0)),
    (b"zz, am", (11, 0)), (b"am, zz, am", (11, 4)),
]
# Fields of names that not all editions know, with the edition.
EDITION_FIELDS = [
    (b"colors#8, pairs#0x40,", SECOND_EDITION, {"colors": 8, "pairs": 64}),
    (b"bce, lpix@, ncv@, acsc=``aa, rmln=\\E,", SECOND_EDITION,
     {"bce": None, "lpix": CANCEL, "ncv": CANCEL, "acsc": b"``aa", "rmln": b"\x1b"}),
    (b"am, colors#8,", FIRST_EDITION, (11, 4)), (b"colors@,", FIRST_EDITION, (11, 0)),
    (b"nxon,", FIRST_EDITION, (11, 0)), (b"iprog=x,", FIRST_EDITION, (11, 0)),
    (b"xon, wsl#1, hu=x,", FIRST_EDITION, {"xon": None, "wsl": 1, "hu": b"x"}),
    (b"colors#99999,", FIRST_EDITION, (11, 0)), (b"colors#99999,", SECOND_EDITION, (13, 0)),
    (b"colors#08,", FIRST_EDITION, (10, 0)), (b".colors#8, am,", FIRST_EDITION, {"am": None}),
    (b"colors,", SECOND_EDITION, (11, 0)), (b"colors=8,", SECOND_EDITION, (11, 0)),
    (b"color#8,", SECOND_EDITION, (11, 0)), (b"colors7#8,", SECOND_EDITION, (11, 0)),
    (b"colors#8,", (37, 13, 158), (11, 0)), (b"colors#8,", (0, 14, 0), {"colors": 8}),
    (b"am,", (1, 8, 138), (11, 0)), (b"am@,", (2, 0, 0), {"am": CANCEL}),
    (b"cr=a,", (64, 64, 2), (11, 0)), (b"cr=a,", (0, 0, 3), {"cr": b"a"}),
    (b"am, ncv#3, rmln=x,", LARGEST_EDITION, {"am": None, "ncv": 3, "rmln": b"x"}),
    (b"kf11=x,", LARGEST_EDITION, (11, 0)), (b".am,", (0, 0, 0), {}), (b"am,", (0, 0, 0), (11, 0)),
    (b"use=x,", (0, 0, 0), (18, 0)), (b"", (0, 0, 0), {}), (b"", (38, 17, 159), {}),
]
# Editions that are too large, which is judged before the text.
TOO_LARGE = [(65, 64, 512), (64, 65, 512), (64, 64, 513), (65, 0, 0), (0, 65, 0), (0, 0, 513)]
TOO_LARGE += [tuple(huge if kind == at else 0 for kind in range(3))
              for huge in HUGE[1:] for at in range(3)]
# Whole texts: names, or a refusal and its place (None: it gives none).
TEXTS = [
    (b"a|b,", b"a|b"), (b"a|b,\n", b"a|b"), (b"a|b, \t", b"a|b"), (b"a|b,\0", (10, 0)),
    (b"a|b,\r\n", (10, 0)), (b"a|b,am,", (10, 0)), (b"a|b, # note", (10, 0)), (b"a|b", (10, 0)),
    (b"a|b\n,", (10, 0)), (b"", (10, 0)), (b"\n", (10, 0)), (b" ", (10, 0)), (b"\0", (10, 0)),
    (b"# note", (10, 0)), (b"\tam,", (10, 0)), (b" a|b,", (10, 0)), (b"am,", (10, 0)),
    (b"|b,", (10, 0)), (b"a|,", (10, 0)), (b"a||b,", (10, 0)), (b"a/c|b,", (10, 0)),
    (b"a|b/c,", b"a|b/c"), (b"a#|b,", b"a#|b"), (b"#a|b,", (10, 0)), (b"a | b,", (10, 0)),
    (b"a| b ,", b"a| b "), (b"a|b c|d,", (10, 0)), (b"a|b\tc,", (10, 0)), (b"a|\x7f,", (10, 0)),
    (b"# \0\xff\r,\n \t\n\n\t#\na|b,\n", b"a|b"), (b"\0a|b,", (10, 0)), (b"a|b,\n\0", (10, 5)),
    (14 * b"a" + b"|b,", 14 * b"a" + b"|b"), (15 * b"a" + b"|b,", (13, 0)),
    (15 * b"a" + b"|b,\0", (10, 0)), (15 * b"a" + b"|b/c|d,\n zz", (10, 0)),
    (15 * b"a" + b"|b,\n am", (13, 0)), (b"#\n" + 15 * b"a" + b"|b,", (13, 0)),
    (b"#\n|b,", (10, 0)), (b"a|" + 125 * b"b" + b",", b"a|" + 125 * b"b"),
    (b"a|" + 126 * b"b" + b",", (13, 0)), (b"a|" + 126 * b"b" + b",\n zz,", (11, 131)),
    (b"a|b,\n" + 16379 * b" ", b"a|b"), (b"a|b,\n" + 16380 * b" ", (1, None)),
    (16385 * b"\0", (1, None)), (16384 * b"\0", (10, 0)),
]


def run_examples():
    both = [(given, edition, expected) for edition in (FIRST_EDITION, SECOND_EDITION)
            for given, expected in FIELDS]
    for fields, edition, expected in both + EDITION_FIELDS:
        answer, file = check(HEADER + fields, 4096, edition)
        if isinstance(expected, tuple):
            number, place = expected
            same(answer, pack(number, FIELD + place), fields)
        else:
            same(file and library.contents(file, edition), (b"a|b", states_of(expected, edition)),
                 fields)
    for text, expected in TEXTS:
        answer, file = check(text, 4096)
        if isinstance(expected, tuple):
            number, place = expected
            same(answer, pack(number, place or 0), text)
        else:
            same(file and library.contents(file, SECOND_EDITION),
                 (expected, states_of({}, SECOND_EDITION)), text)
    for edition in TOO_LARGE:
        for text in (b"a|b,", b"", b"a|b,\n\tzz,", 16385 * b"\0"):
            same(check(text, pick(0, 4096), edition), (pack(3), None), edition)
    return len(both) + len(EDITION_FIELDS) + len(TEXTS) + 4 * len(TOO_LARGE)


def extended(states, edition):
    """All states of an edition, where those that aren't given are absent."""
    return {(kind, place): states.get((kind, place), (ABSENT, None))
            for kind, known in enumerate(edition) for place in range(known)}


def states_of(given, edition):
    """All states of an edition, where those given by name aren't absent."""
    states = {}
    for kind, names in enumerate(model.LISTS):
        for place, name in enumerate(names):
            if name in given:
                state = given[name]
                states[kind, place] = state if isinstance(state, tuple) else (PRESENT, state)
    return extended(states, edition)


# All short texts of some kinds

SOME_BYTES = b"\0\t\n\r !#,./089:;<=>?@ANXZ[\\]^_`aenxz{|}~\x7f\x80\xff"


def check_two_bytes():
    """Every byte and one of some after it, at each kind of place in a text."""
    places = [(b"a|b,\n\tcr=\\", b",am,"), (b"a|b,\n\tcr=^", b",am,"), (b"a|b,\n\tcr=", b",am,"),
              (b"a|b,\n\tcr=\\1", b",am,"), (b"a|b,\n\tcr=x\n", b",am,"),
              (b"a|b,\n\tlm#", b",am,"), (b"a|b,\n\tlm#0", b",am,"), (b"a|b,\n\tam", b",am,"),
              (b"a|b,\n\t.", b",am,"), (b"a|b,\n\tam,", b"am,"), (b"a|b,\n", b"am,"),
              (b"a|b,", b"\n\tam,"), (b"a", b"|b,\n"), (b"a|", b",\n"), (b"", b"a|b,\n"),
              (b"a|b,\n\tam,", b""), (b"a|b,", b"")]
    for (before, after), first, second in product(places, range(256), SOME_BYTES):
        check(before + bytes([first, second]) + after, 4096)


def check_short():
    """Every sequence of up to four to six bytes of some, as a text and at some places in one."""
    for alphabet, length, before, after in (
            (b"a|, \n#\0", 6, b"", b""), (b"am, \n#.", 5, b"a|b,", b""),
            (b"m,\n\t\\^08=", 4, b"a|b,\n\tcr=", b","), (b"089xXaF#,", 4, b"a|b,\n\tlm#", b",")):
        for size in range(length + 1):
            for made in product(alphabet, repeat=size):
                check(before + bytes(made) + after, 4096)


# Generated texts

def codes(low, high, without):
    return bytes(code for code in range(low, high + 1) if code not in without)


ALIAS_BYTES, LAST_BYTES = codes(33, 126, b",/|"), codes(32, 126, b",|")
NAME_BYTES, STRING_BYTES = codes(33, 126, b",=#@"), codes(32, 126, b",\\^")
CONTROLS = codes(63, 122, b"`")
VALUES = [0, 1, 7, 8, 9, 10, 80, 255, 256, 32766, 32767]
LARGE_VALUES = [32768, 32769, 65534, 65535, 65536, 65616, 2**31, 2**32, 2**32 + 80, 2**63, 2**64,
                2**64 + 80, 10**30]


def some(source, size):
    return bytes(rng.choices(source, k=size))


def blanks():
    return pick(b" ", b"\t", b"\t", b"  ", b" \t", b"\t ", b"    ")


def spaces():
    return pick(b"", b"", b"", b" ", blanks())


def comment():
    return spaces() + b"#" + rng.randbytes(pick(0, 1, below(30))).replace(b"\n", b",") + b"\n"


def skipped():
    """No line or some that are skipped."""
    if chance() < 0.75:
        return b""
    return b"".join(pick(spaces() + b"\n", comment()) for _ in range(pick(1, 1, 2, 4)))


def names():
    longest = 14 if chance() < 0.97 else 15
    made = b"|".join(some(ALIAS_BYTES, pick(1, 2, 4, 13, longest, 1 + below(longest)))
                     for _ in range(pick(1, 1, 1, 2, 3, 6))) + b"|"
    if chance() < 0.9:
        return made + some(LAST_BYTES, pick(1, 2, 15, 1 + below(40)))
    size = pick(126, 127, 127, 128, 128, 129, 130 + below(300))
    tags.append(f"names of {size} bytes")
    return made + some(LAST_BYTES, size - len(made))


def number(value, size=0):
    """A number's value in octal, decimal or hexadecimal, the first and the last with zeros."""
    form = pick("o", "d", "x", "X")
    if form == "d":
        return b"%d" % value
    digits = format(value, form).encode("ascii")
    if form == "o":
        return b"0" + digits.rjust(size - 1 if size else upto(8), b"0")
    digits = bytes(digits.lower()[at] if chance() < 0.5 else digits.upper()[at]
                   for at in range(len(digits)))
    return pick(b"0x", b"0X") + digits.rjust(size or upto(8), b"0")


def some_number():
    form = chance()
    if form < 0.05:
        size = pick(98, 99, 99, 100, 100, 101, 100 + below(300))
        digits = number(pick(*VALUES), size)
        if len(digits) >= size:
            tags.append(f"number of {size} digits")
        return digits
    return number(pick(*VALUES) if form < 0.5 else below(32768))


def piece():
    """A piece of a string that stands for one byte."""
    form = below(16)
    if form < 8:
        return some(STRING_BYTES, 1)
    if form < 10:
        return b"\\" + some(b"EenlrtbfsEenlrtbfs^\\,:", 1)
    if form < 12:
        return b"^" + some(CONTROLS, 1)
    octal = b"%o" % pick(0, 1, 7, 8, 63, 64, 127, 128, 255, below(256))
    return b"\\" + octal.rjust(1 + below(3), b"0")


def line_end():
    return b"".join(b"\n" + blanks() for _ in range(pick(1, 1, 1, 2, 3)))


def string(size, plain=0.0):
    """A string that stands for so many bytes; `plain` is how often some stand for themselves."""
    made = []
    while size:
        run = 1
        if chance() < plain:
            run = min(size, 1 + below(80))
            made.append(run * b"x")
        else:
            made.append(piece())
        if chance() < 0.03:
            made.append(line_end())
        size -= run
    if chance() < 0.05:
        made.insert(pick(0, upto(len(made)), len(made)), line_end())
    return b"".join(made)


def some_string():
    if chance() < 0.02:
        size = pick(999, 1000, 1000, 1001, 1001, 1002, 1024 + below(2000))
        tags.append(f"string of {size:,} bytes")
        return string(size, pick(0.0, 0.9, 0.99))
    return string(pick(0, 1, 2, 4, below(12), below(12), below(40)), pick(0.0, 0.0, 0.8))


def form(kind):
    """What follows the name of a capability of a kind; a cancelled one now and then."""
    if chance() < 0.12:
        return b"@"
    if kind == model.BOOLEAN:
        return b""
    return b"#" + some_number() if kind == model.NUMBER else b"=" + some_string()


def capability(kind, edition):
    """A name of the edition, or, now and then or where it knows none of the kind, of the lists."""
    listed = model.LISTS[kind]
    known = listed[:edition[kind]]
    return pick(*(known if known and chance() < 0.99 else listed)).encode("ascii")


def field(edition):
    """A field whose form is right and whose name is known, or that is dropped."""
    if chance() < 0.06:
        name = pick(some(NAME_BYTES, 1 + below(8)), capability(below(3), edition), b"use", b".")
        large = b"#" + number(pick(*LARGE_VALUES))
        return b"." + name + pick(b"", b"@", large, form(below(3)), form(model.STRING)) + b","
    kind = pick(*[kind for kind in (0, 0, 1, 2, 2, 2) if edition[kind]] or [0])
    return capability(kind, edition) + form(kind) + b","


# Fields that are refused, most of them with 10, 11 and 18 in this order.
MALFORMED = [
    b",", b"am", b"am ,", b"am\t,", b"am\0,", b"am\r,", b"a\0m,", b".,", b". am,", b".@,", b"#5,",
    b"=x,", b"@,", b"#", b"# note,", b"\0", b"\r", b"\x80,", b"am\x7f,", b"am@@,", b"am@x,",
    b"am@ ,", b"am\n\t,", b"am@\n\t,", b"it\n\t#1,", b"it#,", b"it#x,", b"it#08,", b"it#018,",
    b"it#0x,", b"it#0xg,", b"it#x1,", b"it#-1,", b"it#+1,", b"it#1L,", b"it#1u,", b"it# 1,",
    b"it#1 ,", b"it#0b1,", b"it#00x1,", b"it#1\n\t2,", b"it#\n\t2,", b"it#1@,", b"it#1=,",
    b"it#1\0,", b"it#1a,", b"it#1", b"cr=\\a,", b"cr=\\v,", b"cr=\\8,", b"cr=\\400,", b"cr=\\777,",
    b"cr=\\4000,", b"cr=\\x,", b"cr=\\ ,", b"cr=\\\0,", b"cr=\\\n\tn,", b"cr=\\\n,", b"cr=^`,",
    b"cr=^{,", b"cr=^~,", b"cr=^ ,", b"cr=^,", b"cr=^>,", b"cr=^0,", b"cr=^\0,", b"cr=^\n\tM,",
    b"cr=a\tb,", b"cr=a\t\n\tb,", b"cr=a\nb,", b"cr=a\n,", b"cr=a\n\n\tb,", b"cr=a\r\n\tb,",
    b"cr=a\n\r\tb,", b"cr=\x7f,", b"cr=\x80,", b"cr=\xff,", b"cr=\0,", b"cr=a\0,", b"cr=\x1f,",
    b"cr=a", b"cr=", b"cr", b"cr=\\,", b"cr=\\", b"cr=^", b"use=^,"]
UNKNOWN = [
    b"zz,", b"AM,", b"a,", b"ams,", b"kf11=x,", b"zz@,", b"zz#1,", b"zz=x,", b"am#1,", b"am=x,",
    b"it,", b"it=1,", b"cr,", b"cr#1,", b"use,", b"use@,", b"use#1,", b"USE=x,", b"uses=x,",
    b"a|b,", b"am#99999,", b"cr#99999,", b"it=,", b"a\\,", b"zz=" + LONG + b",",
    b"zz#" + 100 * b"1" + b",", b"am=" + LONG + b",", b"am|,", b"!,", b"~@,", b"\",", b"am.,",
    b"k f1,"]
USE = [b"use=,", b"use=x,", b"use=vt100,", b"use=\\0,", b"use=a\n\tb,", b"use=" + LONG[1:] + b",",
       b"use=" + LONG + b","]


def past_limit(edition):
    if chance() < 0.5:
        return capability(1, edition) + b"#" + number(pick(*LARGE_VALUES)) + b","
    return capability(2, edition) + b"=" + string(pick(1001, 1001, 1002, 1100), 0.97) + b","


def wrong_field(edition):
    made = pick(*pick(MALFORMED, MALFORMED, UNKNOWN, USE, [past_limit(edition)]))
    return b"." + made if chance() < 0.08 else made


def fill(edition):
    """String fields that make a file of 4,094 to 4,098 bytes under names of three bytes.

    None where the edition names too few strings for that.
    """
    total = pick(4094, 4095, 4096, 4096, 4097, 4097, 4098) - fixed_size(4, edition)
    names = model.STRINGS[:edition[2]]
    count = pick(4, 4, 5, 10, 60)
    if count > len(names) or not count <= total <= 1001 * count:
        return []
    return [name.encode("ascii") + b"=" + string(size - 1, 0.95) + b","
            for name, size in zip(rng.sample(names, count), split(total, count, 1001))]


def laid_out(fields):
    """The fields on lines, among lines that are skipped."""
    made = []
    while fields:
        count = pick(1, 1, 2, 3, 6)
        made.append(blanks() + spaces().join(fields[:count]) + spaces() + b"\n")
        fields = fields[count:]
    return b"".join(skipped() + line for line in made) + skipped()


def sized(text):
    """The text with more lines or a longer one, so that it has about 16,384 bytes."""
    size = LARGEST_TEXT + pick(-1, 0, 0, 0, 1, 1, 2, 3, below(9000), -below(1000)) - len(text)
    if size < 8:
        return text
    at = pick(0, text.rfind(b"\n") + 1, len(text), text.find(b"\n") + 1)
    added = pick(b"#" + (size - 2) * b"x" + b"\n", (size - 1) * b"\t" + b"\n", size * b"\n",
                 b"\t.x=" + (size - 6) * b"y" + b",\n", b"\t" + (size - 1) * b"\n")
    return text[:at] + added + text[at:]


# Damage to a text's bytes.

def insert(text):
    at = pick(0, len(text), upto(len(text)), upto(len(text)), upto(len(text)))
    return text[:at] + some(SOME_BYTES, pick(1, 1, 2)) + text[at:]


def remove(text):
    at = upto(len(text))
    return text[:at] + text[at + pick(1, 1, 2):]


def change(text):
    at = upto(len(text))
    return text[:at] + some(SOME_BYTES, 1) + text[at + 1:]


def cut(text):
    return text[:upto(len(text))]


def unindent(text):
    starts = [at + 1 for at in range(len(text)) if text[at:at + 1] == b"\n"]
    at = pick(*starts) if starts else 0
    return text[:at] + text[at:].lstrip(b" \t")


def end_with_nul(text):
    return text + b"\0"


def end_without_line_end(text):
    return text.rstrip(b" \t\n") if chance() < 0.8 else text.rstrip(b" \t\n,")


def carriage_returns(text):
    return text.replace(b"\n", b"\r\n")


def indent_header(text):
    return blanks() + text


def longer_alias(text):
    return some(ALIAS_BYTES, pick(13, 14, 15, 15, 40)) + text


def one_name(text):
    header, comma, rest = text.partition(b",")
    return header.replace(b"|", pick(b"", b"/", b"||")) + comma + rest


def second_header(text):
    at = text.rfind(b"\n") + 1
    return text[:at] + names() + b",\n" + text[at:]


DAMAGES = [insert, insert, insert, remove, remove, change, change, cut, unindent, end_with_nul,
           end_with_nul, end_without_line_end, end_without_line_end, carriage_returns,
           indent_header, longer_alias, one_name, second_header]


def pick_edition():
    """The second edition, the first, larger ones, smaller ones, and some that are too large."""
    form = chance()
    if form < 0.4:
        return SECOND_EDITION
    if form < 0.6:
        return FIRST_EDITION
    if form < 0.7:
        return larger(SECOND_EDITION)
    if form < 0.83:
        return tuple(upto(count) for count in SECOND_EDITION)
    if form < 0.97:
        return tuple(pick(0, count, upto(most)) for count, most in zip(SECOND_EDITION,
                                                                       LARGEST_EDITION))
    return too_large(pick(FIRST_EDITION, SECOND_EDITION, (0, 0, 0)))


def larger(edition):
    """An edition that knows no less, and is not too large."""
    return tuple(pick(known, known + 1, most, known + upto(most - known)) if known < most else most
                 for known, most in zip(edition, LARGEST_EDITION))


def pick_text(edition):
    """A text with no, one or two defects, for an edition."""
    fields = fill(edition) if chance() < 0.03 else []
    full = bool(fields)
    fields = fields or [field(edition) for _ in range(pick(0, 1, 2, 4, 8, below(25)))]
    defects = pick(0, 0, 0, 0, 0, 1, 1, 1, 2)
    wrong = upto(defects)
    for _ in range(wrong):
        fields.insert(pick(0, upto(len(fields)), len(fields)), wrong_field(edition))
    if fields and chance() < 0.1:
        tags.append("a field twice")
        fields.insert(upto(len(fields)), pick(*fields))
    text = skipped() + (b"a|b" if full else names()) + b"," + spaces() + b"\n" + laid_out(fields)
    if chance() < 0.02:
        text = sized(text)
    for _ in range(defects - wrong):
        text = pick(*DAMAGES)(text)
    return text


def check_generated():
    """Each text without room first, which tells the file's length, and then with some."""
    rng.seed(SEED)
    for _ in range(GENERATED):
        tags.clear()
        edition = pick_edition()
        text = pick_text(edition)
        room = 0
        answer, _ = check(text, room, edition)
        if answer >> 56 == 8:
            needed = answer - pack(8)
            room = max(0, needed + pick(-1, 0, 0, 0, 1, 1, 2, below(5000), -upto(needed)))
            answer, _ = check(text, room, edition)
            if chance() < 0.05 or needed > 4000:
                check_larger(text, edition)
        note(text, room, edition, answer)
        if answer >> 56 == 3 and check(text, LARGEST_FILE)[1] is not None:
            seen[3, "a text that the second edition accepts"] += 1


def check_larger(text, edition, wanted=None):
    """A larger edition gives the same names and states, the others absent, unless 9 applies."""
    _, file = check(text, LARGEST_FILE, edition, wanted)
    names, states = library.contents(file, edition)
    after = larger(edition)
    answer, file = check(text, LARGEST_FILE, after, wanted)
    seen[answer >> 56, "in a larger edition, accepted in the smaller"] += 1
    if file is None:
        same(answer, pack(9), text)
    else:
        same(library.contents(file, after), (names, extended(states, after)), text)


def report(refusals, needed, came):
    """How often success and each refusal came, and what else must come; exits if one never came."""
    print(f"{sum(tally.values())} inputs; " + ", ".join(
        f"{'refusal ' + str(number) if number else 'success'} {tally[number]}"
        for number in refusals))
    for number, what in needed:
        print(f"{'refusal ' + str(number) if number else 'success'}, {what}: "
              f"{came[number, what]}")
    missing = [f"refusal {number}" for number in refusals if not tally[number]]
    missing += [f"{number} {what}" for number, what in needed if not came[number, what]]
    if missing:
        sys.exit("never seen: " + ", ".join(missing))


if __name__ == "__main__":
    run_act4()
    vectors, examples = run_vectors(), run_examples()
    print(f"{vectors} vectors, {examples} examples and act4 as stated")
    for part in (check_two_bytes, check_short, check_generated):
        part()
    report(REFUSALS, NEEDED, seen)
    print(f"{vectors} vectors, {examples} examples, {sum(tally.values())} inputs of which "
          f"{GENERATED} texts generated, no difference")
