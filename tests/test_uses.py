"""Holds descriptions that build on others (document 02, 2026-02) to the document and to the model.

Texts with what the document says of them; all small graphs of uses, also behind a chain of them;
chains; texts of very many chains; generated texts, most of several descriptions, with damage, and
wanted names of any bytes, the same in every run. The model's walk that keeps what it has found is
held to its plain one. Fails at the first difference, and if a refusal, or a case that NEEDED names,
never came.
"""

import signal
from collections import Counter
from itertools import chain, product

import library
import model
import text_model
import use_texts
from library import pack
from model import FIRST_EDITION, LARGEST_FILE, SECOND_EDITION
from test_compile import (ALIAS_BYTES, CANCEL, DAMAGES, LAST_BYTES, LONG, check, check_larger,
                          field, laid_out, line_end, names, pick_edition, report, sized, skipped,
                          some, spaces, states_of, tags, tally, wrong_field)
from test_random import below, chance, pick, rng, upto
from test_vectors import same
from text_model import MOST_DESCRIPTIONS, MOST_USES

SEED = 64
GENERATED = 30_000
GRAPHS = 30_000
REFUSALS = (0, 1, 3, 8, 9, 10, 11, 13, 18, 19, 20)  # 0 is success
SECONDS = 60  # after which texts of many chains end the tests; they take less than two

# The cases that must come among generated texts, besides the refusals.
NEEDED = [(number, where) for number in (18, 19) for where in ("of the first", "of another")]
NEEDED += [(20, "of another"), (18, "wanted name"), (0, "chain of 8 uses"), (0, "by merges")]
NEEDED += [(0, f"{count} descriptions") for count in (1, 2, 3, 63, 64)]
NEEDED += [(number, "65 descriptions") for number in (10, 13)]
NEEDED += [(number, "later header") for number in (10, 13)]
NEEDED += [(0, "wanted " + what) for what in ("first", "alias", "part of the text")]
NEEDED += [(18, "wanted " + what) for what in ("last name", "other bytes", "nothing")]
NEEDED += [(0, "two with one name"), (0, "cancelled by a use"), (9, "by uses"), (13, "total")]

seen = Counter()


# Document 02's sentences: a text, the wanted name (None: the first), and the states or the refusal.
# The place of a refusal is a number, or the part of the text that starts there.

A = b"a|aa|description a,\n\t"
B = b"b|bb|description b,\n\t"
C = b"c|cc|description c,\n\t"
BASE = b"base|x,\n\tam, cols#80, lines#24, ri=R, cr=C,\n"
HEADERS = [b"d%02d|x,\n" % number for number in range(MOST_DESCRIPTIONS)]
FULL = b"".join(b" %s=%s,\n" % (name, 960 * b"x") for name in (b"cr", b"el", b"ed", b"cup"))
TWO_STRINGS = b" kf1=%s,\n kf2=%s,\n" % (960 * b"x", 960 * b"x")
LONG_NAMES = b"|" + 126 * b"n" + b",\n"
EXAMPLES = [
    # up to 64 descriptions; the wanted one is named by any name but its last
    (A + b"am,\n" + B + b"bw,\n", None, {"am": None}),
    (A + b"am,\n" + B + b"bw,\n", b"b", {"bw": None}),
    (A + b"am,\n" + B + b"bw,\n", b"bb", {"bw": None}),
    (A + b"am,\n" + B + b"bw,\n", b"description b", (18, 0)),
    (A + b"am,\n" + B + b"bw,\n", b"", (18, 0)), (A + b"am,\n", b"a|aa", (18, 0)),
    (A + b"am,\n", b"A", (18, 0)), (A + b"am,\n", b"a\0", (18, 0)), (A, b"aaa", (18, 0)),
    (b"# one\n" + A + b"am,\n\n# two\n" + B + b"bw,\n#\n", b"bb", {"bw": None}),
    (b"a|x,\nb|x,\n\tam,\n", b"b", {"am": None}), (b"a|x,\nb|x,\n\tam,\n", None, {}),
    (b"".join(HEADERS), b"d63", {}), (b"".join(HEADERS) + b"\tam,\n", b"d63", {"am": None}),
    (b"".join(HEADERS) + b"e|x,\n", None, (13, b"e|x")),
    (b"".join(HEADERS) + b"e|x,\n\tzz,\nf,\n", b"d63", (13, b"e|x")),
    (b"".join(HEADERS) + b"e,\n", None, (10, b"e,")),
    (b"".join(HEADERS) + 15 * b"e" + b"|x,\n", None, (13, b"eee")),
    (b"".join(HEADERS) + b"\tzz,\ne|x,\n", None, (11, b"zz")),
    (b"".join(HEADERS) + b"\tuse=no,\ne|x,\n", b"no", (13, b"e|x")),
    (b"a" + LONG_NAMES + b"".join(HEADERS), None, (13, b"d63")),
    # use= names one by any name but its last, escapes taken
    (A + b"use=base,\n" + BASE, None, {"am": None, "cols": 80, "lines": 24, "ri": b"R", "cr": b"C"}),
    (A + b"use=bb,\n" + B + b"am,\n", None, {"am": None}),
    (A + b"use=b,\n" + B + b"am,\n", b"aa", {"am": None}),
    (A + b"use=description b,\n" + B + b"am,\n", None, (18, b"use=")),
    (A + b"use=x,\nb|x,\n\tam,\nc|x|y,\n\tbw,\n", None, {"bw": None}),
    (A + b"use=\\142,\n" + B + b"am,\n", None, {"am": None}),
    (A + b"use=\n\tb\n b,\n" + B + b"am,\n", None, {"am": None}),
    (A + b"use=\\\\142,\n\\142|x,\n\tam,\n" + B, None, {"am": None}),
    (A + b"use=\\142,\n\\142|x,\n\tam,\n" + B + b"bw,\n", None, {"bw": None}),
    (A + b"use=b\\^c\\:,\nb^c:|x,\n\tam,\n", None, {"am": None}),
    (A + b"use=b^c,\nb^c|x,\n\tam,\n", None, (18, b"use=")),
    (A + b"use=B,\n" + B, None, (18, b"use=")), (A + b"use=b ,\n" + B, None, (18, b"use=")),
    (A + b"use=bbb,\n" + B, None, (18, b"use=")), (A + b"use=b|bb,\n" + B, None, (18, b"use=")),
    (A + b"am,use=,\n" + B, None, (18, b"use=")), (A + b"use=b\\0,\n" + B, None, (18, b"use=")),
    # own fields override what use brings, wherever they stand; of several, the leftmost wins
    (A + b"use=base, cols#1, ri@,\n" + BASE, None,
     {"am": None, "cols": 1, "lines": 24, "ri": CANCEL, "cr": b"C"}),
    (A + b"am@, use=base, cols#1, lines#2,\n" + BASE, None,
     {"am": CANCEL, "cols": 1, "lines": 2, "ri": b"R", "cr": b"C"}),
    (A + b"use=b, cols#1, cols#2, use=c,\n" + B + b"cols#3, it#4,\n" + C + b"it#5, lm#6,\n", None,
     {"cols": 1, "it": 4, "lm": 6}),
    (A + b"use=c, use=b,\n" + B + b"it#4, lm#1,\n" + C + b"it#5,\n", None, {"it": 5, "lm": 1}),
    (A + b"use=b, use=c,\n" + B + b"use=base,\n" + C + b"cols#1, it#2,\n" + BASE, None,
     {"am": None, "cols": 80, "lines": 24, "ri": b"R", "cr": b"C", "it": 2}),
    (A + b"use=b, use=b, use=bb,\n" + B + b"it#4,\n", None, {"it": 4}),
    # a cancelled state stops later ones, and stays cancelled along a chain
    (A + b"use=b,\n" + B + b"ri@, use=base,\n" + BASE, None,
     {"am": None, "cols": 80, "lines": 24, "ri": CANCEL, "cr": b"C"}),
    (A + b"use=b,\n" + B + b"use=c,\n" + C + b"use=base, ri@, am@, cols@,\n" + BASE, None,
     {"am": CANCEL, "cols": CANCEL, "lines": 24, "ri": CANCEL, "cr": b"C"}),
    (A + b"use=b, use=base,\n" + B + b"use=c,\n" + C + b"ri@,\n" + BASE, None,
     {"am": None, "cols": 80, "lines": 24, "ri": CANCEL, "cr": b"C"}),
    (A + b"use=base, use=b,\n" + B + b"ri@, it@,\n" + BASE, None,
     {"am": None, "cols": 80, "lines": 24, "ri": b"R", "cr": b"C", "it": CANCEL}),
    (A + b"ri=own, use=b,\n" + B + b"ri@,\n", None, {"ri": b"own"}),
    # of two with one name the earlier counts, for use and for the wanted name
    (A + b"use=b,\n" + B + b"am,\n" + B + b"bw,\n", None, {"am": None}),
    (B + b"am,\n" + B + b"bw,\n", b"b", {"am": None}),
    (B + b"am,\nbb|c|x,\n\tbw,\n", b"bb", {"am": None}),
    (B + b"am,\nbb|c|x,\n\tbw,\n", b"c", {"bw": None}),
    (B + b"am,\nbb|c|x,\n\tuse=bb,\n", b"c", {"am": None}),
    (b"b|c|x,\n\tam,\nb|d|x,\n\tbw, use=b,\n", b"d", {"am": None, "bw": None}),
    # 18 not found, 19 comes back, at the use field; each followed down before the next
    (A + b"am, use=a,\n", None, (19, b"use=")), (A + b"use=aa,\n", None, (19, b"use=")),
    (A + b"use=b,\n" + B + b"use=aa,\n", None, (19, b"use=aa")),
    (A + b"use=b,\n" + B + b"use=bb,\n", None, (19, b"use=bb")),
    (A + b"use=b, use=no,\n" + B + b"use=a,\n", None, (19, b"use=a")),
    (A + b"use=b, use=a,\n" + B + b"use=no,\n", None, (18, b"use=no")),
    (A + b"use=no, use=b,\n" + B + b"use=a,\n", None, (18, b"use=no")),
    (A + b"use=b, use=c, use=no,\n" + B + b"\n" + C, None, (18, b"use=no")),
    (A + b"use=b, use=c,\n" + B + b"use=c,\n" + C + b"use=no,\n", None, (18, b"use=no")),
    # what is not reached gives none of them; dropped fields do not count
    (A + b"am,\n" + B + b"use=no, use=b,\n", None, {"am": None}),
    (A + b"am, .use=no, .use=a,\n", None, {"am": None}), (A + b"use=a,\n" + B, b"b", {}),
    # after all of 10, 11 and 13 in the whole text
    (A + b"use=no,\n" + B + b"zz,\n", None, (11, b"zz")), (A + b"use=no,\nzz\n", None, (10, b"zz")),
    (A + b"use=no,\n" + B + b"am\n", b"no", (10, b"am\n")),
    (A + b"use=a,\n" + B + b"it#99999,\n", None, (13, b"it#")),
    (A + b"am,\n" + B + b"use=" + LONG + b",\n", None, (13, b"use=")),
    (A + b"am,\n" + B + b"use=" + LONG[1:] + b",\n", None, {"am": None}),
    (A + b"am,\n" + B + b"use@,\n", None, (11, b"use@")),
    (A + b"am,\n" + B + b"use,\n", None, (11, b"use,")),
    (A + b"am,\n" + B + b"use#1,\n", None, (11, b"use#")),
    (A + b"am,\n" + B + b".use=\\400,\n", None, (10, b".use")),
    # a later header that is bad or over the total gives its own first byte
    (A + b"am,\nb,\n", None, (10, b"b,\n")), (A + b"am,\nb|,\n", None, (10, b"b|,")),
    (A + b"am,\nb/b|x,\n", None, (10, b"b/b")), (A + b"am,\nb|x, bw,\n", None, (10, b"b|x")),
    (A + b"am,\n" + 15 * b"b" + b"|x,\n", None, (13, b"bbb")),
    (A + b"am,\n" + 15 * b"b" + b"|x\n", None, (10, b"bbb")), (A + b"am,\n\0", None, (10, b"\0")),
    (A + b"am,\n# note\nb" + LONG_NAMES, None, (13, b"b|n")),
    (A + b"am,\nb" + LONG_NAMES + b"\tzz,\n", None, (11, b"zz")),
    (A + b"am,\nb" + LONG_NAMES + b"c" + LONG_NAMES, b"no", (13, b"b|n")),
    (b"# note\na" + LONG_NAMES + b"b" + LONG_NAMES, b"b", (13, 0)),
    (A + b"use=no,\nb" + LONG_NAMES, None, (13, b"b|n")),
    (b"a|" + 125 * b"n" + b",\nb|" + 125 * b"n" + b",\n", b"b", {}),
    # 9 and 8 on the outcome only
    (A + b"am,\nb|x,\n" + FULL, None, {"am": None}), (A + b"am,\nb|x,\n" + FULL, b"b", (9, None)),
    (A + b"cr@, el@, use=b,\nb|x,\n" + FULL, None,
     {"cr": CANCEL, "el": CANCEL, "ed": 960 * b"x", "cup": 960 * b"x"}),
    (A + b"use=b, ff=%s, el=%s,\nb|x,\n" % (960 * b"x", 960 * b"x") + TWO_STRINGS, None, (9, None)),
    (A + b"use=b, use=no,\nb|x,\n" + FULL, None, (18, b"use=no")),
]


def run_examples():
    for text, wanted, expected in EXAMPLES:
        answer, file = check(text, LARGEST_FILE, SECOND_EDITION, wanted)
        if isinstance(expected, tuple):
            number, place = expected
            if isinstance(place, bytes):
                place = text.index(place)
            same((answer, file), (pack(number, place or 0), None), (text, wanted))
            continue
        same(file and library.contents(file, SECOND_EDITION)[1],
             states_of(expected, SECOND_EDITION), (text, wanted))
        for edition, room, refused in (((65, 0, 0), LARGEST_FILE, pack(3)),
                                       (SECOND_EDITION, answer - 1, pack(8, answer))):
            same(check(text, room, edition, wanted), (refused, None), (text, wanted))
    return len(EXAMPLES)


# All small graphs of uses. A graph has for each description, by its number, the numbers of those
# that it uses, from left to right; None is a name that no description has.

EDITION = (2, 8, 16)


def own_fields(number):
    """Fields by which the order of descriptions shows, cancelled ones among them."""
    by_three = [(b"bw,", b"", b"lines@,"), (b"bw@,", b"it#%d," % number, b""),
                (b"", b"it@,", b"lines#%d," % number)][number % 3]
    by_two = [b"pb#%d," % number, b"am,xmc#%d," % number][number % 2]
    alone = model.STRINGS[number].encode("ascii") + b"=%d," % number
    return [b"cols#%d," % number, *by_three, by_two, b"vt#%d," % number if number else b"", alone]


def uses_of(graph, number):
    return [b"use=" + (b"none" if used is None else use_texts.name(used)) + b","
            for used in graph[number]]


def description_of(graph, number):
    """A description whose own fields stand before its uses, behind them, or on both sides."""
    own = own_fields(number)
    split = [0, len(own), len(own) // 2][(number + len(graph)) % 3]
    fields = [*own[:split], *uses_of(graph, number), *own[split:]]
    return use_texts.described(number, b"".join(fields))


def text_of(graph):
    return b"".join(description_of(graph, number) for number in range(len(graph)))


def small_graphs():
    for count in (1, 2, 3):
        targets = [None, *range(count)]
        some_uses = list(chain.from_iterable(product(targets, repeat=size) for size in range(3)))
        yield from product(some_uses, repeat=count)


def behind(graph, size):
    """A graph with a chain of so many before it, and last the one that is wanted.

    That one uses the graph's first description, and then again by the chain.
    """
    first = len(graph)
    links = [(number + 1,) for number in range(first, first + size - 1)]
    return [*graph, *links, (0,), (0, first)]


def check_graphs():
    """Each small graph, from each of its descriptions, and behind chains of four to eight."""
    count = 0
    for graph in small_graphs():
        text = text_of(graph)
        for wanted in (None, *map(use_texts.name, range(1, len(graph)))):
            check(text, LARGEST_FILE, EDITION, wanted)
            count += 1
        for size in range(4, 9):
            longer = behind(graph, size)
            check(text_of(longer), LARGEST_FILE, EDITION, use_texts.name(len(longer) - 1))
            count += 1
    return count


def check_chains():
    """Chains of up to ten uses, with nothing, a missing name or a way back at their end.

    The ninth use is 20 only if its name is found and it doesn't come back.
    """
    count = 0
    for length in range(11):
        ends = {(): 0, (None,): 18, **{(back,): 19 for back in range(length + 1)}}
        for end, number in ends.items():
            text = text_of([*((link + 1,) for link in range(length)), end])
            refusing = length  # the description whose use is refused
            if length > MOST_USES:
                number, refusing = 20, MOST_USES
            header = text.index(use_texts.name(refusing) + b"|x,\n")
            answer, file = check(text, LARGEST_FILE, EDITION)
            place = text.find(b"use=", header) if number else 0
            same((answer >> 56, answer & 0xFFFFFF if number else 0), (number, place), text)
            if not number:
                _, states = library.contents(file, EDITION)
                held = [states[model.STRING, at][1] for at in range(length + 1)]
                same(held, [b"%d" % at for at in range(length + 1)], text)
            count += 1
    return count


def check_many():
    """Texts of very many chains or uses: what they give, and that they are soon done."""
    signal.alarm(SECONDS)
    late, ninth = use_texts.late()
    cols = {"repeated": 80, "layered": sum(use_texts.LAYERS[:-1])}
    for title, text in use_texts.TEXTS.items():
        answer, file = check(text, LARGEST_FILE)
        same(check(text, LARGEST_FILE, SECOND_EDITION, text[:1]), (answer, file), title)
        if text == late:
            same(answer, pack(20, ninth), title)
        else:
            _, states = library.contents(file, SECOND_EDITION)
            same(states[model.NUMBER, 0][1], cols.get(title), title)
    for text, number, place in ((b"a|b,\n\t" + 3275 * b"use=,", 18, 6),
                                (b"a|b,\nc|d,\n\t" + 3274 * b"use=,", 0, 0),
                                (b"a|b,\n\t" + 2729 * b"use=a,", 19, 6)):
        answer, _ = check(text, LARGEST_FILE)
        same((answer >> 56, answer & 0xFFFFFF if number else 0), (number, place), text[:20])
    signal.alarm(0)
    return 2 * len(use_texts.TEXTS) + 3


def check_wanted():
    """Every name of one byte, and every part of some texts as a name."""
    signs = b"".join(bytes([sign]) + b"|x,\n\tcols#%d,\n" % sign
                     for sign in b"abc!\\^:;~0.=#@"[::-1])
    count = 0
    for sign in range(256):
        answer, file = check(signs, LARGEST_FILE, EDITION, bytes([sign]))
        if file is None:
            same(answer, pack(18), sign)
        else:
            same(library.contents(file, EDITION)[1][model.NUMBER, 0], (model.PRESENT, sign), sign)
        count += 1
    for text in (A + b"am,\n" + B + b"use=a,\n" + C, b"ab|bc|abc,\nbc|cd|b,\n\tam,\n"):
        for first in range(len(text) + 1):
            for last in range(first, min(first + 20, len(text)) + 1):
                check(text, LARGEST_FILE, EDITION, slice(first, last))
                count += 1
    for wanted in (b"", 14 * b"a", 15 * b"a", 20_000 * b"a", bytes(256), A, b"a,", b"a\n", b" a"):
        same(check(A + b"am,\n", LARGEST_FILE, EDITION, wanted), (pack(18), None), wanted)
        count += 1
    return count


# The model's walk that keeps what it has found against the plain one.

def model_descriptions(graph):
    return [text_model.Description(
        number, [use_texts.name(number), b"x"],
        {(model.NUMBER, 0): number, (model.NUMBER, 1 + number % 3): number, (2, number): number},
        [(100 * number + at, b"none" if used is None else use_texts.name(used))
         for at, used in enumerate(uses)]) for number, uses in enumerate(graph)]


def model_built(found, number, known):
    try:
        return text_model.built(found, [number], known)
    except model.Refusal as refusal:
        return refusal.number, refusal.value


def random_graph():
    """A graph whose uses mostly go on to the next few, so that chains are long."""
    count = pick(2, 4, 8, 10, 12, 16)
    graph = []
    for number in range(count):
        later = range(number + 1, min(number + 3, count))
        graph.append([pick(*later) if later and chance() < 0.97 else pick(None, below(count))
                      for _ in range(pick(0, 1, 1, 2, 2, 2, 3))])
    return graph


def check_model():
    rng.seed(SEED)
    count = Counter()
    behind_chains = ((behind(graph, size), -1) for graph in small_graphs() for size in (5, 7))
    generated = ((random_graph(), 0) for _ in range(GRAPHS))
    for graph, wanted in chain(behind_chains, generated):
        found = model_descriptions(graph)
        plain = model_built(found, wanted % len(graph), None)
        same(model_built(found, wanted % len(graph), {}), plain, graph)
        count[plain[0] if isinstance(plain, tuple) else 0] += 1
    same(sorted(count), [0, 18, 19, 20], "answers of the model's walks")
    return sum(count.values())


# Generated texts

def spelled(name):
    """A name as a string of a field, in which any byte may be an escape."""
    made = []
    for byte in name:
        escape = rb"\%03o" % byte
        if byte in b"\\^,":
            made.append(pick(escape, b"\\" + bytes([byte])))
        else:
            made.append(escape if chance() < 0.05 else bytes([byte]))
        if chance() < 0.01:
            made.append(line_end())
    return b"".join(made)


def fresh_name(number):
    if chance() < 0.3:
        return some(ALIAS_BYTES, pick(1, 2, 3, 14))
    return b"d%d" % number


def pick_names(count):
    """For each description its names: one or more that can be used, and the last."""
    made = []
    for number in range(count):
        aliases = [fresh_name(number) for _ in range(pick(1, 1, 1, 2, 3))]
        if made and chance() < 0.05:
            tags.append("two with one name")
            aliases.insert(upto(len(aliases)), pick(*pick(*made)[:-1]))
        made.append([*aliases, some(LAST_BYTES, pick(1, 1, 2, 20))])
    first = made[0][0]
    made[0][0] = b"f" + first[1:] if first.startswith(b"#") else first
    return made


def pick_use(number, all_names):
    """A use of one of the next two, mostly; of any, of a last name, or of a name that no one has."""
    form = chance()
    later = all_names[number + 1:number + 3]
    if form < 0.96 and later:
        used = pick(*pick(*later)[:-1])
    elif form < 0.985:
        used = pick(*pick(*all_names)[:-1])
    else:
        used = pick(pick(*all_names)[-1], some(ALIAS_BYTES, 3), b"", b"zz")
    if chance() < 0.02:
        return b".use=" + spelled(used) + b","
    return b"use=" + spelled(used) + b","


def large_fields(edition):
    """A string of nearly 1,000 bytes, of which a file holds four."""
    if not edition[model.STRING]:
        return []
    known = model.STRINGS[:edition[model.STRING]]
    return [pick(*known).encode("ascii") + b"=" + 950 * b"x" + b","]


def pick_description(number, all_names, edition, large, wrong):
    is_last = number + 1 == len(all_names) and chance() < 0.9
    uses = [pick_use(number, all_names) for _ in range(0 if is_last else pick(0, 1, 1, 1, 1, 2, 3))]
    fields = [field(edition) for _ in range(pick(0, 0, 1, 2, 3))]
    fields += large_fields(edition) if large else []
    if wrong:
        fields.append(wrong_field(edition))
    for use in uses:
        fields.insert(upto(len(fields)), use)
    header = names() if chance() < 0.003 else b"|".join(all_names[number])
    return header + b"," + spaces() + b"\n" + laid_out(fields)


def pick_text(edition):
    """A text of some descriptions with no defect or one, and the names of its descriptions."""
    count = pick(1, 2, 2, 3, 3, 4, 5, 8, 10, 12, 12)
    if chance() < 0.04:
        count = pick(62, 63, 64, 64, 65, 66)
        tags.append("65 descriptions" if count > MOST_DESCRIPTIONS else f"{count} descriptions")
    all_names = pick_names(count)
    large = count < 13 and chance() < 0.06
    wrong = below(count) if chance() < 0.05 else None
    made = [pick_description(number, all_names, edition, large, number == wrong)
            for number in range(count)]
    if count > MOST_DESCRIPTIONS and chance() < 0.4:
        made[MOST_DESCRIPTIONS] = made[MOST_DESCRIPTIONS].replace(b"|", b"", 20)
    text = skipped() + b"".join(made)
    if chance() < 0.01:
        text = sized(text)
    if chance() < 0.1:
        text = pick(*DAMAGES)(text)
    return text, all_names


def pick_wanted(text, all_names):
    form = chance()
    if form < 0.45:
        what, wanted = "first", None
    elif form < 0.85:
        what, wanted = "alias", pick(*pick(*all_names[:MOST_DESCRIPTIONS])[:-1])
        if chance() < 0.2 and wanted in text:
            start = text.index(wanted)
            what, wanted = "part of the text", slice(start, start + len(wanted))
    elif form < 0.9:
        what, wanted = "last name", pick(*all_names)[-1]
    elif form < 0.95:
        what, wanted = "nothing", b""
    else:
        what, wanted = "other bytes", rng.randbytes(pick(1, 2, 14, 15, 100, 5000))
    tags.append("wanted " + what)
    return wanted


def longest_chain(found, number, known):
    """The most uses of a chain from a description on; all that it reaches is found and ends."""
    if number not in known:
        known[number] = max((1 + longest_chain(found, text_model.having(found, name), known)
                             for _, name in found[number].uses), default=0)
    return known[number]


def note(text, edition, wanted, answer):
    """Counts the cases that a generated text belongs to, by its answer."""
    number, value = answer >> 56, answer & (1 << 48) - 1
    seen.update((number, tag) for tag in tags)
    try:
        found = text_model.descriptions(text, edition) if number not in (1, 3) else []
    except model.Refusal:
        seen[number, "later header"] += value > 0 and text[value - 1:value] == b"\n"
        return
    if isinstance(wanted, slice):
        wanted = text[wanted]
    seen[13, "total"] += number == 13
    first = 0 if wanted is None else text_model.having(found, wanted)
    if number == 18 and value == 0:
        seen[18, "wanted name"] += 1
    elif number in (18, 19, 20):
        own = value in [place for place, _ in found[first].uses]
        seen[number, "of the first" if own else "of another"] += 1
    elif number == 9:
        seen[9, "by uses"] += bool(found[first].uses)
    elif number == 0:
        note_accepted(found, first)


def note_accepted(found, first):
    seen[0, f"{len(found)} descriptions"] += 1
    longest = longest_chain(found, first, {})
    seen[0, f"chain of {longest} uses"] += 1
    own, states = found[first].states, text_model.built(found, [first], {})
    seen[0, "cancelled by a use"] += any(state == CANCEL and at not in own
                                         for at, state in states.items())


def own_text(text, found):
    """The text with all its uses dropped."""
    for place in sorted((place for each in found for place, _ in each.uses), reverse=True):
        text = text[:place] + b"." + text[place:]
    return text


def by_merges(text, edition, wanted):
    """The file of a description by merges along the tree, of files that are compiled without uses.

    None where a description that is reached can't be named, or a merged file would be too long.
    """
    found = text_model.descriptions(text, edition)
    dropped = own_text(text, found)
    known = {}

    def file_of(number):
        if number not in known:
            alias = next((name for name in found[number].names[:-1]
                          if text_model.having(found, name) == number), None)
            _, file = library.compile_text(dropped, LARGEST_FILE, edition, alias)
            for _, name in found[number].uses if alias and file else ():
                used = file_of(text_model.having(found, name))
                file = used and file and library.merge(file, used, edition, LARGEST_FILE)[1]
            known[number] = file if alias else None
        return known[number]

    return file_of(0 if wanted is None else text_model.having(found, wanted))


def check_others(text, edition, wanted, found):
    """What an accepted text gives by merges, by the first one's name, and in a larger edition."""
    if isinstance(wanted, slice):
        wanted = text[wanted]
    check_larger(text, edition, wanted)
    if len(text) + text.count(b"use") <= text_model.LARGEST_TEXT:
        merged = by_merges(text, edition, wanted)
        seen[0, "by merges"] += merged is not None
        same(merged or found[1], found[1], text)
    if wanted is None:
        first = text_model.descriptions(text, edition)[0].names[0]
        same(check(text, LARGEST_FILE, edition, first), found, text)


def check_generated():
    """Each text without room first, which tells the file's length, and then with some."""
    rng.seed(SEED)
    for _ in range(GENERATED):
        tags.clear()
        edition = pick(pick_edition(), FIRST_EDITION, SECOND_EDITION)
        text, all_names = pick_text(edition)
        wanted = pick_wanted(text, all_names)
        answer, _ = check(text, 0, edition, wanted)
        if answer >> 56 == 8:
            needed = answer - pack(8)
            if chance() < 0.5:
                check(text, needed - 1, edition, wanted)
            answer, file = check(text, needed + pick(0, 0, 1, below(5000)), edition, wanted)
            if chance() < 0.25:
                check_others(text, edition, wanted, (answer, file))
        note(text, edition, wanted, answer)


if __name__ == "__main__":
    walks = check_model()
    print(f"{walks} graphs: the model's two walks give the same")
    counts = {part.__name__.partition("_")[2]: part()
              for part in (run_examples, check_chains, check_many, check_wanted, check_graphs)}
    print(", ".join(f"{name} {count}" for name, count in counts.items()))
    check_generated()
    report(REFUSALS, NEEDED, seen)
    print(f"{counts['examples']} examples, {counts['graphs']} graphs, {sum(tally.values())} inputs "
          f"of which {GENERATED} texts generated, no difference")
