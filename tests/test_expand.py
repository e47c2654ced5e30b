"""Holds expansion by the library to the vectors, the documents' examples, the model and ncurses.

The strings that go to library and model are all short ones of some kinds, and generated ones, the
same in every run, with arguments that are numbers and texts. Fails at the first difference, and if a
refusal, or a case that NEEDED names, never came. Nine numbers go to both calls, which must give the
same. What is lent to be read stands directly before memory that can't be read. Strings of installed
entries and generated ones that are accepted are held to the bounds of document 02, 2026-06 and
2026-07: a string of n bytes takes at most n steps and prints at most 25 n bytes and, for each %s
item, as many as the longest text has.
"""

import ctypes
import re
import sys
from collections import Counter
from functools import cache
from itertools import cycle, product

import expand_model
import library
import text_strings
from expand_model import BINARY, DEEPEST, ITEM, LARGEST_TEXT, STACK_SIZE, UNARY, Text
from library import GUARD, POINTER, SIZE, Lent, LentAtEnd, pack, require
from model import LARGEST_STRING, Refusal
from test_ncurses import fields, installed, run
from test_random import HUGE, NO_NULS, below, pick, rng, upto
from test_vectors import bytes_of, lines, refusal, same

SEED = 1000
GENERATED = 120_000
BOUNDED_SEED = 25
BOUNDED = 100_000
REFUSALS = (0, 1, 8, 14, 15, 16, 17, 21)  # 0 is success
LETTERS = b"ABCDEFGHIJKLMNOPQRSTUVWXYZabcdefghijklmnopqrstuvwxyz"
LEAST, LARGEST = -2**31, 2**31 - 1
EDGES = [LEAST, LEAST + 1, -65536, -257, -256, -255, -128, -10, -5, -2, -1, 0, 1, 2, 3, 7, 9, 10,
         79, 99, 100, 127, 128, 255, 256, 257, 32767, 32768, 46340, 46341, 65535, 65536, 10**9,
         LARGEST - 1, LARGEST]


# The calls by the library and by the model: the answer, the output and the lasting variables (both
# None if refused). An argument is a number or a Text.

CALLS = ctypes.CDLL(str(library.SHARED_OBJECT))
EXPAND, EXPAND_TEXTS = CALLS.terminfo_expand, CALLS.terminfo_expand_texts
EXPAND.argtypes = [POINTER, SIZE, POINTER, POINTER, POINTER, SIZE, SIZE]
EXPAND_TEXTS.argtypes = [POINTER, SIZE, *4 * [POINTER], POINTER, SIZE, POINTER, POINTER, SIZE, SIZE]
EXPAND.restype = EXPAND_TEXTS.restype = ctypes.c_uint64

STRING, TEXTS = LentAtEnd(), LentAtEnd(capacity=1 << 17)
KINDS, NUMBERS, STARTS, LENGTHS = (LentAtEnd(code, 9) for code in "BiQQ")
READ = STRING, TEXTS, KINDS, NUMBERS, STARTS, LENGTHS
LASTING, BUFFER = Lent("i", 26), Lent(capacity=600_000)
# What stands where a call must not look, and the kinds that mean a text.
UNREAD_SIZES, UNREAD_NUMBERS, TEXT_KINDS = map(cycle, (HUGE, EDGES, range(1, 256)))


def is_text(argument):
    return isinstance(argument, Text)


def expand(string, arguments, lasting, room, at, lent=b""):
    """By the call for arguments of both kinds and, where all are numbers, by the other one too."""
    STRING.put(string)
    TEXTS.put(lent)
    KINDS.put(bytes(next(TEXT_KINDS) if is_text(one) else 0 for one in arguments))
    NUMBERS.put([next(UNREAD_NUMBERS) if is_text(one) else one for one in arguments])
    for lent_sizes, size in (STARTS, "start"), (LENGTHS, "length"):
        lent_sizes.put([getattr(one, size) if is_text(one) else next(UNREAD_SIZES)
                        for one in arguments])
    given = [part.address for part in (KINDS, NUMBERS, STARTS, LENGTHS, TEXTS)] + [len(lent)]
    found = called(EXPAND_TEXTS, given, lasting, room, at)
    if not any(map(is_text, arguments)):
        same(called(EXPAND, [NUMBERS.address], lasting, room, at), found,
             f"{string} with the numbers {arguments} by terminfo_expand")
    return found


def called(call, given, lasting, room, at):
    """By a call with the string that is lent and these words for its arguments."""
    LASTING.put(lasting)
    BUFFER.put_pattern(room)
    answer = call(STRING.address, STRING.length, *given, LASTING.address, BUFFER.address, room, at)
    require(all(part.kept() for part in READ), "the string or the arguments")
    if answer >> 56:
        require(BUFFER.kept() and LASTING.kept(), "what is lent to a refused expansion")
        return answer, None, None
    end = at + (answer & 0xFFFFFF)
    require(end <= room, "output longer than the room")
    require(BUFFER.bytes.startswith(BUFFER.whole[:GUARD + at]) and BUFFER.kept_after(end),
            "bytes around the output")
    require(LASTING.kept_after(26), "bytes around the lasting variables")
    return answer, bytes(BUFFER.bytes[GUARD + at:GUARD + end]), LASTING.written()


def model_expand(*given):
    try:
        output, steps, lasting = expand_model.expand(*given)
    except Refusal as refused:
        return pack(refused.number, refused.value), None, None
    return steps << 24 | len(output), output, lasting


# Counting and comparing

# The cases that must come, besides the refusals.
NEEDED = [(14, what) for what in (
    "no item", "constant", "open conditional", "?", "t", "e", ";")]
POPPING = ("number", "character", "put", "binary", "unary", "t", "text", "length")
NEEDED += [(number, kind) for number in (15, 21) for kind in POPPING]
NEEDED += [(16, kind) for kind in ("argument", "byte", "constant", "get")]
NEEDED += [(8, "by one byte"), (17, "by one byte"), (0, "with no room to spare"),
           (0, "at the buffer's end"), (0, "of 1,000 bytes"), (1, "by one byte")]
NEEDED += [(17, f"text {what}") for what in (
    "by one byte", "by more", "of no byte, by one byte", "past 64 bits")]
NEEDED += [(1, "text by one byte"), (1, "text by more")]
NEEDED += [(0, f"with a text {what}") for what in (
    "at the end of what is lent", "of no byte at the end of what is lent", "of 1,000 bytes",
    "that holds a NUL", "and a number")] + [(0, "with a NUL of a text in the output")]

tally = Counter()
seen = Counter()


def check(string, arguments, lasting, room, at, lent=b""):
    """Compares library and model; returns what they give."""
    given = string, arguments, lasting, room, at, lent
    found, expected = expand(*given), model_expand(*given)
    if found != expected:
        print("the library gives", found, "\nthe model gives", expected, "\nfor", given)
        sys.exit(f"expansion of {string} differs")
    texts = list(filter(is_text, arguments))
    if found[1] is not None and 0 in found[1]:
        if all(0 not in lent[text.start:][:text.length] for text in texts):
            sys.exit(f"expansion of {string} with {arguments} and {lasting} holds a NUL")
        seen[0, "with a NUL of a text in the output"] += 1
    count(found[0], string, texts, lent, room, at)
    return found


def count(answer, string, texts, lent, room, at):
    number, value = answer >> 56, answer & (1 << 56) - 1
    tally[number] += 1
    if number in (14, 15, 16, 21):
        seen[number, item_at(string, value)] += 1
    elif number == 17 and at <= room:
        seen[17, "text " + beyond(texts, len(lent))] += 1
    elif number == 1 and len(string) <= LARGEST_STRING:
        most = max(text.length for text in texts)
        seen[1, "text by one byte" if most == LARGEST_TEXT + 1 else "text by more"] += 1
    elif number:
        exceeding = {1: len(string) - LARGEST_STRING, 8: value - (room - at), 17: at - room}
        seen[number, "by one byte" if exceeding[number] == 1 else "by more"] += 1
    else:
        seen[0, "with no room to spare"] += at + (value & 0xFFFFFF) == room
        seen[0, "at the buffer's end"] += at == room
        seen[0, "of 1,000 bytes"] += len(string) == LARGEST_STRING
        for text in texts:
            count_text(text, lent)
        seen[0, "with a text and a number"] += 0 < len(texts) < 9


def count_text(text, lent):
    """Counts what an accepted text is."""
    if text.start + text.length == len(lent):
        length = "" if text.length else " of no byte"
        seen[0, f"with a text{length} at the end of what is lent"] += 1
    seen[0, "with a text of 1,000 bytes"] += text.length == LARGEST_TEXT
    seen[0, "with a text that holds a NUL"] += 0 in lent[text.start:][:text.length]


def beyond(texts, size):
    """How the first text that doesn't lie in so many bytes ends past them."""
    text = next(text for text in texts if text.start + text.length > size)
    if text.start + text.length >= 1 << 64:
        return "past 64 bits"
    if text.start + text.length > size + 1:
        return "by more"
    return "by one byte" if text.length else "of no byte, by one byte"


def item_at(string, place):
    """The kind of the item at a place, for a mark of a conditional the mark."""
    if place == len(string):
        return "open conditional"
    item = ITEM.match(string, place)
    if item is None:
        return "no item"
    return item["mark"].decode("ascii") if item["mark"] else item.lastgroup


# Vectors and examples


def run_vectors():
    total = 0
    for where, given, out in lines("expand"):
        nine = [Text(*one["text"]) if isinstance(one, dict) else one for one in given["arguments"]]
        arguments = (bytes_of(given["string"]), nine, given["lasting"], given["room"], given["at"],
                     bytes_of(given["pool"]))
        if out["number"]:
            expected = refusal(out), None, None
        else:
            outcome = out["outcome"]
            output = bytes_of(outcome["output"])
            expected = outcome["steps"] << 24 | len(output), output, outcome["lasting"]
        same(model_expand(*arguments), expected, where + " (model)")
        same(expand(*arguments), expected, where)
        total += 1
    return total


SGR = (b"\33[0%?%p1%p6%|%t;1%;%?%p2%t;4%;%?%p4%t;5%;"
       b"%?%p1%p3%|%t;7%;%?%p7%t;8%;m%?%p9%t\16%e\17%;")
CHOICE = b"%?%p1%tA%e%p2%tB%eC%;"
PFKEY = b"\33&f%p1%dk%p2%l%dL%p2%s"  # of hpterm
# String, first arguments (the others are 0; bytes stand for a text), and what the documents say:
# output or refusal, and steps (None where they say nothing).
EXAMPLES = [
    (b"\33=%p1%' '%+%c%p2%' '%+%c", [3, 12], bytes([27, 61, 35, 44]), 10),
    (b"\33&a%p2%02dc%p1%02dY", [3, 12], b"\33&a12c03Y", None),
    (b"%p1%p2%-%d", [7, 5], b"2", None),
    (b"%p1%03d", [-5], b"-05", None),
    (b"%p1%3d", [-5], b" -5", None),
    (CHOICE, [1, 0], b"A", 5),
    (CHOICE, [0, 1], b"B", None),
    (CHOICE, [0, 0], b"C", 7),
    (b"%?%p2%|%t;4%;", [], pack(15, 5), None),
    (b"\33[%i%p1%d;%p2%dH", [0, 0], b"\33[1;1H", None),
    (20 * b"%p1", [], b"", 20),
    (21 * b"%p1", [], pack(16, 60), None),
    (SGR, 9 * [1], b"\33[0;1;4;5;7;8m\16", None),
    (SGR, [], b"\33[0m\17", None),
    (b"\24%p1%c%p2%c", [0, 70], b"\24\200F", 5),  # document 02, 2026-04, and the next
    (b"%p1%c%p2%c%{512}%c", [256, -256], b"\200\200\200", None),
    # Document 02, 2026-07: "`%s` (no width) prints a text, `%l` pops a text and pushes its length"
    (PFKEY, [1, b"ls\r"], b"\33&f1k3Lls\r", 12),
    (b"%p1%s", [b"a text"], b"a text", 2),
    (b"%p9%s", [*8 * [0], b"ninth"], b"ninth", 2),
    (b"%p1%s", [b""], b"", 2),
    (b"%p1%l%d", [b""], b"0", 3),
    (b"%p1%l%p2%l%-%d", [b"four", b"a"], b"3", 6),
    (b"%p1%s", [bytes(range(64))], bytes(range(64)), 2),
    (b"%p1%p1%l%d%s", [b"xy"], b"2xy", 5),
    (b"%p1%p2%s%s", [b"first", b"second"], b"secondfirst", 4),
    (b"%p1%PA%gA%d%p2%s", [7, b"x"], b"7x", 6),
    (b"%%s%%l", [], b"%s%l", 4),
    (b"%'s'%c%'l'%c", [], b"sl", 4),
    (b"%p1%p2%-s", [7, 5], b"s", 4),
    # "`%s` or `%l` pops a number, or any other item pops a text"; "15 is judged first within one item"
    (b"%p1%s", [5], pack(21, 3), None),
    (b"ab%p1%l", [5], pack(21, 5), None),
    (b"%s", [b"a"], pack(15, 0), None),
    (b"%l", [b"a"], pack(15, 0), None),
    (b"%p1%+", [b"a"], pack(15, 3), None),
    (b"%p1%p2%+", [b"a", 1], pack(21, 6), None),
    (b"%p1%p2%+", [1, b"a"], pack(21, 6), None),
    (b"%p1%p2%+", [b"a", b"b"], pack(21, 6), None),
    (b"%p1%p2%=", [b"a", b"a"], pack(21, 6), None),
    (b"%p1%p2%p3%+", [b"a", 1, 2], b"", 4),
    (b"%p1%d", [b"5"], pack(21, 3), None),
    (b"%p1%02x", [b"5"], pack(21, 3), None),
    (b"%p1%c", [b"5"], pack(21, 3), None),
    (b"%p1%Pa", [b"5"], pack(21, 3), None),
    (b"%p1%PZ", [b"5"], pack(21, 3), None),
    (b"%p1%!", [b""], pack(21, 3), None),
    (b"%p1%~", [b""], pack(21, 3), None),
    (b"%?%p1%tx%;", [b""], pack(21, 5), None),
    (b"%?%tx%;", [b""], pack(15, 2), None),
    (b"%p1%l%l", [b"a"], pack(21, 5), None),
    (b"%p1%d%p2%d", [b"a", b"b"], pack(21, 3), None),
    # "`%i` leaves a text among the first two as it is"
    (b"%i%p1%s%p2%d", [b"ab", 7], b"ab8", 5),
    (b"%i%p1%d%p2%s", [7, b"ab"], b"8ab", 5),
    (b"%p1%i%i%s%p2%s", [b"ab", b"c"], b"abc", 6),
    # passed over; the stack of 20 holds either kind; a width makes no item
    (b"%?%{0}%t%s%l%e%p1%d%;", [5], b"5", 6),
    (b"%?%p1%t%p2%s%e%p2%d%;", [1, b"x"], b"x", 6),
    (20 * b"%p1" + b"%l%d", [b"abc"], b"3", 22),
    (20 * b"%p2" + b"%p1", [b"a"], pack(16, 60), None),
    (21 * b"%p1", [b"a"], pack(16, 60), None),
    *((b"%p1" + item, [b"a"], pack(14, 3), None)
      for item in (b"%5s", b"%05s", b"%5l", b"%.1s", b"%:-5s", b"%:s", b"% s", b"%#s", b"%0l")),
    (b"%p1%s%?", [5], pack(14, 7), None),
]
BLOCK = bytes(range(256)) * 8
OUTSIDE = [Text(2048, 1), Text(2049, 0), Text(0, 2049), Text(2047, 2), Text((1 << 64) - 1, 1),
           Text(1, (1 << 64) - 1), Text((1 << 64) - 1, 0), Text(1 << 63, 1 << 63), Text(1 << 32, 1),
           Text(0, 1 << 32), Text((1 << 64) - 2, 2002), Text(1000, (1 << 64) - 1000)]
INSIDE = [Text(0, 0), Text(2048, 0), Text(2047, 1), Text(0, 1000), Text(1048, 1000), Text(1047, 1000)]
LONG = [Text(0, 1001), Text(1047, 1001), Text(0, 2048)]


def lend(values):
    """Nine arguments and what is lent for those that are bytes; arguments not given are 0."""
    arguments, lent = [], b""
    for value in values:
        if isinstance(value, bytes):
            arguments.append(Text(len(lent), len(value)))
            lent += value
        else:
            arguments.append(value)
    return arguments + (9 - len(arguments)) * [0], lent


def run_examples():
    for string, values, expected, steps in EXAMPLES:
        arguments, lent = lend(values)
        answer, output, _ = check(string, arguments, 26 * [0], 64, 0, lent)
        if isinstance(expected, int):
            same(answer, expected, (string, values))
        else:
            same(output, expected, (string, values))
        if steps is not None:
            same(answer >> 24, steps, (string, values))
    return len(EXAMPLES) + run_order()


def run_order():
    """17 for the place, 17 for a text, 1 for the string, 1 for a text, 14, the first failing step, 8.

    Each of the nine is judged, whatever stands in the others and whether it is used or not.
    """
    runs = 0
    for index in range(9):
        for text in OUTSIDE + INSIDE + LONG:
            nine = [Text(5 * other, other) if other % 2 else other for other in range(9)]
            nine[index] = text
            number = 17 if text in OUTSIDE else 1 if text in LONG else 0
            cases = [(b"", 9, 9, number), (LARGEST_STRING * b"x", 1000, 0, number),
                     (b"%", 0, 0, number or 14), (b"%d", 0, 0, number or 15), (b"x", 0, 0, number or 8),
                     ((LARGEST_STRING + 1) * b"x", 0, 0, 17 if number == 17 else 1), (b"", 8, 9, 17)]
            for string, room, at, expected in cases:
                answer, _, _ = check(string, nine, 26 * [0], room, at, BLOCK)
                same(answer >> 56, expected, (string, nine, room, at))
            nine[(index + 4) % 9] = LONG[0]
            answer, _, _ = check(b"", nine, 26 * [0], 0, 0, BLOCK)
            same(answer, pack(17 if number == 17 else 1), nine)
            runs += len(cases) + 1
    return runs


# All short strings of some kinds

SOME_LASTING = list(range(-13, 13))
FORMS = [b""] + [b"%s%d" % (zero, width) for zero in (b"", b"0") for width in range(1, 100)]
CONVERSIONS = b"d", b"o", b"x", b"X"


def check_short(string, *values):
    """Checks a string with these first arguments; bytes stand for a text."""
    arguments, lent = lend([*values, *(9 - len(values)) * [6]])
    check(string, arguments, SOME_LASTING, 512, 3, lent)


def check_formats():
    """Every width with every fill and conversion."""
    for form, conversion, value in product(FORMS, CONVERSIONS, EDGES):
        check_short(b"<%p1%" + form + conversion + b">", value)


def check_operators():
    for operator, left, right in product(BINARY, EDGES, EDGES):
        check_short(b"%p1%p2%" + operator + b"%d", left, right)
    for operator, value in product(list(UNARY) + [b"c"], EDGES):
        check_short(b"%p1%p1%" + operator + b"%d", value)
    for first, second in product(EDGES, EDGES):
        check_short(b"%p1%i%p1%p2%i%i%p1%p3%d %d %d %d %d", first, second, -1)


def check_two_bytes():
    """Every two bytes after a percent sign, and every byte as text and in a constant."""
    for first, second in product(range(256), range(256)):
        check_short(b"%p1%p2%p3%" + bytes([first, second]) + b"%d", 7, 300, -9)
    for byte in range(256):
        check_short(bytes([byte]))
        check_short(b"%%'%c'%%d%%'%c'%%c" % (byte, byte))
        check_short(b"%%{1%c}%%d" % byte)
        check_short(b"%%1%cd" % byte, 5)
        check_short(b"%%p1%%01%cX" % byte, 5)


def check_kinds():
    """Every item on up to three values of each kind, and every byte after a percent sign on two."""
    items = [b"%" + form + conversion for form in (b"", b"3", b"09") for conversion in CONVERSIONS]
    items += [b"%" + operator for operator in (*BINARY, *UNARY)]
    items += [b"%s", b"%l", b"%c", b"%Pa", b"%PA", b"%i", b"%p1", b"%ga", b"%{1}", b"%'a'", b"%%",
              b"x", b"%tx%ey"]
    for depth in range(4):
        for values in product((7, b"text"), repeat=depth):
            pushes = b"".join(b"%%p%d" % number for number in range(1, depth + 1))
            for item, after in product(items, (b"", b"%d", b"%s", b"%l%d")):
                string = pushes + item + after
                check_short(b"%?" + string + b"%;" if item.startswith(b"%t") else string, *values)
    for values in product((7, b"text"), repeat=2):
        for first, second in product(range(256), b"s1d'a%"):
            check_short(b"%p1%p2%" + bytes([first, second]) + b"%l%d", *values)


def check_texts():
    """Texts of many lengths from many places on, of blocks of many sizes, printed and counted."""
    lengths = [0, 1, 2, 7, 8, 9, 255, 256, 257, 998, 999, 1000, 1001, 1002]
    for size in (0, 1, 2, 255, 256, 257, 999, 1000, 1001, 1002, 2001, 65_540, 1 << 17):
        lent = (bytes(range(256)) * (size // 256 + 1))[:size]
        starts = {0, 1, 256, 65_536, *(size - length for length in lengths), size + 1, *HUGE}
        for start in sorted(start for start in starts if start >= 0):
            spare = max(0, size - start)
            for length in sorted({*lengths, spare, spare + 1, *HUGE}):
                number = 1 + below(9)
                nine = pick_values(9)
                nine[number - 1] = Text(start, length)
                check(b"%%p%d%%s%%p%d%%l%%d" % (number, number), nine, 26 * [0], 1100, 3, lent)


def check_variables():
    """Every variable put and every one got."""
    for put, get in product(LETTERS, LETTERS):
        check_short(b"%%p1%%P%c%%g%c%%d" % (put, get), 1234567)


def check_conditionals():
    """Every sequence of up to six marks, values and text."""
    for length in range(7):
        for items in product((b"%?", b"%t", b"%e", b"%;", b"%p1", b"%p2", b"x"), repeat=length):
            check_short(b"".join(items), 0, 1)


# Generated strings

CONSTANTS = [b"0", b"1", b"2", b"10", b"010", b"32", b"255", b"256", b"65536", b"2147483646",
             b"2147483647", b"0002147483647"]
WRONG_CONSTANTS = [b"", b"-1", b"+1", b" 1", b"1 ", b"1x", b"0x1", b"2147483648", b"4294967295",
                   b"4294967296", b"4294967301", b"9223372036854775808", b"18446744073709551616",
                   b"18446744073709551621", b"99999999999", 40 * b"9"]
WRONG_ITEMS = [b"\0", b"%", b"%\0", b"%p0", b"%p", b"%pa", b"%P", b"%P1", b"%P@", b"%P[", b"%g`",
               b"%g{", b"%0d", b"%00d", b"%001d", b"%100d", b"%0", b"%5", b"%12", b"%5c", b"%5%",
               b"%5p1", b"%:d", b"% d", b"%#x", b"%.2d", b"%5s", b"%05s", b"%:-5s", b"%.5s",
               b"%5l", b"%0l", b"%S", b"%L", b"%D", b"%u", b"%''",
               b"%'", b"%'a", b"%'\0'", b"%'ab'", b"%{1", b"%{", b"%I", b"%a", b"%T", b"%E", b"%:",
               b"%\xff", b"%\n"]
MARKS = [b"%?", b"%t", b"%e", b"%;"]
# Items that hold what looks like marks of a conditional, and items that look like formats.
MISLEADING = [b"%%", b"t", b"e", b";", b"?", b"%'%'", b"%'e'", b"%';'", b"%'''", b"%'{'", b"}",
              b"'", b"%%s", b"%%l", b"%'s'", b"%-s"]
NO_PERCENT = bytes(48 + byte % 75 for byte in range(256))
ALPHABET = b"%%%%%%pppPgdoxXcsl'{}?te;i+-*/m&|^=><AO!~0123456789aAzZs \0\x80\xff"
# The numbers of the arguments that are numbers, and of those that are texts, in the string that is
# made now; a value on the stack is one or the other.
NUMBER, TEXT = b"n", b"t"
given_as = {NUMBER: range(1, 10), TEXT: []}


def for_arguments(arguments):
    """Makes strings for these arguments from now on."""
    for kind in NUMBER, TEXT:
        given_as[kind] = [number for number, argument in enumerate(arguments, 1)
                          if is_text(argument) == (kind == TEXT)]


def digits(most):
    return str(1 + below(most)).encode()


def plain():
    return bytes([pick(32 + below(95), 1 + below(255))]).replace(b"%", b"%%")


def push_text():
    return b"%%p%d" % pick(*given_as[TEXT])


def push():
    """Pushes a number."""
    kind = below(8)
    if kind < 4 and given_as[NUMBER]:
        return b"%%p%d" % pick(*given_as[NUMBER])
    if kind < 5:
        return b"%%'%c'" % (1 + below(255))
    if kind < 6:
        return b"%{" + pick(below(9) * b"0" + digits(300), pick(*CONSTANTS)) + b"}"
    return b"%%g%c" % LETTERS[below(52)]


def pop():
    """Pops a number."""
    kind = below(8)
    if kind < 5:
        width = pick(b"", digits(9), digits(99), digits(12))
        return b"%" + (pick(b"", b"0") if width else b"") + width + pick(b"d", b"o", b"x", b"X")
    return b"%c" if kind < 6 else b"%%P%c" % LETTERS[below(52)]


def binary():
    return b"%" + pick(*BINARY)


def unary():
    return b"%" + pick(*UNARY)


def any_item():
    return pick(push, push, pop, binary, unary, plain, lambda: b"%i", lambda: pick(*MARKS),
                lambda: pick(*MISLEADING), lambda: pick(b"%s", b"%l", b"%p" + digits(9)))()


def sound(stack, amount, level):
    """Items that find the values they take and room on the stack, and its kinds of value after them.

    The top is the last.
    """
    made = []
    for _ in range(amount):
        kind = below(16)
        if kind < 2 and len(stack) < STACK_SIZE and given_as[TEXT]:
            made.append(push_text())
            stack += TEXT
        elif kind < 5 and len(stack) < STACK_SIZE:
            made.append(push())
            stack += NUMBER
        elif kind < 8 and stack:
            item, pushed = take(stack[-1:])
            made.append(item)
            stack = stack[:-1] + pushed
        elif kind < 10 and stack.endswith(2 * NUMBER):
            made.append(binary())
            stack = stack[:-1]
        elif kind < 11 and stack.endswith(NUMBER):
            made.append(unary())
        elif kind < 13 and len(stack) < STACK_SIZE and level < DEEPEST:
            made += conditional(stack, upto(amount // 2), level + 1)
        elif kind < 14:
            made.append(b"%i")
        else:
            made.append(plain())
    return made, stack


def take(kind):
    """An item that takes a value of this kind, and the kinds of what it pushes."""
    if kind == NUMBER:
        return pop(), b""
    return pick((b"%s", b""), (b"%s", b""), (b"%l", NUMBER))


def balanced(stack, amount, level):
    """Sound items that leave the kinds on the stack as they were."""
    made, after = sound(stack, amount, level)
    while not stack.startswith(after):
        made.append(pop() if after.endswith(NUMBER) else b"%s")
        after = after[:-1]
    return made + [push_text() if kind == TEXT[0] else push() for kind in stack[len(after):]]


def conditional(stack, amount, level):
    """A conditional of sound items that leaves the kinds on the stack as they were."""
    share = amount // 4
    made = [b"%?"]
    for _ in range(pick(0, 0, 0, 1, 2, 4)):
        made += balanced(stack, upto(share), level) + [push(), b"%t"]
        made += balanced(stack, upto(share), level) + [b"%e"]
    made += balanced(stack, upto(share), level) + [push()]
    made += [b"%t"] + balanced(stack, upto(share), level)
    if pick(True, False):
        made += [b"%e"] + balanced(stack, upto(share), level)
    return made + [b"%;"]


def nested(depth):
    """Conditionals within each other, in any part."""
    made = [plain()]
    for _ in range(depth):
        value, other = push(), push()
        made = pick(
            [b"%?", *made, value, b"%t", plain(), b"%;"],
            [b"%?", value, b"%t", *made, b"%;"],
            [b"%?", value, b"%t", *made, b"%e", plain(), b"%;"],
            [b"%?", value, b"%t", plain(), b"%e", *made, other, b"%t", plain(), b"%;"],
            [b"%?", value, b"%t", plain(), b"%e", *made, b"%;"])
    return made


def some_push():
    """Pushes a value of a kind that the arguments have."""
    return pick(push, push, push_text)() if given_as[TEXT] else push()


def many_pushes():
    """As many pushes as the stack has room for, or nearly, in a row or within a conditional."""
    made = [some_push() for _ in range(STACK_SIZE + pick(-2, -1, -1, 0, 0, 1, 1, 2))]
    for _ in range(below(4)):
        made.insert(below(len(made) + 1),
                    pick(plain(), unary(), b"%i", b"%p1%t", b"%s", b"%l", binary()))
    if pick(True, False):
        made = [b"%?", push(), b"%t", *made, pick(b"%;", b"%e", b"")]
        made += [any_item() for _ in range(below(5))] + [b"%;"]
    return made + [any_item() for _ in range(below(4))]


def sound_items():
    return sound(b"", pick(3, 6, 10, 15, 20, 40), 0)[0]


def loose_items():
    """Sound items among which some are taken out, put in or exchanged."""
    made = sound_items()
    for _ in range(pick(1, 1, 1, 2, 4)):
        index = below(len(made) + 1)
        made[index:index + below(3)] = [any_item() for _ in range(below(3))]
    return made


def wrong_items():
    """Sound items among which one is none, or is one only at first sight."""
    made = sound_items()
    wrong = pick(pick(*WRONG_ITEMS), b"%{" + pick(*WRONG_CONSTANTS) + b"}", pick(*MARKS),
                 pick(*MISLEADING))
    made.insert(below(len(made) + 1), wrong)
    return made


def repeated():
    """A number of conditionals in a row."""
    return pick(2, 3, DEEPEST, DEEPEST + 1, DEEPEST + 2) * conditional(b"", upto(3), 1)


def some_nested():
    return nested(pick(below(6), below(6), DEEPEST - 1, DEEPEST, DEEPEST, DEEPEST + 1, below(40)))


def any_items():
    return [any_item() for _ in range(below(13))]


def any_bytes():
    return [bytes(pick(*ALPHABET) for _ in range(below(12)))]


def damaged():
    """Sound items in which some bytes are changed, or that are cut."""
    made = bytearray(b"".join(pick(sound_items, lambda: nested(below(6)), lambda: [SGR])()))
    for _ in range(pick(1, 1, 2, 5)):
        index = below(len(made) + 1)
        made[index:index + below(3)] = bytes(pick(*ALPHABET) for _ in range(below(3)))
    return [bytes(made[:pick(len(made), len(made), below(len(made) + 1))])]


def sized(made):
    """The items as a string of about 1,000 bytes: repeated, cut or filled up."""
    size = LARGEST_STRING + pick(-2, -1, 0, 0, 0, 0, 1, 1, 2, 3 + below(1000))
    string = b"".join(made)
    kind = below(4)
    if kind == 0 and string:
        return (string * (size // len(string) + 1))[:size]
    if kind == 1:
        constant = b"%{" + max(0, size - len(string) - 3) * b"0" + b"}"
        return constant + string if pick(True, False) else string + constant
    filler = rng.randbytes(max(0, size - len(string))).translate(NO_PERCENT)
    return filler + string if kind == 2 else string + filler


def pick_string():
    made = pick(
        sound_items, sound_items, sound_items, sound_items, sound_items, loose_items, loose_items,
        loose_items, wrong_items, damaged, many_pushes, many_pushes, some_nested, some_nested,
        repeated, any_items, any_bytes)()
    return sized(made) if below(16) == 0 else b"".join(made)


def pick_value():
    return pick(0, 1, below(100), pick(*EDGES), LEAST + below(2**32))


def pick_values(amount):
    """All values of a kind, or of different ones."""
    kind = below(4)
    if kind == 0:
        return [below(2) for _ in range(amount)]
    if kind == 1:
        return [pick(LEAST, LARGEST) for _ in range(amount)]
    return [pick_value() for _ in range(amount)]


def pick_lent():
    """Bytes to be lent, all of them or all but NUL."""
    size = pick(0, 1, below(8), below(40), below(40), below(300), LARGEST_TEXT + below(20),
                below(3000))
    lent = rng.randbytes(size)
    return lent.translate(NO_NULS) if pick(True, False) else lent


def pick_text(size):
    """A text of at most 1,000 bytes that lies in so many bytes, often at their end."""
    length = min(size, pick(0, 1, below(8), below(40), LARGEST_TEXT, upto(LARGEST_TEXT)))
    return Text(size - length if pick(True, False) else upto(size - length), length)


def pick_bad_text(size):
    """A text that is too long, or doesn't lie in so many bytes."""
    start = pick(0, upto(size), size, size + 1, pick(*HUGE))
    beyond_it = max(0, size - start) + 1
    return Text(start, pick(beyond_it, LARGEST_TEXT + 1 + below(9), below(10), pick(*HUGE)))


def pick_arguments(wrong=True):
    """Nine arguments, all numbers or some of them texts, and what is lent for these.

    Some texts are refused, if they may be wrong.
    """
    arguments, lent = pick_values(9), pick_lent()
    if below(3):
        texts = pick({0}, {1}, {0, 1}, {upto(8)}, set(range(9)), {i for i in range(9) if below(2)})
        for index in texts:
            arguments[index] = pick_text(len(lent))
        if wrong and below(30) == 0:
            arguments[below(9)] = pick_bad_text(len(lent))
    return arguments, lent


def pick_place(needed):
    """The length of a buffer and a place in it, or above it, for an output of this length."""
    at = pick(0, 0, 1, below(50), below(3000))
    if below(30) == 0:
        return at, max(at + 1, pick(0, 0, at + below(100), *HUGE))
    spare = pick(0, 0, 0, 0, 0, 1, 1, -1, below(300), -upto(needed))
    return max(at, at + needed + spare), at


def check_generated():
    """Each string without room first, which tells the length of its output, and then with some."""
    rng.seed(SEED)
    for _ in range(GENERATED):
        arguments, lent = pick_arguments()
        for_arguments(arguments)
        string, lasting = pick_string(), pick_values(26)
        answer, _, _ = expand(string, arguments, lasting, 0, 0, lent)
        needed = answer - pack(8) if answer >> 56 == 8 else 0
        _, output, _ = check(string, arguments, lasting, *pick_place(needed), lent)
        if output is not None:
            same(needed, len(output), f"length without room of {string}")


# The bounds of document 02, 2026-06 and 2026-07

OUTPUT_PER_BYTE = 25  # of the string, besides a text for each %s item
TIGHTEST = b"%p1%99d"
# Arguments for the strings of installed entries, besides MORE_ARGUMENTS generated lists of them.
USUAL_ARGUMENTS = [9 * [0], 9 * [1], 9 * [-1], 9 * [LEAST], 9 * [LARGEST], [5, 70, *7 * [0]],
                   [0, 1, 0, 1, 0, 1, 0, 1, 0], [1, 0, 1, 0, 1, 0, 1, 0, 1], list(range(1, 10)),
                   [255, 1000, 500, 333, *5 * [99]]]
MORE_ARGUMENTS = 10
ACCEPTED = (0, 15, 16, 21)  # what accepted strings give with enough room
BOUNDED_CASES = ("at place 0", "at another place", "8 with one byte less than the output",
                 "as many steps as bytes", "of 1,000 bytes", "over 14 bytes of output for a byte",
                 "more than two texts of 1,000 bytes", "numbers and a %s item", "numbers alone")

bounded = Counter()  # how often each number of ACCEPTED and each of BOUNDED_CASES came


def check_bounds(string, arguments, lasting, at, lent=b"", longest=None):
    """An accepted string with the room that always suffices, exactly, by library and model.

    That is by the longest text among the arguments, or by `longest`. Returns steps and output (None
    if refused). An item at which a step fails stands in the string.
    """
    size, printing = len(string), expand_model.texts_of(string)
    texts = list(filter(is_text, arguments))
    if longest is None:
        longest = max((text.length for text in texts), default=0)
    most = OUTPUT_PER_BYTE * size + longest * printing
    answer, output, _ = check(string, arguments, lasting, at + most, at, lent)
    number, value = answer >> 56, answer & (1 << 56) - 1
    steps = value >> 24
    if number:
        kept = number in ACCEPTED and value < size
    else:
        kept = steps <= size and len(output) <= most
    if not kept:
        sys.exit(f"{hex(answer)} is past the bounds of {string} with {arguments} and {lasting}")
    bounded[number] += 1
    bounded["at another place" if at else "at place 0"] += 1
    bounded["numbers alone"] += not texts
    if output:
        answer, _, _ = expand(string, arguments, lasting, at + len(output) - 1, at, lent)
        same(answer, pack(8, len(output)), f"one byte less than {string} prints")
        bounded["8 with one byte less than the output"] += 1
        bounded["as many steps as bytes"] += steps == size
        bounded["of 1,000 bytes"] += size == LARGEST_STRING
        bounded["over 14 bytes of output for a byte"] += not texts and len(output) > 14 * size
        bounded["more than two texts of 1,000 bytes"] += len(output) > 2 * LARGEST_TEXT == 2 * longest
        bounded["numbers and a %s item"] += not texts and printing > 0
    return steps, output


def check_tightest():
    """Strings with the most output that is known, and with the most steps; how many there are."""
    counts = range(1, LARGEST_STRING // len(TIGHTEST) + 1)
    for count in counts:
        same(check_bounds(count * TIGHTEST, 9 * [1], 26 * [0], 7),
             (2 * count, count * b"1".rjust(99)), f"{TIGHTEST} {count} times")
    sizes = 0, 1, 2, LARGEST_STRING - 1, LARGEST_STRING
    for size in sizes:
        same(check_bounds(size * b"x", 9 * [0], 26 * [0], 0), (size, size * b"x"), f"{size} bytes")
    return len(counts) + len(sizes)


def check_most_texts():
    """The most output by texts, and the most %s items, with 1,000 bytes of room for each of them."""
    lent = rng.randbytes(LARGEST_TEXT)
    nine = [Text(0, LARGEST_TEXT), *8 * [Text(3, 0)]]
    counts = 1, 2, 3, 50, 199, 200
    for count in counts:
        same(check_bounds(count * b"%p1%s", nine, 26 * [0], 7, lent), (2 * count, count * lent),
             f"{count} texts of 1,000 bytes")
        same(check_bounds(count * b"%p9%s", nine, 26 * [0], 0, lent), (2 * count, b""),
             f"{count} texts of no byte")
    most = LARGEST_STRING // len(b"%s")
    same(check_bounds(most * b"%s", nine, 26 * [0], 3, lent), (0, None), "500 %s items")
    passed = b"%?%{0}%t" + (most - 5) * b"%s" + b"%;"
    for arguments, longest in (nine, None), (9 * [0], LARGEST_TEXT), (9 * [0], None):
        same(check_bounds(passed, arguments, 26 * [0], 0, lent, longest), (3, b""), "passed over")
    return 2 * len(counts) + 4


def check_items():
    """Each item that prints, after a push: at most 25 bytes for each byte of the item alone.

    The most is 99 for the four bytes of %99d; %s prints a text more. Returns how many expansions
    there are.
    """
    items = [b"%" + form + conversion for form in FORMS for conversion in CONVERSIONS]
    items += [b"%c", b"%%"] + [b"%c" % byte for byte in range(1, 256) if byte != ord("%")]
    most = 0
    same(check_bounds(b"%p1", 9 * [1], 26 * [0], 0), (1, b""), "a push")
    given = list(product(items, (LEAST, -1, 0, LARGEST)))
    for item, value in given:
        steps, output = check_bounds(b"%p1" + item, [value, *8 * [0]], 26 * [0], 0)
        if steps != 2 or len(output) > OUTPUT_PER_BYTE * len(item):
            sys.exit(f"{item} prints {output}")
        most = max(most, len(output) / len(item))
    same(most, 99 / 4, "the most that an item prints for each of its bytes")
    for length in range(LARGEST_TEXT + 1):
        start = LARGEST_TEXT - length
        same(check_bounds(b"%p1%s", [Text(start, length), *8 * [0]], 26 * [0], 0, BLOCK[:LARGEST_TEXT]),
             (2, BLOCK[start:LARGEST_TEXT]), f"a text of {length} bytes")
    return 1 + len(given) + LARGEST_TEXT + 1


@cache
def entry_strings():
    """The parameterized strings of installed entries, and all that print a text."""
    strings = {string for _, _, string in text_strings.STRINGS}
    strings.update(content for _, entry in installed() for _, content in fields(entry)[1].values()
                   if isinstance(content, bytes) and b"%" in content)
    return sorted(strings)


def texts_taken(string):
    """The indices of the arguments that a string takes for texts."""
    return {int(number) - 1 for number in TAKES_TEXT.findall(string)}


def check_entries(strings):
    """The strings of entries, with numbers, and those that take texts with texts too.

    Returns how many are accepted, how many are refused 14, and how many expansions there are.
    """
    accepted = [string for string in strings
                if check(string, 9 * [0], 26 * [0], 0, 0)[0] >> 56 != 14]
    runs = 0
    for string in accepted:
        given = [(arguments, 26 * [0], 0) for arguments in USUAL_ARGUMENTS]
        for _ in range(MORE_ARGUMENTS):
            given.append((pick_values(9), pick_values(26), 1 + below(3000)))
            if texts_taken(string):
                arguments, lent = pick_values(9), pick_lent()
                for index in texts_taken(string):
                    arguments[index] = pick_text(len(lent))
                given.append((arguments, pick_values(26), 1 + below(3000), lent))
        for arguments in given:
            check_bounds(string, *arguments)
        runs += len(given)
    return len(accepted), len(strings) - len(accepted), runs


def wide_items():
    return [item for _ in range(1 + below(8)) for item in (
        push(), b"%" + pick(b"", b"0") + pick(digits(9), digits(99), b"99") + pick(*CONVERSIONS))]


def text_items():
    """Texts that are printed or counted; without texts, %s items that are passed over."""
    if not given_as[TEXT]:
        return [b"%?", b"%{0}", b"%t", *upto(9) * [b"%s"], b"%;", plain()]
    return [item for _ in range(1 + below(6))
            for item in (push_text(), pick(b"%s", b"%s", b"%l%d"))]


def right_items():
    """Items, none a mark, of which some find too few values, one of the other kind or no room."""
    return [pick(push, some_push, pop, pop, binary, unary, plain, lambda: pick(b"%s", b"%l"))()
            for _ in range(upto(30))]


def accepted_string():
    size = LARGEST_STRING + 1
    while size > LARGEST_STRING:
        string = b"".join(pick(
            sound_items, wide_items, wide_items, right_items, repeated, lambda: [plain()],
            text_items, text_items, lambda: nested(upto(DEEPEST)),
            lambda: balanced(b"", upto(12), 0),
            lambda: [some_push() for _ in range(STACK_SIZE + below(3))])())
        size = len(string)
    return string * (LARGEST_STRING // size) if size and below(32) == 0 else string


def run_bounds():
    """Holds all of these to the bounds; how many expansions there are.

    Exits if there are others than stated, or if a case never came among the generated strings.
    """
    rng.seed(BOUNDED_SEED)
    runs = check_tightest() + check_most_texts() + check_items()
    accepted, malformed, of_entries = check_entries(entry_strings())
    runs += of_entries
    same(sum(bounded[number] for number in ACCEPTED), runs, "expansions before the generated ones")
    before = bounded.copy()
    for _ in range(BOUNDED):
        arguments, lent = pick_arguments(wrong=False)
        for_arguments(arguments)
        check_bounds(accepted_string(), arguments, pick_values(26),
                     pick(0, 0, 1, below(50), below(3000)), lent)
    generated = bounded - before
    same(sum(generated[number] for number in ACCEPTED), BOUNDED, "generated expansions")
    missing = [case for case in (*ACCEPTED, *BOUNDED_CASES) if not generated[case]]
    if missing or not accepted:
        sys.exit(f"bounds: never seen: {missing}; {accepted} strings of entries")
    runs += BOUNDED
    print(f"{runs} expansions, of {accepted} strings of entries (besides {malformed} that are "
          f"refused 14), {BOUNDED} generated ones and others: at most n steps for n bytes, 25 n "
          "bytes of output and for each %s item the longest text, and with that room never 8")
    return runs


# ncurses

TPARM = ctypes.CDLL("libtinfo.so.6").tparm
TPARM.restype = POINTER
TERMINALS = ["xterm", "vt100", "linux", "screen", "vt52", "xterm-256color"]
COLORS = [[color] for color in (0, 1, 7, 8, 9, 15, 16, 100, 255)]
USES = {
    "cup": [[0, 0], [5, 10], [23, 79], [99, 131]],
    "csr": [[0, 23], [4, 20]],
    "cuu": [[1], [12]],
    "vpa": [[0], [9]],
    "initc": [[1, 0, 500, 1000], [15, 1000, 20, 333]],
    "setaf": COLORS,
    "setab": COLORS,
    "sgr": [9 * [0], 9 * [1]] + [[int(i == j) for i in range(9)] for j in range(9)]
           + [[1, 1, 0, 0, 0, 1, 0, 0, 0], [0, 1, 1, 0, 1, 0, 1, 0, 1]],
}
DELAY = re.compile(rb"\$<[0-9]+(\.[0-9])?[*/]*>")  # text for the library, not sent by tput
# A format with a flag or a precision, which is malformed for the library.
PRECISION = re.compile(rb"%(:-[0-9]+|[0-9]+(?=\.))(\.[0-9]+)?[doxXs]")
TAKES_TEXT = re.compile(rb'%p([1-9])"?%[ls]')  # an argument that is to be a text
KEYS = 0, 1, 5, 8, 11, 15, 24, 25, 30, 33, 47, 60
KEY_TEXTS = (b"", b"\r", b"ls -l\r", b"12345678", b"%p1%d%s%%", b"\33[A\xff\200", 1000 * b"k",
             bytes(range(1, 256)))


def run_ncurses():
    """Strings of installed entries as tput sends them."""
    total = Counter()
    for terminal in TERMINALS:
        _, states = fields(run("infocmp", "-1", terminal))
        for name, uses in USES.items():
            if name not in states:
                continue
            string = states[name][1]
            precision = PRECISION.search(string)
            for arguments in uses:
                where = f"{terminal} {name} {arguments}"
                filled = arguments + (9 - len(arguments)) * [0]
                answer, output, _ = check(string, filled, 26 * [0], 512, 0)
                if precision:
                    same(answer, pack(14, precision.start()), where)
                    continue
                sent = run("tput", "-T", terminal, name, *map(str, arguments))
                same(output and DELAY.sub(b"", output), sent, where)
                total[name] += 1
    for name in ("cup", "sgr", "setaf"):
        if not total[name]:
            sys.exit(f"{name} was never compared with tput")
    return sum(total.values())


def check_text_strings():
    """Strings that take texts, as tparm expands them; how many there are, and how many expansions."""
    strings = [string for string in entry_strings() if texts_taken(string)]
    malformed = total = 0
    for string in strings:
        precision = PRECISION.search(string)
        malformed += precision is not None
        for key, text in product(KEYS, KEY_TEXTS):
            values = [text if index in texts_taken(string) else key for index in range(9)]
            arguments, lent = lend(values)
            answer, output, _ = check(string, arguments, 26 * [0], 4096, 0, lent)
            if precision:
                same(answer, pack(14, precision.start()), string)
                continue
            words = [ctypes.c_char_p(value) if isinstance(value, bytes) else ctypes.c_long(value)
                     for value in values]
            same(output, ctypes.string_at(TPARM(string, *words)), (string, key, text))
            total += 1
    return len(strings) - malformed, total


def both(string, *arguments):
    """What the library gives, and as many bytes of what tparm gives, those past a NUL included."""
    nine = [*arguments, *(9 - len(arguments)) * [0]]
    _, output, _ = check(string, nine, 26 * [0], 512, 0)
    return output, ctypes.string_at(TPARM(string, *map(ctypes.c_long, nine)), len(output))


def check_characters():
    """`%c` by tparm: 0 gives 128 there too, other multiples of 256 give a NUL."""
    values = sorted({*range(-1024, 1025), *EDGES})
    for value in values:
        if value % 256:
            expected = 2 * (b"%c." % (value % 256),)
        else:
            expected = b"\x80.", b"\0." if value else b"\x80."
        same(both(b"%p1%c.", value), expected, f"%c of {value}")
    same(both(b"\24%p1%c%p2%c", 0, 70), 2 * (b"\24\x80F",), "cup of act4 at row 0")
    return len(values)


def report():
    """How often success and each refusal came; exits if one never came."""
    print(f"{sum(tally.values())} inputs; " + ", ".join(
        f"{'refusal ' + str(number) if number else 'success'} {tally[number]}"
        for number in REFUSALS))
    for (number, what), times in sorted(seen.items()):
        print(f"{'refusal ' + str(number) if number else 'success'}, {what}: {times}")
    missing = [f"refusal {number}" for number in REFUSALS if not tally[number]]
    missing += [f"{number} {what}" for number, what in NEEDED if not seen[number, what]]
    if missing:
        sys.exit("never seen: " + ", ".join(missing))


if __name__ == "__main__":
    vectors, examples, sent = run_vectors(), run_examples(), run_ncurses()
    print(f"{vectors} vectors, {examples} examples and {sent} strings that tput sends, as stated")
    print(f"%c of {check_characters()} values as by tparm, but 128 for a multiple of 256 other than 0")
    print("{} strings that take a text, expanded {} times, as by tparm".format(*check_text_strings()))
    for part in (check_formats, check_operators, check_two_bytes, check_kinds, check_texts,
                 check_variables, check_conditionals, check_generated):
        part()
    runs = run_bounds()
    report()
    print(f"{vectors} vectors, {sent} strings of tput, {sum(tally.values())} inputs of which "
          f"{GENERATED + BOUNDED} generated, no difference; {runs} of them within the bounds")
