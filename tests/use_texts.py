"""Texts of descriptions that use others, for the tests and the bench: many uses, many chains.

A description is known by its number, and its first name is one byte; the first one is wanted.
"""

from string import ascii_letters, digits

from model import STRINGS
from text_model import LARGEST_TEXT, MOST_DESCRIPTIONS, MOST_USES

FIRST_NAMES = [sign.encode("ascii") for sign in ascii_letters + digits + "+-"]


def name(number):
    return FIRST_NAMES[number]


def used(numbers):
    return b"".join(b"use=" + name(number) + b"," for number in numbers)


def described(number, fields):
    """A description with its fields on one line."""
    return name(number) + b"|x,\n" + (b"\t" + fields + b"\n" if fields else b"")


def repeated(times=200):
    """Nine descriptions, each of which uses the next so often: times^8 chains of eight uses."""
    last = MOST_USES
    return b"".join(described(number, times * used([number + 1])) for number in range(last)) + (
        described(last, b"cols#80,"))


def layer_numbers(sizes):
    """The numbers of the descriptions in layers of these sizes."""
    numbers = iter(range(sum(sizes)))
    return [[next(numbers) for _ in range(size)] for size in sizes]


def below(layers):
    """The descriptions of some layers, each of which uses the whole next layer."""
    made = []
    for layer, after in zip(layers, [*layers[1:], []]):
        for number in layer:
            made.append(described(number, used(after) or b"cols#%d," % number))
    return b"".join(made)


LAYERS = [1, *7 * [8], 7]
LATE_LAYERS = [1, *5 * [8], *3 * [7]]


def layered():
    """64 descriptions in nine layers, each of which uses the whole next layer: 7 * 8^7 chains."""
    return below(layer_numbers(LAYERS))


def late():
    """Layers as in layered, and a last use of the first one that leads by two more into the second.

    The ninth use of a chain comes after all chains of eight; its first byte comes with the text.
    """
    layers = layer_numbers(LATE_LAYERS)
    first, second = MOST_DESCRIPTIONS - 2, MOST_DESCRIPTIONS - 1
    text = below(layers)
    text = text.replace(used(layers[1]), used(layers[1]) + used([first]), 1)
    text += described(first, used([second])) + described(second, used(layers[1]))
    ninth = text.index(b"\n" + described(layers[6][0], used(layers[7])))
    return text, text.index(b"use=", ninth)


def chained():
    """64 descriptions: the first one uses seven chains of eight and one of seven.

    Each has some fields of its own, so that the text is nearly as long as one may be.
    """
    heads = range(1, MOST_DESCRIPTIONS, MOST_USES)
    made = []
    for number in range(MOST_DESCRIPTIONS):
        after = [] if number % MOST_USES == 0 or number + 1 == MOST_DESCRIPTIONS else [number + 1]
        own = b"".join(
            STRINGS[(7 * number + place) % len(STRINGS)].encode("ascii") + rb"=\E[%da," % place
            for place in range(21))
        made.append(described(number, own + used(heads if number == 0 else after)))
    return b"".join(made)


def many_names(uses):
    """A text whose first description has 1,000 uses, and the others 500 names but their last ones.

    The names have seven bytes, of which the first four are the same; uses has the numbers of the
    names that are used.
    """
    names = [b"disp%03d" % number for number in range(500)]
    others = MOST_DESCRIPTIONS - 1
    text = described(0, b"".join(b"use=" + names[number] + b"," for number in uses))
    for number in range(others):
        some = names[500 * number // others:500 * (number + 1) // others]
        text += b"|".join([*some, b"x"]) + b",\n"
    return text


def each_twice():
    return many_names([*range(500), *range(500)])


def last_name():
    return many_names(1000 * [499])


def most_compared():
    """Headers as long as they may be, and as many uses of a name that no one has as there is room for.

    The first description doesn't reach them. By the hash of the crate use_names `1j` may be any of
    the names, so that it is compared with all of them.
    """
    names = b"|".join(63 * [b"a"])
    text = b"w|x,\n" + (MOST_DESCRIPTIONS - 1) * (names + b"|x,\n") + b"\t"
    return text + (LARGEST_TEXT - 1 - len(text)) // 7 * b"use=1j," + b"\n"


def bytes_compared():
    """As most_compared, but the name and those that it is compared with are of one byte.

    So there is room for more uses, and names of the same length are compared by their bytes. `a` has
    the hash of `1j`, a name of the first description.
    """
    first = b"|".join([b"b", b"1j"] + 60 * [b"b"]) + b"|x,\n"
    others = b"|".join(63 * [b"b"]) + b"|x,\n"
    text = first + (MOST_DESCRIPTIONS - 1) * others + b"\t"
    return text + (LARGEST_TEXT - 1 - len(text)) // 6 * b"use=a," + b"\n"


TEXTS = {
    "repeated": repeated(), "layered": layered(), "late": late()[0], "chained": chained(),
    "each-twice": each_twice(), "last-name": last_name(), "most-compared": most_compared(),
    "bytes-compared": bytes_compared(),
}
