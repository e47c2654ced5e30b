"""Compiling source text as document 01 defines it: lines, headers, fields, strings and numbers.

The edition is an input (document 02, 2026-01), and a text holds descriptions that build on others
(2026-02). Written from the documents alone, independently of the library; the tests compare the
two. Each refusal gives the documents' number and the values that come with it.
"""

import re
from typing import NamedTuple, Optional

import model
from model import ABSENT, BOOLEAN, CANCELLED, LARGEST_SHORT, LARGEST_STRING, NUMBER, PRESENT, STRING

LARGEST_TEXT = 16384
LONGEST_ALIAS = 14
LONGEST_NAMES = 127
MOST_DIGITS = 99
MOST_DESCRIPTIONS = 64
MOST_USES = 8  # of a chain

# A line that is skipped: white space alone, or a comment. The text's end closes a line too.
SKIPPED_LINE = re.compile(rb"[ \t]*(?:#[^\n]*)?(?:\n|\Z)")
REST_OF_LINE = re.compile(rb"[ \t]*(?:\n|\Z)")
WHITE_SPACE = re.compile(rb"[ \t]*")

# All names but the last: codes 33 to 126 without comma, slash, bar. The last: codes 32 to 126
# without comma and bar.
ALIAS = re.compile(rb"[!-+\-.0-{}~]+")
LAST_NAME = re.compile(rb"[ -+\--{}~]+")
# The name in a field: codes 33 to 126 without comma, equals sign, number sign and at sign.
NAME = re.compile(rb"[!\"$-+\--<>?A-~]+")
INTEGER = re.compile(rb"0[xX](?P<hex>[0-9a-fA-F]+)|(?P<octal>0[0-7]*)|(?P<decimal>[1-9][0-9]*)")

# A piece of a string: codes that stand for themselves, an escape, or a removed line end.
PIECE = re.compile(rb"""
      (?P<plain> [ -+\--\[\]_-~]+ )
    | \\ (?: (?P<octal> [0-7]{1,3} ) | (?P<letter> [Eenlrtbfs^\\,:] ) )
    | \^ (?P<control> [?@-_a-z] )
    | (?P<line_end> \n[ \t]+ )
    """, re.VERBOSE)
LETTERS = {b"E": 27, b"e": 27, b"n": 10, b"l": 10, b"r": 13, b"t": 9, b"b": 8, b"f": 12, b"s": 32}


class Malformed(Exception):
    """What is read is malformed."""


class Field(NamedTuple):
    """A field whose form is right."""

    name: bytes
    dropped: bool
    kind: Optional[int]  # of capability; None for a cancelled one
    content: object  # of a number its value (None: too many digits), of a string its bytes


class Description(NamedTuple):
    """A header and its fields: what it says itself, and which others it uses."""

    place: int  # that its header's refusals give: its first byte, 0 for the text's first header
    names: list
    states: dict  # by kind of capability and place; the first field for a capability stands
    uses: list  # first byte of each `use` field and the name in it, from left to right


def follows(text, place, byte):
    return text.startswith(byte, place)


def read_integer(text, place):
    """The value of the integer at a place, None with too many digits, and where it ends."""
    integer = INTEGER.match(text, place)
    if integer is None:
        raise Malformed
    form = integer.lastgroup
    digits = integer[form]
    if len(digits) > MOST_DIGITS:
        return None, integer.end()
    return int(digits, {"hex": 16, "octal": 8, "decimal": 10}[form]), integer.end()


def read_string(text, place):
    """The bytes of the string at a place, and where its comma is."""
    content = bytearray()
    while not follows(text, place, b","):
        piece = PIECE.match(text, place)
        if piece is None:
            raise Malformed
        place = piece.end()
        content += piece["plain"] or b""
        if not piece["plain"] and not piece["line_end"]:
            content.append(escaped(piece) or 128)
    return bytes(content), place


def escaped(piece):
    """The code that an escape stands for."""
    if piece["octal"]:
        code = int(piece["octal"], 8)
        if code > 255:
            raise Malformed
        return code
    if piece["letter"]:
        return LETTERS.get(piece["letter"], piece["letter"][0])
    return 127 if piece["control"] == b"?" else piece["control"][0] % 32


def read_field(text, place):
    """The field at a place, and where the text goes on after its comma."""
    dropped = follows(text, place, b".")
    name = NAME.match(text, place + dropped)
    if name is None:
        raise Malformed
    place = name.end()
    kind, content = BOOLEAN, None
    if follows(text, place, b"@"):
        kind, place = None, place + 1
    elif follows(text, place, b"#"):
        kind = NUMBER
        content, place = read_integer(text, place + 1)
    elif follows(text, place, b"="):
        kind = STRING
        content, place = read_string(text, place + 1)
    if not follows(text, place, b","):
        raise Malformed
    return Field(name[0], dropped, kind, content), place + 1


def read_header(text, place):
    """The names in the header at a place, and where the next line starts."""
    comma = text.find(b",", place)
    rest = REST_OF_LINE.match(text, comma + 1)
    if comma < 0 or rest is None:
        raise Malformed
    *aliases, last = text[place:comma].split(b"|")
    if not aliases or not LAST_NAME.fullmatch(last):
        raise Malformed
    if not all(map(ALIAS.fullmatch, aliases)):
        raise Malformed
    return [*aliases, last], rest.end()


def skip_lines(text, place):
    """Where the first line starts, from that at a place on, that isn't skipped."""
    while place < len(text):
        line = SKIPPED_LINE.match(text, place)
        if line is None:
            return place
        place = line.end()
    return place


def next_start(text, place):
    """Where the next field or header starts: on the line, or, from a line's start, on later lines.

    The text's end if there is none. What isn't indented is a header.
    """
    if place and not follows(text, place - 1, b"\n"):
        rest = REST_OF_LINE.match(text, place)
        if rest is None:
            return WHITE_SPACE.match(text, place).end()
        place = rest.end()
    return WHITE_SPACE.match(text, skip_lines(text, place)).end()


def is_indented(text, place):
    return place > 0 and not follows(text, place - 1, b"\n")


def place_of(field, edition):
    """Kind of capability and place in its list of the one that a field names in an edition."""
    for kind, (names, known) in enumerate(zip(model.LISTS, edition)):
        if field.name.decode("ascii") in names[:known]:
            if field.kind in (None, kind):
                return kind, names.index(field.name.decode("ascii"))
    return None


def past_limit(field):
    """Whether a number or a string is past its limit."""
    if field.kind == NUMBER:
        return field.content is None or field.content > LARGEST_SHORT
    return field.kind == STRING and len(field.content) > LARGEST_STRING


def take(field, start, edition, description):
    """Judges a field that isn't dropped, and keeps what it says.

    `use` in another form than that of a string is no name of the lists.
    """
    uses = field.name == b"use" and field.kind == STRING
    capability = None if uses else place_of(field, edition)
    if not uses and capability is None:
        raise model.Refusal(11, start)
    if past_limit(field):
        raise model.Refusal(13, start)
    if uses:
        description.uses.append((start, field.content))
    else:
        state = (CANCELLED, None) if field.kind is None else (PRESENT, field.content)
        description.states.setdefault(capability, state)


def headed(text, start, place):
    """The names in the header at its start, whose refusals give a place, and the next line's start."""
    try:
        names, after = read_header(text, start)
    except Malformed:
        raise model.Refusal(10, place) from None
    if any(len(alias) > LONGEST_ALIAS for alias in names[:-1]):
        raise model.Refusal(13, place)
    return names, after


def read_fields(text, place, edition, description):
    """Reads the fields of a description; where the next header starts, or the text ends."""
    while (start := next_start(text, place)) < len(text) and is_indented(text, start):
        try:
            field, place = read_field(text, start)
        except Malformed:
            raise model.Refusal(10, start) from None
        if not field.dropped:
            take(field, start, edition, description)
    return start


def descriptions(text, edition):
    """The descriptions of a text, which is refused by the first bad header or field of them all."""
    found = []
    start = skip_lines(text, 0)
    while not found or start < len(text):
        place = start if found else 0
        names, after = headed(text, start, place)
        if len(found) == MOST_DESCRIPTIONS:
            raise model.Refusal(13, place)
        found.append(Description(place, names, {}, []))
        start = read_fields(text, after, edition, found[-1])
    return found


def check_totals(found):
    """Refuses the earliest description whose names are too long in all, with the bars."""
    for description in found:
        if len(b"|".join(description.names)) > LONGEST_NAMES:
            raise model.Refusal(13, description.place)


def having(found, name):
    """The number of the earliest description that has a name, other than its last; None if none."""
    for number, description in enumerate(found):
        if name in description.names[:-1]:
            return number
    return None


def over(upper, lower):
    """Document 01's merge of states; a capability without one is absent."""
    return {**lower, **upper}


def built(found, chain, known=None):
    """The states that the last description of a chain comes to, merged along the tree of uses.

    A chain has the numbers of the descriptions that are being worked on, the wanted one first.
    `known`, if it is there, keeps the states by description and length of the chain: the first
    refusal ends the walk, so that what was met there without one is met without one again.
    """
    at = chain[-1], len(chain)
    if known is not None and at in known:
        return known[at]
    description = found[chain[-1]]
    states = description.states
    for place, name in description.uses:
        used = having(found, name)
        if used is None:
            raise model.Refusal(18, place)
        if used in chain:
            raise model.Refusal(19, place)
        if len(chain) > MOST_USES:
            raise model.Refusal(20, place)
        states = over(states, built(found, [*chain, used], known))
    if known is not None:
        known[at] = states
    return states


def described(text, edition, wanted, known):
    """The names and the states of the description that is wanted; without a name, of the first."""
    model.check_edition(edition)
    if len(text) > LARGEST_TEXT:
        raise model.Refusal(1)
    found = descriptions(text, edition)
    check_totals(found)
    number = 0 if wanted is None else having(found, wanted)
    if number is None:
        raise model.Refusal(18, 0)
    return b"|".join(found[number].names), built(found, [number], known)


def compile(text, room, edition, wanted=None, plain=False):
    """Compiles a description of a text in an edition: the refusal's number or 0, its values, the file.

    The file is None if the text is refused. Places of the edition past the lists of names are
    absent. Without a wanted name the text's first description is compiled. A plain walk follows
    each use, however often.
    """
    try:
        names, states = described(text, edition, wanted, None if plain else {})
        lists = [[states.get((kind, place), (ABSENT, None)) for place in range(count)]
                 for kind, count in enumerate(edition)]
        return 0, [], model.written(names, lists, room)
    except model.Refusal as refusal:
        values = [] if refusal.number in (1, 3, 9) else [refusal.value]
        return refusal.number, values, None
