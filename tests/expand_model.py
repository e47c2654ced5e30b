"""Expansion as documents 01 and 02 define it: items, conditionals, the stack, variables and output.

Written from the documents alone, independently of the library; the tests compare the two. A value
is a number, an int, or the bytes of a text. A refused call raises Refusal.
"""

import re
from string import ascii_lowercase, ascii_uppercase
from typing import NamedTuple

from model import LARGEST_STRING, Refusal

STACK_SIZE = 20
DEEPEST = 16  # open conditionals
LARGEST_CONSTANT = 2**31 - 1
LARGEST_TEXT = 1000  # document 02, 2026-07, as all that concerns texts

# An item; the last group that matches names its kind.
ITEM = re.compile(rb"""
      (?P<plain> [^%\0] )
    | % (?: (?P<percent> % )
          | p (?P<argument> [1-9] )
          | (?P<zero> 0 (?=[1-9]) )? (?P<width> [1-9][0-9]? )? (?P<number> [doxX] )
          | (?P<character> c )
          | (?P<text> s )
          | (?P<length> l )
          | ' (?P<byte> [^\0] ) '
          | \{ (?P<constant> [0-9]+ ) \}
          | P (?P<put> [A-Za-z] )
          | g (?P<get> [A-Za-z] )
          | (?P<binary> [-+*/m&|^=><AO] )
          | (?P<unary> [!~] )
          | (?P<increment> i )
          | (?P<mark> [?te;] )
        )
    """, re.VERBOSE)

# The marks of a conditional that may come next after each of its marks.
NEXT_MARKS = {b"?": b"t", b"t": b"e;", b"e": b"t;"}


class Text(NamedTuple):
    """An argument that is a text: a part of what was lent."""
    start: int
    length: int


class Expansion(NamedTuple):
    output: bytes
    steps: int
    lasting: list  # A to Z


def parse(string):
    """The items of a string, and for each %t and %e, by index, the index of the item it goes to.

    A %t goes there on 0.
    """
    items, targets, levels = [], {}, []
    place = 0
    while place < len(string):
        item = ITEM.match(string, place)
        if item is None or int(item["constant"] or 0) > LARGEST_CONSTANT:
            raise Refusal(14, place)
        if item.lastgroup == "mark" and not add_mark(item["mark"], len(items), levels, targets):
            raise Refusal(14, place)
        items.append(item)
        place = item.end()
    if levels:
        raise Refusal(14, len(string))
    return items, targets


def add_mark(mark, index, levels, targets):
    """Takes up a mark; False if it is wrong here.

    Each open conditional is a level: its marks so far and their indices.
    """
    if mark == b"?":
        levels.append([(mark, index)])
        return len(levels) <= DEEPEST
    if not levels:
        return False
    level = levels[-1]
    last_mark, last_index = level[-1]
    if mark not in NEXT_MARKS[last_mark]:
        return False
    if last_mark == b"t":
        targets[last_index] = index + 1
    level.append((mark, index))
    if mark == b";":
        for other, other_index in levels.pop():
            if other == b"e":
                targets[other_index] = index + 1
    return True


def signed(value):
    """The 32-bit signed value that is equal to this one mod 2^32."""
    return (value + 2**31) % 2**32 - 2**31


def quotient(left, right):
    """Left by right, truncated to zero; 0 for a zero divisor."""
    if right == 0:
        return 0
    magnitude = abs(left) // abs(right)
    return magnitude if (left < 0) == (right < 0) else -magnitude


def remainder(left, right):
    return 0 if right == 0 else left - quotient(left, right) * right


BINARY = {
    b"+": lambda left, right: left + right,
    b"-": lambda left, right: left - right,
    b"*": lambda left, right: left * right,
    b"/": quotient,
    b"m": remainder,
    b"&": lambda left, right: left & right,
    b"|": lambda left, right: left | right,
    b"^": lambda left, right: left ^ right,
    b"=": lambda left, right: left == right,
    b">": lambda left, right: left > right,
    b"<": lambda left, right: left < right,
    b"A": lambda left, right: left != 0 and right != 0,
    b"O": lambda left, right: left != 0 or right != 0,
}
UNARY = {b"!": lambda value: value == 0, b"~": lambda value: ~value}


def printed(value, conversion, width, fill_zeros):
    """A number as %d, %o, %x or %X prints it."""
    if conversion == "d":
        sign, digits = "-" if value < 0 else "", str(abs(value))
    else:
        sign, digits = "", format(value % 2**32, conversion)
    if fill_zeros:
        digits = digits.rjust(width - len(sign), "0")
    return (sign + digits).rjust(width).encode("ascii")


class Machine:
    """What a run changes; a method for each kind of item takes one of that kind."""

    def __init__(self, arguments, lasting):
        self.arguments = list(arguments)
        self.variables = dict.fromkeys(ascii_lowercase.encode(), 0)
        self.variables.update(zip(ascii_uppercase.encode(), lasting))
        self.stack = []
        self.output = bytearray()
        self.place = 0  # of the item that is taken

    def run(self, items, targets):
        """Takes the items from the first on; returns how many were taken."""
        steps = index = 0
        while index < len(items):
            item = items[index]
            self.place = item.start()
            goes = getattr(self, item.lastgroup)(item)
            index = targets[index] if goes else index + 1
            steps += 1
        return steps

    def pop(self, count=1, kind=int):
        """Takes so many values, all of this kind, from the stack; the top comes first."""
        if len(self.stack) < count:
            raise Refusal(15, self.place)
        values = [self.stack.pop() for _ in range(count)]
        if not all(isinstance(value, kind) for value in values):
            raise Refusal(21, self.place)
        return values

    def push(self, value):
        if len(self.stack) == STACK_SIZE:
            raise Refusal(16, self.place)
        self.stack.append(value if isinstance(value, bytes) else signed(value))

    def plain(self, item):
        self.output += item["plain"]

    def percent(self, _):
        self.output += b"%"

    def argument(self, item):
        self.push(self.arguments[int(item["argument"]) - 1])

    def number(self, item):
        conversion = item["number"].decode("ascii")
        value, = self.pop()
        self.output += printed(value, conversion, int(item["width"] or 0), item["zero"])

    def character(self, _):
        value, = self.pop()
        self.output.append(value % 256 or 128)  # 128: document 02, 2026-04

    def text(self, _):
        content, = self.pop(kind=bytes)
        self.output += content

    def length(self, _):
        content, = self.pop(kind=bytes)
        self.push(len(content))

    def byte(self, item):
        self.push(item["byte"][0])

    def constant(self, item):
        self.push(int(item["constant"]))

    def put(self, item):
        self.variables[item["put"][0]], = self.pop()

    def get(self, item):
        self.push(self.variables[item["get"][0]])

    def binary(self, item):
        right, left = self.pop(2)
        self.push(BINARY[item["binary"]](left, right))

    def unary(self, item):
        value, = self.pop()
        self.push(UNARY[item["unary"]](value))

    def increment(self, _):
        for index in 0, 1:
            if isinstance(self.arguments[index], int):
                self.arguments[index] = signed(self.arguments[index] + 1)

    def mark(self, item):
        """Whether to go to the mark's target."""
        if item["mark"] == b"t":
            value, = self.pop()
            return value == 0
        return item["mark"] == b"e"


def texts_of(string):
    """How many %s items an accepted string has, those that are passed over too."""
    return sum(item.lastgroup == "text" for item in parse(string)[0])


def expand(string, arguments, lasting, room, at, lent=b""):
    """Expands a string for a buffer of `room` bytes from place `at` on.

    An argument is a number or a Text, a part of what is lent.
    """
    texts = [argument for argument in arguments if isinstance(argument, Text)]
    if at > room or any(text.start + text.length > len(lent) for text in texts):
        raise Refusal(17)
    if len(string) > LARGEST_STRING or any(text.length > LARGEST_TEXT for text in texts):
        raise Refusal(1)
    items, targets = parse(string)
    values = [lent[argument.start:][:argument.length] if isinstance(argument, Text) else argument
              for argument in arguments]
    machine = Machine(values, lasting)
    steps = machine.run(items, targets)
    if len(machine.output) > room - at:
        raise Refusal(8, len(machine.output))
    changed = [machine.variables[letter] for letter in ascii_uppercase.encode()]
    return Expansion(bytes(machine.output), steps, changed)
