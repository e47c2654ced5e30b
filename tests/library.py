"""The library's C interface for the tests: its calls, the memory lent to them, and their answers.

Every call has a function here that takes Python values, lends them to the library inside larger
arrays, checks that the library changed nothing that it must leave, and returns the 64-bit answer.
Beside each stands the answer that the model gives, in the same 64 bits.
"""

import ctypes
import mmap
import os
import struct
from array import array
from functools import cached_property
from pathlib import Path

import model
import text_model

ROOT = Path(__file__).resolve().parent.parent
SHARED_OBJECT = ROOT / "target" / "tests" / "libterminfo_c.so"

# The calls that test_random.py compares and the answers within that of ask, with the refusals that
# each can give (0 is success).
REFUSALS = {
    "open": (0, 1, 2, 3, 4, 5, 6, 7),
    "names": (0, 17),
    "boolean": (0, 17),
    "number": (0, 17),
    "string": (0, 17),
    "state": (0, 11, 17),
    "ask": (0, 17),
    "answers of ask": (0, 17),
    "list": (0, 1, 2, 3, 4, 5, 6, 7, 8),
    "write": (0, 3, 4, 7, 8, 9, 13),
    "merge": (0, 1, 2, 3, 4, 5, 6, 7, 8, 9),
    "capability": (0, 17),
    "find": (0, 11),
}

SIZE, POINTER = ctypes.c_size_t, ctypes.c_void_p
ARRAY = [POINTER, SIZE]
EDITION = [SIZE, SIZE, SIZE]
FILE_AND_EDITION = ARRAY + EDITION
ARGUMENTS = {
    "open": FILE_AND_EDITION + [POINTER],
    "names": FILE_AND_EDITION,
    "boolean": FILE_AND_EDITION + [SIZE],
    "number": FILE_AND_EDITION + [SIZE],
    "string": FILE_AND_EDITION + [SIZE],
    "ask": FILE_AND_EDITION + [POINTER, POINTER, POINTER],
    "list": FILE_AND_EDITION + 6 * ARRAY,
    "write": EDITION + 9 * ARRAY,
    "merge": ARRAY + FILE_AND_EDITION + ARRAY,
    "capability": [ctypes.c_uint8, SIZE],
    "compile": ARRAY + ARRAY + EDITION + ARRAY,
    "compile_first": ARRAY + EDITION + ARRAY,
    "find": ARRAY + EDITION,
    "state": FILE_AND_EDITION + ARRAY,
}


def load():
    shared_object = ctypes.CDLL(str(SHARED_OBJECT))
    calls = {}
    for name, arguments in ARGUMENTS.items():
        calls[name] = getattr(shared_object, "terminfo_" + name)
        calls[name].argtypes = arguments
        calls[name].restype = ctypes.c_uint64
    return calls


CALLS = load()
STATE_CALLS = (CALLS["boolean"], CALLS["number"], CALLS["string"])

# What bytes hold that are not lent, or lent and not yet written; any 256 of them hold every value.
PATTERN = bytes((37 * i + 11) % 256 for i in range(256)) * (1 << 12)
GUARD = 256


class Lent:
    """Elements lent to the library, with guard bytes directly before and after them."""

    def __init__(self, type_code="B", capacity=1 << 13):
        self.width = array(type_code).itemsize
        self.type_code = type_code
        self.bytes = bytearray(2 * GUARD + capacity * self.width)
        self.address = ctypes.addressof(ctypes.c_char.from_buffer(self.bytes)) + GUARD
        assert self.address % 8 == 0
        self.put(b"")

    def put(self, elements):
        """Lends these elements."""
        content = elements if self.width == 1 else array(self.type_code, elements).tobytes()
        self.length = len(elements)
        self.put_bytes(content)

    def put_pattern(self, length):
        """Lends this many elements whose bytes are not yet written."""
        self.length = length
        self.put_bytes(PATTERN[GUARD:GUARD + length * self.width])

    def put_bytes(self, content):
        self.end = GUARD + len(content)
        self.whole = PATTERN[:GUARD] + content + PATTERN[-GUARD:]
        self.bytes[:len(self.whole)] = self.whole

    def written(self):
        """The elements as they are now."""
        content = bytes(self.bytes[GUARD:self.end])
        return content if self.width == 1 else array(self.type_code, content).tolist()

    def kept(self):
        """Whether the elements and the guard bytes are as they were lent."""
        return self.bytes.startswith(self.whole)

    def kept_after(self, count):
        """Whether all but the first `count` elements, guard bytes included, is as it was lent."""
        rest = GUARD + count * self.width
        return (self.bytes.startswith(self.whole[:GUARD])
                and self.bytes.startswith(self.whole[rest:], rest))


class LentAtEnd:
    """Elements lent to the library to read, directly before memory that can't be read.

    Guard bytes stand before them.
    """

    def __init__(self, type_code="B", capacity=1 << 13):
        self.type_code = type_code
        size = -(-(GUARD + capacity * array(type_code).itemsize) // mmap.PAGESIZE) * mmap.PAGESIZE
        self.pages = mmap.mmap(-1, size + mmap.PAGESIZE)
        self.end = size
        self.end_address = ctypes.addressof(ctypes.c_char.from_buffer(self.pages)) + size
        no_access = 0
        if ctypes.CDLL(None, use_errno=True).mprotect(
                ctypes.c_void_p(self.end_address), SIZE(mmap.PAGESIZE), no_access):
            raise OSError(ctypes.get_errno(), os.strerror(ctypes.get_errno()))
        self.put(b"")

    def put(self, elements):
        """Lends these elements."""
        content = elements if self.type_code == "B" else array(self.type_code, elements).tobytes()
        self.length = len(elements)
        self.address = self.end_address - len(content)
        self.whole = PATTERN[:GUARD] + content
        self.pages[self.end - len(self.whole):self.end] = self.whole

    def kept(self):
        """Whether the elements and the guard bytes are as they were lent."""
        return self.pages[self.end - len(self.whole):self.end] == self.whole


class Changed(AssertionError):
    """The library changed bytes that it must leave."""


def require(condition, what):
    if not condition:
        raise Changed(what)


def pack(number=0, value=0, kind=0):
    """The 64 bits of an answer: a refusal's number and value, or a kind of state and its value.

    The refused file of a merge stands where a kind stands.
    """
    return number << 56 | kind << 48 | value


def pack_refusal(refusal):
    """The 64 bits of a refusal that the model gives."""
    return pack(refusal.number, refusal.value, refusal.which)


def pack_part(part):
    """The value of a part of the file: start and length."""
    start, length = part
    return start << 24 | length


NOT_THERE = pack(17)
# The kind in a refused answer about a state or a name.
REFUSED = 3


def pack_state(state):
    """The 64 bits of a state that the model gives."""
    kind, value = state
    if value is None:
        return pack(kind=kind)
    return pack(kind=kind, value=pack_part(value) if isinstance(value, tuple) else value)


def part_of(file, value):
    """The bytes of the part of the file that an answer's value gives."""
    start, length = value >> 24, value & 0xFFFFFF
    return file[start:start + length]


def state_of(file, kind, answer):
    """Kind of state and content (None: no content) in an answer about a capability of a kind."""
    state, value = answer >> 48, answer & (1 << 48) - 1
    if state == model.PRESENT and kind == model.STRING:
        return state, part_of(file, value)
    if state == model.PRESENT and kind == model.NUMBER:
        return state, value
    return state, value or None


class Reader:
    """One file in one edition: each call's answer by the library and by the model."""

    file = Lent(capacity=1 << 16)
    tables = Lent("Q", 10)
    kinds = Lent("B", 8)
    places = Lent("Q", 8)
    answers = Lent("Q", 8)
    # The arrays that list fills, in the order of the C interface.
    arrays = [Lent(code, 1 << 10) for code in ("B", "B", "I", "B", "Q", "Q")]

    def __init__(self, file, edition):
        self.file.put(file)
        self.lent = (self.file.address, self.file.length) + tuple(edition)
        self.given = file, edition

    @cached_property
    def judged(self):
        """By the model: the entry (None if refused) and the refusal (0 if accepted)."""
        try:
            return model.open_entry(*self.given), 0
        except model.Refusal as refusal:
            return None, pack_refusal(refusal)

    @property
    def entry(self):
        return self.judged[0]

    @property
    def refusal(self):
        return self.judged[1]

    def file_kept(self):
        return self.file.kept()

    def open(self):
        """Answer and tables (None if refused)."""
        self.tables.put_pattern(10)
        answer = CALLS["open"](*self.lent, self.tables.address)
        if answer:
            require(self.tables.kept(), "tables of a refused file")
            return answer, None
        require(self.tables.kept_after(10), "bytes around the tables")
        return answer, self.tables.written()

    def model_open(self):
        if self.entry is None:
            return self.refusal, None
        return 0, [*self.entry.counts, *self.entry.starts, *self.entry.beyond()]

    def names(self):
        return CALLS["names"](*self.lent)

    def model_names(self):
        return NOT_THERE if self.entry is None else pack(value=pack_part(self.entry.names()))

    def state(self, kind, place):
        return STATE_CALLS[kind](*self.lent, place)

    def model_state(self, kind, place):
        if self.entry is None:
            return pack(17, kind=REFUSED)
        try:
            return pack_state(model.state(self.entry, kind, place))
        except model.Refusal as refusal:
            return pack(refusal.number, refusal.value, REFUSED)

    def named_state(self, name):
        NAME.put(name)
        answer = CALLS["state"](*self.lent, NAME.address, NAME.length)
        require(NAME.kept(), "the name asked for")
        return answer

    def model_named_state(self, name, edition):
        found = model_find(name, edition)
        if found >> 56:
            return found
        return self.model_state(found >> 48, found & 0xFFFF)

    def ask(self, kinds, places):
        """Answer and eight answers (None if refused)."""
        self.kinds.put(bytes(kinds))
        self.places.put(places)
        self.answers.put_pattern(8)
        answer = CALLS["ask"](*self.lent, self.kinds.address, self.places.address,
                              self.answers.address)
        require(self.kinds.kept() and self.places.kept(), "what is asked")
        if answer:
            require(self.answers.kept(), "answers of a refused file")
            return answer, None
        require(self.answers.kept_after(8), "bytes around the answers")
        return answer, self.answers.written()

    def model_ask(self, kinds, places):
        if self.entry is None:
            return NOT_THERE, None
        return 0, [self.model_state(kind, place) for kind, place in zip(kinds, places)]

    def list(self, rooms):
        """Answer and the arrays of these lengths after it, all of their elements."""
        arguments = []
        for lent, room in zip(self.arrays, rooms):
            lent.put_pattern(room)
            arguments += (lent.address, room)
        answer = CALLS["list"](*self.lent, *arguments)
        for lent, room in zip(self.arrays, rooms):
            require(lent.kept_after(room), "bytes around an array of states")
        return answer, [list(lent.written()) for lent in self.arrays]

    def model_list(self, rooms):
        before = []
        for lent, room in zip(self.arrays, rooms):
            lent.put_pattern(room)
            before.append(list(lent.written()))
        if self.entry is None:
            return self.refusal, before
        try:
            states = model.list_states(self.entry, rooms)
        except model.Refusal as refusal:
            return pack_refusal(refusal), before
        return 0, [part + array[len(part):] for part, array in zip(states, before)]


def contents(file, edition):
    """Names and states of a file as the library reads it in an edition; None if it is refused.

    The states are a dictionary from kind and place to kind of state and content (None: no content).
    """
    reader = Reader(file, edition)
    names = reader.names()
    if names >> 56:
        return None
    states = {}
    asked = [(kind, place) for kind in range(3) for place in range(edition[kind])]
    for first in range(0, len(asked), 8):
        eight = asked[first:first + 8]
        kinds, places = zip(*eight, *(8 - len(eight)) * [(model.BOOLEAN, 0)])
        refused, answers = reader.ask(kinds, places)
        if refused:
            return None
        for (kind, place), answer in zip(eight, answers):
            states[kind, place] = state_of(file, kind, answer)
    return part_of(file, names), states


# The arrays of States in the order of the C interface, the two files to merge, and the buffer.
WRITER_LENT = [Lent(code, 1 << 14) for code in ("B", "B", "B", "I", "B", "Q", "Q", "B")]
MERGE_LENT = [Lent(capacity=1 << 16) for _ in range(2)]
BUFFER = Lent(capacity=1 << 14)


def written(call, arguments, room):
    """The answer of a call that writes a file, and the file (None if refused)."""
    BUFFER.put_pattern(room)
    answer = CALLS[call](*arguments, BUFFER.address, room)
    if answer >> 56:
        require(BUFFER.kept(), f"buffer of a refused {call}")
        return answer, None
    require(answer <= room, "length above the buffer's")
    require(BUFFER.kept_after(answer), "bytes around the file")
    return answer, BUFFER.written()[:answer]


def model_written(call, *arguments):
    """The answer and the file (None if refused) of a call of the model that writes a file."""
    try:
        file = call(*arguments)
        return len(file), file
    except model.Refusal as refusal:
        return pack_refusal(refusal), None


def write(edition, states, room):
    """The library's answer and the file that it wrote (None if refused)."""
    arguments = list(edition)
    for lent, elements in zip(WRITER_LENT, states):
        lent.put(elements)
        arguments += (lent.address, lent.length)
    found = written("write", arguments, room)
    require(all(lent.kept() for lent in WRITER_LENT), "what is lent to the writer")
    return found


def model_write(edition, states, room):
    return model_written(model.write, edition, states, room)


def merge(first, second, edition, room):
    """The library's answer and the file that it wrote (None if refused).

    Where both files are one Python object the same memory is lent for both.
    """
    upper, lower = MERGE_LENT
    upper.put(first)
    lower.put(second)
    lent = [upper, upper if first is second else lower]
    arguments = [argument for file in lent for argument in (file.address, file.length)]
    found = written("merge", arguments + list(edition), room)
    require(upper.kept() and lower.kept(), "the files to merge")
    return found


def model_merge(first, second, edition, room):
    return model_written(model.merge, first, second, edition, room)


TEXT = Lent(capacity=1 << 16)


def compile_text(text, room, edition, wanted=None):
    """The library's answer for the description that has a name, and the file (None if refused).

    Without a name it is the text's first description. A name that is a slice is that part of the
    memory that is lent for the text.
    """
    TEXT.put(text)
    lent = [TEXT.address, TEXT.length]
    if wanted is None:
        found = written("compile_first", [*lent, *edition], room)
    elif isinstance(wanted, slice):
        lent += [TEXT.address + wanted.start, wanted.stop - wanted.start]
        found = written("compile", [*lent, *edition], room)
    else:
        NAME.put(wanted)
        found = written("compile", [*lent, NAME.address, NAME.length, *edition], room)
        require(NAME.kept(), "the wanted name")
    require(TEXT.kept(), "the text to compile")
    return found


def model_compile(text, room, edition, wanted=None):
    if isinstance(wanted, slice):
        wanted = text[wanted]
    number, values, file = text_model.compile(text, room, edition, wanted)
    return (len(file), file) if file is not None else (pack(number, *values), None)


def capability(kind, place):
    return CALLS["capability"](kind, place)


def model_capability(kind, place):
    if kind >= len(model.LISTS) or place >= len(model.LISTS[kind]):
        return NOT_THERE
    name, = struct.unpack("<Q", model.LISTS[kind][place].encode().ljust(8, b"\0"))
    return name


NAME = Lent(capacity=1 << 15)


def find(name, edition):
    """The library's answer for a name."""
    NAME.put(name)
    answer = CALLS["find"](NAME.address, NAME.length, *edition)
    require(NAME.kept(), "the name to find")
    return answer


def model_find(name, edition):
    for kind, (listed, known) in enumerate(zip(model.LISTS, edition)):
        for place, capability_name in enumerate(listed[:known]):
            if capability_name.encode() == name:
                return pack(kind=kind, value=place)
    return pack(11, kind=REFUSED)
