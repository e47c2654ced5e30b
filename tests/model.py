"""Compiled entries as document 01 defines them: opening, asking, writing, merging, and the lists.

Written from documents 01 and 02 alone, independently of the library; the tests compare the two.
A refused call raises Refusal. An edition is three counts: booleans, numbers, strings.
"""

import struct
from typing import NamedTuple

# The names in compiled order: those of the first edition (document 01), then those that the second
# one adds (document 02, 2026-01).
BOOLEANS = """
    bw am xsb xhp xenl eo gn hc km hs in da db mir msgr os eslok xt hz ul xon
    nxon mc5i chts nrrmc npc ndscr ccc bce hls xhpa crxm daisy xvpa sam cpix lpix
    """.split()
NUMBERS = """
    cols it lines lm xmc pb vt wsl
    nlab lh lw ma wnum colors pairs ncv
    """.split()
STRINGS = """
    cbt bel cr csr tbc clear el ed hpa cmdch cup cud1 home civis cub1 mrcup cnorm cuf1 ll cuu1
    cvvis dch1 dl1 dsl hd smacs blink bold smcup smdc dim smir invis prot rev smso smul ech rmacs
    sgr0 rmcup rmdc rmir rmso rmul flash ff fsl is1 is2 is3 if ich1 il1 ip kbs ktbc kclr kctab
    kdch1 kdl1 kcud1 krmir kel ked kf0 kf1 kf10 kf2 kf3 kf4 kf5 kf6 kf7 kf8 kf9 khome kich1 kil1
    kcub1 kll knp kpp kcuf1 kind kri khts kcuu1 rmkx smkx lf0 lf1 lf10 lf2 lf3 lf4 lf5 lf6 lf7
    lf8 lf9 rmm smm nel pad dch dl cud ich indn il cub cuf rin cuu pfkey pfloc pfx mc0 mc4 mc5
    rep rs1 rs2 rs3 rf rc vpa sc ind ri sgr hts wind ht tsl uc hu
    iprog ka1 ka3 kb2 kc1 kc3 mc5p rmp acsc pln kcbt smxon rmxon smam rmam xonc xoffc enacs smln
    rmln
    """.split()
LISTS = (BOOLEANS, NUMBERS, STRINGS)
FIRST_EDITION = (21, 8, 138)
SECOND_EDITION = (37, 16, 158)
LARGEST_EDITION = (64, 64, 512)

# The kinds of capability, which are also their places in an edition and in LISTS.
BOOLEAN, NUMBER, STRING = 0, 1, 2
# The kinds of state.
ABSENT, PRESENT, CANCELLED = 0, 1, 2

MAGIC = 0o432
HEADER_SIZE = 12
LARGEST_FILE = 4096
LARGEST_SHORT = 32767
LEAST_NAMES_SIZE, LARGEST_NAMES_SIZE = 2, 128
LARGEST_STRING = 1000
# The marks of a number slot or a string slot, and the bytes of a boolean, by kind of state.
ABSENT_SLOT, CANCELLED_SLOT = 65535, 65534
BOOLEAN_BYTES = {ABSENT: 0, PRESENT: 1, CANCELLED: 254}


class Refusal(Exception):
    """A refusal with document 01's number and the value that it gives, 0 where it gives none.

    Which of merging's two files it is about is 1 or 2, and 0 where it names none.
    """

    def __init__(self, number, value=0, which=0):
        super().__init__(number, value, which)
        self.number = number
        self.value = value
        self.which = which


class Entry(NamedTuple):
    """An opened entry: the file, the reader's edition, and where each table starts."""

    file: bytes
    edition: tuple
    counts: tuple  # slots of the file: booleans, numbers, strings
    starts: tuple  # booleans, numbers, string slots, string table

    def beyond(self):
        """Per list, how many slots of the file lie beyond the edition."""
        return tuple(max(0, count - known) for count, known in zip(self.counts, self.edition))

    def names(self):
        """Start and length of the names, without their NUL."""
        return HEADER_SIZE, self.starts[0] - 1 - HEADER_SIZE


def check_edition(edition):
    if any(count > most for count, most in zip(edition, LARGEST_EDITION)):
        raise Refusal(3)


def pad(names_size, booleans):
    """How many pad bytes follow the booleans."""
    return (names_size + booleans) % 2


def slots(file, start, count):
    """The position and the short of each of so many slots from a start on."""
    return zip(range(start, start + 2 * count, 2),
               struct.unpack_from(f"<{count}H", file, start))


def open_entry(file, edition):
    """The entry that a file is in an edition; refusals 4 to 7 give a position in the file."""
    check_edition(edition)
    if not HEADER_SIZE <= len(file) <= LARGEST_FILE:
        raise Refusal(1)
    magic, names_size, booleans, numbers, strings, table_size = struct.unpack_from("<6H", file)
    if magic != MAGIC:
        raise Refusal(2)
    if max(names_size, booleans, numbers, strings, table_size) > LARGEST_SHORT:
        raise Refusal(3)
    if not LEAST_NAMES_SIZE <= names_size <= LARGEST_NAMES_SIZE:
        raise Refusal(3)

    booleans_start = HEADER_SIZE + names_size
    pad_start = booleans_start + booleans
    numbers_start = pad_start + pad(names_size, booleans)
    slots_start = numbers_start + 2 * numbers
    table_start = slots_start + 2 * strings
    if len(file) != table_start + table_size:
        raise Refusal(1)

    last = booleans_start - 1
    nul = file.find(0, HEADER_SIZE, booleans_start)
    if nul != last:
        raise Refusal(4, last if nul < 0 else nul)
    for position in range(booleans_start, pad_start):
        if file[position] not in (0, 1, 254):
            raise Refusal(5, position)
    for position in range(pad_start, numbers_start):
        if file[position] != 0:
            raise Refusal(5, position)
    for position, slot in slots(file, numbers_start, numbers):
        if slot > LARGEST_SHORT and slot not in (ABSENT_SLOT, CANCELLED_SLOT):
            raise Refusal(6, position)
    table = file[table_start:]
    for position, slot in slots(file, slots_start, strings):
        if slot not in (ABSENT_SLOT, CANCELLED_SLOT):
            if slot >= table_size or table.find(0, slot) < 0:
                raise Refusal(7, position)

    starts = (booleans_start, numbers_start, slots_start, table_start)
    return Entry(file, edition, (booleans, numbers, strings), starts)


def state(entry, kind, place):
    """The state of the capability of a kind at a place of its list, as (kind of state, value).

    The value of a present number is a number, that of a present string the start and the length
    of its part of the file; all other states have the value None.
    """
    if kind not in (BOOLEAN, NUMBER, STRING) or place >= entry.edition[kind]:
        raise Refusal(17)
    if place >= entry.counts[kind]:
        return ABSENT, None
    if kind == BOOLEAN:
        byte = entry.file[entry.starts[0] + place]
        return {0: ABSENT, 1: PRESENT, 254: CANCELLED}[byte], None
    slot, = struct.unpack_from("<H", entry.file, entry.starts[kind] + 2 * place)
    if slot == ABSENT_SLOT:
        return ABSENT, None
    if slot == CANCELLED_SLOT:
        return CANCELLED, None
    if kind == NUMBER:
        return PRESENT, slot
    start = entry.starts[3] + slot
    return PRESENT, (start, entry.file.index(0, start) - start)


def list_states(entry, rooms):
    """Every state of the edition, in the form that the writer takes, for arrays of these lengths.

    Boolean kinds; number kinds and values; string kinds, starts and lengths.
    """
    for kind, shortest in enumerate((rooms[0], min(rooms[1:3]), min(rooms[3:6]))):
        if shortest < entry.edition[kind]:
            raise Refusal(8, entry.edition[kind])
    booleans, numbers, strings = ([state(entry, kind, place) for place in range(count)]
                                  for kind, count in enumerate(entry.edition))
    parts = [part or (0, 0) for _, part in strings]
    return [[kind for kind, _ in booleans],
            [kind for kind, _ in numbers], [value or 0 for _, value in numbers],
            [kind for kind, _ in strings],
            [start for start, _ in parts], [length for _, length in parts]]


class States(NamedTuple):
    """What is handed to the writer besides edition and room: kinds of state and their values."""

    names: bytes
    boolean_kinds: bytes
    number_kinds: bytes
    number_values: list
    string_kinds: bytes
    string_starts: list
    string_lengths: list
    lent: bytes


def write(edition, states, room):
    """The file that the writer gives for these states in an edition, in a buffer of some room.

    A list has as many states as the shortest of its arrays; those past the edition aren't read.
    A string of no bytes, too, must start within what was lent or at its end.
    """
    check_edition(edition)
    booleans, numbers, strings = edition
    if (len(states.boolean_kinds) < booleans
            or min(len(states.number_kinds), len(states.number_values)) < numbers
            or min(len(states.string_kinds), len(states.string_starts),
                   len(states.string_lengths)) < strings):
        raise Refusal(3)

    if not LEAST_NAMES_SIZE <= len(states.names) + 1 <= LARGEST_NAMES_SIZE or 0 in states.names:
        raise Refusal(4)

    boolean_kinds = states.boolean_kinds[:booleans]
    number_kinds = states.number_kinds[:numbers]
    string_kinds = states.string_kinds[:strings]
    present = [place for place, kind in enumerate(string_kinds) if kind == PRESENT]
    for place in present:
        if states.string_starts[place] + states.string_lengths[place] > len(states.lent):
            raise Refusal(7)

    for kinds in (boolean_kinds, number_kinds, string_kinds):
        if any(kind not in (ABSENT, PRESENT, CANCELLED) for kind in kinds):
            raise Refusal(13)
    for kind, value in zip(number_kinds, states.number_values):
        if kind == PRESENT and value > LARGEST_SHORT:
            raise Refusal(13)
    contents = {}
    for place in present:
        start, length = states.string_starts[place], states.string_lengths[place]
        contents[place] = states.lent[start:start + length]
        if length > LARGEST_STRING or 0 in contents[place]:
            raise Refusal(13)

    boolean_states = [(kind, None) for kind in boolean_kinds]
    number_states = list(zip(number_kinds, states.number_values))
    string_states = [(kind, contents.get(place)) for place, kind in enumerate(string_kinds)]
    return written(states.names, (boolean_states, number_states, string_states), room)


def written(names, states, room):
    """The file with these names, without NUL, and these states, in a buffer of some room.

    For each list, states holds the kind and the content of each state: of a present number its
    value, of a present string its bytes.
    """
    boolean_states, number_states, string_states = states
    booleans, numbers, strings = map(len, states)
    names_size = len(names) + 1
    pad_size = pad(names_size, booleans)
    table_size = sum(len(content) + 1 for kind, content in string_states if kind == PRESENT)
    size = (HEADER_SIZE + names_size + booleans + pad_size + 2 * numbers + 2 * strings
            + table_size)
    if size > LARGEST_FILE:
        raise Refusal(9)
    if size > room:
        raise Refusal(8, size)

    marks = {ABSENT: ABSENT_SLOT, CANCELLED: CANCELLED_SLOT}
    number_slots = [value if kind == PRESENT else marks[kind] for kind, value in number_states]
    string_slots = []
    table = b""
    for kind, content in string_states:
        if kind == PRESENT:
            string_slots.append(len(table))
            table += content + b"\0"
        else:
            string_slots.append(marks[kind])
    return b"".join((
        struct.pack("<6H", MAGIC, names_size, booleans, numbers, strings, table_size),
        names + b"\0",
        bytes(BOOLEAN_BYTES[kind] for kind, _ in boolean_states),
        bytes(pad_size),
        struct.pack(f"<{numbers}H", *number_slots),
        struct.pack(f"<{strings}H", *string_slots),
        table,
    ))


def content_state(entry, kind, place):
    """As state, but the value of a present string is its bytes."""
    state_kind, value = state(entry, kind, place)
    if isinstance(value, tuple):
        start, length = value
        value = entry.file[start:start + length]
    return state_kind, value


def open_of_two(which, file, edition):
    """The entry that one of merging's two files is; a refusal says which file it was."""
    try:
        return open_entry(file, edition)
    except Refusal as refusal:
        raise Refusal(refusal.number, refusal.value, which) from None


def merge(first, second, edition, room):
    """The file that the first file over the second gives in an edition, in some room."""
    check_edition(edition)
    upper = open_of_two(1, first, edition)
    lower = open_of_two(2, second, edition)
    states = ([], [], [])
    for kind, known in enumerate(edition):
        for place in range(known):
            merged = content_state(upper, kind, place)
            if merged[0] == ABSENT:
                merged = content_state(lower, kind, place)
            states[kind].append(merged)
    start, length = upper.names()
    return written(first[start:start + length], states, room)
