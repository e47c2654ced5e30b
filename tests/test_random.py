"""Compares library and model on generated files, writer inputs and merges, the same in every run.

Fails at the first difference, and if a refusal that a call can give, or a case that NEEDED names,
never came.
"""

import random
import struct
import sys
from collections import Counter

import library
import model
from library import Reader, contents

SEED = 432
FILES = 80_000
WRITER_INPUTS = 40_000
MERGES = 20_000

# Sizes and places that wrap or lose bits in narrower arithmetic.
HUGE = [1 << 8, 1 << 16, 1 << 31, 1 << 32, (1 << 32) + 1, 1 << 63, (1 << 63) + 1, (1 << 64) - 2,
        (1 << 64) - 1]
# Bytes where one in sixteen is NUL, and bytes without NUL.
SOME_NULS = bytes(0 if byte < 16 else byte for byte in range(256))
NO_NULS = bytes(byte or 1 for byte in range(256))

rng = random.Random(SEED)
chance = rng.random


def pick(*choices):
    return choices[int(chance() * len(choices))]


def below(count):
    """A number below count, which is at least 1."""
    return int(chance() * count)


def upto(most):
    return int(chance() * (most + 1))


# Counting and comparing

STATE_CALLS = ("boolean", "number", "string")
STATE_KINDS = ("absent", "present", "cancelled")
# The cases that must come besides the refusals of each call.
NEEDED = [(call, kind) for call in STATE_CALLS for kind in STATE_KINDS]
NEEDED += [(call, upper, "over", lower)
           for call in STATE_CALLS for upper in STATE_KINDS for lower in STATE_KINDS]
MERGED_FILES = ("first file", "second file")
NEEDED += [("merge refused by the", which, number)
           for which in MERGED_FILES for number in range(1, 8)]
NEEDED += [("merge refused by", what) for what in ("the edition", "both files, with two numbers")]
# What stands at the positions that refusals 4 to 7 give.
PLACES = ("a NUL among the names", "the last names byte", "a boolean", "the pad byte",
          "a number slot", "a string slot", "a boolean beyond the edition",
          "a number slot beyond the edition", "a string slot beyond the edition")
NEEDED += [("open refused at", place) for place in PLACES]
NEEDED += [("merge refused by the", which, "at", place)
           for which in MERGED_FILES for place in PLACES]
NEEDED += [("merged file of", size, "bytes") for size in (4095, 4096)]
NEEDED += [("merged file", what) for what in (
    "with contents above 1,000 bytes", "with slots dropped", "of one file with itself",
    "in a smaller edition", "in a smaller edition after refusal 8")]

tally = Counter()
seen = Counter()


def same(call, found, expected, *given):
    """Counts an answer of the library and compares it with the model's."""
    answer = found[0] if isinstance(found, tuple) else found
    tally[call, answer >> 56] += 1
    if found != expected:
        fail(f"{call} gives {show(found)}, the model {show(expected)}, for", *given)
    return found


def fail(what, *given):
    print(what)
    for argument in given:
        print("   ", show(argument))
    sys.exit(1)


def show(value):
    if isinstance(value, bytes):
        return value.hex()
    if isinstance(value, int):
        return hex(value)
    if isinstance(value, dict):
        return "{" + ", ".join(f"{key}: {show(value[key])}" for key in value) + "}"
    if isinstance(value, (tuple, list)):
        return "[" + ", ".join(map(show, value)) + "]"
    return str(value)


# Files

def pick_counts():
    """The three counts of a file."""
    form = chance()
    if form < 0.35:
        return [upto(6), upto(4), upto(8)]
    if form < 0.55:
        return list(pick(model.FIRST_EDITION, model.SECOND_EDITION))
    if form < 0.7:
        return [upto(40), upto(20), upto(60)]
    if form < 0.8:
        return [max(0, count + pick(-1, 0, 1))
                for count in pick(model.FIRST_EDITION, model.SECOND_EDITION)]
    if form < 0.9:
        return [pick(0, upto(5)), pick(0, upto(5)), pick(0, upto(5))]
    if form < 0.97:
        return [upto(70), upto(70), upto(160)]
    return [upto(300), upto(300), upto(900)]


def pick_names_size():
    return pick(2, 3, 127, 128, 2 + upto(126), 2 + upto(20), 2 + upto(20))


def make_table(room):
    """A string table and how many of its offsets have a NUL at or after them."""
    form = chance()
    if form < 0.15:
        size = 0
    elif form < 0.7:
        size = min(upto(60), room)
    elif form < 0.85:
        size = min(upto(1500), room)
    else:
        size = max(0, room + pick(-1, 0, 0, 1))
    table = rng.randbytes(size).translate(SOME_NULS)
    if table and chance() < 0.6:
        table = table[:-1] + b"\0"
    return table, table.rfind(0) + 1


def make_slots(count, limit):
    """String slots with marks, and offsets below the limit that may be shared."""
    slots = []
    for _ in range(count):
        form = chance()
        if form < 0.25 and limit:
            slots.append(below(limit))
        elif form < 0.35 and limit:
            slots.append(pick(0, limit - 1))
        else:
            slots.append(65534 if form < 0.6 else 65535)
    return slots


def make_numbers(count):
    return [pick(0, 1, 80, 255, 256, 32767, 65534, 65535, 65535, below(32768))
            for _ in range(count)]


def make_names(size):
    """Names of this size with their NUL."""
    return rng.randbytes(size - 1).translate(NO_NULS) + b"\0"


def make_booleans(count):
    return bytes(rng.choices((0, 1, 254), k=count))


def fixed_size(names_size, counts):
    """The size of a file without its string table."""
    booleans, numbers, strings = counts
    return (12 + names_size + booleans + (names_size + booleans) % 2 + 2 * numbers + 2 * strings)


def build(names, booleans, numbers, slots, table):
    """The file with these tables."""
    file = bytearray(struct.pack("<6H", 282, len(names), len(booleans), len(numbers), len(slots),
                                 len(table)))
    file += names + booleans + bytes((len(names) + len(booleans)) % 2)
    file += struct.pack(f"<{len(numbers)}H", *numbers)
    file += struct.pack(f"<{len(slots)}H", *slots)
    return file + table


def counts_and_starts(file):
    """Counts, and starts of names, booleans, pad, numbers, string slots and table, of a file."""
    names_size, booleans, numbers, strings = struct.unpack_from("<4H", file, 2)
    starts = [12, 12 + names_size, 12 + names_size + booleans]
    starts.append(starts[2] + (names_size + booleans) % 2)
    starts.append(starts[3] + 2 * numbers)
    starts.append(starts[4] + 2 * strings)
    return [booleans, numbers, strings], starts


def make_file(table_of=make_table):
    """A file that meets the reading rules, apart from some that are too long."""
    counts = pick_counts()
    names_size = pick_names_size()
    table, limit = table_of(4096 - fixed_size(names_size, counts))
    return build(make_names(names_size), make_booleans(counts[0]), make_numbers(counts[1]),
                 make_slots(counts[2], limit), table)


# Damage: each takes the file and its starts: names, booleans, pad, numbers, string slots, table.

def put_short(file, at, value):
    if at + 2 <= len(file):
        struct.pack_into("<H", file, at, value & 65535)


def put_byte(file, at, value):
    if at < len(file):
        file[at] = value


def flip_bits(file, starts):
    for _ in range(pick(1, 1, 2, 5)):
        if file:
            file[below(len(file))] ^= 1 << below(8)


def truncate(file, starts):
    del file[pick(0, 1, 2, 11, 12, 13, 14, upto(20), *starts, len(file) - 1, len(file) - 2,
                  upto(len(file))):]


def extend(file, starts):
    file += rng.randbytes(pick(1, 1, 2, 3, upto(30))).translate(SOME_NULS)


def extend_far(file, starts):
    size = pick(4095, 4096, 4097, 4098, 5000, 9000, 60000)
    file += bytes(max(0, size - len(file)))


def change_header(file, starts):
    at = 2 * below(6)
    if at + 2 <= len(file):
        old, = struct.unpack_from("<H", file, at)
        put_short(file, at, pick(old - 1, old + 1, old - 2, old + 2, old + 256, old ^ 32768, 0, 1,
                                 2, 127, 128, 129, 130, 255, 256, 32767, 32768, 65534, 65535))


def move_counts(file, starts):
    """Changes two header shorts so that the size stays."""
    if len(file) < 12:
        return
    shorts = list(struct.unpack_from("<6H", file))
    widths = {1: 1, 2: 1, 3: 2, 4: 2, 5: 1}
    taken, given = rng.sample(sorted(widths), 2)
    amount = 2 * (1 + upto(3))
    if shorts[taken] * widths[taken] >= amount:
        shorts[taken] -= amount // widths[taken]
        shorts[given] = min(65535, shorts[given] + amount // widths[given])
        struct.pack_into("<6H", file, 0, *shorts)


def change_magic(file, starts):
    put_short(file, 0, pick(0, 281, 283, 0o1036, 282 + 32768, 282 << 8 & 65535, upto(65535)))


def change_names(file, starts):
    last = starts[1] - 1
    if chance() < 0.5:
        put_byte(file, last, pick(1, 65, 255))
    else:
        put_byte(file, pick(12, last - 1, 12 + below(last - 11)), 0)


def change_boolean(file, starts):
    if starts[1] < starts[2]:
        put_byte(file, pick(starts[1], starts[2] - 1, starts[1] + below(starts[2] - starts[1])),
                 pick(2, 3, 127, 128, 252, 253, 255, upto(255)))


def change_pad(file, starts):
    if starts[2] < starts[3]:
        put_byte(file, starts[2], pick(1, 2, 128, 254, 255))


def change_slot(file, start, end, value):
    if start < end:
        put_short(file, pick(start, end - 2, start + 2 * below((end - start) // 2)), value)


def change_number(file, starts):
    change_slot(file, starts[3], starts[4],
                pick(32767, 32768, 32769, 65533, 65532, 40000, 255 << 8, 254 << 8, upto(65535)))


def change_string(file, starts):
    size = max(0, len(file) - starts[5])
    last = file.rfind(0, starts[5]) + 1 - starts[5] if size else 0
    change_slot(file, starts[4], starts[5],
                pick(size, size + 1, size - 1, max(0, last), max(0, last - 1), size + 256, 32767,
                     32768, 65533, 65532, 4096, upto(65535)))


def drop_last_nul(file, starts):
    at = file.rfind(0, starts[5])
    if at >= 0:
        file[at] = 7


DAMAGES = [flip_bits, truncate, extend, extend_far, change_header, change_header, move_counts,
           move_counts, change_magic, change_names, change_boolean, change_pad, change_number,
           change_string, change_string, drop_last_nul]


def damage(file, times):
    """The file after this many damages."""
    _, starts = counts_and_starts(file)
    damaged = bytearray(file)
    for _ in range(times):
        pick(*DAMAGES)(damaged, starts)
    return bytes(damaged)


def pick_file():
    """The bytes of a file, damaged or not, and the counts that it was made with."""
    file = make_file()
    counts, _ = counts_and_starts(file)
    form = chance()
    times = 0 if form < 0.45 else 1 if form < 0.75 else 2 if form < 0.9 else 3
    return damage(file, times), counts


def too_large(edition):
    """The edition with one or more counts that are too large."""
    edition = list(edition)
    for kind in rng.sample(range(3), pick(1, 1, 2, 3)):
        most = model.LARGEST_EDITION[kind]
        edition[kind] = pick(most + 1, most + 2, *HUGE[2 if kind == 2 else 0:])
    return tuple(edition)


def pick_edition(counts=model.SECOND_EDITION):
    """The first edition, the second, the largest, near a file's counts, any other, or too large."""
    form = chance()
    if form < 0.3:
        return pick(model.FIRST_EDITION, model.SECOND_EDITION)
    if form < 0.4:
        return model.LARGEST_EDITION
    if form < 0.6:
        return tuple(min(most, max(0, count + pick(-1, 0, 0, 1)))
                     for count, most in zip(counts, model.LARGEST_EDITION))
    if form < 0.75:
        return upto(64), upto(64), upto(512)
    if form < 0.85:
        return upto(8), upto(5), upto(10)
    if form < 0.95:
        return pick(0, 64, upto(64)), pick(0, 64, upto(64)), pick(0, 512, upto(512))
    return too_large(model.SECOND_EDITION)


def pick_place(known, count):
    """A place to ask, of a list of which the edition knows some and the file has a count."""
    form = chance()
    if form < 0.5:
        return below(min(known, max(count, 1)) or 1)
    if form < 0.85:
        place = pick(0, 1, known - 1, known, known + 1, count - 1, count, count + 1)
        return min(max(0, place), HUGE[-1])
    if form < 0.93:
        return upto(600)
    return pick(*HUGE)


def pick_name():
    """A name to look up: one of the lists, one near it, or any bytes."""
    name = pick(*pick(*model.LISTS)).encode()
    form = chance()
    if form < 0.7:
        return name
    if form < 0.85:
        return pick(name[:-1], name + b"\0", name + b"1", name.upper(), b"\0" + name, name[1:])
    return bytes(upto(255) for _ in range(upto(9)))


def check_file(file, edition, counts):
    """Every call of the reader on one file in one edition."""
    reader = Reader(file, edition)
    refused, _ = same("open", reader.open(), reader.model_open(), file, edition)
    if refused:
        note_position(("open refused at",), refused, file, edition)
    same("names", reader.names(), reader.model_names(), file, edition)
    for kind, call in enumerate(STATE_CALLS):
        for _ in range(2):
            place = pick_place(edition[kind], counts[kind])
            state = same(call, reader.state(kind, place), reader.model_state(kind, place), file,
                         edition, place)
            if not state >> 56:
                seen[call, STATE_KINDS[state >> 48]] += 1
    name = pick_name()
    same("find", library.find(name, edition), library.model_find(name, edition), name, edition)
    same("state", reader.named_state(name), reader.model_named_state(name, edition), file, edition,
         name)
    kinds = [pick(0, 1, 2, 2) if chance() < 0.95 else pick(3, 4, 128, 254, 255) for _ in range(8)]
    places = [pick_place(edition[kind], counts[kind]) if kind < 3 else upto(9) for kind in kinds]
    check_ask(reader, file, edition, kinds, places)
    if chance() < 0.25:
        check_list(reader, file, edition)
    if not refused and chance() < 0.1:
        check_all(reader, file, edition)
    if not reader.file_kept():
        sys.exit("the file was changed: " + show(file))


def note_position(words, answer, file, edition):
    """Counts what stands at the position that the refusal of a file gives, after some words."""
    number, position = answer >> 56, answer & (1 << 48) - 1
    if number < 4:
        return
    _, (_, booleans, pad, numbers, slots, _) = counts_and_starts(file)
    if number == 4:
        place = "the last names byte" if position == booleans - 1 else "a NUL among the names"
    elif number == 5 and position == pad:
        place = "the pad byte"
    else:
        place, slot = {5: ("a boolean", position - booleans),
                       6: ("a number slot", (position - numbers) // 2),
                       7: ("a string slot", (position - slots) // 2)}[number]
        if slot >= edition[number - 5]:
            place += " beyond the edition"
    seen[(*words, place)] += 1


def check_ask(reader, file, edition, kinds, places):
    _, answers = same("ask", reader.ask(kinds, places), reader.model_ask(kinds, places), file,
                      edition, kinds, places)
    for answer in answers or ():
        tally["answers of ask", answer >> 56] += 1


def pick_rooms(edition):
    """The lengths of the arrays of states: the edition's counts, more, or one or two too short."""
    known = [min(most, edition[kind]) for kind, most in enumerate(model.LARGEST_EDITION)]
    rooms = [known[kind] + pick(0, 0, 1, upto(20)) for kind in (0, 1, 1, 2, 2, 2)]
    if chance() < 0.3:
        for which in rng.sample(range(6), pick(1, 1, 2)):
            rooms[which] = pick(0, max(0, known[(0, 1, 1, 2, 2, 2)[which]] - 1),
                                upto(rooms[which]))
    return rooms


def check_list(reader, file, edition):
    rooms = pick_rooms(edition)
    same("list", reader.list(rooms), reader.model_list(rooms), file, edition, rooms)


def check_all(reader, file, edition):
    """Every place of the edition, and the first one beyond it."""
    asked = [(kind, place) for kind in range(3) for place in range(edition[kind] + 1)]
    asked += [(0, 0)] * (-len(asked) % 8)
    for first in range(0, len(asked), 8):
        kinds, places = zip(*asked[first:first + 8])
        check_ask(reader, file, edition, kinds, places)


# Writer inputs

def pick_kinds(count):
    return bytes(rng.choices((0, 1, 2), weights=pick((2, 1, 1), (8, 1, 1), (1, 8, 1)), k=count))


def pick_strings(kinds, lent, longest):
    """Starts and lengths: present strings lie in what was lent, the others anywhere."""
    starts, lengths = [], []
    size = len(lent)
    for kind in kinds:
        if kind == model.PRESENT:
            length = min(size, upto(longest))
            start = pick(0, size - length, upto(size - length), upto(size - length))
        else:
            length, start = pick(0, 5, 1001, HUGE[-1]), pick(0, size, size + 1, *HUGE)
        starts.append(start)
        lengths.append(length)
    return starts, lengths


def make_states(edition):
    """States that the writer accepts, apart from some that make too large a file."""
    booleans, numbers, strings = edition
    lent = rng.randbytes(pick(0, 1, upto(50), upto(300), 1000, 1001, 2000)).translate(NO_NULS)
    longest = pick(0, 1, 5, 5, 20, 20, 60, 1000)
    number_kinds, string_kinds = pick_kinds(numbers), pick_kinds(strings)
    values = [pick(0, 80, 32767, below(32768)) if kind == model.PRESENT
              else pick(0, 32768, 65535, (1 << 32) - 1) for kind in number_kinds]
    starts, lengths = pick_strings(string_kinds, lent, longest)
    names = rng.randbytes(pick(1, 2, 126, 127, 1 + upto(126), 1 + upto(30))).translate(NO_NULS)
    return {"names": names, "boolean_kinds": pick_kinds(booleans), "number_kinds": number_kinds,
            "number_values": values, "string_kinds": string_kinds, "string_starts": starts,
            "string_lengths": lengths, "lent": lent}


# Faults: each changes the states in one way and may change the edition.

def with_element(elements, at, element):
    elements = list(elements)
    elements[at] = element
    return elements


def set_kind(states, field, place, kind):
    states[field] = bytes(with_element(states[field], place, kind))


def bad_names(states, edition):
    names = states["names"]
    at = below(len(names)) if names else 0
    states["names"] = pick(b"", b"\0", b"x" * 128, b"x" * 129, b"x" * 2000, names + b"\0",
                           names[:at] + b"\0" + names[at + 1:])


def too_few(states, edition):
    field = pick("boolean_kinds", "number_kinds", "number_values", "string_kinds", "string_starts",
                 "string_lengths")
    states[field] = states[field][:pick(0, -1, -1, upto(len(states[field])))]


def surplus(states, edition):
    """States beyond the edition, which aren't read whatever they are."""
    for field in ("boolean_kinds", "number_kinds", "string_kinds"):
        states[field] += bytes(pick(0, 1, 2, 3, 255) for _ in range(upto(5)))
    for field in ("number_values", "string_starts", "string_lengths"):
        states[field] = states[field] + [pick(0, 7, 40000, (1 << 32) - 1) for _ in range(upto(5))]


def no_kind(states, edition):
    field = pick("boolean_kinds", "number_kinds", "string_kinds")
    if states[field]:
        place = pick(0, len(states[field]) - 1, below(len(states[field])))
        set_kind(states, field, place, pick(3, 4, 127, 128, 254, 255))


def large_number(states, edition):
    if states["number_values"] and states["number_kinds"]:
        place = below(min(len(states["number_values"]), len(states["number_kinds"])))
        set_kind(states, "number_kinds", place, model.PRESENT)
        states["number_values"] = with_element(
            states["number_values"], place,
            pick(32768, 32769, 65533, 65534, 65535, 65536, 65616, 1 << 31, (1 << 32) - 1))


def set_string(states, start, length):
    """Makes one string present with this start and length."""
    count = min(len(states["string_kinds"]), len(states["string_starts"]),
                len(states["string_lengths"]))
    if count:
        place = pick(0, count - 1, below(count))
        set_kind(states, "string_kinds", place, model.PRESENT)
        states["string_starts"] = with_element(states["string_starts"], place, start)
        states["string_lengths"] = with_element(states["string_lengths"], place, length)


def outside(states, edition):
    size = len(states["lent"])
    set_string(states, *pick((size, 1), (size + 1, 0), (0, size + 1), (size, 0),
                             (HUGE[-1], 0), (HUGE[-1], 1), (HUGE[-1], 2), (HUGE[-2], 1),
                             (HUGE[-2], 2), (HUGE[-2], 3), (HUGE[-1], HUGE[-1]), (1, HUGE[-1]),
                             (2, HUGE[-1]), (0, HUGE[-1]), (1 << 63, 1 << 63), (1 << 32, 0),
                             (1 << 32, 1), (0, 1 << 32), (HUGE[-1], size + 1),
                             (pick(*HUGE), upto(9)), (upto(9), pick(*HUGE))))


def long_string(states, edition):
    if len(states["lent"]) < 1002:
        states["lent"] = states["lent"] + b"m" * 1002
    length = pick(999, 1000, 1000, 1001, 1001, 1002, len(states["lent"]))
    set_string(states, upto(len(states["lent"]) - length), length)


def string_with_nul(states, edition):
    """A NUL in what was lent, and a string that holds it or ends just before it."""
    lent = states["lent"]
    at = upto(len(lent))
    states["lent"] = lent + b"x" * (at - len(lent)) + b"\0" if at == len(lent) else (
        lent[:at] + b"\0" + lent[at + 1:])
    start = upto(at)
    set_string(states, start, min(pick(at - start, at - start + 1, upto(30)),
                                  len(states["lent"]) - start))


def fit_size(states, edition):
    """Contents that make the file 4,095 to 4,098 bytes long."""
    strings = edition[2]
    if not 4 <= strings <= 512 or len(states["string_kinds"]) < strings:
        return
    total = pick(4095, 4096, 4096, 4097, 4098) - fixed_size(len(states["names"]) + 1, edition) - 4
    if not 0 <= total <= 4000:
        return
    lengths = []
    for left in (4, 3, 2, 1):
        lengths.append(min(1000, max(0, total - 1000 * (left - 1))))
        total -= lengths[-1]
    states["lent"] = b"q" * 1000
    states["string_kinds"] = bytes(rng.sample([1] * 4 + [0, 2] * (strings // 2 - 2)
                                              + [0] * (strings % 2), strings))
    present = iter(lengths)
    states["string_starts"] = [0] * strings
    states["string_lengths"] = [next(present) if kind == model.PRESENT else 9
                                for kind in states["string_kinds"]]


FAULTS = [bad_names, too_few, surplus, surplus, no_kind, large_number, outside, outside,
          long_string, string_with_nul, fit_size]


def pick_writer_input():
    edition = pick_edition()
    states = make_states(tuple(map(min, edition, model.LARGEST_EDITION)))
    form = chance()
    if form >= 0.4:
        for _ in range(1 if form < 0.75 else 2 if form < 0.92 else 3):
            pick(*FAULTS)(states, edition)
    return edition, model.States(**states)


def check_writer(edition, states):
    """The writer with enough room, and with room around what the file needs."""
    room = pick(4096, 4097, 8000)
    expected = library.model_write(edition, states, room)
    _, file = same("write", library.write(edition, states, room), expected, edition, *states, room)
    if file is not None:
        needed = len(file)
        room = pick(needed - 1, needed - 1, needed, needed, needed + 1, 0, upto(needed))
        same("write", library.write(edition, states, room),
             library.model_write(edition, states, room), edition, *states, room)
        if chance() < 0.2:
            check_file(file, pick(edition, pick_edition(edition)), edition)
    elif chance() < 0.2:
        room = pick(0, 1, 12, 4096)
        same("write", library.write(edition, states, room),
             library.model_write(edition, states, room), edition, *states, room)


# Merges

def make_long_table(room):
    """As make_table, but with few NULs, so that contents can be longer than the writer's."""
    size = min(max(0, room), pick(600, 1001, 1002, 1100, 1500, 2500, 4000))
    table = bytearray(rng.randbytes(size).translate(NO_NULS))
    for at in (size - pick(1, 1, 10), *(upto(size) for _ in range(pick(0, 1, 1, 3)))):
        put_byte(table, max(0, at), 0)
    return bytes(table), table.rfind(0) + 1


def pick_known_edition():
    """An edition that isn't too large."""
    return tuple(map(min, pick_edition(), model.LARGEST_EDITION))


def make_written():
    """A file that the library wrote."""
    file = None
    while file is None:
        edition = pick_known_edition()
        _, file = library.write(edition, model.States(**make_states(edition)), 4096)
    return file


def split(total, count, most):
    """Numbers from 1 to most, so many of them, with this total."""
    parts = []
    for left in range(count - 1, -1, -1):
        least = max(1, total - most * left)
        parts.append(least + upto(min(most, total - left) - least))
        total -= parts[-1]
    rng.shuffle(parts)
    return parts


def make_fitting(edition):
    """Two accepted files whose merge in an edition has 4,094 to 4,098 bytes, by shared strings.

    None where the edition has too few strings for that.
    """
    strings = edition[2]
    names_size = pick_names_size()
    total = pick(4094, 4095, 4096, 4096, 4097, 4097, 4098) - fixed_size(names_size, edition)
    longest = pick(100, 1000, 1001, 1500)
    least = -(-total // (longest + 1))
    if strings < least:
        return None
    count = min(strings, least + upto(pick(0, 3, 40)))
    slots = [pick((65535, 65535), (65535, 65534), (65534, 65535), (65534, 65534),
                  (65534, upto(longest))) for _ in range(strings)]
    for place, part in zip(rng.sample(range(strings), count), split(total, count, longest + 1)):
        offset = longest + 1 - part
        slots[place] = pick((65535, offset), (offset, 65535), (offset, 65534),
                            (offset, upto(longest)))
    return [make_sharing(edition, size, own_slots, longest)
            for size, own_slots in zip((names_size, pick_names_size()), zip(*slots))]


def make_sharing(edition, names_size, slots, longest):
    """An accepted file with these slots, whose strings are ends of one content of the table.

    Its lists may be longer or shorter than the edition's, and its table may hold unreached bytes.
    """
    booleans, numbers, _ = (pick(known, known + 2, upto(known)) for known in edition)
    slots = list(slots)
    if chance() < 0.5:
        slots += [pick(65535, 65534, upto(longest)) for _ in range(pick(1, 3, 40))]
    while chance() < 0.98 and slots and slots[-1] == 65535:
        slots.pop()
    table = rng.randbytes(longest).translate(NO_NULS) + b"\0" + rng.randbytes(pick(0, 0, 7, 100))
    return build(make_names(names_size), make_booleans(booleans), make_numbers(numbers), slots,
                 table)


def make_pair():
    """Two files, and an edition in which to merge them."""
    if chance() < 0.3:
        edition = pick_known_edition()
        pair = make_fitting(edition)
        if pair is not None:
            return pair, edition
    pair = []
    for _ in range(2):
        pair.append(make_written() if chance() < 0.35
                    else make_file(pick(make_table, make_long_table)))
    return pair, pick_edition(counts_and_starts(pick(*pair))[0])


def pick_merge():
    """Two files, each damaged or not, and an edition; one file twice now and then."""
    pair, edition = make_pair()
    times = pick((0, 0), (0, 0), (0, 0), (0, 0), (1, 0), (0, 1), (0, 2), (1, 1), (2, 2))
    first, second = map(damage, pair, times)
    return first, first if chance() < 0.03 else second, edition


def same_merge(first, second, edition, room):
    return same("merge", library.merge(first, second, edition, room),
                library.model_merge(first, second, edition, room), first, second, edition, room)


def check_merge(first, second, edition):
    """Merging with enough room, with room around what the file needs, and in a smaller edition."""
    answer, file = same_merge(first, second, edition, pick(4096, 4097, 8000))
    if file is None:
        note_refused(first, second, edition, answer)
        if chance() < 0.2:
            same_merge(first, second, edition, pick(0, 1, 12, 5000))
        return
    needed = len(file)
    same_merge(first, second, edition,
               pick(needed - 1, needed - 1, needed, needed, needed + 1, 0, upto(needed)))
    note_merged(first, second, edition, file)
    check_states(first, second, edition, file)
    check_smaller(first, second, edition, file)


def note_refused(first, second, edition, answer):
    """Counts which file makes merging be refused, if one does, and the position in it."""
    number, which = answer >> 56, answer >> 48 & 255
    if number == 3 and not which:
        seen["merge refused by", "the edition"] += 1
    if which:
        words = "merge refused by the", MERGED_FILES[which - 1]
        seen[(*words, number)] += 1
        note_position((*words, "at"), answer, (first, second)[which - 1], edition)
    if which == 1 and Reader(second, edition).refusal >> 56 not in (0, number):
        seen["merge refused by", "both files, with two numbers"] += 1


def note_merged(first, second, edition, file):
    """Counts the cases that a merged file belongs to."""
    seen["merged file of", len(file), "bytes"] += 1
    if first is second:
        seen["merged file", "of one file with itself"] += 1
    counts, _ = counts_and_starts(first)
    if any(map(int.__gt__, counts, edition)):
        seen["merged file", "with slots dropped"] += 1


def check_states(first, second, edition, file):
    """As the library reads them: a merged state is the first file's, where absent the second's."""
    names, upper = contents(first, edition)
    _, lower = contents(second, edition)
    merged = {}
    for at, state in upper.items():
        other = lower[at]
        merged[at] = other if state[0] == model.ABSENT else state
        seen[STATE_CALLS[at[0]], STATE_KINDS[state[0]], "over", STATE_KINDS[other[0]]] += 1
        if at[0] == model.STRING and len(merged[at][1] or b"") > model.LARGEST_STRING:
            seen["merged file", "with contents above 1,000 bytes"] += 1
    found = contents(file, edition)
    if found != (names, merged):
        fail("the merged file is read as", found, "for", first, second, edition)


def check_smaller(first, second, edition, file):
    """A smaller edition reads in the merged file what its own merge gives.

    That merge is refused, if at all, with 8.
    """
    smaller = tuple(pick(known, upto(known), upto(known)) for known in edition)
    answer, own = same_merge(first, second, smaller, pick(len(file), len(file), upto(len(file))))
    if own is not None:
        seen["merged file", "in a smaller edition"] += 1
    elif answer >> 56 == 8:
        seen["merged file", "in a smaller edition after refusal 8"] += 1
        answer, own = same_merge(first, second, smaller, answer - library.pack(8))
    if own is None:
        fail(f"merging in a smaller edition is refused {answer >> 56} for", first, second, smaller)
    found = contents(own, smaller)
    if found is None or found != contents(file, smaller):
        fail("what a smaller edition reads in the merged file is not what its own merge gives, for",
             first, second, edition, smaller)


def check_capabilities():
    """Every name of the lists, places beyond them, and kinds that are none."""
    for kind in range(256):
        places = list(range(170)) + HUGE if kind < 3 else [0, 1, 36, 37, 157, *HUGE]
        for place in places:
            same("capability", library.capability(kind, place),
                 library.model_capability(kind, place), kind, place)


def report():
    """How often each call gave success and each refusal; exits if one never came."""
    missing = []
    for call, refusals in library.REFUSALS.items():
        total = sum(count for (name, _), count in tally.items() if name == call)
        print(f"{call}: {total} inputs; " + ", ".join(
            f"{'refusal ' + str(number) if number else 'success'} {tally[call, number]}"
            for number in refusals))
        missing += [f"{call} refusal {number}" for number in refusals if not tally[call, number]]
    for words in NEEDED:
        print(" ".join(map(str, words)) + f": {seen[words]}")
    missing += [" ".join(map(str, words)) for words in NEEDED if not seen[words]]
    if missing:
        sys.exit("never seen: " + ", ".join(missing))
    print(f"{FILES + WRITER_INPUTS + MERGES} generated inputs, {sum(tally.values())} answers, "
          "no difference")


if __name__ == "__main__":
    check_capabilities()
    for _ in range(FILES):
        file, counts = pick_file()
        check_file(file, pick_edition(counts), counts)
    for _ in range(WRITER_INPUTS):
        check_writer(*pick_writer_input())
    for _ in range(MERGES):
        check_merge(*pick_merge())
    report()
