"""Holds what opening, listing and merging say of damaged files to a reading of its own.

The reading goes through a file place by place and collects each one that breaks a rule of document
01; what must be named is the least position of the first refusal. The file that source document 001
dumps, and the same without its pad byte, have each byte in turn changed to each other value, two
places made bad at once, strings left without NUL, and wrong lengths. Each is opened in the file's
edition, in a smaller one and in the second; in one of the three in turn it is asked, and merged as
the first file and as the second, with a sound file and with a damaged one. Fails at the first
difference, and if a case that NEEDED names never came.
"""

import sys
from collections import Counter
from functools import lru_cache
from itertools import combinations

import act4
import library
from library import REFUSED, Reader, pack

EDITIONS = ((21, 8, 138), (2, 3, 11), (37, 16, 158))
TOO_LARGE = ((65, 8, 138), (21, 65, 138), (21, 8, 513), ((1 << 64) - 1, 8, 138))
ROOM = 4096

SOUND = act4.dumped()
# One byte of the names less, so that names and booleans are even, and the pad byte at 65 goes.
WITHOUT_PAD = SOUND[:2] + bytes([SOUND[2] - 1]) + SOUND[3:12] + SOUND[13:65] + SOUND[66:]

WHERE = ("opened file", "first file", "second file")
MEANINGS = ("name", "last name", "boolean", "pad", "number", "string")
NEEDED = [(where, what) for where in WHERE for what in (*range(1, 8), *MEANINGS)]
NEEDED += [("merge", what) for what in ("of two bad files", "of two accepted files")]

seen = Counter()
answers = Counter()


# The reading

def shorts(file):
    """The header's names size and counts."""
    return [file[at] + 256 * file[at + 1] for at in range(2, 12, 2)]


@lru_cache
def meanings(names, booleans, numbers, strings, table):
    """What each byte of a file is, by the shorts of its header."""
    found = 12 * ["header"] + (names - 1) * ["name"] + ["last name"] + booleans * ["boolean"]
    if len(found) % 2 == 1:
        found.append("pad")
    return found + numbers * ["number", "high"] + strings * ["string", "high"] + table * ["table"]


@lru_cache
def places(*header):
    """The position and the meaning of every place that can be bad; of a slot, its first byte's."""
    return [(position, meaning) for position, meaning in enumerate(meanings(*header))
            if meaning in MEANINGS]


def closed_offsets(table):
    """The offsets into a string table that have a NUL at or after them."""
    closed, nul = set(), False
    for offset in range(len(table) - 1, -1, -1):
        nul = nul or table[offset] == 0
        if nul:
            closed.add(offset)
    return closed


def bad_places(file):
    """Every place of a file that breaks a rule: the refusal's number and the place's position."""
    header = shorts(file)
    closed = closed_offsets(file[len(file) - header[-1]:])
    for position, meaning in places(*header):
        byte = file[position]
        if meaning == "string":
            high = file[position + 1]
            if not (high == 255 and byte >= 254) and byte + 256 * high not in closed:
                yield 7, position
        elif meaning == "number":
            high = file[position + 1]
            if not (high == 255 and byte >= 254) and high >= 128:
                yield 6, position
        elif meaning == "pad":
            if byte != 0:
                yield 5, position
        elif meaning == "boolean":
            if byte not in (0, 1, 254):
                yield 5, position
        elif meaning == "last name":
            if byte != 0:
                yield 4, position
        elif byte == 0:
            yield 4, position


def judged(file):
    """The first refusal of a file and the position that it gives, each 0 where there is none."""
    if not 12 <= len(file) <= 4096:
        return 1, 0
    if file[0] + 256 * file[1] != 282:
        return 2, 0
    if max(shorts(file)) > 32767 or not 2 <= shorts(file)[0] <= 128:
        return 3, 0
    if len(meanings(*shorts(file))) != len(file):
        return 1, 0
    return min(bad_places(file), default=(0, 0))


# Comparing

def same(call, found, expected, *given):
    answers[call] += 1
    if found != expected:
        words = [value.hex() if isinstance(value, bytes) else str(value) for value in given]
        sys.exit(f"{call} gives {found:#x} instead of {expected:#x} for " + " ".join(words))


def note(where, file, refusal):
    """Counts a refusal of a file, and what stands at its position."""
    number, position = refusal
    seen[where, number] += 1
    if position:
        seen[where, meanings(*shorts(file))[position]] += 1


def check_open(reader, refusal):
    """Opens a file, which has this refusal, (0, 0) where it is accepted."""
    same("open", reader.open()[0], pack(*refusal), *reader.given)
    note("opened file", reader.given[0], refusal)


def check_asked(reader, refusal):
    """A refused file: listing gives the refusal, every question about a state 17 alone."""
    booleans, numbers, strings = reader.given[1]
    rooms = booleans, numbers, numbers, strings, strings, strings
    same("list", reader.list(rooms)[0], pack(*refusal), *reader.given)
    same("names", reader.names(), pack(17), *reader.given)
    same("ask", reader.ask(8 * [0], 8 * [0])[0], pack(17), *reader.given)
    for kind, call in enumerate(("boolean", "number", "string")):
        same(call, reader.state(kind, 0), pack(17, kind=REFUSED), *reader.given)
    same("state", reader.named_state(b"cols"), pack(17, kind=REFUSED), *reader.given)


def check_merge(files, edition):
    """Merges two files, each given with its refusal, (0, 0) where it is accepted."""
    (first, first_refusal), (second, second_refusal) = files
    answer, _ = library.merge(first, second, edition, ROOM)
    if first_refusal[0]:
        expected = pack(*first_refusal, kind=1)
        note("first file", first, first_refusal)
        seen["merge", "of two bad files"] += second_refusal[0] > 0
    elif second_refusal[0]:
        expected = pack(*second_refusal, kind=2)
        note("second file", second, second_refusal)
    else:
        expected = answer & 0xFFFF  # a length and nothing else
        seen["merge", "of two accepted files"] += 1
    same("merge", answer, expected, first, second, edition)


def check(file, other, turn):
    """A file alone, and in merges with the sound one and with another, given with its refusal.

    Gives the file's refusal by the reading.
    """
    refusal = judged(file)
    for edition in EDITIONS:
        check_open(Reader(file, edition), refusal)
    edition = EDITIONS[turn % 3]
    if refusal[0]:
        check_asked(Reader(file, edition), refusal)
    for beside in (SOUND, (0, 0)), other:
        check_merge(((file, refusal), beside), edition)
        check_merge((beside, (file, refusal)), edition)
    return refusal


# Damage

def changed(file, *changes):
    """The file with bytes changed, each given as its position and its value."""
    file = bytearray(file)
    for position, value in changes:
        file[position] = value
    return bytes(file)


def ways(file):
    """For each place of a file that can be bad: its refusal and position, and a change to that."""
    for position, meaning in places(*shorts(file)):
        if meaning == "name":
            yield (4, position), (position, 0)
        elif meaning == "last name":
            yield (4, position), (position, 65)
        elif meaning in ("boolean", "pad"):
            yield (5, position), (position, 2 + position % 252)
        elif meaning == "number":
            yield (6, position), (position + 1, 128 + position % 127)
        else:
            yield (7, position), (position + 1, 1 + position % 254)


def check_bytes(file):
    """Each byte with each other value, beside a file that is bad at another place."""
    bad = [(changed(file, change), refusal) for refusal, change in ways(file)]
    count = 0
    for position, byte in enumerate(file):
        others = [other for other in bad if abs(other[1][1] - position) > 1]
        for value in range(256):
            if value != byte:
                check(changed(file, (position, value)), others[count % len(others)], count)
                count += 1
    return count


def check_pairs(file):
    """Every two places that are bad at once: the first is named."""
    count = 0
    for (refusal, change), (later_refusal, later) in combinations(ways(file), 2):
        other = changed(file, later), later_refusal
        found = check(changed(file, change, later), other, count)
        if found != refusal:
            sys.exit(f"the reading gives {found} instead of {refusal}")
        count += 1
    return count


def reversed_strings(file):
    """The file with the offsets of its present strings in reverse order."""
    slots = [at for at, meaning in places(*shorts(file))
             if meaning == "string" and file[at + 1] != 255]
    return changed(file, *((at + i, file[other + i])
                           for at, other in zip(slots, reversed(slots)) for i in (0, 1)))


def check_unclosed(file):
    """Strings without NUL: the table's last NUL is replaced, its last two, and so on."""
    count = 0
    for file in file, reversed_strings(file):
        table = meanings(*shorts(file)).index("table")
        nuls = [at for at in range(table, len(file)) if file[at] == 0]
        other = changed(file, (nuls[-1], 7))
        for first in range(len(nuls)):
            check(changed(file, *((at, 7) for at in nuls[first:])), (other, judged(other)), count)
            count += 1
    return count


def check_lengths(file):
    """Files cut short or with bytes behind them."""
    other = changed(file, (12, 0)), (4, 12)
    lengths = [*range(len(file)), len(file) + 1, len(file) + 2, 4096, 4097, 8000]
    for length in lengths:
        check((file + bytes(8000))[:length], other, length)
    return len(lengths)


def check_no_file():
    """Refusals that name no file: the edition's 3, whatever the files are, then 9 and 8."""
    damaged = changed(SOUND, (12, 0))
    for edition in TOO_LARGE:
        for file in SOUND, damaged, b"":
            same("open", Reader(file, edition).open()[0], pack(3), file, edition)
            for other in SOUND, damaged, b"":
                same("merge", library.merge(file, other, edition, ROOM)[0], pack(3), file, other,
                     edition)
    # 500 slots of one string of nine bytes.
    sharing = bytes([26, 1, 2, 0, 0, 0, 0, 0, 244, 1, 10, 0, 97, 0]) + bytes(1000) + b"123456789\0"
    edition = 64, 64, 512
    for first, second in (sharing, SOUND), (SOUND, sharing):
        same("merge", library.merge(first, second, edition, ROOM)[0], pack(9), first, second)
    for edition, length in zip(EDITIONS[::2], (act4.SIZE, act4.SECOND_SIZE)):
        for room, expected in (0, pack(8, length)), (length - 1, pack(8, length)), (length, length):
            same("merge", library.merge(SOUND, SOUND, edition, room)[0], expected, edition, room)


def report(damaged):
    missing = [" ".join(map(str, words)) for words in NEEDED if not seen[words]]
    for words in NEEDED:
        print(*words, seen[words])
    if missing:
        sys.exit("never seen: " + ", ".join(missing))
    print(", ".join(f"{call} {count}" for call, count in answers.items()))
    print(f"{damaged} damaged files, {answers.total()} answers, each as the reading says")


if __name__ == "__main__":
    assert "pad" in meanings(*shorts(SOUND)) and "pad" not in meanings(*shorts(WITHOUT_PAD))
    check_no_file()
    report(sum(check_part(file) for file in (SOUND, WITHOUT_PAD)
               for check_part in (check_bytes, check_pairs, check_unclosed, check_lengths)))
