"""Runs the vectors through the library and through the model; each line must give what it says."""

import json
import sys
from pathlib import Path

import library
import model
from library import REFUSED, Reader, pack, part_of, state_of

FOLDER = Path(__file__).resolve().parent / "vectors"


def lines(name):
    with open(FOLDER / f"{name}.jsonl", encoding="ascii") as file:
        for number, line in enumerate(file, 1):
            case = json.loads(line)
            yield f"{name} line {number}", case["in"], case["out"]


def bytes_of(value):
    return bytes.fromhex(value["hex"])


def refusal(out):
    """The 64 bits of the refusal that a vector states, 0 for success."""
    return pack(out["number"], *out["values"])


def merge_refusal(out):
    """As refusal, of merging: a file's refusal gives which file it was, then the position."""
    number, values = out["number"], out["values"]
    if number > 7 or not values:
        return refusal(out)
    which, *position = values
    return pack(number, *position, kind=which)


def same(found, expected, where):
    if found != expected:
        sys.exit(f"{where}: {found} instead of {expected}")


def state_in(vector):
    """A state as a vector writes it: kind and content."""
    kind, content = vector
    if content is True:
        return kind, None
    return kind, bytes_of(content) if isinstance(content, dict) else content


def run_open():
    """Opens each file; of an accepted one, all that the vector tells is asked."""
    count = 0
    for where, given, out in lines("open"):
        file, edition = bytes_of(given["file"]), given["edition"]
        reader = Reader(file, edition)
        found, tables = reader.open()
        same(found, refusal(out), where)
        same((found, tables), reader.model_open(), where + " (model)")
        for rooms in ((64, 64, 64, 512, 512, 512), (64, 64, 64, 512, 512, min(512, edition[2]) // 2)):
            same(reader.list(rooms), reader.model_list(rooms), f"{where} list (model) {rooms}")
        count += 1
        if found:
            same(reader.names(), pack(17), where + " names")
            same(reader.file_kept(), True, where + " file kept")
            continue
        outcome = out["outcome"]
        same(tables[7:], outcome["unknown"], where + " slots beyond the edition")
        names = reader.names()
        same(part_of(file, names), bytes_of(outcome["names"]), where + " names")
        same(names, reader.model_names(), where + " names (model)")
        same([len(states) for states in outcome["states"]], edition, where + " states")
        asked = []
        for kind, states in enumerate(outcome["states"]):
            for place, expected in enumerate(states):
                at = f"{where} kind {kind} place {place}"
                answer = reader.state(kind, place)
                same(state_of(file, kind, answer), state_in(expected), at)
                same(answer, reader.model_state(kind, place), at + " (model)")
                asked.append((kind, place, answer))
                count += 1
        for first in range(0, len(asked) - 7, 8):
            kinds, places, answers = zip(*asked[first:first + 8])
            same(reader.ask(kinds, places), (0, list(answers)), where + " ask")
        same(reader.file_kept(), True, where + " file kept")
    return count


def run_state():
    """Asks for one state of each file."""
    count = 0
    for where, given, out in lines("state"):
        file, kind, place = bytes_of(given["file"]), given["kind"], given["place"]
        reader = Reader(file, given["edition"])
        answer = reader.state(kind, place)
        if out["number"]:
            same(answer, refusal(out) | pack(kind=REFUSED), where)
        else:
            same(state_of(file, kind, answer), state_in(out["outcome"]), where)
        same(answer, reader.model_state(kind, place), where + " (model)")
        same(reader.file_kept(), True, where + " file kept")
        count += 1
    return count


def check_written(where, found, by_model, out, refused=refusal):
    """Holds the answer and the file of a call that writes one to what a vector states."""
    if out["number"]:
        expected = refused(out), None
    else:
        file = bytes_of(out["outcome"])
        expected = len(file), file
    same(found, expected, where)
    same(by_model, expected, where + " (model)")


def run_write():
    """Writes each file."""
    count = 0
    for where, given, out in lines("write"):
        columns = [list(zip(*given[kind])) for kind in ("booleans", "numbers", "strings")]
        (boolean_kinds, _), (number_kinds, values), (string_kinds, starts, lengths) = (
            column or empty for column, empty in zip(columns, (2 * [()], 2 * [()], 3 * [()])))
        states = model.States(bytes_of(given["names"]), bytes(boolean_kinds), bytes(number_kinds),
                              values, bytes(string_kinds), starts, lengths, bytes_of(given["pool"]))
        arguments = given["edition"], states, given["room"]
        check_written(where, library.write(*arguments), library.model_write(*arguments), out)
        count += 1
    return count


def run_merge():
    """Merges the files of each line."""
    count = 0
    for where, given, out in lines("merge"):
        arguments = (bytes_of(given["file_a"]), bytes_of(given["file_b"]), given["edition"],
                     given["room"])
        check_written(where, library.merge(*arguments), library.model_merge(*arguments), out,
                      merge_refusal)
        count += 1
    return count


if __name__ == "__main__":
    counts = {run.__name__[4:]: run() for run in (run_open, run_state, run_write, run_merge)}
    print(", ".join(f"{name} {count}" for name, count in counts.items()), "answers as stated")
