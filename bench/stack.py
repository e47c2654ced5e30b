"""Prints how much stack each public call uses at most, and compares it with the header.

Counted in the disassembly of the archives (x86-64): of each function the return address, every push,
every enlargement of the frame and what it uses below the stack pointer, added up along the longest
chain of calls, and the arguments that the caller puts there. No function calls itself. The C
library's memcpy, memset and strlen count with their return address only.

    stack.py HEADER ARCHIVE..

It fails where the header says too little.
"""

import re
import subprocess
import sys
from functools import cache

WORD = 8
IN_REGISTERS = 6
FUNCTION = re.compile(r"^[0-9a-f]+ <(.+)>:$")
RELOCATION = re.compile(r"R_X86_64_(?:PLT32|PC32)\s+(?:\.text\.)?(\S+?)[-+]0x[0-9a-f]+$")
BELOW = re.compile(r"-0x([0-9a-f]+)\(%rsp")
STATED = re.compile(r"Uses at most ([\d,]+) bytes of stack")
CALL_IN_HEADER = re.compile(r"^uint64_t (terminfo_\w+)\(([^)]*)\);", re.MULTILINE)
EXTERNAL = ("memcpy", "memset", "strlen")


def disassembly(archive):
    return subprocess.run(
        ["objdump", "-dr", "--no-show-raw-insn", archive],
        capture_output=True, check=True, text=True).stdout


def enlargement(instruction):
    """By how many bytes an instruction moves the stack pointer down."""
    if instruction.startswith("push"):
        return WORD
    if "rsp" in instruction.split(",")[-1] and "(" not in instruction.split(",")[-1]:
        moved = re.fullmatch(r"sub\s+\$0x([0-9a-f]+),%rsp", instruction)
        if moved:
            return int(moved[1], 16)
        if not re.match(r"(add|cmp|test)\s|pop|lea\s.*0x[0-9a-f]+\(%rsp\),%rsp", instruction):
            sys.exit(f"unknown move of the stack pointer: {instruction}")
    return 0


def functions(text):
    """Frame, bytes used below the stack pointer and callees of each function."""
    frames, below, callees, current, branch = {}, {}, {}, None, False
    for line in text.splitlines():
        named = FUNCTION.match(line)
        if named:
            current = named[1]
            frames[current], below[current], callees[current] = WORD, 0, set()
            continue
        relocation = RELOCATION.search(line)
        if relocation:
            if branch:
                callees[current].add(relocation[1])
            continue
        parts = line.split("\t", 1)
        if current and len(parts) == 2:
            instruction = parts[1].split(" #")[0].split(" <")[0].strip()
            branch = instruction.startswith(("call", "j"))
            if instruction.startswith("call") and "*" in instruction:
                sys.exit(f"{current} calls through a pointer")
            frames[current] += enlargement(instruction)
            for offset in BELOW.findall(instruction):
                below[current] = max(below[current], int(offset, 16))
    return frames, below, callees


def depths(frames, below, callees):
    """The deepest stack below each function, its return address included."""
    on_chain = []

    @cache
    def depth(name):
        if name in EXTERNAL:
            return WORD
        if name in on_chain:
            sys.exit(f"{name} calls itself")
        on_chain.append(name)
        deepest = frames[name] + max([below[name], *map(depth, sorted(callees[name]))])
        on_chain.remove(name)
        return deepest

    return {name: depth(name) for name in frames if name.startswith("terminfo_")}


def stated(header):
    """The bytes of arguments on the stack of each call, and what the header says of its stack."""
    found, start = {}, 0
    for call in CALL_IN_HEADER.finditer(header):
        said = STATED.findall(header[start:call.start()])
        words = max(0, call[2].count(",") + 1 - IN_REGISTERS)
        number = int(said[-1].replace(",", "")) if said else None
        found[call[1]] = (words + words % 2) * WORD, number
        start = call.end()
    return found


def main(header, *archives):
    found = {}
    for archive in archives:
        found.update(depths(*functions(disassembly(archive))))
    with open(header, encoding="ascii") as file:
        said = stated(file.read())
    print("| Call | Stack, bytes | The header says at most |\n|---|---|---|")
    wrong = []
    for call, depth in found.items():
        arguments, number = said[call]
        depth += arguments
        print(f"| {call} | {depth:,} | {'-' if number is None else format(number, ',')} |")
        if number is None or number < depth:
            wrong.append(call)
    if wrong:
        sys.exit(f"The header says too little of {', '.join(wrong)}.")


if __name__ == "__main__":
    main(*sys.argv[1:])
