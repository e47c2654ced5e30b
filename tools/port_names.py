#!/usr/bin/env python3
"""Brings the repository's own definitions and lemmas to the spelling of today's Rattle: snake case.

Run once, after port.py, at the top. Types, facts and modules keep their capitals; names of src/, of the kit's
library and those that Rattle makes keep their spelling. Where two names would fall together the lemma gets `_lem`.
"""
import os
import re
import sys

CRATES = "crates"
DELIMITERS = r"\s(){}\[\];,.:⌜⌝«»`\"|"
TOKEN = re.compile(rf"[^{DELIMITERS}]+")
SIGNATURE = re.compile(r"^( *)(?:(?:pub|abbrev|unfoldable) )*([^\s(){}:;,]+(?: [^\s(){}:;,]+)*?)(?: \{ℓ\})? :(?: |$)")
USE = re.compile(r"^ *(?:pub )?(?:ghost )?(?:use|open) +([\w.+'-]+?)\.\{([^}]*)\}")
WORDS = {"pub", "abbrev", "unfoldable", "use", "let", "module", "record", "data", "ruleset"}


def files(*ends):
    for folder, dirs, names in os.walk(CRATES):
        dirs[:] = sorted(d for d in dirs if d != "out")
        for name in sorted(names):
            if name.endswith(ends):
                yield os.path.join(folder, name)


def snake(name):
    word = re.sub(r"(?<=[a-z0-9])([A-Z])", lambda m: "_" + m[1].lower(), name)
    return re.sub(r"(?<=[\w'])-(?=[\w'])", "_", word)


def text_of(path):
    with open(path, encoding="utf-8") as file:
        return file.read()


def declared():
    """Each lower-case name that a file of definitions or laws declares, and whether it is a field or constructor."""
    found = {}
    for path in files(".antt"):
        parts = os.path.relpath(path, CRATES).split(os.sep)
        if parts[1] == "proofs" and len(parts) > 3:
            continue
        inside = None
        for line in text_of(path).split("\n"):
            if line.strip().startswith("--") or not line.strip():
                continue
            depth = len(line) - len(line.lstrip())
            if inside is not None and depth <= inside:
                inside = None
            if re.match(r" *(?:pub |deriving )*(?:record|data) ", line):
                inside = depth
                continue
            signature = SIGNATURE.match(line)
            if signature and depth <= 6:
                for name in signature[2].split():
                    if name not in WORDS and re.match(r"[a-z]", name):
                        found[name] = found.get(name, False) or inside is not None
    return found


def of_library():
    """Names that a line takes from the kit's library."""
    found = set()
    for path in files(".antt", ".rt"):
        for line in re.sub(r",\n *", ", ", text_of(path)).split("\n"):
            use = USE.match(line)
            if use and not (use[1].startswith("Rattle.") and use[1].split(".")[1] in os.listdir(CRATES)):
                found.update(word.strip().split(" as ")[0] for word in use[2].split(","))
    return found


def turned(text, names, fields, dashes):
    def one(match):
        word = match[0]
        if word not in names:
            return word
        source = "-" not in word and word == word.lower()  # may be a name of src/ too
        if source and re.match(r" = |;", text[match.end() :]) and re.search(r"(?:[{;] |\n {4,})$", text[: match.start()]):
            return word  # a field, given its value
        if "-" in word or source:
            if not dashes(text, match.start()):
                return word
            before = text[match.start() - 1 : match.start()]
            if before == ".":
                module = re.search(r"([\w']+)\.$", text[: match.start()])
                if source or not fields.get(word) and not (module and module[1][0].isupper()):
                    return word
        return names[word]

    return TOKEN.sub(one, text)


def line_at(text, place):
    return text[text.rfind("\n", 0, place) + 1 : (text + "\n").find("\n", place)]


def main():
    fields = declared()
    library = of_library()
    names = {name: snake(name) for name in fields if snake(name) != name}
    left = {name for name in names if name in library or names[name] in library}
    by_target = {}
    for name in list(names) + [name for name in fields if name not in names]:
        by_target.setdefault(names.get(name, name), set()).add(name)
    for target, group in sorted(by_target.items()):
        if len(group) > 1:  # a definition has the name, its lemma the name with `_lem`
            definition = min(group, key=lambda name: ("-" in name, name == target))
            for name in group - {definition}:
                names[name] = target + "_lem"
                print(f"{name}: {names[name]}, as {definition} is {target}")
    for name in sorted(left):
        print("left:", name, "(of the library too)" if name in library or names[name] in library else "")
        del names[name]
    if "--list" in sys.argv:
        return
    changed = 0
    for path in files(".antt", ".rt", ".edit"):
        text = text_of(path)
        if path.endswith(".antt"):
            new = turned(text, names, fields, lambda t, p: True)
        else:
            new = turned(text, names, fields, lambda t, p: bool(re.match(r" *(ghost use|//|(?:old|new): +ghost use)", line_at(t, p))))
        if new != text:
            changed += 1
            with open(path, "w", encoding="utf-8") as file:
                file.write(new)
    print(f"{len(names)} names, {changed} files")


if __name__ == "__main__":
    main()
