#!/usr/bin/env python3
"""Brings the repository's own names in specs/ and proofs/ to the spelling of this Rattle.

usage: python3 tools/respell.py          once, at the top, after the kit's port.py
       python3 tools/respell.py --list   prints each old name with its new one, and changes nothing

Words of definitions, constructors, fields, variables and lemmas are in snake case: `slotParts` is `slot_parts`, and `retain-append` is
`retain_append`. A lemma that would have a definition's name ends in `_lem`. Functions of src/ and types keep their names. It turns the .antt and .rt files, the edits, and names between backticks in the pages.
"""
import glob
import os
import re
import sys

NAME = re.compile(r"(?<![A-Za-z0-9_'-])[A-Za-z_][A-Za-z0-9_']*(?:-[A-Za-z0-9_']+)*")
DECLARED = re.compile(r"(?m)^\s*(?:(?:abbrev|unfoldable|pub) )*([A-Za-z_][A-Za-z0-9_'-]*) :(?= |$)")
# The proof of a function of the code.
PROOF = re.compile(r"(?m)^pub ([A-Za-z0-9_-]+-spec) :")


def read(path):
    with open(path, encoding="utf-8") as f:
        return f.read()


def files(*patterns):
    return sorted(p for x in patterns for p in glob.glob(x, recursive=True) if "/out/" not in p)


def snake(word):
    if not re.search(r"[a-z0-9][A-Z]", word) or not word[0].islower():
        return word
    word = re.sub(r"([a-z0-9])([A-Z])", r"\1_\2", word)
    return word.lower()


def of_library():
    """The names that files bring in from modules that are not this repository's."""
    own = set(line.split(":")[0].split()[0] for line in read("crates.txt").splitlines() if ":" in line)
    out = set()
    for path in files("crates/**/*.antt", "crates/**/*.rt"):
        for module, names in re.findall(r"(?m)^(?:pub |ghost )*use ([\w.]+)\.\{([^}]*)\}", read(path)):
            parts = module.split(".")
            if not (parts[0] == "Rattle" and parts[1] in own):
                out.update(it.strip().split(" as ")[0] for it in names.split(","))
    return out


def lemma(name, definitions):
    out = "_".join(snake(it) for it in name.split("-"))
    return out + "_lem" if out in definitions else out


def table():
    foreign = of_library()
    antt = files("crates/*/specs/**/*.antt", "crates/*/proofs/**/*.antt")
    by_hand = [p for p in antt if not p.endswith("/Proof.antt")]
    map_of = {}
    for path in antt + files("crates/*/src/**/*.rt"):
        for word in NAME.findall(read(path)):
            for part in word.split("-"):
                if snake(part) != part and part not in foreign:
                    map_of[part] = snake(part)
    declared = {it for p in by_hand for it in DECLARED.findall(read(p))}
    declared.update(it for p in antt if p.endswith("/Proof.antt") for it in PROOF.findall(read(p)))
    definitions = {map_of.get(it, it) for p in files("crates/*/specs/**/*.antt") for it in DECLARED.findall(read(p)) if "-" not in it}
    for name in sorted(it for it in declared if "-" in it and it not in foreign):
        map_of[name] = lemma(name, definitions)
    # No two names may fall together.
    taken, plain = {}, {it for p in antt for it in NAME.findall(read(p))} - set(map_of)
    for old, new in sorted(map_of.items(), key=lambda it: ("-" in it[0], it)):
        if new != old and (new in taken or ("-" in old and new in plain)):
            print(f"respell: {old}: {new} is taken by {taken.get(new, 'a name that stays')}", file=sys.stderr)
            map_of[old] = new + "_lem" if "-" in old else new
        taken[map_of[old]] = old
    return map_of


def turned(text, map_of, of_code=False, of_proof=False):
    def one(found):
        word = found[0]
        if word in map_of and not (of_proof and "-" in word and text[: found.start()].endswith(".")):
            return map_of[word]
        if of_code and "-" in word:
            return word
        return "-".join(map_of.get(it, it) for it in word.split("-")) if "-" in word else word

    return NAME.sub(one, text)


def main(argv):
    os.chdir(os.path.join(os.path.dirname(os.path.realpath(__file__)), ".."))
    map_of = table()
    if argv == ["--list"]:
        print("\n".join(f"{old}\t{new}" for old, new in sorted(map_of.items()) if old != new))
        return
    camel = {old: new for old, new in map_of.items() if "-" not in old}
    for path in files("crates/**/*.antt", "crates/**/*.rt", "crates/**/*.edit", "README.md", "docs/*.md", "docs/changes/*.md"):
        old = read(path)
        if path.endswith(".antt"):
            new = "\n".join(turned(it, camel, of_code=True) if it.lstrip().startswith("--") else turned(it, map_of, of_proof=path.endswith("/Proof.antt")) for it in old.split("\n"))
        elif path.endswith(".rt"):
            new = "\n".join(turned(it, map_of if it.startswith("ghost use") else camel, of_code=True) for it in old.split("\n"))
        elif path.endswith(".edit"):
            new = "\n".join(turned(it, map_of if re.match("(old|new|fact): ", it) else camel) for it in old.split("\n"))
        else:
            new = re.sub(r"`[^`\n]+`", lambda it: turned(it[0], map_of), old)
        if new != old:
            with open(path, "w", encoding="utf-8") as f:
                f.write(new)


if __name__ == "__main__":
    main(sys.argv[1:])
