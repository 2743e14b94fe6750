#!/usr/bin/env python3
"""Brings the repository's own names to the spelling of today's Rattle: words in snake case, types and facts in camel case.
It was run once, when the repository came to that Rattle (docs/PORT.md), after the kit's port.py, and is kept so that this can be followed.

usage: python3 tools/respell.py [--list]     at the top of a repository that port.py has turned; --list only prints the renamings

A name is ours if a file of specs/ or proofs/ declares it: a definition, a lemma, a constructor, a record or a field of one, or another name for an import. The names of goals and of invariants,
which Rattle makes, stay, and so do names that std has too. Functions of src/, strings, inputs and outputs stay as they are.
Contracts, specs, proofs, must-fail edits and the names between backticks in the pages are turned alike.
"""
import glob
import os
import re
import sys

SIGNATURE = re.compile(r"^\s*(?:abbrev\s+|unfoldable\s+)?(?:pub\s+)?([^\s(){}\[\]:;,=]+(?:\s+[^\s(){}\[\]:;,=]+)*)\s*:(?=\s)(.*)")
DECLARED = re.compile(r"^\s*(?:pub\s+)?(?:data|record)\s+([^\s(){}:]+)")
GOAL = re.compile(r"^\s*(?:goal|need)\.")
WORD = r"[^\s(){}\[\].,;:⌜⌝«»\"`|=]"
# kept: std has a name of that spelling, which files import or which goals show
KEPT = {"add-one", "bit-or", "bit-and", "append-nil", "take-add", "take-nil", "map-map", "slice-copy-out·e"}


def files(kind):
    found = []
    for top in ("specs", "proofs"):
        found += glob.glob(f"crates/*/{top}/**/*.antt", recursive=True)
    if kind == "all":
        found += glob.glob("crates/*/src/**/*.rt", recursive=True) + glob.glob("crates/*/must-fail/*.edit") + glob.glob("crates/*/refused/*.edit")
        found += glob.glob("docs/*.md") + glob.glob("README.md")
    return sorted(f for f in found if "/out/" not in f and not f.startswith("docs/PORT"))


def read(path):
    with open(path, encoding="utf-8") as f:
        return f.read()


def declared():
    """Our names, those of them that specs/ declares, and the names that goals and invariants have."""
    ours, defined, goals = set(), set(), set()
    for path in files("antt"):
        for line in read(path).splitlines():
            if line.startswith(("use ", "pub use ")):
                ours |= set(re.findall(r" as ([^\s,;}]+)", line))
            if line.lstrip().startswith(("--", "let ", "λ", "use ", "∙", "pub use")):
                continue
            m = DECLARED.match(line)
            if m:
                ours.add(m.group(1))
                defined.add(m.group(1))
                continue
            m = SIGNATURE.match(line)
            if not m:
                continue
            for name in m.group(1).split():
                if GOAL.match(m.group(2).lstrip()) or "/Invariants.antt" in path:
                    goals.add(name)
                else:
                    ours.add(name)
                    if "/specs/" in path:
                        defined.add(name)
    return ours, defined, goals


def imported():
    """Names that files bring in from std, which are not ours."""
    names = set()
    for path in files("all"):
        for m in re.finditer(r"use (?:Rattle\.(?:std|core)|borrow|denote|logic|lib|Prim|mathlib|native)[\w.·]*\.\{([^}]*)\}", read(path)):
            names |= {n.split(" as ")[0].strip() for n in m.group(1).split(",")}
    return names


# a relation that would have the name of a variant
SPECIAL = {"Role-fault": "IsRoleFault", "Shape-fault": "IsShapeFault"}


def respelled(name):
    if name in SPECIAL:
        return SPECIAL[name]
    name = name.replace("″", "''").replace("′", "'").replace("getD-", "get_or-")
    if "-" not in name:
        return name
    if name[0].isupper():
        return "".join(part[:1].upper() + part[1:] for part in name.split("-"))
    return name.replace("-", "_")


def renamings():
    ours, defined, goals = declared()
    std = imported()
    names = {n: respelled(n) for n in ours if n not in goals and n not in std and n not in KEPT and respelled(n) != n}
    # a lemma that would have the name of something in src/ ends in _lem
    source = set()
    for path in glob.glob("crates/*/src/**/*.rt", recursive=True):
        source |= set(re.findall(r"\w+", read(path)))
    return {old: new + "_lem" if new[0].islower() and new in source and old not in defined else new for old, new in names.items()}


# a step of a proof by its path, which has the name of a function
STEP = re.compile(r"(?:^|[\s(\[,])(?:c|l|w|k)(?:\.[^\s().]+)*\.$")


def turn(text, pattern, names):
    def one(m):
        new = names[m.group(0)]
        if new.endswith("_lem") and STEP.search(text[max(0, m.start() - 80) : m.start()]):
            return new[: -len("_lem")]
        return new

    return pattern.sub(one, text)


def turn_source(text, pattern, names):
    """A .rt file: no string is touched."""
    parts = re.split(r'("(?:[^"\\]|\\.)*")', text)
    return "".join(p if i % 2 else turn(p, pattern, names) for i, p in enumerate(parts))


def turn_page(text, pattern, names):
    return re.sub(r"`[^`\n]*`", lambda m: turn(m.group(0), pattern, names), text)


def main():
    names = renamings()
    words = set()
    for path in files("all"):
        if not path.endswith(".md"):
            words |= set(re.findall(WORD + "+", read(path)))
    for old, new in sorted(names.items()):
        if new in words:
            print(f"falls together: {old} -> {new}")
    taken = {}
    for old, new in names.items():
        if new in taken:
            print(f"falls together: {old} and {taken[new]} -> {new}")
        taken[new] = old
    if "--list" in sys.argv:
        for old, new in sorted(names.items()):
            print(old, new)
        return
    names = names or {"": ""}
    pattern = re.compile(r"(?<![\w\-'′″·])(?:" + "|".join(re.escape(n) for n in sorted(names, key=len, reverse=True)) + r")(?![\w\-'′″·])")
    for path in files("all"):
        text = read(path)
        if path.endswith(".rt"):
            new = turn_source(text, pattern, names)
        elif path.endswith(".md"):
            new = turn_page(text, pattern, names)
        else:
            new = turn(text, pattern, names)
        if path.endswith("hierarchies/specs/Kind.antt"):
            # port.py left both spellings of std's word in this file
            new = new.replace("bit-or", "bit_or").replace("bitOr", "bit_or")
        if path in ("crates/machine/specs/Plans.antt", "crates/machine/proofs/Growing.antt"):
            # ours there, and not std's lemma
            new = re.sub(r"(?<![\w-])add-one(?![\w-])", "add_one", new)
        # port.py joined a type's two words
        new = re.sub(r"\bTells_same\b", "TellsSame", new)
        if new != text:
            with open(path, "w", encoding="utf-8") as f:
                f.write(new)


main()
