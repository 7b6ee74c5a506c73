#!/usr/bin/env python3
"""Brings the names that this repository defines in specs/ and proofs/ to the spelling of today's library.

Words are in snake case and joined by underscores; a prime is an apostrophe. Types and modules keep their capitals, and
functions of src/ their names. Run once, at the top of the repository, after the kit's own script.
With --list it only prints the old and the new names.
"""
import collections
import glob
import re
import sys

DEFINITION = re.compile(
    r"\s*(?:(?:abbrev|unfoldable|opaque|pub)\s+)*((?:[^\s:(){}λ,]+\s+)*?[^\s:(){}λ,]+)(?:\s+\{[^{}]*\}|\s+\([^()]*\))*\s+:(?:\s|$)"
)
TOKEN = re.compile(r"[^\s(){}\[\].,;:⌜⌝λ\"`@]+")
# Names that the library defines too: the import is the library's.
CRATES = [path.split("/")[1] for path in glob.glob("crates/*/")]
NOT_OURS = {"eq-eqb", "ty-ref", "ty-S", "ty-N", "ty-D"}
# Names that would fall together with another one: the function keeps the plain name, its lemma says what it is about.
BY_HAND = {
    "at-depth": "at_depth_lem",
    "atDepth": "at_depth",
    "bit-and": "bit_of_and",
    "bit-or": "bit_of_or",
    "found-lines": "found_lines_lem",
    "foundLines": "found_lines",
    "in-box": "in_box_lem",
    "inBox": "in_box",
    "name-at": "name_at_lem",
    "no-objective": "no_objective_lem",
    "noObjective": "no_objective",
    "rule-at": "rule_at_lem",
    "ruleAt": "rule_at",
    "short-buffer": "short_buffer_lem",
    "shortBuffer": "short_buffer",
    "someIn": "some_in_box",
    "sum-but": "sum_but_lem",
    "sumBut": "sum_but",
    "take-back": "take_back_lem",
    "takeBack": "take_back",
    "tuple_at": "tuple_at_lem",
    "tupleAt": "tuple_at",
    "values-at": "values_at_lem",
    "valuesAt": "values_at",
    "with-block": "with_block_lem",
    "withBlock": "with_block",
    "wrong-length": "wrong_length_lem",
    "wrongLength": "wrong_length",
}


def lawful(path):
    return not re.search(r"/(Proof|Invariants|Answers)\.antt$", path)


def antt_files():
    return sorted(glob.glob("crates/*/specs/**/*.antt", recursive=True) + glob.glob("crates/*/proofs/**/*.antt", recursive=True))


def library_names():
    names = set()
    for path in antt_files():
        for line in open(path, encoding="utf-8"):
            found = re.match(r"use ([^\s{]+)\.\{(.*)\}", line)
            if found and not found.group(1).startswith(tuple("Rattle." + crate + "." for crate in CRATES)):
                names.update(word.strip() for word in found.group(2).split(","))
    return names


def own_names():
    names, seen = set(), set()
    for path in filter(lawful, antt_files()):
        for line in open(path, encoding="utf-8"):
            if line.lstrip().startswith("--"):
                continue
            found = DEFINITION.match(line)
            if found:
                names.update(found.group(1).split())
            # Names that stand alone, and not behind a dot, are parameters and locals.
            seen.update(word for word in re.findall(r"(?<![^\s(){}\[\],;λ])[A-Za-z][^\s(){}\[\].,;:λ\"`@]*", line) if "-" in word)
    return (names | seen) - library_names() - NOT_OURS


def snake(word):
    if re.match(r"[a-z][A-Za-z0-9_]*$", word) and re.search(r"[A-Z]", word):
        return re.sub(r"(?<=[a-z0-9])([A-Z])", lambda m: "_" + m.group(1).lower(), word)
    return word


def respelled(name):
    name = name.replace("′", "'")
    if "◌" in name or not re.search(r"[A-Za-z].*[A-Za-z]", name):
        return name
    return "_".join(snake(part) for part in name.split("-"))


def renaming():
    names = own_names()
    new = {name: respelled(name) for name in names if name not in BY_HAND}
    new = {old: to for old, to in new.items() if old != to}
    taken = collections.Counter(new.values())
    words = set()
    for path in filter(lawful, antt_files()):
        for line in open(path, encoding="utf-8"):
            if not line.lstrip().startswith("--"):
                words.update(TOKEN.findall(line.split("=")[0] if line.startswith("use") else line))
    for old, to in sorted(new.items()):
        if taken[to] > 1 or to in words:
            print("falls together:", old, "->", to)
            new[old] = to + "_lem"
    new.update(BY_HAND)
    return new


def turned(text, new):
    return TOKEN.sub(lambda m: new.get(m.group(0), m.group(0)), text)


def ticked(text, new):
    return re.sub(r"`[^`]*`", lambda m: turned(m.group(0), new), text)


def turned_line(line, mark, new):
    if line.lstrip().startswith(mark):
        return ticked(line, new)
    code, dash, comment = line.partition("  " + mark + " ")
    return turned(code, new) + dash + ticked(comment, new)


def main():
    new = renaming()
    if "--list" in sys.argv:
        for old, to in sorted(new.items()):
            print(old, to)
        return
    kinds = [
        (antt_files(), "--"),
        (glob.glob("crates/*/src/**/*.rt", recursive=True), "//"),
        (glob.glob("crates/*/must-fail/*.edit"), "#"),
    ]
    for paths, mark in kinds:
        for path in paths:
            old = open(path, encoding="utf-8").read()
            to = "".join(turned_line(line, mark, new) for line in old.splitlines(keepends=True))
            if to != old:
                open(path, "w", encoding="utf-8").write(to)
    for path in ["README.md"] + glob.glob("docs/*.md"):
        old = open(path, encoding="utf-8").read()
        to = "".join(ticked(line, new) for line in old.splitlines(keepends=True))
        if to != old:
            open(path, "w", encoding="utf-8").write(to)


main()
