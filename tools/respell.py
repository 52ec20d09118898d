#!/usr/bin/env python3
"""Brings the repository's own names of definitions and lemmas to Rattle's spelling: words in snake case, types in camel case.

usage: python3 tools/respell.py [--list]      at the top of the repository, once, right after the kit's port.py

A name counts as the repository's own where a file of specs/ or a lemma file of proofs/ defines it. Names that Rattle makes (goals, the
facts that an answer cites) keep their dashes, as do names of the libraries, functions, strings, inputs and outputs.
"""
import glob
import re
import sys

# Characters of a name in antt.
LETTER = r"[\w'\u2080-\u2089-]"
TOKEN = re.compile(rf"(?<!{LETTER})[A-Za-z]{LETTER}*")
DEFINED = re.compile(r"^\s*(?:unfoldable |abbrev )?(?:pub )?(?:data |record |ruleset )?([A-Za-z][^\s:{}()]*)(?: \([^\n]*\)| \{[^\n]*\})* :", re.M)
GOALS = ("Answers.antt", "Invariants.antt", "Proof.antt")
OTHERWISE = {"getD-listed": "get_or_listed"}


def is_goals(path):
    # answers.rt of a crate has definitions in specs/Answers.antt
    return path.endswith(GOALS) and "/specs/" not in path


def respelled(name):
    if name in OTHERWISE:
        return OTHERWISE[name]
    if name[0].isupper():
        return "".join(part[:1].upper() + part[1:] for part in name.split("-"))
    return name.replace("-", "_")


def own_names(paths):
    names = set()
    for path in paths:
        if not is_goals(path):
            text = open(path, encoding="utf-8").read()
            names.update(n for n in DEFINED.findall(text) if "-" in n)
    return names


def in_clauses(text, turn):
    """Turns only what a .rt file says in clauses, ghost items and comments."""
    out = []
    for line in text.split("\n"):
        ghost = re.match(r"\s*(//|ghost |requires|ensures|fn .*(requires|ensures))", line) or re.match(r"\s*[}×→(]", line)
        out.append(turn(line) if ghost and '"' not in line else line)
    return "\n".join(out)


def main():
    antt = sorted(glob.glob("crates/*/specs/**/*.antt", recursive=True) + glob.glob("crates/*/proofs/**/*.antt", recursive=True))
    antt = [p for p in antt if "/out/" not in p]
    rt = [p for p in sorted(glob.glob("crates/*/src/**/*.rt", recursive=True))]
    names = own_names(antt)
    new = {n: respelled(n) for n in names}
    taken = set()
    for path in antt + rt:
        taken.update(TOKEN.findall(open(path, encoding="utf-8").read()))
    for n in sorted(new):
        if new[n] in taken:
            print(f"also elsewhere: {n} -> {new[n]}")
    twice = {}
    for n, to in new.items():
        twice.setdefault(to, []).append(n)
    for to, ns in twice.items():
        if len(ns) > 1:
            print(f"fall together: {ns} -> {to}")
    if "--list" in sys.argv:
        for path in antt:
            if is_goals(path):
                for no, line in enumerate(open(path, encoding="utf-8"), 1):
                    for m in TOKEN.finditer(line):
                        if m.group() in new and line[max(0, m.start() - 1)] == ".":
                            print(f"{path}:{no}: .{m.group()}: {line.strip()[:150]}")
        return

    # behind `c.` stands a fact that Rattle named
    def turn(text):
        return TOKEN.sub(lambda m: m.group() if text[max(0, m.start() - 2) : m.start()] == "c." else new.get(m.group(), m.group()), text)

    # in specs/ and in clauses, variables and names given by `as` too
    lent = set()
    said = set()
    for path in antt + rt:
        text = open(path, encoding="utf-8").read()
        if "/specs/" in path:
            lent.update(n for line in re.findall(r"^use Rattle\.std[^\n]*", text, re.M) for n in TOKEN.findall(line))
            said.update(n for n in TOKEN.findall(re.sub(r"(?m)^\s*--[^\n]*", "", text)) if "-" in n)
        elif path.endswith(".rt"):
            said.update(re.findall(rf"(?m)^ghost use [^\n]* as ({LETTER}+)", text))
    local = {n: respelled(n) for n in said if n not in lent and n not in new}

    def turn_all(text):
        return TOKEN.sub(lambda m: local.get(m.group(), m.group()), turn(text))

    for path in antt:
        text = open(path, encoding="utf-8").read()
        open(path, "w", encoding="utf-8").write((turn_all if "/specs/" in path else turn)(text))
    for path in rt:
        text = open(path, encoding="utf-8").read()
        open(path, "w", encoding="utf-8").write(in_clauses(text, turn_all))
    print(f"{len(new)} names")


main()
