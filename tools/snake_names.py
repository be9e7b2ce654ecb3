#!/usr/bin/env python3
"""Respells the names of definitions, lemmas, record fields and local names of specs/ and proofs/ in snake case.

    tools/snake_names.py [--list]

It goes over crates/*/specs, crates/*/proofs and the ghost text of crates/*/src. Names from outside the repository, names that the
toolchain makes for goals, and names of src/ keep their spelling. `--list` prints old and new names and changes nothing."""
import glob
import re
import sys

NAME = r"[A-Za-z][A-Za-z0-9_']*(?:-[A-Za-z0-9_']+)*"
TOKEN = re.compile(r"(?<![A-Za-z0-9_'\-])" + NAME + r"(?![A-Za-z0-9_'\-])")
OUTSIDE = re.compile(r"^use (?!Rattle\.(?:money|best|item|base_rules|words|item_words|item_commands|commands)\.)[^\n{]*\{([^}]*)\}", re.M)


def snake(name):
    """`leastCost` and `least-is` become `least_cost` and `least_is`, and a type such as `Some-fields` becomes `SomeFields`."""
    if name[0].isupper():
        return "".join(part[0].upper() + part[1:] for part in name.split("-"))
    return re.sub(r"(?<=[a-z0-9])([A-Z])", lambda m: "_" + m.group(1).lower(), name).replace("-", "_").lower()


def turns(name):
    return name != snake(name)


def code(text):
    """The text without its comments and its strings."""
    return re.sub(r'--[^\n]*|"(?:[^"\\]|\\.)*"', " ", text)


def main():
    lemmas = sorted(glob.glob("crates/*/specs/*.antt") + glob.glob("crates/*/proofs/*.antt"))
    answers = sorted(set(glob.glob("crates/*/proofs/**/*.antt", recursive=True)) - set(lemmas))
    sources = sorted(glob.glob("crates/*/src/**/*.rt", recursive=True))
    names, outside, every = set(), set(), set()
    for path in lemmas:
        text = open(path, encoding="utf-8").read()
        for listed in OUTSIDE.findall(text):
            outside.update(TOKEN.findall(listed))
        body = re.sub(r"^(use|pub mod|mod) [^\n]*", "", code(text), flags=re.M)
        every.update(TOKEN.findall(body))
        names.update(n for n in TOKEN.findall(body) if turns(n))
    for path in answers:
        text = code(open(path, encoding="utf-8").read())
        every.update(TOKEN.findall(text))
    names -= outside
    table = {n: snake(n) for n in sorted(names)}
    for old, new in table.items():
        if "-" in old and list(table.values()).count(new) > 1:
            table[old] = new + "_lem"  # a lemma that would have its function's name
    for old, new in table.items():
        if new in every or list(table.values()).count(new) > 1:
            print(f"look: {old} -> {new}, a name that stands already", file=sys.stderr)
    if "--list" in sys.argv:
        print("\n".join(f"{a} {b}" for a, b in table.items()))
        return
    for path in lemmas + answers + sources:
        text = open(path, encoding="utf-8").read()
        parts = re.split(r'("(?:[^"\\\n]|\\.)*")', text)
        parts[::2] = [TOKEN.sub(lambda m: table.get(m.group(), m.group()), p) for p in parts[::2]]
        new = "".join(parts)
        if new != text:
            open(path, "w", encoding="utf-8").write(new)


main()
