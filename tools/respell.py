#!/usr/bin/env python3
"""Brings the names of this repository's own definitions and lemmas to today's spelling: words in snake case, types in camel case.

usage: tools/respell.py [--check]      at the top of the repository, once, after the kit's port.py

It goes by text over the .antt, .rt and .edit files below crates/, and writes the table of what it renamed to tools/respelled.tsv.
What a crate declares with a dash in its name gets underscores, a type or a fact gets capitals in place of the dashes; so do the
names of variables. Names of the library and the names that Rattle makes of the code stay. --check writes nothing.
"""
import collections
import os
import re
import sys

DELIMITERS = r"\s(){}\[\],;.`\":“”"
TOKEN = re.compile(f"[^{DELIMITERS}]+")
DECLARED = re.compile(
    r"^[ \t]*((?:pub |abbrev |unfoldable |record |data |ruleset )*)([^\s(){}\[\],;:]+)((?: [^\n:]*)?) :(?= |$)", re.M
)
SECTION = re.compile(r"^[ \t]*((?:pub |abbrev |unfoldable )*)(record|data) ([^\s(){}\[\],;:]+)", re.M)
EXTERNAL = re.compile(r"^\s*(?:pub |ghost )*use (?!Rattle\.(?!std\.))([^\s{]+)\.\{([^}]*)\}", re.M)
ALIAS = re.compile(r"^\s*(?:pub |ghost )*use \S+ as (\S+?);?$", re.M)
# what Rattle makes of a function's code, which the converter of proofs turns
MADE = re.compile(
    r"^(Need|After|Then|Else|Joined|In|Loop|Lts|then|else|invariant|decreases|loop|returns|overflow|bounds|slice_bounds|nonzero_div)-"
    r"|-spec$|^(enum-told|known-told|struct-known|shared-slice)"
)
# functions of the manual's that are no types
FUNCTIONS = {"AddWithCarry": "add_with_carry", "SubtractWithCarry": "subtract_with_carry"}
# where the plain rule gives a name that is taken
TAKEN = {"bit-and": "bit-bit_and", "bit-or": "bit-bit_or"}


def files(root, endings):
    for folder, folders, names in os.walk(os.path.join(root, "crates")):
        folders[:] = sorted(it for it in folders if it != "out")
        yield from (os.path.join(folder, it) for it in sorted(names) if it.endswith(endings))


def read(path):
    with open(path, encoding="utf-8", newline="") as f:
        return f.read()


def spelled(name):
    if name in FUNCTIONS:
        return FUNCTIONS[name]
    if name in TAKEN:
        return TAKEN[name]
    if name[0].isupper() and re.search(r"[a-z]", name):
        return "".join(it[:1].upper() + it[1:] for it in re.split("[-_]", name))
    return name.replace("-", "_")


def main():
    root = "."
    check = "--check" in sys.argv
    texts = {p: read(p) for p in files(root, (".antt", ".rt", ".edit"))}
    antt = {p: t for p, t in texts.items() if p.endswith(".antt")}
    external, own, variables = set(), set(FUNCTIONS), collections.Counter()
    for t in texts.values():
        for it in EXTERNAL.finditer(t):
            external |= {n.split(" as ")[0].strip() for n in it[2].split(",")}
    for t in antt.values():
        own |= {it[2] for it in DECLARED.finditer(t)} | {it[3] for it in SECTION.finditer(t)}
    own = {n for n in own if ("-" in n or n in FUNCTIONS or (n[0].isupper() and "_" in n)) and n not in external and not MADE.search(n)}
    for p, t in antt.items():
        t = re.sub(r"--[^\n]*", "", re.sub(EXTERNAL, "", t))
        aliases = set(ALIAS.findall(t))
        for it in TOKEN.finditer(t):
            w = it[0]
            if not re.search(r"[\w'₀-₉]-\w", w) or w in own or w in external or MADE.search(w):
                continue
            before = re.search(r"([^\s(){}\[\],;.]+)\.$", t[: it.start()])
            if before and (before[1] in aliases or before[1][0].isupper()):
                print(f"look: {p}: {before[0]}{w} stays")
                continue
            if re.fullmatch(r"[a-zμ][\w'₀-₉-]*", w):
                variables[w] += 1
            else:
                print(f"look: {p}: {w} stays")
    table = {n: spelled(n) for n in own | set(variables)}
    table = {a: b for a, b in table.items() if a != b}
    back = collections.defaultdict(set)
    for a, b in table.items():
        back[b].add(a)
    for b, names in sorted(back.items()):
        if len(names) > 1:
            print(f"look: {' and '.join(sorted(names))} fall together as {b}")
        if b in external:
            print(f"look: {', '.join(names)} becomes {b}, which is a name of the library")
    for p, t in texts.items():
        words = set(TOKEN.findall(re.sub(r"--[^\n]*|//[^\n]*", "", t)))
        for a in sorted(words & set(table)):
            if table[a] in words and p.endswith(".antt"):
                print(f"look: {p}: has both {a} and {table[a]}")
    changed = 0
    for p, t in texts.items():
        new = TOKEN.sub(lambda it: table.get(it[0], it[0]), t)
        if new != t:
            changed += 1
            if not check:
                with open(p, "w", encoding="utf-8", newline="") as f:
                    f.write(new)
    if not check:
        with open("tools/respelled.tsv", "w", encoding="utf-8") as f:
            f.writelines(f"{a}\t{table[a]}\n" for a in sorted(own & set(table)))
    print(f"{len(own & set(table))} names of definitions and lemmas and {len(variables)} of variables, in {changed} files")


main()
