#!/usr/bin/env python3
"""Respells the repository's own names of contracts and proofs, once, after the toolchain's port.py: words in snake case, types,
facts and modules in camel case. Run at the top of the repository: python3 tools/respell.py [--list]

A name is ours where a file of specs/ or proofs/ declares it. It keeps its spelling where the file that uses it has it from the
toolchain, and where the toolchain makes it (goals, steps, invariants). Code keeps its names, since none of them has a dash; in a
file of src/ and in a must-fail edit strings are left out, and in a page only what stands between backticks is read.
"""

import os
import re
import sys

FIRST = r"A-Za-z_"
REST = r"A-Za-z0-9_'\-"
NAME = re.compile(rf"(?<![{REST}◌])[{FIRST}][{REST}]*")
LINE = re.compile(rf"^ *(?:pub )?(?:abbrev |unfoldable |record |data )?(?:pub )?([{FIRST}][{REST}]*)(?= *[:({{])", re.M)
MADE = re.compile(r"^(?:invariant|decreases|ghost|returns|loop|overflow|index|branch|in|then|else|if)-")
FOREIGN = re.compile(r"^\s*(?:ghost )?(?:pub )?use (?:Rattle\.std|borrow|mathlib|lib|native|Prim|denote)\.([^;\n]*)", re.M)

# Facts that a single word names, and where it stands as the fact and not as a variable.
FACTS = {
    "layers": [
        (re.compile(r"(?<![\w'.-])sound(?= (?:ok|F\.)|[,}]| :)"), "IsSound"),
        (re.compile(r"(?<![\w'.-])accepts(?= (?:meaning|F\.)|[,}]| :)"), "Accepts"),
        (re.compile(r"(?<![\w'.-])laid(?= (?:ok|F\.)|[,}]| :)"), "IsLaid"),
        (re.compile(r"(?<![\w'.-])near(?= (?:self\.|w\b|v\b)|}| : {F)"), "IsNear"),
    ],
}


def files(ending):
    for folder, dirs, names in os.walk("crates"):
        dirs[:] = sorted(d for d in dirs if d != "out")
        for name in sorted(names):
            if name.endswith(ending):
                yield os.path.join(folder, name)


def text_of(path):
    with open(path, encoding="utf-8") as f:
        return f.read()


def camel(name):
    parts = name.split("-")
    if parts[0].isupper() and parts[0] != "A":
        return "_".join(parts)
    return "".join(p[:1].upper() + p[1:] for p in parts)


def respelled(name):
    if "-" not in name:
        return name
    return camel(name) if name[0].isupper() else name.replace("-", "_")


def declared(text):
    """Each name at the head of a line with its type: what stands behind the first colon outside brackets, before any '='."""
    for m in LINE.finditer(text):
        depth = 0
        for i in range(m.end(), len(text)):
            c = text[i]
            depth += (c in "({") - (c in ")}")
            if depth < 0 or c == "=" or (c == "\n" and depth == 0):
                break
            if c == ":" and depth == 0:
                yield m.group(1), text[i + 1:i + 80]
                break


def ours():
    """Every name that specs/ and proofs/ declare, but for the goals that a proof file answers."""
    names = set()
    for path in files(".antt"):
        for name, kind in declared(text_of(path)):
            if re.match(r"\s*(?:goal|given|goals)\.", kind):
                continue
            if MADE.match(name) and path.endswith(("Answers.antt", "Invariants.antt")):
                continue
            names.add(name)
        names |= set(ALIAS.findall(text_of(path)))
    return names


def turned(text, table, foreign):
    def one(m):
        name = m.group(0)
        before = text[max(0, m.start() - 5):m.start()]
        if name in foreign or name not in table or before.endswith("goal."):
            return name
        return table[name]

    return NAME.sub(one, text)


def foreign_in(text):
    names = set()
    for line in FOREIGN.findall(text):
        names |= set(NAME.findall(line))
    return names


ALIAS = re.compile(rf"^use Rattle\..* as ([a-z][{REST}]*)$", re.M)
STRING = re.compile(r'b?"(?:[^"\\]|\\.)*"')


def in_source(text, table, foreign):
    """A file of src/: all but its strings. A name of ours with a dash is no name of code."""
    out, at = [], 0
    for m in STRING.finditer(text):
        out += [turned(text[at:m.start()], table, foreign), m.group(0)]
        at = m.end()
    return "".join(out + [turned(text[at:], table, foreign)])


def in_page(text, table):
    return re.sub(r"`[^`\n]*`", lambda m: turned(m.group(0), table, set()), text)


def main():
    table = {n: respelled(n) for n in ours() if respelled(n) != n}
    if "--list" in sys.argv:
        for n in sorted(table):
            print(n, table[n])
        return
    together = {}
    for n, m in table.items():
        together.setdefault(m, []).append(n)
    for m, ns in sorted(together.items()):
        if len(ns) > 1:
            print("look: these fall together:", m, ns)
    changed = 0
    jobs = [(p, "proof") for p in files(".antt")] + [(p, "source") for p in files(".rt")] + [(p, "source") for p in files(".edit")]
    jobs += [(os.path.join("docs", f), "page") for f in sorted(os.listdir("docs")) if f.endswith(".md") and not f.startswith("PORT")] + [("README.md", "page")]
    for path, kind in jobs:
        old = text_of(path)
        foreign = foreign_in(old)
        new = turned(old, table, foreign) if kind == "proof" else in_source(old, table, foreign) if kind == "source" else in_page(old, table)
        crate = path.split(os.sep)[1] if path.startswith("crates") else ""
        if kind != "page":
            for pattern, word in FACTS.get(crate, []):
                new = pattern.sub(word, new)
            here = set(NAME.findall(old))
            for n in here & set(table) - foreign:
                if table[n] in here:
                    print(f"look: {path}: {table[n]} stood there before {n} became it")
        if new != old:
            changed += 1
            with open(path, "w", encoding="utf-8") as f:
                f.write(new)
    print(f"respell: {len(table)} names, {changed} files")


main()
