#!/usr/bin/env python3
"""Counts the places in crates/*/src that docs/DESIGN-PASS.md speaks of, point by point, by text alone.

    tools/places.py            how many of each kind, crate by crate
    tools/places.py list       each place with its file and line

It finds candidates: whether one is a place, and what became of it, is in docs/DESIGN-PASS.md."""
import collections
import pathlib
import re
import sys

FUNCTION = re.compile(r"\bfn (\w+)[^({]*\((.*?)\)(.*?)(?=\{\n|;\n)", re.S)


def sources():
    for path in sorted(pathlib.Path("crates").glob("*/src/**/*.rt")):
        yield path.parts[1], path, path.read_text()


def lines_with(kinds):
    """The lines that a pattern of a kind finds, but for comments and imports."""
    for crate, path, text in sources():
        for number, line in enumerate(text.splitlines(), 1):
            if line.lstrip().startswith(("//", "use ", "ghost use ", "pub use ", "mod ", "pub mod ")):
                continue
            for kind, pattern in kinds.items():
                if re.search(pattern, line):
                    yield kind, crate, f"{path}:{number}", line.strip()


def functions():
    for crate, path, text in sources():
        code = re.sub(r"//.*", "", text)
        for found in FUNCTION.finditer(code):
            name, parameters, rest = found.groups()
            yield crate, f"{path}:{code[: found.start()].count(chr(10)) + 1}", name, parameters, rest


def repeated(key):
    """What stands in three functions of a crate, or in more."""
    where = collections.defaultdict(list)
    for crate, place, name, parameters, rest in functions():
        for item in set(key(parameters, rest)):
            where[crate, item].append(f"{place} {name}")
    for (crate, item), places in sorted(where.items()):
        if len(places) >= 3:
            yield crate, places[0], f"{item}: {', '.join(p.split()[-1] for p in places)}"


def premises(_, rest):
    """The premises of the clauses: what stands before an arrow, or all of a `requires`."""
    for clause in re.findall(r"(?:requires|ensures)[^{]*\{(.*)\}", rest):
        parts = [p.strip() for p in clause.split("→")]
        yield from ("if " + p for p in parts[:-1] if "λ" not in p)
    for clause in re.findall(r"requires[^{]*\{(.*)\}", rest):
        yield from ("requires " + p.strip(" ()") for p in clause.split("×"))


def pairs(parameters, _):
    """Parameters that stand side by side, by name and type."""
    all_of = re.findall(r"(\w+): ((?:&(?:'\w+ )?(?:mut )?)?[\w\[\]:; ]+)", parameters)
    named = [f"{n}: {re.sub(r'.[a-z] ', ' ', t).strip()}" for n, t in all_of if n not in ("rt", "heap", "flash")]
    yield from (f"{a}, {b}" for a, b in zip(named, named[1:]))


POINTS = {
    "1 enums of Option's or Result's shape, flags, numbers for kinds": lambda: lines_with(
        {
            "own enum": r"^\s*(pub(\(\w+\))? )?enum ",
            "refusal as an Option": r"-> Option<Refusal>",
            "refusal beside a value": r"\(Refusal, ",
            "number for a kind or a refusal": r"\b(refusal|dtype|compr): u8|\bmode: u32|kind: u16|\.number\(\)|9999|\b255 =>",
            "flag or word for a case": r"\b(failed|hole): bool|\bsaid: &|numbers: \[\w+; \d\],",
        }
    ),
    "2 twins": lambda: (
        (f"{len(places)} times", crate, places[0], f"{name}: {', '.join(places)}")
        for crate, name, places in twins()
    ),
    "3 loops that count or step by hand": lambda: lines_with(
        {"counted": r"\bfor \w+ in [^{]*\.\.", "enumerated": r"\bfor \([^{]*\.enumerate\(\)", "while": r"^\s*while "}
    ),
    "4 equality, order, conversion and printing by hand": lambda: lines_with(
        {
            "comparison": r"fn (same|is_place|is_below|is_same_\w+)\w*\(.*-> bool",
            "conversion": r"fn (number|value|of|dtype|mode|done|nibble|verb_of|code|number_of|offence_number)\(",
            "words": r"fn (cause|text|show\w*|of_\w+|words)\(",
            "refusals compared by number": r"\.number\(\) [!=]=",
        }
    ),
    "5 facts in three contracts or more": lambda: (("fact", *row) for row in repeated(premises)),
    "5 parameters side by side in three functions or more": lambda: (("pair", *row) for row in repeated(pairs)),
    "6 buffers with a length, parallel arrays": lambda: lines_with(
        {
            "array in a struct": r"^\s*(pub(\(\w+\))? )?\w+: \[[\w&' ]+; \w+\],",
            "length beside": r"^\s*(pub(\(\w+\))? )?(len|batch|n): usize,",
            "table searched by hand": r"static \w+: \[\(",
        }
    ),
    "7 switches on a step, closures by hand": lambda: lines_with(
        {"closure by hand": r"^impl.* Pass<.* for ", "switch": r"^\s*(Step|Verb|Call)::\w+.*=>"}
    ),
}


def twins():
    """Functions of a name and a length that stand in more than one place, and functions that are alike but for words."""
    seen = collections.defaultdict(list)
    for crate, path, text in sources():
        code = re.sub(r"//.*", "", text)
        for found in re.finditer(r"\bfn (\w+)[^;{]*\{\n(.*?)\n( *)\}\n", code, re.S):
            body = re.sub(r"\s+", " ", found[2])
            if body.count(" ") < 6:
                continue
            shape = re.sub(r"\b[a-zA-Z_]\w*\b|\d\w*", "w", body)
            line = code[: found.start()].count("\n") + 1
            seen[shape].append((crate, f"{path}:{line} {found[1]}"))
    for places in seen.values():
        if len(places) > 1:
            yield places[0][0], places[0][1].split()[-1], [p for _, p in places]


def main():
    for point, find in POINTS.items():
        rows = list(find())
        crates = collections.Counter(row[1] for row in rows)
        kinds = collections.Counter(row[0] for row in rows)
        print(f"{point}: {len(rows)}")
        print("   ", ", ".join(f"{k} {n}" for k, n in kinds.items()))
        print("   ", ", ".join(f"{c} {n}" for c, n in crates.items()))
        if sys.argv[1:] == ["list"]:
            for kind, _, place, what in rows:
                print(f"        {place}  {kind}  {what}")


if __name__ == "__main__":
    main()
