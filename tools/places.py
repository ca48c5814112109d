#!/usr/bin/env python3
"""Counts in crates/*/src (and, for the last point, crates/*/proofs) the places that docs/DESIGN-PASS.md speaks of.

Usage: tools/places.py [-l] [FOLDER]      -l lists each place; FOLDER is a checkout, this one if none is given.
A line that is found is a place to be looked at: what became of each stands in the page.
"""
import collections
import pathlib
import re
import sys

LISTS = "-l" in sys.argv[1:]
FOLDERS = [a for a in sys.argv[1:] if a != "-l"]
ROOT = pathlib.Path(FOLDERS[0] if FOLDERS else pathlib.Path(__file__).parent.parent)


def files(kind, ending):
    return sorted(p for p in ROOT.glob(f"crates/*/{kind}/**/*{ending}"))


def lines(kind, ending):
    for path in files(kind, ending):
        for number, line in enumerate(path.read_text().splitlines(), 1):
            if not line.strip().startswith("//"):
                yield path.relative_to(ROOT / "crates"), number, line


def found(*patterns):
    tests = [re.compile(p) for p in patterns]
    return [f"{p}:{n}: {line.strip()}" for p, n, line in lines("src", ".rt") if any(t.search(line) for t in tests)]


def functions():
    """Each function: file, name, parameters as written, clauses as written."""
    for path in files("src", ".rt"):
        text = path.read_text()
        for m in re.finditer(r"\bfn ([a-z_0-9]+)(?:<[^(]*>)?\(([^)]*)\)([^{;]*(?:\{ .* \}\n[^{;]*)*)", text):
            yield path.relative_to(ROOT / "crates"), m[1], m[2], m[3]


def twins():
    where = collections.defaultdict(list)
    for path, name, _, _ in functions():
        where[name].append(str(path))
    return [f"{n}: {', '.join(w)}" for n, w in sorted(where.items()) if len(w) > 1]


def travelling():
    """Two parameters, by name and type, that stand together in three or more functions of a crate."""
    pairs = collections.defaultdict(set)
    for path, name, parameters, _ in functions():
        each = sorted({p.strip() for p in parameters.split(",") if ":" in p})
        for i, a in enumerate(each):
            for b in each[i + 1:]:
                pairs[path.parts[0], a, b].add(name)
    return [f"{c}: ({a}, {b}) in {', '.join(sorted(n))}" for (c, a, b), n in sorted(pairs.items()) if len(n) > 2]


def repeated():
    """A fact that stands in the contracts of three or more functions of a crate, as far as it is one premise or call."""
    facts = collections.defaultdict(set)
    for path, name, _, clauses in functions():
        for fact in re.findall(r"\b((?:[A-Z][A-Za-z.]*\.)?(?:sound|Sound|Tidy|Orderly|Idle|Keeps|Ready|[A-Z][A-Za-z]*Sound)) [A-Za-z(]", clauses):
            facts[path.parts[0], fact].add(name)
    return [f"{c}: {f} in {', '.join(sorted(n))}" for (c, f), n in sorted(facts.items()) if len(n) > 2]


def answers():
    return [f"{p}:{n}: {line.strip()[:60]}" for p, n, line in lines("proofs", ".antt")
            if p.name == "Answers.antt" and re.match(r"pub [a-zA-Z_0-9+-]+ :", line)]


def lemmas():
    return [f"{p}:{n}: {line.strip()[:60]}" for p, n, line in lines("proofs", ".antt")
            if p.name not in ("Answers.antt", "Invariants.antt", "Lib.antt") and re.match(r"\s*(pub )?[a-z][a-zA-Z_0-9'-]* :", line)]


POINTS = [
    ("1a fields that are a bool", found(r"^\s+(pub )?[a-z_]+: bool,$")),
    ("1b parameters that are a bool", found(r"\bfn .*[(,] ?[a-z_]+: bool\b", r"^\s{8}[a-z_]+: bool,$")),
    ("1c numbers for kinds or refusals", found(r"\bfn (code|number|place|number_at|outcome)\b", r"\bnumber: u(8|16)\b")),
    ("2 names of functions that are written more than once", twins()),
    ("3a loops over a range", found(r"\bfor [a-z_]+ in .*\.\.")),
    ("3b loops by while", found(r"\bwhile\b")),
    ("4 equality, copies, conversions, printing by hand",
     found(r"\bfn (same|same_[a-z]+|alike|untouched|copy|of|reason|told|refusal|show[a-z_]*|with_[a-z]+|least_of|greatest_of|size_of|count|listed|[a-z]+_hold|holds)\b")),
    ("5a facts in three contracts or more", repeated()),
    ("5b parameters that travel together", travelling()),
    ("6 buffers of a fixed length", found(r"^\s+(pub )?[a-z_]+: \[.*; .*\],$")),
    ("7 a switch on which step to run", found(r"\bmatch (call|self|step|name|start|preference|layers)\b", r"\bif (top|same|first)\b")),
    ("8a answers", answers()),
    ("8b lemmas", lemmas()),
]

for title, places in POINTS:
    print(f"{len(places):5} {title}")
    if LISTS:
        for place in places:
            print(f"        {place}")
