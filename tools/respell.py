#!/usr/bin/env python3
"""Respells the definitions and lemmas of this repository as today's Rattle does, once, right after the kit's port.py.

usage: tools/respell.py            at the top of the repository: rewrites crates/ and prints the names, old and new

Types and facts become UpperCamelCase; functions, fields, constructors and lemmas become snake_case; a name that ended in '?' gets a verb.
A dash stays only in a lemma whose parts are names themselves, as in length-row. It goes by whole words in .antt files and, in .rt files, in
clauses and ghost items alone, so functions of src/ keep their names. It says where two names would fall together. A field behind a
variable named a, c, g, l or w stays, since Rattle gives such names to the facts of a goal: those few were turned by hand.
"""

import glob
import re
import sys

# names of tests, which ended in '?', and of some more
GIVEN = {
    "names?": "does_name", "placed?": "is_placed", "all-placed?": "are_placed", "window-fits?": "does_window_fit",
    "windows-fit?": "do_windows_fit", "named-once?": "is_named_once", "record-fits?": "does_record_fit",
    "records-fit?": "do_records_fit", "valid?": "is_valid", "misplaced?": "is_misplaced", "misfit?": "is_misfit",
    "crowded?": "is_crowded", "bad-window?": "is_bad_window", "bad-variable?": "is_bad_variable", "begins?": "does_begin",
    "full?": "is_full", "some?": "has_some", "open?": "has_open", "fresh?": "is_fresh", "none-some?": "none_has_some",
    "full?-from": "is_full_from", "full?-to": "is_full_to", "some?-from": "has_some_from", "some?-to": "has_some_to",
    "open?-to": "has_open_to", "open?-none": "has_open_none", "single?": "is_single",
    # not tests, but with a name that another thing has in its new spelling
    "No-such": "IsNoSuch", "kind-of": "kind_of_record", "record-at": "stored_record", "tree-ends": "tree_ends_lem", "marks-compute": "marks_compute_lem",
}
# words of the kit that a lemma's name may be joined from
KIT = set("zero suc length append map take drop set get and or not none some add mul pow min max".split())
WORD = re.compile(r"[^\s(){}.;,@\"«»]+")
SIGNATURE = re.compile(r"^([ ]*)(abbrev |unfoldable )?(pub )?(?:(data |record )([^\s:({]+)|([^\s:({]+)(?= +:))(.*)$", re.M)
CLAUSE = re.compile(r"(?:requires|ensures)\s*\*?\s*(?:\w+\s*)?\{|ghost\s+(?:\w+\s*(?::\s*|=\s*))?\{|ghost\s+invariant\s*\{")


def files():
    for kind in ("specs", "proofs"):
        yield from sorted(glob.glob(f"crates/*/{kind}/**/*.antt", recursive=True))


def odd(name):
    return "-" in name or name.endswith("?") or re.search(r"[a-z][A-Z]", name)


def snake(name):
    return re.sub(r"([a-z])([A-Z])", lambda m: m[1] + "_" + m[2].lower(), name).replace("-", "_")


def camel(name):
    return "".join(part[:1].upper() + part[1:] for part in name.split("-"))


def parts(words, known):
    """The words as a sequence of at least two known names, or None; the longest names first."""
    def go(i):
        if i == len(words):
            return []
        for j in range(len(words), i, -1):
            if j - i == len(words):
                continue
            if "_".join(words[i:j]) in known:
                rest = go(j)
                if rest is not None:
                    return ["_".join(words[i:j])] + rest
        return None
    return go(0)


def collect():
    functions, lemmas = set(), set()
    for p in files():
        text = open(p, encoding="utf-8").read()
        for m in SIGNATURE.finditer(text):
            indent, opened, _, kind, typed, plain, rest = m.groups()
            name = typed or plain
            if name in ("use", "let", "in", "elim", "where", "unfolding", "abbrev", "unfoldable", "--", "λ"):
                continue
            if re.match(r"\s*:\s*goal\.", rest):
                continue
            if opened or kind or (indent and not re.match(r"\s*:.*→", rest)):
                functions.add(name)
            else:
                lemmas.add(name)
    return functions, lemmas - functions


def table():
    functions, lemmas = collect()
    new = {}
    for name in functions:
        if odd(name):
            if name in GIVEN:
                new[name] = GIVEN[name]
            elif name[0].isupper():
                if "-" in name:
                    new[name] = camel(name)
            else:
                new[name] = snake(name)
    known = KIT | {new.get(n, n) for n in functions}
    for name in lemmas:
        if not odd(name):
            continue
        if name in GIVEN:
            new[name] = GIVEN[name]
        elif name[0].isupper() and re.fullmatch(r"[A-Z][\w-]*", name) and not re.search(r"^[A-Z]\w*-[a-z]", name):
            new[name] = camel(name)
        elif name[0].isupper():
            new[name] = camel(name)
        else:
            words = snake(name).split("_")
            split = parts(words, known)
            new[name] = "-".join(split) if split and "-" in name else snake(name)
    return {a: b for a, b in new.items() if a != b}


def turn(text, names):
    out, at = [], 0
    for m in WORD.finditer(text):
        word = m[0]
        if word not in names:
            continue
        if text[m.start() - 1 : m.start()] == ".":
            head = re.search(r"[^\s(){};,@\"«»]*$", text[: m.start()])[0]
            if re.match(r"(goal|[cwlga])\.", head):
                continue
        out.append(text[at : m.start()] + names[word])
        at = m.end()
    return "".join(out) + text[at:]


def blocks(text):
    """The spans of clauses and ghost items of a .rt file."""
    at = 0
    while True:
        m = CLAUSE.search(text, at)
        use = re.compile(r"ghost use [^;]*;").search(text, at)
        if use and (not m or use.start() < m.start()):
            yield use.start(), use.end()
            at = use.end()
        elif m:
            depth, i = 1, m.end()
            while depth:
                depth += {"{": 1, "}": -1}.get(text[i], 0)
                i += 1
            yield m.end(), i
            at = i
        else:
            return


def main():
    names = table()
    seen = set()
    for p in files():
        seen |= set(WORD.findall(open(p, encoding="utf-8").read()))
    news = {}
    for old, new in sorted(names.items()):
        if new in seen:
            print(f"falls together: {old} with {new}")
        if new in news:
            print(f"falls together: {old} and {news[new]} as {new}")
        news[new] = old
    if "--table" in sys.argv:
        for old, new in sorted(names.items()):
            print(f"{old}\t{new}")
        return
    for p in files():
        text = open(p, encoding="utf-8").read()
        new = turn(text, names)
        if new != text:
            open(p, "w", encoding="utf-8").write(new)
    for p in sorted(glob.glob("crates/*/src/**/*.rt", recursive=True)):
        text = open(p, encoding="utf-8").read()
        out, at = [], 0
        for a, b in blocks(text):
            out.append(text[at:a] + turn(text[a:b], names))
            at = b
        new = "".join(out) + text[at:]
        if new != text:
            open(p, "w", encoding="utf-8").write(new)
    for old, new in sorted(names.items()):
        print(f"{old}\t{new}")


main()
