#!/usr/bin/env python3
"""Spells the names that this repository's specs/ and proofs/ declare as today's Rattle spells names: words in snake case, types and
modules in camel case. It was run once, right after the kit's port.py (docs/PORT.md).

usage: respell.py [--list]       at the top of the repository; --list prints the pairs and writes nothing

A word in camel case turns to snake case. A dash stays between two names (of definitions, or words of the library's) and turns to an
underscore beside a plain word. A lemma that would get a definition's name gets _lem. Names of Rust, fields of structs too, stay.
"""

import collections
import glob
import re
import sys

NAME = r"[^\s(){}.;,@\"«»\[\]`|⌜⌝]+"
DECLARED = re.compile(rf"^ *(?:(?:pattern|unfoldable|abbrev|pub|axiom) +)*({NAME})(?: *\{{[^}}\n]*\}})* *:(?!:)\s")
NOT_DECLARED = ("use ", "pub use ", "let ", "module ", "infix", "mod ", "open ", "--")
# Names of the library in the names of lemmas.
LIBRARY = set("le lt mem add sub mul div mod append map take drop length sum get_or set replicate min max flatten zip nil cons cond not".split())
# What the older library called getD is get_or. The first is std's lemma at another default, and must not hide it.
BY_HAND = {
    "get_d_map": "get_or-map_to",
    "getD-rowwise": "get_or-rowwise",
    "getD-table": "get_or-table",
    "getD-transpose": "get_or-transpose",
    "getD-from": "get_or-from",
    "table-getD": "table-get_or",
}


def read(path):
    with open(path, encoding="utf-8") as it:
        return it.read()


def write(path, old, new):
    if new != old:
        with open(path, "w", encoding="utf-8") as it:
            it.write(new)


def files(*patterns):
    return sorted({f for p in patterns for f in glob.glob(p, recursive=True)})


def snake(name):
    return re.sub(r"(?<=[a-z0-9])([A-Z])", lambda m: "_" + m[1].lower(), name)


def is_word(name):
    return re.match(r"[a-z_]", name) is not None


def declared(paths):
    names = {}
    for path in paths:
        for line in read(path).split("\n"):
            m = None if line.strip().startswith(NOT_DECLARED) else DECLARED.match(line)
            if m:
                names.setdefault(m[1], []).append(path)
    return names


def spelled(name, known):
    if name in BY_HAND:
        return BY_HAND[name]
    if not is_word(name):
        return name
    parts = [snake(p) for p in name.split("-")]
    to = parts[0]
    for a, b in zip(parts, parts[1:]):
        to += ("-" if all(p in known or not is_word(p) for p in (a, b)) else "_") + b
    return to


def pairs():
    specs = declared(files("crates/*/specs/**/*.antt"))
    proofs = declared(files("crates/*/proofs/*.antt"))
    known = {snake(n) for n in specs} | LIBRARY
    to, taken = {}, {}
    for name in list(specs) + [n for n in proofs if n not in specs]:
        new = spelled(name, known)
        while new in taken:
            new += "_lem"
        taken[new] = name
        if new != name:
            to[name] = new
    return to, specs, proofs


def turned(text, to):
    return re.sub(NAME, lambda m: to.get(m[0], m[0]), text)


def main():
    to, specs, proofs = pairs()
    if "--list" in sys.argv:
        for a, b in sorted(to.items()):
            print(a, b, " ".join(specs.get(a) or proofs.get(a)), sep="\t")
        return
    # A name that only gets an ending is turned where it is declared or imported: elsewhere a local may be called so.
    ended = {a for a, b in to.items() if b == a + "_lem"}
    for path in files("crates/*/specs/**/*.antt", "crates/*/proofs/**/*.antt", "crates/*/src/**/*.rt", "tools/*.json"):
        old = read(path)
        imported = set(re.findall(NAME, " ".join(re.findall(r"use [^\n]*", old))))
        here = {a: b for a, b in to.items() if a not in ended or a in imported or path in (proofs.get(a) or []) + (specs.get(a) or [])}
        write(path, old, turned(old, here))
    in_marks = {a: b for a, b in to.items() if a not in ended}
    for path in files("*.md", "docs/*.md", "tests/*.py", "include/*.h"):
        old = read(path)
        write(path, old, re.sub(r"`[^`\n]*`", lambda m: turned(m[0], in_marks), old))


main()
