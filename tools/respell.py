#!/usr/bin/env python3
"""Brings the repository's own definitions and lemmas to the kit's spelling: words in snake case, a dash only between two names.

usage: python3 tools/respell.py [--check]

It was run once, right after /opt/rattle/port/port.py, and is kept for docs/PORT.md alone: proofs that were written since have names of the kit's with dashes,
which it would turn. It goes by whole words, over specs/, proofs/, the clauses of src/ and the must-fail edits, and prints each name that it leaves because the
new one is taken.
"""

import glob
import os
import re
import sys

WORD = re.compile(r'[^\s(){}.;,@"«»]+')
DECLARED = re.compile(r"^\s*(?:(?:pub|abbrev|unfoldable|axiom)\s+)*(?:(?:record|data)\s+)?(?:pub\s+)?([^\s(){}.;,@\"«»:=]+)\s*(?:\{[^}]*\}|\([^)]*\)|\s)*:\s")
RULESET = re.compile(r"^\s*(?:pub\s+)?ruleset\s+(\S+)")
USE = re.compile(r"^\s*(?:pub |ghost )?use ([\w.+'-]+)\.\{(.*)\}")
CAMEL = re.compile(r"^[a-z][a-z0-9_]*[A-Z]")
# Words of the kit that lemmas are named after, beside the repository's own definitions.
PLAIN = set()
KIT = {"length", "take", "drop", "set", "sets", "append", "get_or", "replicate", "map", "reverse"}


def antt(proofs=True):
    for top in ("specs", "proofs"):
        for path in sorted(glob.glob(f"crates/*/{top}/**/*.antt", recursive=True)):
            if "/out/" not in path and (proofs or not path.endswith("/Proof.antt")):
                yield path


def read(path):
    with open(path, encoding="utf-8") as f:
        return f.read()


def snake(part):
    if not CAMEL.match(part):
        return part
    return re.sub(r"(?<=[a-z0-9])([A-Z])", lambda m: "_" + m[1].lower(), part).replace("getD", "get_or")


def declared():
    found, defined, kit = set(), set(KIT), set()
    for path in antt(proofs=False):
        for line in read(path).split("\n"):
            if line.lstrip().startswith(("--", "use ", "pub use", "mod ", "pub mod")):
                continue
            m = DECLARED.match(line) or RULESET.match(line)
            if m:
                found.add(m[1])
                if "/specs/" in path and not line.startswith(" "):
                    defined.add(snake(m[1]))
    for path in antt():
        for line in read(path).split("\n"):
            m = USE.match(line)
            if m and not re.match(r"Rattle\.(%s)\." % "|".join(crates()), m[1]):
                kit.update(w for it in m[2].split(",") for w in [it.strip().split(" as ")[0]] if w)
    return found, defined, kit


def crates():
    return sorted(os.path.basename(p) for p in glob.glob("crates/*"))


def spelled(name, defined):
    """The name's new spelling: each dash becomes _, but one between two names of definitions."""
    if "-" not in name:
        return snake(name)
    parts = [snake(p) for p in name.replace("getD", "get_or").split("-")]
    for k in range(1, len(parts)):
        a, b = "_".join(parts[:k]), "_".join(parts[k:])
        if a in defined and b in defined:
            return f"{a}-{b}"
    return "_".join(parts)


def table():
    found, defined, kit = declared()
    words = {m[0] for path in antt(proofs=False) for t in [read(path)] for m in WORD.finditer(t) if t[m.start() - 1 : m.start()] != "."}
    rows, taken = {}, {}
    for name in sorted(found, key=lambda n: ("-" in n, n)):
        if name in kit or not ("-" in name or CAMEL.match(name)):
            continue
        new = spelled(name, defined)
        if "-" not in name and (new in found or new in words) and new not in kit:
            # The definition's name is a lemma's or a local's: that one moves.
            rows[name], taken[new] = new, name
            rows[new], taken[new + "_lem"] = new + "_lem", new
            continue
        if new != name and (new in found or new in kit or new in taken or new in words):
            new += "_lem"
            if new in found or new in taken or new in words:
                print(f"left: {name}: {new} is taken")
                continue
        if new != name:
            rows[name], taken[new] = new, name
    return rows


def turned(text, rows):
    return WORD.sub(lambda m: m[0] if m[0] in PLAIN and text[m.start() - 1 : m.start()] == "." else rows.get(m[0], m[0]), text)


def in_prose(text, rows):
    """Names of two words or more in code spans and lines of edits: a bare word of prose is left."""
    return re.sub(r"(?<![\w-])[A-Za-z_][\w'-]*(?![\w-])", lambda m: m[0] if m[0] in PLAIN else rows.get(m[0], m[0]), text)


def main():
    rows, check = table(), "--check" in sys.argv[1:]
    # A name that the code's functions may have too stays behind a dot, where it is a step of a proof or a module.
    PLAIN.update(n for n in rows if not ("-" in n or CAMEL.match(n)))
    paths = [(p, turned) for p in antt()]
    camel = {a: b for a, b in rows.items() if "-" not in a and a not in PLAIN}
    for path in sorted(glob.glob("crates/*/src/**/*.rt", recursive=True)):
        paths.append((path, lambda t, _: "\n".join(turned(l, camel) for l in t.split("\n"))))
    for path in sorted(glob.glob("crates/*/must-fail/*.edit")):
        paths.append((path, in_prose))
    changed = 0
    for path, turn in paths:
        old = read(path)
        new = turn(old, rows)
        if new != old:
            changed += 1
            if not check:
                with open(path, "w", encoding="utf-8") as f:
                    f.write(new)
    for old, new in sorted(rows.items()):
        print(f"{old}\t{new}")
    print(f"respell: {len(rows)} names, {changed} files")


main()
