#!/usr/bin/env python3
"""Brings the repository's own definitions and lemmas to Rattle's spelling: words in snake case, types in camel case.

usage: python3 tools/respell.py [--list]     at the top of the repository, once, after the toolchain's port.py

A name of this repository with a dash becomes one with an underscore; a type, or a statement, one in camel case. Names that a file imports from
the toolchain's libraries stay, and so do the names that Rattle makes. --list prints each name with its new spelling and writes nothing.
"""
import os
import re
import sys

CRATES = "crates"
TOKEN = re.compile(r"[^\W\d][\w']*(?:-[\w']+)+")
DECLARED = re.compile(r"(?m)^[ \t]*(?:pub |abbrev |unfoldable |record |data )*([^\W\d][\w']*(?:-[\w']+)+)(?: [^:\n]*)? ?:")
INFIX = re.compile(r"\u25cc([^\W\d][\w']*(?:-[\w']+)+)\u25cc")
USED = re.compile(r"(?m)^[ \t]*(?:ghost )?use ([\w.\u00b7+-]+?)\.\{([^}]*)\}")
KIND = re.compile(r"(?m)^[ \t]*(?:pub |abbrev |unfoldable )*(record |data )?%s(?: [^:\n]*)? ?:([^\n]*)")
# words of Rattle's own in proof files, which no file imports
MADE = re.compile(r"^(?:Need|returns|overflow|loop|then|else|in|if)-")
# names that would fall together with others of their file
CLASH = {"X-bit": "phase_x_bit", "Y-bit": "phase_y_bit"}


def files(ends):
    for folder, dirs, names in os.walk(CRATES):
        dirs[:] = sorted(d for d in dirs if d != "out")
        for name in sorted(names):
            if name.endswith(ends):
                yield os.path.join(folder, name)


def read(path):
    with open(path, encoding="utf-8") as f:
        return f.read()


def bare(text):
    return re.sub(r"--[^\n]*", "", text)


def own_crates():
    return set(os.listdir(CRATES))


def of_kit(text, crates):
    """The names that a file imports from the toolchain's libraries."""
    found = set()
    for m in USED.finditer(text):
        own = re.match(r"Rattle[.\u00b7](\w+)[.\u00b7]", m.group(1) + ".")
        if own and own.group(1) in crates:
            continue
        for n in m.group(2).split(","):
            found.add(n.strip().split(" as ")[0])
    return found


def is_type(name, texts):
    pattern = re.compile(KIND.pattern % re.escape(name))
    for t in texts:
        m = pattern.search(t)
        if m:
            return bool(m.group(1)) or bool(re.search(r"Type \d+\s*(?:where)?\s*$", m.group(2)))
    return False


def spelled(name, types, words):
    """A statement that would share its camel case with the record that it speaks of ends in Law."""
    if name in CLASH:
        return CLASH[name]
    if name in types:
        camel = "".join(p[0].upper() + p[1:] for p in name.split("-"))
        return camel + "Law" if camel in words else camel
    return (name[0].lower() + name[1:]).replace("-", "_") if name[0].isupper() else name.replace("-", "_")


def table():
    """Each name of this repository with its new spelling."""
    crates = own_crates()
    texts, declared, local = [], set(), set()
    for p in files(".antt"):
        t = bare(read(p))
        if os.path.basename(p) == "Proof.antt":
            continue
        texts.append(t)
        declared.update(DECLARED.findall(t))
        declared.update(INFIX.findall(t))
        kit = of_kit(t, crates)
        for m in TOKEN.finditer(t):
            if m.group() not in kit:
                local.add(m.group())
    names = declared | {n for n in local if not MADE.match(n)}
    types = {n for n in names if n[0].isupper() and is_type(n, texts)}
    words = {w for t in texts for w in re.findall(r"[^\W\d][\w']*", t)}
    return {n: spelled(n, types, words) for n in names}, declared


def respell(text, names, keep):
    return TOKEN.sub(lambda m: names[m.group()] if m.group() in names and m.group() not in keep else m.group(), text)


def main(argv):
    names, declared = table()
    if argv == ["--list"]:
        for n in sorted(names):
            print(n, names[n])
        return 0
    crates = own_crates()
    for p in files((".antt", ".rt", ".edit")):
        t = read(p)
        keep = of_kit(t, crates)
        if os.path.basename(p) == "Proof.antt" or p.endswith(".rt"):
            new = respell(t, {n: names[n] for n in declared}, keep)
        else:
            new = respell(t, names, keep)
        if new != t:
            with open(p, "w", encoding="utf-8") as f:
                f.write(new)
    return 0


if __name__ == "__main__":
    raise SystemExit(main(sys.argv[1:]))
