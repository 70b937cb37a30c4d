#!/usr/bin/env python3
"""Spells this repository's own definitions and lemmas in snake case, and its own types in camel case.

usage: python3 tools/respell.py [--dry]     at the top of the repository, once, after the toolchain's own port script

The toolchain's script turns the names that it knows. What this repository defined itself still had dashes: `being-filled`
becomes `being_filled`, and the type `Kept-turn` becomes `KeptTurn`. Only names that a file of specs/ or proofs/ of this
repository defines or binds are turned; names that the check makes (goals, steps) and names of the library stay. It stops,
and writes nothing, where a new name stands in a file already."""

import glob
import re
import sys

CRATES = {p.split("/")[1] for p in glob.glob("crates/*/")}
DELIM = r"\s(){}\[\],.;=|λ⌜⌝"
TOKEN = re.compile(rf"[^{DELIM}]+")
NAME = r"[A-Za-z][A-Za-z0-9_'₀-₉′]*(?:-[A-Za-z0-9_'₀-₉′]+)+"
HEAD = re.compile(rf"^\s*(?:(?:abbrev|opaque|unfoldable|pub|instance|record|data)\s+)*({NAME})\s*(?:[({{].*)?:(?:\s|$)\s*(.*)$")
LET = re.compile(rf"\blet\s+({NAME})\s*[:=]")
BINDER = re.compile(r"[({]([^():{}→]*?)\s:\s")
USE = re.compile(r"^\s*(?:pub\s+|ghost\s+)?use\s+(\S+?)\.\{([^}]*)\}")
# definitions that would have the name of the function whose clause cites them
TAKEN = {"hex-digit", "row-place", "request-of", "reply-of"}
# the two that had capitals inside
CAPITALS = {"sameFault": "same_fault", "getD-xors": "get_or_xors"}
GENERATED = re.compile(r"(goal|given|need)\.")


def files(pattern):
    return sorted(p for p in glob.glob(pattern, recursive=True) if "/out/" not in p)


def code(line):
    return re.sub(r"(^|\s)--(\s.*)?$", r"\1", line)


def foreign(path):
    """Is this module one of the library, and not of a crate of this repository?"""
    m = re.match(r"Rattle\.(\w+)\.", path)
    return not (m and m[1] in CRATES)


def own_names(antt):
    """The names that a file defines, for every file; and those that one binds, for that file alone."""
    own, fields, bound, generated, library = set(), set(), {}, set(), set()
    for p in antt:
        bound[p] = set()
        record = None
        for line in open(p, encoding="utf-8").read().split("\n"):
            line = code(line)
            m = USE.match(line)
            if m:
                if foreign(m[1]):
                    library |= {w.split(" as ")[0].strip() for w in m[2].split(",")}
                continue
            indent = len(line) - len(line.lstrip())
            if re.match(r"\s*(?:pub\s+)?record\s", line):
                record = indent
            elif record is not None and line.strip() and indent <= record:
                record = None
            m = HEAD.match(line)
            if m:
                if record is not None and indent > record:
                    fields.add(m[1])
                (generated if GENERATED.match(m[2]) else own).add(m[1])
            bound[p] |= {m[1] for m in LET.finditer(line)}
            for m in BINDER.finditer(line):
                bound[p] |= {w for w in m[1].split() if re.fullmatch(NAME, w)}
    own -= generated | library
    return own, own & fields, {p: names - own - library for p, names in bound.items()}


def respelt(name):
    if name in TAKEN:
        return name.replace("-", "_") + "_lem"
    if name[0].isupper():
        return "".join(w[0].upper() + w[1:] for w in name.split("-"))
    return name.replace("-", "_")


def turn(text, own, fields, bound, is_source):
    """The text with each name turned where it stands as a whole word, outside comments and strings. What stands behind a dot
    is a field: only one of a record that is defined here is turned, and none of the steps c, l and w of a proof."""

    def word(m):
        dot = m.start() > 0 and m.string[m.start() - 1] == "."
        if dot and (m[0] not in fields or re.search(r"(^|[\s(])[clw]\.$", m.string[: m.start()])):
            return m[0]
        return own.get(m[0]) or bound.get(m[0]) or m[0]

    out = []
    for line in text.split("\n"):
        body, rest = line, ""
        if is_source:
            m = re.match(r"^((?:[^\"/]|/(?!/)|\"(?:[^\"\\]|\\.)*\")*)(//.*)?$", line)
            body, rest = (m[1], m[2] or "") if m else (line, "")
        else:
            m = re.search(r"(^|\s)--(\s|$)", line)
            if m:
                body, rest = line[: m.start()], line[m.start() :]
        parts = re.split(r"(\"(?:[^\"\\]|\\.)*\")", body)
        parts = [t if t.startswith('"') else TOKEN.sub(word, t) for t in parts]
        out.append("".join(parts) + rest)
    return "\n".join(out)


def main(argv):
    antt = files("crates/*/specs/**/*.antt") + files("crates/*/proofs/**/*.antt")
    source = files("crates/*/src/**/*.rt")
    names, fields, locals_of = own_names(antt)
    own = {n: respelt(n) for n in names} | CAPITALS
    clashes, back = [], {}
    for old, to in own.items():
        back.setdefault(to, []).append(old)
    clashes += [f"{to}: {olds}" for to, olds in back.items() if len(olds) > 1]
    for p in antt + source:
        bound = {n: respelt(n) for n in locals_of.get(p, ())}
        words = set(TOKEN.findall("\n".join(code(x) for x in open(p, encoding="utf-8").read().split("\n"))))
        clashes += [f"{p}: {old} -> {to}, which stands there" for old, to in {**own, **bound}.items() if old in words and to in words]
    print(f"{len(own)} names, and {sum(map(len, locals_of.values()))} in one file alone")
    for c in clashes:
        print("clash: " + c)
    if "--dry" in argv:
        print(" ".join(sorted(own)))
        print("fields: " + " ".join(sorted(fields)))
        print({p: sorted(n) for p, n in locals_of.items() if n})
    if clashes or "--dry" in argv:
        return 1 if clashes else 0
    for p in antt + source:
        text = open(p, encoding="utf-8").read()
        to = turn(text, own, fields, {n: respelt(n) for n in locals_of.get(p, ())}, p.endswith(".rt"))
        if to != text:
            open(p, "w", encoding="utf-8").write(to)
    return 0


if __name__ == "__main__":
    sys.exit(main(sys.argv[1:]))
