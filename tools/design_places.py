#!/usr/bin/env python3
"""Lists the places of older forms in the sources, by point; docs/DESIGN-PASS.md says what became of each.

    python3 tools/design_places.py          how many of each point in each crate
    python3 tools/design_places.py POINT    the places of one point, 1 to 8

A place here is a place to look at: the page says which of them had an older form, which were changed, and why the others
stand.
"""
import collections
import glob
import itertools
import os
import re
import sys

ROOT = os.path.join(os.path.dirname(os.path.abspath(__file__)), "..")

# what a line has to match to be a place of a point
LINES = {
    # own enums; a flag among parameters, fields or results
    1: r"^\s*(pub(\(crate\))? )?enum |\b\w+: bool\b|-> bool\b",
    # loops over a range, and loops with a condition
    3: r"^\s*('\w+: )?(for \w+ in [^{]*\.\.[^{]*|while [^{]*|loop )\{",
    # equality, order, copying, conversion and printing
    4: r"^\s*impl(<[^{]*>)? (fmt::)?(PartialEq|Eq|PartialOrd|Ord|Hash|Clone|Copy|Default|Debug|Display) for "
       r"|^\s*(pub(\(crate\))? )?fn (from|to|into|as)_\w+|^\s*pub fn (bytes|bits)\(|^\s*pub fn new\(.*-> Result",
    # an index into a slice, written out
    6: r"\b(?!b')[a-z_]\w*(\.\w+)*\[[^\]#;]+\](?!\))",
    # a flag that says which way to go; a function or closure as a value
    7: r"\bif (full|on|wanted)\b|\bfn\(|\bdyn ",
}


def sources():
    for path in sorted(glob.glob(os.path.join(ROOT, "crates/*/src/**/*.rt"), recursive=True)):
        yield os.path.relpath(path, ROOT), open(path).read()


def crate_of(path):
    return path.split("/")[1]


def code(line):
    return line.split("//")[0]


def by_lines(point):
    for path, text in sources():
        for number, line in enumerate(text.split("\n"), 1):
            if line.lstrip().startswith(("ghost", "requires", "ensures", "#[", "use ", "//")):
                continue
            if re.search(LINES[point], code(line)):
                yield crate_of(path), f"{path}:{number}: {line.strip()}"


def functions(text):
    """Each function's name, parameters and clauses."""
    for m in re.finditer(r"\bfn (\w+)(?:<[^(]*>)?\(", text):
        depth, at = 1, m.end()
        while depth:
            depth += {"(": 1, ")": -1}.get(text[at], 0)
            at += 1
        params = re.split(r",(?![^<\[(]*[>\])])", text[m.end():at - 1])
        clauses = []
        for line in text[at:].split("\n")[1:]:
            if not re.match(r"\s*(requires|ensures)\b", line):
                break
            clauses.append(line.strip())
        yield m.group(1), [" ".join(p.split()) for p in params if ":" in p], clauses


def twins():
    """Functions of one crate with the same parameters' types and clauses of one shape."""
    seen = collections.defaultdict(list)
    for path, text in sources():
        for name, params, clauses in functions(text):
            if not clauses:
                continue
            shape = re.sub(r"\b\w+\b", "w", " ".join(clauses))
            types = tuple(re.sub(r"\w+", "w", p) for p in params)
            seen[(crate_of(path), types, shape)].append(f"{path}: {name}")
    for (crate, _, _), places in sorted(seen.items()):
        if len(places) > 1 and len("".join(places)) > 0:
            yield crate, " ~ ".join(places)


def repeated():
    """Facts that three or more functions of a crate require, and parameters that three or more of them take together."""
    facts = collections.defaultdict(set)
    together = collections.defaultdict(set)
    for path, text in sources():
        crate = crate_of(path)
        for name, params, clauses in functions(text):
            where = f"{path}: {name}"
            for clause in clauses:
                m = re.match(r"requires\s+(?:\w+\s+)?\{(.*)\}", clause)
                if m:
                    facts[(crate, m.group(1).strip())].add(where)
            named = sorted(p for p in params if not p.startswith(("heap:", "rt:")))
            for size in range(2, 6):
                for some in itertools.combinations(named, size):
                    together[(crate, some)].add(where)
    for (crate, fact), places in sorted(facts.items()):
        if len(places) >= 3:
            yield crate, f"{fact}: {len(places)} functions"
    often = {key: places for key, places in together.items() if len(places) >= 3}
    for (crate, some), places in sorted(often.items()):
        larger = [o for (c, o), p in often.items() if c == crate and set(o) > set(some) and len(p) == len(places)]
        if not larger:
            yield crate, f"({', '.join(some)}): {len(places)} functions"


def answers():
    for path in sorted(glob.glob(os.path.join(ROOT, "crates/*/proofs/**/Answers.antt"), recursive=True)):
        path = os.path.relpath(path, ROOT)
        for line in open(os.path.join(ROOT, path)):
            m = re.match(r"pub ([\w-]+) : goal", line)
            if m:
                yield crate_of(path), f"{path}: {m.group(1)}"


def places(point):
    if point == 2:
        return list(twins())
    if point == 5:
        return list(repeated())
    if point == 8:
        return list(answers())
    return list(by_lines(point))


def main():
    if len(sys.argv) > 1:
        point = int(sys.argv[1])
        for crate, place in places(point):
            print(f"{crate}: {place}" if point in (2, 5) else place)
        return
    for point in range(1, 9):
        counted = collections.Counter(crate for crate, _ in places(point))
        print(f"{point}: {sum(counted.values())}  " + "  ".join(f"{c} {k}" for c, k in sorted(counted.items())))


main()
