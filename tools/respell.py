#!/usr/bin/env python3
"""Spells this repository's own definitions and lemmas as today's Rattle does: words in snake case, types and modules in camel case.

usage: tools/respell.py [--check]     at the top of the repository, after port.py

camelCase becomes snake_case; a dash stays where it joins two names, and is an underscore before a plain word. It rewrites .antt files, the clauses and
`ghost use` lines of .rt files, and must-fail edits. Functions, types, constants and strings of src/ keep their names. A line that begins 'meets:' names a
word whose new spelling stands in the same file already: such a name stays, everywhere. tools/respelled.tsv lists what changed.
"""

import collections
import os
import re
import sys

TOKEN = re.compile(r"(?<![\w'₀-₉-])([A-Za-z_][\w'₀-₉]*(?:-[\w'₀-₉]+)*)(?![\w'₀-₉]|-[\w])")
FREE = re.compile(r"(?<![\w'₀-₉.-])([A-Za-z_][\w'₀-₉]*(?:-[\w'₀-₉]+)*)(?![\w'₀-₉.]|-[\w])")
DECLARED = re.compile(r"^[ \t]*(?:(?:abbrev|unfoldable|opaque|pub|instance|field) )*((?:[A-Za-z_][\w'₀-₉-]* )*[A-Za-z_][\w'₀-₉-]*)(?: \{[^{}\n]*\}| \([^()\n]*\))* :(?= |$)", re.M)
CAMEL = re.compile(r"(?<=[a-z0-9])(?=[A-Z])|(?<=[A-Z])(?=[A-Z][a-z])")
# Lemmas whose names, as port.py spells them, a definition of the same words gets.
MADE_ROOM = {n: n + "_lem" for n in ("all_words", "block_words", "no_second", "none_below", "stands_at")} | {"read_answer": "answer_read"}
KEYWORDS = set("module where let in record data use pub mod abbrev unfoldable field if then else elim case with as".split())
# The words of std that a lemma's name may join by a dash.
STD = set("length take drop append map get_or filter replicate".split())
CLAUSES = re.compile(r"ghost use [^;]*;|\b(?:requires|ensures)\*?\s*\w*\s*\{|ghost \w+\s*:\s*\{|#!?\[tactic\([^\]]*\)\]")


def files(ending, *folders):
    for top, dirs, names in os.walk("crates"):
        dirs[:] = sorted(d for d in dirs if d != "out")
        for n in sorted(names):
            if n.endswith(ending):
                yield os.path.join(top, n)


def read(p):
    with open(p, encoding="utf-8") as f:
        return f.read()


def generated(path):
    """A function's proof folder: what it declares is named after the function's own steps."""
    return os.path.basename(path) in ("Proof.antt", "Answers.antt", "Invariants.antt")


def snake(part):
    return "_".join(w.lower() if len(w) > 1 and w.isupper() or w[:1].isupper() and i else w for i, w in enumerate(CAMEL.split(part)))


def main(argv):
    texts = {p: read(p) for p in files(".antt")}
    declared, spec_names = collections.defaultdict(set), set(STD)
    for p, t in texts.items():
        for m in DECLARED.finditer(re.sub(r"--[^\n]*", "", t)):
            for n in m[1].split():
                if n in KEYWORDS:
                    continue
                declared[n].add(p)
                if "/specs/" in p:
                    spec_names.add(n)
    spec_new = spec_names | {snake(n) for n in spec_names}
    rows = {}
    for n, places in sorted(declared.items()):
        if all(generated(p) for p in places) and "-" in n and not CAMEL.search(n):
            continue  # the name of a goal or of a step
        if n[0].isupper() and not n.startswith("P1") and "-" not in n:
            continue
        parts = n.split("-")
        new = snake(parts[0]) if not parts[0][0].isupper() else parts[0]
        for i, part in enumerate(parts[1:], 1):
            piece = snake(part) if not part[0].isupper() else part
            typed = parts[i - 1][0].isupper() and not re.fullmatch(r"P\d+", parts[i - 1])
            joins = typed or parts[i - 1] in STD and (part in STD or "_" in piece and (part in spec_new or piece in spec_new))
            new += ("-" if joins or generated(next(iter(places))) and len(places) == 1 else "_") + piece
        if new != n:
            rows[n] = new
    rows.update((n, new) for n, new in MADE_ROOM.items() if n in declared)
    # other names that `use .. as` gives, and two parameters
    for p in [*files(".rt"), *files(".antt")]:
        for n in re.findall(r" as ([a-z]+[A-Z][A-Za-z]*)(?=[,}])", read(p)):
            rows[n] = snake(n)
    rows |= {"machineTable": "machine_table", "graphTable": "graph_table"}
    # what would meet another name
    sources = {p: read(p) for p in files(".rt")}
    edits = {p: read(p) for p in files(".edit")}
    words = {p: set(FREE.findall(t)) for p, t in texts.items() if not generated(p)}
    # a lemma that would have its function's name gets '_lem'
    firsts = {new: n for n, new in rows.items() if "-" not in n}
    for n, new in rows.items():
        if "-" in n and (new in firsts or new in declared):
            rows[n] = new + "_lem"
    news = collections.defaultdict(set)
    for n, new in rows.items():
        news[new].add(n)
    stays = set()
    for n, new in list(rows.items()):
        if len(news[new]) > 1:
            print(f"meets: {n} -> {new}: {sorted(news[new])}")
            stays.add(n)
            continue
        for p, w in words.items():
            if n in w and new in w and new not in MADE_ROOM:
                print(f"meets: {n} -> {new}: {p}")
                stays.add(n)
    for n in stays:
        rows.pop(n, None)
    if "--check" in argv:
        print(len(rows), "names", len(stays), "stay")
        return 0

    def turn(t):
        return TOKEN.sub(lambda m: rows.get(m[1], m[1]), t)

    for p, t in texts.items():
        write(p, t, turn(t))
    for p, t in edits.items():
        write(p, t, turn(t))
    for p, t in sources.items():
        out, at = [], 0
        for m in CLAUSES.finditer(t):
            if m.start() < at:
                continue
            end = m.end()
            if m[0].endswith("{"):
                depth = 1
                while depth:
                    depth += {"{": 1, "}": -1}.get(t[end], 0)
                    end += 1
            out += [t[at : m.start()], turn(t[m.start() : end])]
            at = end
        write(p, t, "".join(out) + t[at:])
    with open("tools/respelled.tsv", "w", encoding="utf-8") as f:
        f.writelines(f"{n}\t{new}\n" for n, new in sorted(rows.items()))
    print(len(rows), "names", len(stays), "stay")
    return 0


def write(p, old, new):
    if old != new:
        with open(p, "w", encoding="utf-8") as f:
            f.write(new)


if __name__ == "__main__":
    sys.exit(main(sys.argv[1:]))
