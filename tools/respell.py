#!/usr/bin/env python3
"""Spells the repository's own definitions and lemmas as today's Rattle does: words in snake case, types in camel case.

usage: python3 tools/respell.py        at the top of the repository, once, after the kit's port.py and before any edit by hand

Turned are the names that a file of specs/ or proofs/ declares (definitions, lemmas, types, their constructors and fields), wherever a
file of specs/, proofs/ or src/ names them, and in the code spans of README.md and docs/. Left as they are: functions, fields and
labels of src/, what Rattle generates (the goals of a function and the steps of its proof), strings, comments, and the names of the
libraries. A name whose new spelling something else in one of its files has already is not turned; it is printed.
"""

import os
import re
import sys
from collections import defaultdict

NAME = r"[^\s(){}.;,@\"«»]+"
WORDS = "abbrev|unfoldable|pub|record|data|inductive|private"
DECLARES = re.compile(rf"^\s*((?:(?:{WORDS}) )*)((?:{NAME} )*?{NAME})((?: \{{[^{{}}\n]*\}}| \([^()\n]*(?:\([^()\n]*\)[^()\n]*)*\))*) :", re.M)
USE = re.compile(r"\buse (Rattle\.(\w+)\.[^\s;{]+)\.\{([^}]*)\}")
TOKEN = re.compile(NAME)
# Names whose plain spelling another name has, or would hide a word of theirs.
CHOSEN = {
    "bit-or": "bit_of_or",
    "swapOut": "filled_by_last",
    "nodesOf": "node_count",
    "getD-from-drop": "get_or_from_drop",
    "getD-from-take": "get_or_from_take",
    "sofar-getD": "so_far_get_or",
}
GENERATED = {"goal", "c", "l", "w", "g"}
LABEL = re.compile(r"\b(?:requires\*?|ensures\*?) +(\w+) *\{|\bghost (\w+):|\bfn (\w+)|\b(\w+):(?!:)|\bconst (\w+)")


def files(ends):
    for top, dirs, names in os.walk("crates"):
        dirs[:] = sorted(d for d in dirs if d != "out")
        for name in sorted(names):
            if name.endswith(ends):
                yield os.path.join(top, name)


def split(text, path):
    """The text in pieces (piece, whether names in it are turned): comments and strings are not, and of a .rt file only clauses and ghost lines are."""
    out, at = [], 0
    comment = r"--(?=[ \n]).*" if path.endswith(".antt") else r"//.*"
    for m in re.finditer(rf"{comment}|\"(?:[^\"\\\n]|\\.)*\"", text):
        out += [(text[at : m.start()], True), (m[0], False)]
        at = m.end()
    out.append((text[at:], True))
    return out


def respelled(name):
    if name in CHOSEN:
        return CHOSEN[name]
    parts = re.sub(r"(?<=[a-z0-9])(?=[A-Z][a-z])", "-", name).split("-")
    if name[0].isupper() and len(parts[0]) > 1:
        return "".join(p[:1].upper() + p[1:] for p in parts)
    return "_".join(p[:1].lower() + p[1:] if i and p[1:2].islower() else p for i, p in enumerate(parts))


def own(path):
    return not re.search(r"/proofs/.*(Answers|Invariants|Choices)\.antt$", path)


def main():
    if not os.path.isdir("crates"):
        sys.exit("run it at the top of the repository")
    crates = {d for d in os.listdir("crates")}
    texts = {p: open(p, encoding="utf-8").read() for p in files((".antt", ".rt"))}
    code = {p: "".join(piece if turn else " " for piece, turn in split(t, p)) for p, t in texts.items()}
    declared, where = set(), defaultdict(set)
    for p, t in code.items():
        if not p.endswith(".antt"):
            continue
        for _, names, _ in DECLARES.findall(t):
            for name in names.split():
                if ":" not in name and re.match(r"[A-Za-z]", name) and respelled(name) != name:
                    if own(p) or not re.search(rf"\b{re.escape(name)} : goal\.", t):
                        declared.add(name)
                        where[name].add(p)
    for p, t in code.items():
        for name in re.findall(rf"\buse [^;\n]*?\b{NAME} as ({NAME})", t):
            if "-" in name and "." not in name:
                declared.add(name)
    labels = {x for p, t in code.items() if p.endswith(".rt") for m in LABEL.findall(t) for x in m if x}
    foreign = defaultdict(set)
    for p, t in code.items():
        for _, crate, names in USE.findall(t):
            if crate not in crates:
                foreign[p].update(TOKEN.findall(names.replace(",", " ")))
    # the folder of a function in a path is no name of the file
    tokens = {p: set(TOKEN.findall(re.sub(r"\buse Rattle\.[^\s;{]+", " ", t))) for p, t in code.items()}
    turned, left = {}, []
    for name in sorted(declared):
        new = respelled(name)
        users = [p for p in code if name in tokens[p] and name not in foreign[p]]
        clash = [p for p in users if new in tokens[p] and p.endswith(".antt")]
        twin = [o for o in declared if o != name and respelled(o) == new]
        if clash or twin or new in labels and "-" not in name:
            left.append((name, new, clash[:3], twin))
        else:
            turned[name] = new

    def one(p):
        def turn(m):
            name = m[0]
            if name not in turned or name in foreign[p]:
                return name
            before = m.string[: m.start()]
            if not own(p):
                head = re.search(rf"({NAME})\.$", before)
                if head and head[1] in GENERATED or re.match(rf"\s*: goal\.", m.string[m.end() :]):
                    return name
            return turned[name]

        return turn

    for p, t in texts.items():
        new = "".join(TOKEN.sub(one(p), piece) if turn else piece for piece, turn in split(t, p))
        if new != t:
            with open(p, "w", encoding="utf-8") as f:
                f.write(new)
    pages = ["README.md"] + [os.path.join("docs", d) for d in sorted(os.listdir("docs")) if d.endswith(".md")]
    for p in pages:
        t = open(p, encoding="utf-8").read()
        new = re.sub(r"`[^`\n]+`", lambda m: re.sub(rf"[^\s(){{}}.;,@\"«»`]+", lambda k: turned.get(k[0], k[0]) if "-" in k[0] else k[0], m[0]), t)
        if new != t:
            with open(p, "w", encoding="utf-8") as f:
                f.write(new)
    for name, new, clash, twin in left:
        print(f"left: {name} (for {new}): {', '.join(clash + twin) or 'a label or function of src/'}")
    print(f"respell: {len(turned)} names turned, {len(left)} left")


main()
