#!/usr/bin/env python3
"""Spells the repository's own definitions and lemmas in snake case, as today's Rattle does: `drawWithIn` becomes `draw_with_in`.

usage: python3 tools/port/snake_names.py [--list]      at the top of a repository that port.py has turned

Only names that a file of specs/ or proofs/ defines are turned: definitions, lemmas, fields and constructors that begin with a small letter. Types, modules and
facts keep their capitals. A part of a lemma's name between dashes is turned like a name, and a public field of a record has no dash: `larnt-draw` becomes
`larnt_draw` unless another name is spelled so already. --list prints the old and new names and writes nothing.
"""
import glob
import os
import re
import sys

# lemmas and local names that would fall together with a definition's new name, by the end of the file's path
BEFORE = [
    ("tree_nodes/proofs/Nodes.antt", "node_at", "node_at_lem"),
    ("tree_build/proofs/BuiltTree.antt", "node_at", "node_at_lem"),
    ("tree_walk/proofs/Layouts.antt", "node_at", "node_at_lem"),
    ("tree_trust/proofs/Looking.antt", "is_leaf", "is_leaf_lem"),
    ("tree_trust/proofs/uncut/Proof.antt", "is_cut", "cut_of"),
]

HEAD = re.compile(r"^(?:unfoldable |abbrev |opaque |inductive |irreducible )*(?:pub )?(?:record |data )?([^\s:(){}]+) *(?:[(:{]|$)")
USED = re.compile(r"^use (\w+\.?\w*)[\w.+]*\.\{([^}]*)\}", re.M)
PUBLIC = re.compile(r"^  pub ([a-z][\w'\-]*) :(?: |$)")
FIELD = re.compile(r"^\s+(?:pub )?([a-z][\w'\-→₁₂]*)(?: [a-z][\w']*)* :(?: |$)")
TOKEN = re.compile(r"[A-Za-z_ℕℤ][\w'\-→₁₂≤ℕℤ]*")
WORDS = {"use", "unfolding", "mod", "record", "data", "let", "in", "elim"}


def turned(name):
    parts = re.split(r"([-→])", name)
    out = []
    for p in parts:
        if re.match(r"[a-z][\w']*$", p) and re.search(r"[a-z0-9][A-Z]|[A-Z]$|[a-z][A-Z]", p):
            p = re.sub(r"(?<=[a-z0-9'])([A-Z]+)(?=$|[0-9']|[A-Z][a-z])", lambda m: "_" + m[1].lower(), p)
            p = re.sub(r"(?<=[a-z0-9'])([A-Z])", lambda m: "_" + m[1].lower(), p)
            p = re.sub(r"([A-Z])", lambda m: m[1].lower(), p)
        out.append(p)
    return "".join(out)


def files(root):
    for f in sorted(glob.glob(os.path.join(root, "crates/**/*"), recursive=True)):
        if "/out/" not in f and f.endswith((".antt", ".rt", ".edit")):
            yield f


def main(argv):
    root = "."
    texts = {f: open(f, encoding="utf-8").read() for f in files(root)}
    for end, old, new in BEFORE:
        for f in texts:
            if f.endswith(end):
                texts[f] = re.sub(r"(?<![\w'.\-])" + old + r"(?![\w'\-])", new, texts[f])
    own, dashed, seen, kit = set(), set(), set(), set()
    crates = {"Rattle." + c for c in os.listdir(os.path.join(root, "crates"))}
    for f, t in texts.items():
        if f.endswith(".antt"):
            for line in t.split("\n"):
                for r in (HEAD, FIELD):
                    m = r.match(line)
                    if m and m[1] not in WORDS:
                        own.add(m[1])
                m = PUBLIC.match(line)
                if m and "-" in m[1] and "/specs/" in f:
                    dashed.add(m[1])
            kit.update(n for lib, list in USED.findall(t) if lib not in crates for n in TOKEN.findall(list))
        seen |= set(TOKEN.findall(t))
    table = {n: turned(n) for n in sorted(own) if re.match(r"[a-z]", n) and turned(n) != n and n not in kit}
    taken = set(table.values()) | seen
    table.update({n: turned(n).replace("-", "_") for n in dashed - kit if turned(n).replace("-", "_") not in taken})
    again = {}
    for n, m in table.items():
        again.setdefault(m, []).append(n)
    for n, m in sorted(table.items()):
        bad = []
        if len(again[m]) > 1:
            bad.append("two become one: " + " ".join(again[m]))
        if m in seen:
            bad.append("stands already")
        if "--list" in argv or bad:
            print(n, m, "; ".join(bad))
    if "--list" in argv:
        return 0
    for f, t in texts.items():
        with open(f, "w", encoding="utf-8") as out:
            out.write(TOKEN.sub(lambda m: table.get(m[0], m[0]), t))
    return 0


if __name__ == "__main__":
    raise SystemExit(main(sys.argv[1:]))
