#!/usr/bin/env python3
"""Brings this repository's own names to today's spelling, once, after port.py.

usage: python3 tools/respell.py [ROOT]      rewrites crates/ in place; prints each name that would have met another

- A word in lower camel case, as `toBlocks`, becomes snake case, `to_blocks`: definitions, fields and variables of .antt
  files, and the same words in the clauses and comments of .rt files and in must-fail edits. Functions of src/ are in snake case already.
- A lemma's name has `_` where it had `-`, as `codes_as_said`. Names that Rattle makes (`loop-i-init`) keep theirs: they stand in proofs of
  functions (proofs/F/), behind a dot, or in a folder of src/.
- A name that would meet another one gets `_lem`; a record's field does not, since it stands behind a dot.
"""

import glob
import os
import re
import sys

CAMEL = re.compile(r"(?<![A-Za-z0-9_])[a-z][a-z0-9]*(?:[A-Z][a-z0-9]*)+(?![A-Za-z0-9_])")
WORD = re.compile(r"[A-Za-z_μ+][A-Za-z0-9_'₀-₉-]*")
HEAD = re.compile(r"^ *(?:(?:abbrev|unfoldable|pub|let) )*([a-z][A-Za-z0-9_'-]*) ?(?:[({].*)?:")
ALONE = re.compile(r"^ *(?:pub )?([a-z][A-Za-z0-9_'-]*)$")
KEEP = {"use", "mod", "module", "where", "unfolding", "let", "in", "open", "ruleset", "pub"}


def snake(word):
    return re.sub(r"(?<=[a-z0-9])([A-Z]+)", lambda m: "_" + m.group(1).lower(), word)


def files(root):
    found = []
    for kind in ("specs/**/*.antt", "proofs/**/*.antt", "src/**/*.rt", "must-fail/*.edit"):
        found += glob.glob(os.path.join(root, "crates", "*", kind), recursive=True)
    return sorted(found)


def is_function_proof(path):
    return "/proofs/" in path and path.count("/", path.rindex("/proofs/")) > 2


def main():
    root = sys.argv[1] if len(sys.argv) > 1 else "."
    texts = {p: open(p, encoding="utf-8").read() for p in files(root)}
    antt = {p: t for p, t in texts.items() if p.endswith(".antt")}
    words = set()
    for t in antt.values():
        code = "\n".join(l.split("-- ")[0] if "-- " in l else l for l in t.split("\n"))
        words |= set(WORD.findall(code))
    camel = {}
    for t in texts.values():
        for w in CAMEL.findall(t):
            camel[w] = snake(w)
    for w, s in sorted(camel.items()):
        if s in words:
            print(f"meets: {w} and {s}")
    library = set()
    for t in antt.values():
        for module, names in re.findall(r"(?m)^use (\S+)\.\{(.*)\}", t):
            if not re.match(r"Rattle\.(?!std\b|core\b)", module):
                library |= set(WORD.findall(names))
    lemmas = {}
    for p, t in antt.items():
        if os.path.basename(p) == "Proof.antt":
            continue
        lines = t.split("\n")
        for l, below in zip(lines, lines[1:] + [""]):
            m = HEAD.match(l) or (ALONE.match(l) if re.match(r"^ *: ", below) else None)
            if m and "-" in m.group(1) and m.group(1) not in KEEP | library:
                lemmas[m.group(1)] = None
    fields = set()
    for p, t in antt.items():
        if os.path.basename(p) == "Proof.antt":
            continue
        fields |= {w for w in re.findall(r"\.([a-z][A-Za-z0-9_]*(?:-[A-Za-z0-9_]+)+)", t) if w in lemmas}
    taken = {camel.get(w, w) for w in words if "-" not in w} | set(camel.values())
    for w in sorted(lemmas):
        s = "_".join(snake(x) for x in w.split("-"))
        if s in taken and w in fields:
            print(f"field: {w} is beside {s}")
        elif s in taken:
            print(f"lem: {w} would meet {s}")
            s += "_lem"
        taken.add(s)
        lemmas[w] = s
    if len(set(lemmas.values())) != len(lemmas):
        raise SystemExit("two lemmas meet")
    dotted = re.compile(r"(?<=\.)[a-z][A-Za-z0-9_]*(?:-[A-Za-z0-9_]+)+(?![\w'₀-₉-])")
    word = re.compile(r"(?<![\w.'₀-₉-])[a-z][A-Za-z0-9_]*(?:-[A-Za-z0-9_]+)+(?![\w'₀-₉-])")

    def lemma(m):
        return lemmas.get(m.group(0)) or m.group(0)

    for p, t in texts.items():
        new = t
        if p.endswith(".antt") or p.endswith(".edit"):
            new = word.sub(lemma, new)
            new = dotted.sub(lambda m: lemmas[m.group(0)] if m.group(0) in fields else m.group(0), new)
        new = CAMEL.sub(lambda m: camel[m.group(0)], new)
        if new != t:
            with open(p, "w", encoding="utf-8") as f:
                f.write(new)
    print(f"camel: {len(camel)} words; lemmas: {len(lemmas)} names")


main()
