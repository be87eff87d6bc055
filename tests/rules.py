#!/usr/bin/env python3
"""House rules that no prover checks: what each public function promises, sizes, head comments, that the check tries its tactics."""
import pathlib
import re
import sys

ROOT = pathlib.Path(__file__).resolve().parent.parent
LONGEST = 40
faults = []


def functions(path):
    """(name, public, clauses, lines) of each function of a Rattle file."""
    lines = path.read_text().splitlines()
    for start, line in enumerate(lines):
        head = re.match(r'(\s*)(?:#\[.*\]\s*)?(?:(pub )|pub\([^)]*\) )?(?:(?:const|unsafe|extern "C") )*fn (\w+)', line)
        if not head:
            continue
        indent = head.group(1)
        end = next(i for i in range(start, len(lines)) if lines[i] == indent + "}")
        # the body's brace has a line of its own where there are clauses
        body = next((i for i in range(start, end) if lines[i] == indent + "{"), start)
        yield head.group(3), bool(head.group(2)), "\n".join(lines[start : body + 1]), end - start + 1


def check_source(path):
    text = path.read_text()
    name = path.relative_to(ROOT)
    if not text.startswith("//"):
        faults.append(f"{name}: no head comment")
    for function, public, clauses, size in functions(path):
        if size > LONGEST:
            faults.append(f"{name}: {function} has {size} lines, more than {LONGEST}")
        if public and re.search(r"^\s*requires", clauses, re.M):
            faults.append(f"{name}: {function} is public and has a requires")
        if public and not re.search(r"^\s*ensures", clauses, re.M):
            faults.append(f"{name}: {function} is public and promises nothing")


def check_specs(path):
    """Every definition that others may name has a comment above it."""
    name = path.relative_to(ROOT)
    before = ""
    for line in path.read_text().splitlines():
        named = re.match(r"\s*(?:unfoldable |abbrev |opaque )*pub (?!mod |use )(?:record |data )?(\S+)(?: |$)", line)
        if named and not line.startswith(" ") and not before.startswith("--") and before != "":
            faults.append(f"{name}: {named.group(1)} has no comment above it")
        if re.match(r"(?:\w+ )*axiom ", line):
            faults.append(f"{name}: an axiom")
        before = line


def main():
    # a static library has a word more before the colon
    crates = [c.split(":")[0].split()[0] for c in (ROOT / "crates.txt").read_text().splitlines() if c and c[0] != "#"]
    for crate in crates:
        folder = ROOT / "crates" / crate
        for root in (folder / "src/lib.rt", folder / "src/main.rt"):
            if root.exists() and "#![tactic(auto)]" not in root.read_text().splitlines():
                faults.append(f"{root.relative_to(ROOT)}: no line #![tactic(auto)]")
        for path in sorted(folder.glob("src/**/*.rt")):
            check_source(path)
        for path in sorted(folder.glob("specs/**/*.antt")):
            check_specs(path)
        if (folder / "src/lib.rt").exists() and not list(folder.glob("must-fail/*.edit")):
            faults.append(f"crates/{crate}: a library with no must-fail edit")
    for fault in faults:
        print("rule broken:", fault)
    print(f"house rules: {len(crates)} crates read, {len(faults)} faults")
    sys.exit(1 if faults else 0)


main()
