#!/usr/bin/env python3
"""Where the time of a crate's check goes: python3 tools/check_times.py CRATE

Proves the crate, then empties out/incremental, in which the prover saves each module when it is done, and checks the crate again by one
process. It prints the seconds before each module by function and by part: Lts is what the prover makes of the code, Answers and
Invariants are proof files, and Proof is what the prover makes of them. Let nothing else run in the crate's folder meanwhile.
"""
import collections
import pathlib
import shutil
import subprocess
import sys
import time

ROOT = pathlib.Path(__file__).resolve().parent.parent
PARTS = ("Lts", "Proof", "Answers", "Invariants", "Tie", "Reads")


def check(crate, *flags):
    done = subprocess.run(["rt", "check", *flags], cwd=ROOT / "crates" / crate, stdout=subprocess.DEVNULL, stderr=subprocess.DEVNULL)
    if done.returncode != 0:
        sys.exit(f"rt check in crates/{crate} fails: see what it says")


def saved(crate):
    """The modules with the seconds that passed before each was saved, in order."""
    # over what was proved here rt begins with this folder, even an empty one, and with no other checkout's
    check(crate)
    folder = ROOT / "crates" / crate / "out/incremental"
    shutil.rmtree(folder, ignore_errors=True)
    folder.mkdir()
    last = time.time()
    check(crate, "--jobs", "1")
    for file in sorted(folder.glob("*/*.oantt"), key=lambda file: file.stat().st_mtime_ns):
        at = file.stat().st_mtime_ns / 1e9
        yield file.stem, at - last
        last = at


def main():
    if len(sys.argv) != 2 or not (ROOT / "crates" / sys.argv[1]).is_dir():
        sys.exit(__doc__)
    by_part, by_function = collections.Counter(), collections.Counter()
    for module, seconds in saved(sys.argv[1]):
        above, _, last = module.rpartition(".")
        by_part[last if last in PARTS else "others"] += seconds
        by_function[above.partition(".")[2] or "start"] += seconds
    print(f"{sum(by_part.values()):.1f} s: " + ", ".join(f"{part} {seconds:.1f}" for part, seconds in by_part.most_common()))
    for function, seconds in by_function.most_common(12):
        print(f"{seconds:6.1f}  {function}")


main()
