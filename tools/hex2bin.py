#!/usr/bin/env python3
"""hex2bin.py [FILE]: hex text with comments as bytes on standard output; without a FILE, or for -, of standard input.

Two digits a byte, spaces and line breaks anywhere between bytes, and a comment from # to the end of its line."""
import re
import sys


def text_of(name):
    # a comment may hold any bytes
    with open(name, "rb") if name != "-" else sys.stdin.buffer as file:
        return file.read().decode("latin-1")


def main():
    if sys.argv[1:] in (["-h"], ["--help"]):
        print(__doc__)
        return
    if len(sys.argv) > 2:
        sys.exit("hex2bin: one FILE at most; --help says more")
    try:
        lines = text_of(sys.argv[1] if len(sys.argv) > 1 else "-").split("\n")
    except OSError as error:
        sys.exit(f"hex2bin: {error.filename}: {error.strerror}")
    for number, line in enumerate(lines, 1):
        for word in line.split("#")[0].split():
            if not re.fullmatch(r"([0-9A-Fa-f]{2})+", word):
                sys.exit(f"hex2bin: line {number}: {word!r} is not pairs of hex digits")
            sys.stdout.buffer.write(bytes.fromhex(word))


main()
