#!/bin/sh
# Runs the bench program on hex text, and proves and builds it first where a source is newer: see usage below.
set -eu
here=$(cd "$(dirname "$0")/.." && pwd)
program=$here/target/bin/bench
# where rt run and rt ci leave it
made=$here/crates/bench/out/bench
log=$here/target/bench.log

usage() {
    cat << 'END'
usage: tools/bench.sh [FILE]     runs the bench program on the hex text in FILE; without a FILE, or for -, on standard input
       tools/bench.sh --build    only proves and builds the program, where a source is newer
       tools/bench.sh --help     prints this

Hex text: two digits a byte, spaces and line breaks anywhere between bytes, and a comment from # to the end of its line.
examples/first.hex is an input to start from; docs/PROTOCOL.md has the records. What the program prints goes to standard
output, everything else to standard error.

The first run proves the program, some minutes from nothing, unless rt ci has just built it; later ones prove only what has changed.
END
}

refuse() {
    printf 'bench.sh: %s\n' "$1" >&2
    exit 2
}

# No source is newer than this program. crates/NAME/out is rt's own.
is_current() {
    [ -x "$1" ] && [ -z "$(find "$here/crates" "$here/crates.txt" -path "$here/crates/*/out" ! -path "$here/crates/*/*/out" -prune -o -type f -newer "$1" -print | head -n 1)" ]
}

# Proves and builds. The log has all that rt prints; its own lines and one for each crate are shown as they come. rt run also runs the program, on nothing.
build() {
    command -v rt > /dev/null || refuse "rt, the Rattle toolchain, is not in PATH"
    mkdir -p "$here/target"
    echo "bench.sh: proving and building the bench program first, some minutes from nothing; the log is $log" >&2
    # a pipe has the status of its last command, so rt's is kept in a file
    { (cd "$here/crates/bench" && rt run < /dev/null 2>&1 > /dev/null) && echo 0 > "$status" || echo 1 > "$status"; } | tee "$log" | while IFS= read -r line; do
        case $line in
        "rt: "* | "crate "*) printf '%s\n' "$line" >&2 ;;
        esac
    done
    if [ "$(cat "$status")" != 0 ]; then
        tail -n 40 "$log" >&2
        exit 1
    fi
}

# Has the program at its place.
provide() {
    is_current "$made" || build
    mkdir -p "$(dirname "$program")"
    cp "$made" "$program"
}

[ $# -le 1 ] || refuse "one FILE at most; --help says more"
case ${1:-} in
-h | --help)
    usage
    exit 0
    ;;
- | --build) ;;
-*) refuse "unknown option $1; --help says more" ;;
esac

bytes=$(mktemp)
status=$(mktemp)
trap 'rm -f "$bytes" "$status"' EXIT
trap 'exit 1' HUP INT TERM
if [ "${1:-}" != --build ]; then
    # the whole input, before anything is built
    if [ "${1:--}" = - ] && [ -t 0 ]; then
        echo "bench.sh: reading hex text from standard input, up to its end (Ctrl-D)" >&2
    fi
    python3 "$here/tools/hex2bin.py" "$@" > "$bytes"
fi
is_current "$program" || provide
if [ "${1:-}" != --build ]; then
    "$program" < "$bytes"
fi
