#!/usr/bin/env bash
# tools/bench.sh: what it refuses before it builds anything, what it shows while it builds, and that it prints what README.md says of
# examples/first.hex. Up to the last part it runs in a room of its own, with an rt that only writes down that it was called, and leaves a program as
# `rt run` does: that one writes the lines of rt on standard error, and runs the program.
set -euo pipefail
cd "$(dirname "$0")/.."
room=$(mktemp -d)
trap 'rm -rf "$room"' EXIT
mkdir -p "$room/crates/bench" "$room/path"
cp -r tools "$room"
touch "$room/crates.txt"
cat > "$room/path/rt" << 'END'
#!/bin/sh
echo "$(basename "$PWD") $*" >> ../../called
echo "rt: chose --jobs 2 for units" >&2
echo "crate units: modules loaded=0 checked=95" >&2
echo "a line for the log" >&2
[ ! -e ../../fails ] || exit 1
mkdir -p out
printf '#!/bin/sh\necho "$(wc -c) bytes"\n' > out/bench
chmod +x out/bench
out/bench
END
chmod +x "$room/path/rt"

fail() {
    echo "bench.sh: $1"
    cat "$room/out" "$room/err"
    exit 1
}

# runs it with these arguments and this input, and wants this status and this line on one of the outputs
wants() {
    local status=$1 line=$2 input=$3 got=0
    shift 3
    (cd "$room" && printf '%s' "$input" | PATH=$room/path:$PATH timeout 60 sh tools/bench.sh "$@") > "$room/out" 2> "$room/err" || got=$?
    [ "$got" = "$status" ] || fail "status $got, not $status, for: $*"
    grep -qF -e "$line" "$room/out" "$room/err" || fail "no line '$line' for: $*"
}

wants 1 'no.hex: No such file' '' no.hex
wants 1 'Is a directory' '' crates
wants 1 "line 2: '0g' is not pairs of hex digits" $'00 01\n0g' -
wants 2 'unknown option --biuld' '' --biuld
wants 2 'one FILE at most' '' a b
wants 0 'usage: tools/bench.sh [FILE]' '' --help
[ ! -e "$room/called" ] || fail "it built before it looked at its argument"
touch "$room/fails"
wants 1 'a line for the log' '00 00'
rm "$room/fails"
wants 0 'crate units: modules loaded=0 checked=95' '' --build
[ ! -s "$room/out" ] || fail "the run that builds it is printed"
grep -q 'a line for the log' "$room/target/bench.log" || fail "the log is not whole"
touch "$room/crates/bench/out/stdout"
wants 0 '4 bytes' $'00 01 # 02\n0304' -
rm "$room/target/bin/bench"
wants 0 '4 bytes' $'00 01 # 02\n0304' -
[ "$(cat "$room/called")" = $'bench run\nbench run' ] || fail "it built again where nothing had changed"
touch "$room/crates/bench/source"
wants 0 '4 bytes' $'00 01 # 02\n0304' -
[ "$(wc -l < "$room/called")" = 3 ] || fail "it did not build again where a source had changed"

bash tests/limit.sh 900 sh tools/bench.sh examples/first.hex > "$room/out" 2> "$room/err" || fail "examples/first.hex"
sed -n 's/^    \(\([0-9A-F][0-9A-F] \)\{15\}[0-9A-F][0-9A-F]\)$/\1/p; s/^    \(flash [0-9 ]*\)$/\1/p' README.md | diff -u - "$room/out"
echo "bench.sh: refusals, build and README.md's first session as expected"
