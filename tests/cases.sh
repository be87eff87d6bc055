#!/usr/bin/env bash
# The cases of tests/compare/src/bin/cases.rs, message_cases.rs and kcs_cases.rs, run on the proved libraries and compared with tests/cases/NAME.txt.
#     tests/cases.sh          compares
#     tests/cases.sh second   writes what the second implementation prints there, to be read against 01 and 02 before it is kept
set -euo pipefail
cd "$(dirname "$0")/.."
bash tests/staticlib.sh board
bash tests/staticlib.sh ipmiboard
bash tests/staticlib.sh kcsboard
cargo build --release --offline --quiet --manifest-path tests/compare/Cargo.toml --target-dir target/cargo
side=${1:-ours}

# NAME COMMAND..: what the command prints, as stored
is_as_stored() {
    local name=$1 stored=tests/cases/$1.txt
    shift
    if [ "$side" = second ]; then
        bash tests/limit.sh 60 "$@" > "$stored"
        return
    fi
    bash tests/limit.sh 60 "$@" > "target/$name.txt"
    diff -u "$stored" "target/$name.txt"
    echo "cases: $name, $(wc -l < "$stored") lines as stored"
}

for section in refusals edges flags unsound suspensions events cuts pending lists full largest worn; do
    is_as_stored $section target/cargo/release/cases "$side" $section
done
is_as_stored messages target/cargo/release/message_cases "$side"
is_as_stored kcs target/cargo/release/kcs_cases "$side"
