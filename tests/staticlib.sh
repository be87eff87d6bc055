#!/usr/bin/env bash
# staticlib.sh [CRATE]: the archive that C and Rust link, target/staticlib/libCRATE.a, made again where a source is newer. CRATE is board,
# ipmiboard or kcsboard; board without one. The exports are those of the thin static library over it, crates/CRATE_c, which `rt lib`
# builds over the proofs that rt check and rt lib kept. Quiet unless it fails.
set -euo pipefail
cd "$(dirname "$0")/.."
crate=${1:-board}
archive=target/staticlib/lib$crate.a log=target/staticlib-$crate.log
# crates/NAME/out is rt's own
if [ -e "$archive" ] && [ -z "$(find crates crates.txt -path 'crates/*/out' ! -path 'crates/*/*/out' -prune -o -type f -newer "$archive" -print -quit)" ]; then
    exit 0
fi
mkdir -p target/staticlib
(cd "crates/${crate}_c" && rt lib) > "$log" 2>&1 || { tail -n 40 "$log"; exit 1; }
cp "crates/${crate}_c/out/lib${crate}_c.a" "$archive"
