#!/usr/bin/env bash
# Prints the tables of docs/PERFORMANCE.md: times as ratios of one run, and bytes of stack.
set -euo pipefail
cd "$(dirname "$0")/.."
bash tests/staticlib.sh board
bash tests/staticlib.sh ipmiboard
bash tests/staticlib.sh kcsboard
cargo build --release --offline --quiet --manifest-path tests/compare/Cargo.toml --target-dir target/cargo
target/cargo/release/measure
echo
python3 tests/stack.py
