#!/usr/bin/env bash
# The proved libraries and the bench program against the second implementation: what no contract holds, on fixed cases, the KCS port, and
# then the mediator on seeds SEED to SEED + ROUNDS - 1, in two halves side by side. The port's random lists have these seeds too.
#     tests/compare.sh [SEED [ROUNDS]]
set -euo pipefail
cd "$(dirname "$0")/.."
bash tests/staticlib.sh board
bash tests/staticlib.sh ipmiboard
bash tests/staticlib.sh kcsboard
bash tools/bench.sh --build
cargo build --release --offline --quiet --manifest-path tests/compare/Cargo.toml --target-dir target/cargo
seed=${1:-1} rounds=${2:-60000}
half=$((rounds / 2))
most=$((60 + rounds / 100))
export BENCH=target/bin/bench
bash tests/limit.sh 60 target/cargo/release/boundary
bash tests/limit.sh "$most" target/cargo/release/kcs "$seed" "$rounds"
bash tests/limit.sh "$most" target/cargo/release/compare "$seed" "$half" &
bash tests/limit.sh "$most" target/cargo/release/compare $((seed + half)) $((rounds - half))
wait $!
