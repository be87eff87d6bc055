#!/usr/bin/env bash
# The examples in C: builds each with its archives, runs it, and compares what it prints with the expected.txt beside it. The headers are C++ too.
set -euo pipefail
cd "$(dirname "$0")/.."
built=target/c_example
mkdir -p "$built"

# SOURCE CRATE..: the example, and the crates whose archives it links
prints_as_expected() {
    local source=$1 folder crate archives=()
    shift
    folder=$(dirname "$source")
    local program=$built/$(basename "$folder")
    for crate in "$@"; do
        bash tests/staticlib.sh "$crate"
        archives+=("target/staticlib/lib$crate.a")
    done
    gcc -std=c11 -O2 -Wall -Wextra -Werror -Iinclude "$source" "${archives[@]}" -o "$program"
    bash tests/limit.sh 10 "$program" > "$program.txt"
    diff -u "$folder/expected.txt" "$program.txt"
    echo "c example: $source as expected"
}

for header in include/*.h; do
    g++ -std=c++17 -Wall -Wextra -Werror -fsyntax-only -x c++ "$header"
done
prints_as_expected examples/board/loop.c board
prints_as_expected examples/kcs/echo.c kcsboard
prints_as_expected examples/messages/loop.c board ipmiboard kcsboard
