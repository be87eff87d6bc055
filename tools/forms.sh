#!/usr/bin/env bash
# forms.sh [COMMIT]: counts the forms of docs/DESIGN-PASS.md in crates/*/src and crates/*/proofs at a commit, HEAD without one; -v lists the places.
set -euo pipefail
cd "$(dirname "$0")/.."
list=no
[ "${1:-}" = -v ] && { list=yes; shift; }
commit=${1:-HEAD}
count() {
    local found
    found=$(git grep -nE "$2" "$commit" -- 'crates/*/src/*.rt' | sed "s/^$commit://" || true)
    printf '%5d  %s\n' "$(printf '%s' "$found" | grep -c . || true)" "$1"
    if [ $list = yes ] && [ -n "$found" ]; then printf '%s\n' "$found" | cut -c1-150 | sed 's/^/         /'; fi
}
count '1 own enums' '^(pub(\(crate\))? )?enum '
count '1 flags in records' '^    pub(\(crate\))? \w+: bool,'
count '1 numbers that stand for a kind, a refusal or none' '(code|phase|fault|mark|kind|last): u8[,)]|ALL_BLOCKS: u32|UNKNOWN: u8|WRITE_ERROR: u8|_in_place\(.*-> u8|fn last_group.*-> usize|fn request_bytes.*-> u8|pub (length|finished|window|numbered): u(8|32),'
count '3 loops that count by hand' '^\s*(while|loop)\b'
count '4 bytes split or joined by hand' '% 256\) as u8|/ 256|\* 256|\* 65536'
count '4 a bool returned by an if or a match' 'return (true|false);|=> (true|false),|^    (    )*(true|false)$'
count '4 equality, order and conversion as functions' 'fn (same_counts|none_marked|larger|least|yes_no|window_of|window_number|previous_of|is_numbered|number_or|is_write|lacks_\w+|bit|state_bits|word|long|of_kind|translated|number|hex_digit)\('
count '4 casts' ' as (u8|u16|u32|u64|usize)\b'
count '5 requires' '^\s*requires '
count '5 a buffer lent beside the others' '^\s+(flash|worn|memory): &(mut )?\[u8\],|flash: &mut \[u8\], worn: &\[u8\]'
count '6 a length or an end beside a buffer' 'pub(\(crate\))? (length|end): u(32|size),|text: &mut \[u8\], (at|end): usize'
count '7 a match that picks a step, pointers, dyn' 'match (code|call\.registers\[0\]) |: fn\(|\bdyn |Box<'
proofs() { git ls-tree -r --name-only "$commit" -- crates | grep -E "$1" || true; }
lines() { proofs "$1" | while read -r f; do git show "$commit:$f"; done | wc -l; }
printf '%5d  8 files of answers, %d lines\n' "$(proofs '/proofs/.*/Answers\.antt$' | grep -c . || true)" "$(lines '/proofs/.*/Answers\.antt$')"
printf '%5d  8 files of invariants, %d lines\n' "$(proofs '/proofs/.*/Invariants\.antt$' | grep -c . || true)" "$(lines '/proofs/.*/Invariants\.antt$')"
printf '%5d  8 files of lemmas, %d lines\n' "$(proofs '/proofs/[A-Z][A-Za-z]*[.]antt$' | grep -vE '/(Lib|Answers|Invariants)[.]antt$' | grep -c . || true)" "$(lines '/proofs/[A-Z][A-Za-z]*[.]antt$')"
