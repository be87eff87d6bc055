#!/bin/sh
# Does accesses on a KCS port and prints what each gives; proves and builds first where a source is newer: see usage below.
set -eu
here=$(cd "$(dirname "$0")/.." && pwd)
program=$here/target/kcs_trace
archive=$here/target/staticlib/libkcsboard.a
sources="$here/tools/kcs_trace.c $here/include/kcs.h"

usage() {
    cat << 'END'
usage: tools/kcs_trace.sh ACCESS..    does these accesses on a fresh KCS port, and prints a line for each
       tools/kcs_trace.sh             does those that it reads from standard input
       tools/kcs_trace.sh --help      prints this

An access is a word, its bytes in hex:
    s          the host reads the status register
    r          the host reads Data_Out
    c61        the host writes 61 to the command register
    d18        the host writes 18 to Data_In
    a1C0100    the controller answers with the bytes 1C 01 00; a alone answers with none
    f          a fresh port again

A line has the access, the status register afterwards, and the message that is complete with it or why it was refused. Another word
is an error, status 2. To see a request of two bytes, its response of three and the recovery:
    tools/kcs_trace.sh c61 r d18 r c62 r d01 a1C0100 r d68 r d68 r d68 r c60 r d00 r d68 r
END
}

if [ "${1:-}" = --help ] || [ "${1:-}" = -h ]; then
    usage
    exit 0
fi
[ -e "$archive" ] || echo "kcs_trace.sh: proving and building the port's library first" >&2
bash "$here/tests/staticlib.sh" kcsboard >&2
# shellcheck disable=SC2086
if [ ! -x "$program" ] || [ -n "$(find $sources "$archive" -newer "$program")" ]; then
    gcc -std=c11 -O2 -Wall -Wextra -Werror -I"$here/include" "$here/tools/kcs_trace.c" "$archive" -o "$program"
fi
exec "$program" "$@"
