#!/usr/bin/env bash
# tools/kcs_trace.sh: a session by arguments and by standard input, a request beyond 64 bytes, and words that are no access.
set -euo pipefail
cd "$(dirname "$0")/.."
room=$(mktemp -d)
trap 'rm -rf "$room"' EXIT

trace() {
    bash tests/limit.sh 900 sh tools/kcs_trace.sh "$@"
}

words="s c61 r d18 c62 d01 a1c01 r d68 r d68 r a05 c62 c60 d00 r d68 f c61 c62 d05 a d00"
cat > "$room/expected" << 'END'
read status 00                    status 00  IDLE   C/D#=0 OBF=0
write command 61 WRITE_START      status 89  WRITE  C/D#=1 OBF=1
read data 00                      status 88  WRITE  C/D#=1 OBF=0
write data 18                     status 81  WRITE  C/D#=0 OBF=1
write command 62 WRITE_END        status 89  WRITE  C/D#=1 OBF=1
write data 01                     status 40  READ   C/D#=0 OBF=0  message of 2 bytes: 18 01
answer of 2 bytes                 status 41  READ   C/D#=0 OBF=1
read data 1C                      status 40  READ   C/D#=0 OBF=0
write data 68 READ                status 41  READ   C/D#=0 OBF=1
read data 01                      status 40  READ   C/D#=0 OBF=0
write data 68 READ                status 01  IDLE   C/D#=0 OBF=1
read data 00                      status 00  IDLE   C/D#=0 OBF=0
answer of 1 byte                  status 00  IDLE   C/D#=0 OBF=0  answer refused
write command 62 WRITE_END        status C9  ERROR  C/D#=1 OBF=1  refused: wrong code
write command 60 GET_STATUS/ABORT status 89  WRITE  C/D#=1 OBF=1
write data 00                     status 41  READ   C/D#=0 OBF=1
read data 02                      status 40  READ   C/D#=0 OBF=0
write data 68 READ                status 01  IDLE   C/D#=0 OBF=1
fresh port                        status 00  IDLE   C/D#=0 OBF=0
write command 61 WRITE_START      status 89  WRITE  C/D#=1 OBF=1
write command 62 WRITE_END        status 89  WRITE  C/D#=1 OBF=1
write data 05                     status 40  READ   C/D#=0 OBF=0  message of 1 byte: 05
answer of 0 bytes                 status 01  IDLE   C/D#=0 OBF=1
write data 00                     status C1  ERROR  C/D#=0 OBF=1  refused: wrong code
END
# shellcheck disable=SC2086
trace $words | diff -u "$room/expected" -
echo "$words" | trace | diff -u "$room/expected" -

(echo c61 && printf 'd00 %.0s' {1..65}) | trace | tail -n 2 > "$room/printed"
diff -u - "$room/printed" << 'END'
write data 00                     status 81  WRITE  C/D#=0 OBF=1
write data 00                     status C1  ERROR  C/D#=0 OBF=1  refused: request beyond 64 bytes
END

for word in x C61 c6 c611 c d s0 r00 a1 a1g f0 '' "a$(printf '%01024d' 0)"; do
    status=0
    trace r "$word" > "$room/printed" 2> "$room/said" || status=$?
    if [ "$status" != 2 ] || [ "$(wc -l < "$room/printed")" != 1 ] || ! grep -qF "kcs_trace: '$word' is no access" "$room/said"; then
        echo "kcs_trace.sh: '$word' is not refused as expected: status $status"
        cat "$room/printed" "$room/said"
        exit 1
    fi
done
echo "kcs_trace.sh: a session, a request beyond 64 bytes and refused words as expected"
