#!/usr/bin/env bash
# limit.sh SECONDS COMMAND..: runs a command, and ends it and says so where it takes longer.
set -euo pipefail
seconds=$1
shift
status=0
timeout "$seconds" "$@" || status=$?
if [ "$status" = 124 ]; then
    echo "no end after $seconds s: $*" >&2
fi
exit "$status"
