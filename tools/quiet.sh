#!/usr/bin/env bash
# Runs a command with all that it prints in a log file. If it fails, the log's end goes to standard error and the
# command's exit status is given back:
#
#     bash tools/quiet.sh target/library.log bash tools/build.sh relief_c
set -euo pipefail
log=$1
shift
mkdir -p "$(dirname "$log")"
status=0
"$@" > "$log" 2>&1 || status=$?
if [ "$status" != 0 ]; then
    tail -n 40 "$log" >&2
    echo "failed with exit status $status: $* (all that it printed: $log)" >&2
fi
exit "$status"
