#!/bin/sh
# Puts the proved program under load for so many seconds, ten minutes where none are named: runs of `serve` follow one
# another, each with clients that keep a connection, pipeline, send batches and notifications, connect anew and close
# early. No answer may be lost or doubled; descriptors and resident memory are told. It needs Python, and runs on one
# processor where `taskset` is there. Outside the gate, after `rt ci`: bench/load.sh [SECONDS]
# shellcheck source=bench/common.sh
. "$(dirname "$0")/common.sh"
find_program

set -- python3 "$top/bench/load_runs.py" "$program" "$top/examples/twice.ol" "$@"
if command -v taskset > /dev/null; then
    set -- taskset -c 0 "$@"
fi
"$@"
