#!/bin/sh
# Lets each call go wrong by which the proved program reaches its streams, files and sockets, one in each run: it fails
# with an errno, gives nothing, or moves one byte alone. What comes of each run has to be what the pages say. It tries
# `run` over the worked examples and the flows, the other commands, calls to services elsewhere, and `serve` under
# traffic; a part, a case and a call, as it tells them, are tried alone. It needs a C compiler and Python. Outside the
# gate, after `rt ci`: bench/faults.sh [PART [CASE [CALL]]]
# shellcheck source=bench/common.sh
. "$(dirname "$0")/common.sh"
find_program

cc -shared -fPIC -O1 -o "$work/calls.so" "$top/bench/faults/calls.c" -ldl
python3 "$top/bench/faults/main.py" "$program" "$work/calls.so" "$@"
