#!/bin/sh
# Keeps the proved program under mixed use for so many seconds, an hour where none are named: clients that behave well
# and ill order at a shop over HTTP, whose runs follow one another. Some end after their last connection, some by
# SIGTERM to the script, and in some one system call in a thousand goes wrong. Beside them orders and ill lines go to
# `run`, also with such calls. Each accepted order has to be answered once, as a model that knows the rules of the shop
# alone counts it; descriptors and resident memory have to stay as they are. Each minute has a line of figures. It ends
# with status 1 where something was wrong, and says what. It needs a C compiler and Python. Outside the gate, after
# `rt ci`: bench/soak.sh [SECONDS]
# shellcheck source=bench/common.sh
. "$(dirname "$0")/common.sh"
find_program

cc -shared -fPIC -O1 -o "$work/calls.so" "$top/bench/faults/calls.c" -ldl
# The script beside a copy of the program, than which no source is newer there.
mkdir -p "$work/crates/roqsulei/out"
cp "$top/roqsulei" "$top/crates.txt" "$work"
cp "$program" "$work/crates/roqsulei/out"
TMPDIR=$work python3 -B "$top/bench/soak/main.py" \
    "$work/roqsulei" "$work/crates/roqsulei/out/roqsulei" "$work/calls.so" "$@"
