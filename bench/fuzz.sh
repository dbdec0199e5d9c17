#!/bin/sh
# Hands inputs to the proved program that small changes make of the repository's own programs, lines and connections:
# files to `check`, `explain`, `print` and `run`, lines to `run`, and connections to `serve`; before these a file and
# the bytes of a connection that are cut at each byte. Nothing may crash, no answer may be lost, doubled or out of
# place, and what is printed of a file has to be accepted as the file was. What is right of lines and connections is
# said by the rules of docs/json-rpc.md and docs/http.md in Python. Where no number is named, or 0, it takes 1,000,000
# lines and 1,000,000 connections, some hundreds in one run of the program, and 100,000 files, each of which takes three
# to six runs of its own; what is printed says how long that took. With a part, `cuts`, `files`, `lines` or `streams`,
# it tries that alone, and with the number of a batch, as it is printed with what is wrong, that batch alone. It takes
# all processors that it is given (`taskset`). It needs Python. Outside the gate, after `rt ci`: bench/fuzz.sh [INPUTS
# [SEED [PART [BATCH]]]]
# shellcheck source=bench/common.sh
. "$(dirname "$0")/common.sh"
find_program

TMPDIR=$work python3 -B "$top/bench/fuzz/main.py" "$program" "$@"
