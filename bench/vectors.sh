#!/bin/sh
# Runs the proved program over recorded runs, and compares what it prints, what it notes and its status. A folder of
# runs has one folder for each: case.ol, case.jsonl, args (further words, one a line), stdout, notes and status. Outside
# the gate: bench/vectors.sh FOLDER ..
# shellcheck source=bench/common.sh
. "$(dirname "$0")/common.sh"
: "${1:?names a folder of recorded runs}"
find_program

rows=0
odd=0
for folder in "$@"; do
    for run in "$folder"/*/; do
        rows=$((rows + 1))
        set -- run "$run/case.ol"
        while IFS= read -r word; do
            set -- "$@" "$word"
        done < "$run/args"
        status=0
        "$program" "$@" < "$run/case.jsonl" > "$work/output" 2> "$work/notes" || status=$?
        if [ "$status" != "$(cat "$run/status")" ] || ! cmp -s "$work/output" "$run/stdout" || ! cmp -s "$work/notes" "$run/notes"; then
            echo "$run: status $status"
            odd=$((odd + 1))
        fi
    done
done
echo "$rows runs, $odd of them otherwise"
[ "$odd" = 0 ]
