#!/bin/sh
# Plays every session of recorded runs over TermSession: before each event and at the end all strands that have an
# event, what each asks, and what is open, and each event with the gift that it had. VECTORS names the folder with the
# runs in folders by kind. It needs the program of crates/test_sessions as `rt ci` proved it, or the one that is
# named. Outside the gate: bench/sessions/play.sh [PROGRAM]
set -eu
here=$(cd "$(dirname "$0")" && pwd)
program=$(readlink -f "${1:-$here/../../crates/test_sessions/out/test_sessions}")
[ -x "$program" ] || { echo "no proved program: run rt ci first, or name one" >&2; exit 2; }
work=$(mktemp -d)
trap 'rm -rf "$work"' EXIT

runs=0
for run in "${VECTORS:?the folder of the runs}"/*/*/; do
    runs=$((runs + 1))
    python3 "$here/convert.py" "$run" > "$work/run.txt"
    (cd "$work" && "$program" run.txt) >> "$work/told"
done
grep -v ': as expected$' "$work/told" | grep -v '^[0-9]* rows, 0 not as expected$' | cut -c 1-2000 || true
sessions=$(grep -c ': ' "$work/told" || true)
odd=$(grep -c ' where .* was expected$' "$work/told" || true)
events=$(cat "$VECTORS"/*/*/record | grep -c '^event ')
echo "$runs runs, $sessions sessions, $events events: $odd sessions not as expected"
[ "$odd" = 0 ]
