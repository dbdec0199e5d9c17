#!/bin/sh
# Refuses each allocation of a short session in turn. Where a step lacks memory the program finds that the session is
# spent, and ends for want of memory; where a look does, it asks once more. So each run ends so or has the right output.
# It needs a C compiler and the program of crates/test_sessions as `rt ci` proved it, or the one that is named.
# Outside the gate: bench/sessions/memory.sh [PROGRAM]
set -eu
here=$(cd "$(dirname "$0")" && pwd)
program=$(readlink -f "${1:-$here/../../crates/test_sessions/out/test_sessions}")
[ -x "$program" ] || { echo "no proved program: run rt ci first, or name one" >&2; exit 2; }
work=$(mktemp -d)
trap 'rm -rf "$work"' EXIT
cc -shared -fPIC -O1 -o "$work/malloc.so" "$here/../malloc.c" -ldl
cd "$here"

# Plays the session with the allocation of that number refused, if it has one.
play() {
    status=0
    REFUSED=$1 LD_PRELOAD="$work/malloc.so" "$program" memory.txt > "$work/output" 2> "$work/notes" || status=$?
}

export CALLS="$work/count"
play 0
unset CALLS
mv "$work/output" "$work/right"
count=$(cat "$work/count")
spent=0
odd=0
for number in $(seq "$count"); do
    play "$number"
    if [ "$status" != 0 ] && grep -q 'out of memory\|memory allocation failed' "$work/notes"; then
        spent=$((spent + 1))
    elif [ "$status" != 0 ] || ! cmp -s "$work/output" "$work/right"; then
        odd=$((odd + 1))
        echo "allocation $number: status $status, $(head -c 2000 "$work/output")"
    fi
done
cat "$work/right"
echo "$count runs, $spent ended for want of memory, $odd of them wrong"
[ "$odd" = 0 ]
