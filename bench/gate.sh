#!/bin/sh
# Runs `rt ci` and writes what each of its checks costs into a file; `-t` prints such a file as a table. The gate does
# what it does without it: its checks are looked at from outside, five times a second.
#   bench/gate.sh FILE [NAME..]    runs RT_JOBS=4 rt ci [NAME..], and ends with its status; names are for a kit whose
#                                  `rt ci` takes them, as 13f does and 13b does not
#   bench/gate.sh -t FILE          for each crate the processor seconds of its proof, its tests, the check that its
#                                  edits begin with and its edits, their sum, and the seconds by the clock that its
#                                  checks took together
#   bench/gate.sh -u            proves the unit alone and prints its processor seconds
# What an earlier run kept, where the kit keeps it, costs nothing and is not in it. The proof of a program has its two
# builds in it. What the whole run took has the tests and programs that ran in it too, and `rt` itself.
#
# Machines differ by a factor of more than two, and so does one machine from hour to hour. So the run begins with a
# unit: the proof of one small crate, always of the same text (post_box as it was at commit 96748dca), with nothing
# beside it. The table ends with the whole as a multiple of the unit; such figures can be compared.
set -eu

# The table of a file of times, whose lines are a crate, a stage, processor seconds and seconds by the clock.
table() {
    awk '
    function row(name, of, line, i) {
        line = sprintf("%-20s", name)
        for (i = 1; i <= 4; i++) line = line sprintf(" %8.0f", of[stages[i]])
        printf "%s %8.0f %8.0f\n", line, of["sum"], of["clock"]
    }
    BEGIN {
        split("proof tests seed edits", stages)
        printf "%-20s %8s %8s %8s %8s %8s %8s\n", "crate", "proof", "tests", "seed", "edits", "sum", "clock"
    }
    $1 == "-" && $2 == "unit" { unit = $3; next }
    $1 == "-" { whole = $3; clock = $4; next }
    !($1 in known) { known[$1]; crates[++count] = $1 }
    { cpu[$1, $2] += $3; cpu[$1, "sum"] += $3; cpu[$1, "clock"] += $4
      every[$2] += $3; every["sum"] += $3; every["clock"] += $4 }
    END {
        for (n = 1; n <= count; n++) {
            for (i in one) delete one[i]
            for (i = 1; i <= 4; i++) one[stages[i]] = cpu[crates[n], stages[i]]
            one["sum"] = cpu[crates[n], "sum"]
            one["clock"] = cpu[crates[n], "clock"]
            row(crates[n], one)
        }
        row("all checks", every)
        printf "the whole run: %.0f processor seconds, %.0f by the clock\n", whole, clock
        if (unit > 0) printf "the unit: %.1f processor seconds; the whole run: %.0f units\n", unit, whole / unit
    }' "$1"
}

# Proves the unit, and prints its processor seconds.
unit() {
    fixed=96748dca
    mkdir "$work/unit"
    git archive "$fixed" crates/post_box | tar -x -C "$work/unit"
    rm -rf "$work/unit/crates/post_box/must-fail"
    echo 'post_box: thiserror' > "$work/unit/crates.txt"
    (
        cd "$work/unit"
        git init -q
        rt ci --anew > "$work/unit.log"
        times > "$work/unit.times"
    )
    awk 'NR == 2 { split($1 "m" $2, part, "m"); printf "%.2f\n", 60 * (part[1] + part[3]) + part[2] + part[4] }' "$work/unit.times"
}

if [ "${1:-}" = -t ]; then
    table "${2:?names a file of times}"
    exit
fi
times=${1:?names the file for the times}
shift
[ "$times" = -u ] || : > "$times"
cd "$(dirname "$0")/.."
work=$(mktemp -d)
trap 'rm -rf "$work"' EXIT
one=$(unit)
if [ "$times" = -u ]; then
    echo "$one"
    exit
fi
echo "- unit $one 0" >> "$times"
ticks=$(getconf CLK_TCK)

# What kind of check a process is, by its words and the folder that it runs in.
stage_of() {
    case "$2: $1 " in
    */rt-edit-*:*" --incremental "*"/seed "*) echo seed ;;
    */rt-edit-*:*) echo edits ;;
    *" --test "*) echo tests ;;
    *) echo proof ;;
    esac
}

# Notes a check that has begun: its crate and its stage.
note_check() {
    words=$(tr '\0' ' ' < "/proc/$1/cmdline" 2> "$work/gone") || return 0
    folder=$(readlink "/proc/$1/cwd") || return 0
    crate=${words#*--crate-name }
    [ "$crate" = "$words" ] || echo "${crate%% *} $(stage_of "$words" "$folder")" > "$work/$2.check"
}

# Notes how far each check of the gate is: its processor ticks, and the hundredths of a second since the machine began.
look() {
    read -r now _ < /proc/uptime
    # shellcheck disable=SC2013
    for process in $(cat /proc/"$1"/task/*/children 2> "$work/gone"); do
        read -r stat 2> "$work/gone" < "/proc/$process/stat" || continue
        [ "${stat#*(rattle) }" != "$stat" ] || continue
        # shellcheck disable=SC2086
        set -- "$1" ${stat##*) }
        began=${21}
        [ -f "$work/$process.$began.check" ] || note_check "$process" "$process.$began"
        echo "$((${13} + ${14} + ${15} + ${16})) $began $now" > "$work/$process.$began.time"
    done
}

(
    status=0
    RT_JOBS=${RT_JOBS:-4} rt ci "$@" || status=$?
    times > "$work/whole"
    exit "$status"
) &
run=$!
read -r start _ < /proc/uptime
while kill -0 "$run" 2> "$work/gone"; do
    # shellcheck disable=SC2013
    for gate in $(cat /proc/"$run"/task/*/children 2> "$work/gone"); do
        look "$gate"
    done
    sleep 0.2
done
status=0
wait "$run" || status=$?
read -r end _ < /proc/uptime

for check in "$work"/*.check; do
    [ -f "$check" ] || continue
    read -r crate stage < "$check"
    read -r used began now < "${check%.check}.time"
    echo "$crate $stage $used $began $now"
done | awk -v ticks="$ticks" '{ printf "%s %s %.2f %.2f\n", $1, $2, $3 / ticks, $5 - $4 / ticks }' | sort >> "$times"
# The second line of `times` is what all that the run started took.
awk -v start="$start" -v end="$end" 'NR == 2 {
    split($1 "m" $2, part, "m")
    printf "- whole %.2f %.2f\n", 60 * (part[1] + part[3]) + part[2] + part[4], end - start
}' "$work/whole" >> "$times"
exit "$status"
