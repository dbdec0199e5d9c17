#!/bin/sh
# Times `check` and `explain` of the proved program over a file with 2,000 statements and a mistake after them, each
# from its start to its end, and prints both times and their ratio, which is to be at most 5: with the statements in
# `main`, with half of them in a block of it, and with four in each of 500 services, of which the last has the mistake.
# It needs a program that `rt ci` has proved, outside the gate:
# bench/explain.sh
# shellcheck source=bench/common.sh
. "$(dirname "$0")/common.sh"
find_program

# So many statements, each on a line of its own, and a `;` between two.
statements() {
    awk -v most="$1" 'BEGIN { for (n = 1; n <= most; n++) printf "  %sv%d = x.y%d + %d\n", n == 1 ? "" : "; ", n, n, n }'
}
{
    echo 'service S { inputPort P { location: "local://s" interfaces: I } main {'
    statements 2000
    echo '  v = 3 } }'
} > "$work/flat.txt"
{
    echo 'service S { inputPort P { location: "local://s" interfaces: I } main {'
    statements 1000
    echo '  ; while (w < 3) {'
    statements 1000
    echo '  v = 3 } } }'
} > "$work/nested.txt"

# So many services with four statements each, and a mistake after those of the last.
services() {
    awk -v most="$1" 'BEGIN {
        for (n = 1; n <= most; n++) {
            printf "service S%d { inputPort P { location: \"local://s%d\" interfaces: I } main {\n", n, n
            for (k = 1; k <= 4; k++) printf "  %sv%d = x.y%d + %d\n", k == 1 ? "" : "; ", k, k, k
            print n < most ? "} }" : "  v = 3 } }"
        }
    }'
}
services 500 > "$work/many.txt"

# The microseconds of one run; the least of 20 runs counts. The status is 3, since the file is refused.
micros() {
    begun=$(date +%s%N)
    "$program" "$1" "$2" > "$work/out" || [ $? -eq 3 ]
    ended=$(date +%s%N)
    echo $(((ended - begun) / 1000))
}
for file in flat nested many; do
    check=$(least 20 micros check "$work/$file.txt")
    explain=$(least 20 micros explain "$work/$file.txt")
    echo "$file $check $explain" | awk '{
        printf "%s: check %.2f ms, explain %.2f ms, ratio %.1f (at most 5)\n", $1, $2 / 1000, $3 / 1000, $3 / $2
        exit !($3 <= 5 * $2)
    }'
done
