#!/bin/sh
# Times `check` of the proved program over a file with 200 types, operations and services and over one with 2,000, from
# its start to its end, and prints both times and their ratio, which is to be at most 25. It needs a program that
# `rt ci` has proved, outside the gate: bench/check.sh
# shellcheck source=bench/common.sh
. "$(dirname "$0")/common.sh"
find_program

# A file with so many types, each of which has a field of the one before, so many operations in one interface, whose
# messages one service takes, and so many services, each of which sends to the one before.
file() {
    awk -v most="$1" 'BEGIN {
        print "type T0 { a: int }"
        for (n = 1; n < most; n++) printf "type T%d { a: T%d b?: string }\n", n, n - 1
        print "interface Single { OneWay: start(T0), go(T0) }"
        printf "interface Wide { OneWay: o0(T0)"
        for (n = 1; n < most; n++) printf ",\n  o%d(T%d)", n, n
        print " }"
        print "service S0 { inputPort P { location: \"local://s0\" interfaces: Wide } main { o0(x)"
        for (n = 1; n < most; n++) printf "  ; o%d(x.y%d) ; v%d = x.y%d + %d\n", n, n, n, n, n
        print "} }"
        for (n = 1; n < most; n++) {
            printf "service S%d { execution: concurrent inputPort P { location: \"local://s%d\" interfaces: Single }\n", n, n
            printf "  outputPort O { location: \"local://s%d\" interfaces: %s }\n", n - 1, n == 1 ? "Wide" : "Single"
            printf "  cset { c: T0.a } main { start(x) ; %s@O(x) ; go(y) } }\n", n == 1 ? "o0" : "go"
        }
    }'
}
file 200 > "$work/short.txt"
file 2000 > "$work/long.txt"

# The microseconds of one run; the least of 20 runs counts.
micros() {
    begun=$(date +%s%N)
    "$program" check "$1" > "$work/out"
    ended=$(date +%s%N)
    echo $(((ended - begun) / 1000))
}
short=$(least 20 micros "$work/short.txt")
long=$(least 20 micros "$work/long.txt")
echo "$short $(wc -c < "$work/short.txt") $long $(wc -c < "$work/long.txt")" | awk '{
    printf "200 of each:   %.2f ms, %d bytes\n", $1 / 1000, $2
    printf "2,000 of each: %.2f ms, %d bytes\n", $3 / 1000, $4
    printf "ratio:         %.1f (at most 25)\n", $3 / $1
    exit !($3 <= 25 * $1)
}'
