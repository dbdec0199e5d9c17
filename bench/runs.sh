#!/bin/sh
# Times the proved program: lines a second of `run` on a body of one statement and on bodies of 10, 100 and 1,000, with
# those of a plain program in Rust of the same kind (bench/baseline.rs) where there is a compiler for it, and of the
# package json-rpc for Python (bench/baseline.py) where that is installed (Debian's python3-jsonrpc); and `check` on a
# file of 2,000 types, operations and services. Then how the cost of a run grows, in instructions where valgrind is
# there: with ten times the sessions, and with ten times the events of one session, each of which has to be at most 12
# times as much; of assignments into a vector of 60,000 nodes, at most twice those into one of 600; and of a call beside
# 3,900 sessions that wait, at most 1.3 times one beside 10. The times have no limits. It needs a program that `rt ci`
# has proved, outside the gate: bench/runs.sh
# shellcheck source=bench/common.sh
. "$(dirname "$0")/common.sh"
find_program

# A service whose body has so many statements.
service() {
    printf 'type Req: void { n: int }\ninterface TwiceI { RequestResponse: twice(Req)(int) }\n'
    printf 'service Twice {\n  execution: concurrent\n  inputPort In { location: "local://twice" interfaces: TwiceI }\n'
    printf '  main { twice(x)(y) { y = x.n + x.n'
    awk -v most="$1" 'BEGIN { for (n = 1; n < most; n++) printf " ; y = y + 1" }'
    printf ' } }\n}\n'
}

# So many lines that call it.
lines() {
    awk -v most="$1" 'BEGIN { for (n = 1; n <= most; n++) printf "{\"jsonrpc\":\"2.0\",\"method\":\"twice\",\"params\":{\"n\":%d},\"id\":%d}\n", n, n }'
}

# The least seconds of three times that a command takes over a file.
seconds() {
    input=$1
    shift
    for _ in 1 2 3; do
        begun=$(date +%s.%N)
        "$@" < "$input" > "$work/out" || { echo "status $? of $*" >&2; exit 1; }
        date +%s.%N | awk -v begun="$begun" '{ print $1 - begun }'
    done | sort -g | head -1
}

plain=
if command -v rustc > /dev/null; then
    rustc --edition 2021 -O -o "$work/baseline" "$top/bench/baseline.rs"
    plain="$work/baseline"
fi
python=
for words in /usr/bin/python3 python3; do
    if "$words" -c 'import jsonrpc' 2> /dev/null; then
        python=$words
        break
    fi
done
: > "$work/empty"
for row in 1:4000 10:4000 100:1000 1000:4; do
    size=${row%:*}
    count=${row#*:}
    service "$size" > "$work/$size.ol"
    lines "$count" > "$work/lines"
    start=$(seconds "$work/empty" "$program" run "$work/$size.ol")
    all=$(seconds "$work/lines" "$program" run "$work/$size.ol")
    mv "$work/out" "$work/ours"
    other=0
    if [ -n "$plain" ]; then
        other=$(seconds "$work/lines" "$plain" "$size")
        cmp "$work/out" "$work/ours"
    fi
    package=0
    if [ -n "$python" ]; then
        begun=$(seconds "$work/empty" "$python" "$top/bench/baseline.py" "$size")
        package=$(seconds "$work/lines" "$python" "$top/bench/baseline.py" "$size" | awk -v begun="$begun" '{ print $1 - begun }')
        cmp "$work/out" "$work/ours"
    fi
    echo "$size $count $start $all $other $package" | awk '{
        printf "%4d statements: %d lines in %.3f s beside %.3f s for the start, %.0f lines a second", $1, $2, $4 - $3, $3, $2 / ($4 - $3)
        if ($5 > 0) printf "; in plain Rust %.0f", $2 / $5
        if ($6 > 0) printf "; in Python %.0f", $2 / $6
        print ""
    }'
done

awk -v most=2000 'BEGIN {
    print "type T0 { a: int }"
    for (n = 1; n < most; n++) printf "type T%d { a: T%d b?: string }\n", n, n - 1
    printf "interface Wide { OneWay: o0(T0)"
    for (n = 1; n < most; n++) printf ",\n  o%d(T%d)", n, n
    print " }"
    for (n = 0; n < most; n++) {
        printf "service S%d { inputPort P { location: \"local://s%d\" interfaces: Wide }\n", n, n
        printf "  main { o%d(x) ; y = x.a + 1 } }\n", n
    }
}' > "$work/large.ol"
bytes=$(wc -c < "$work/large.ol")
seconds "$work/empty" "$program" check "$work/large.ol" | awk -v bytes="$bytes" '{ printf "check of %d bytes: %.2f s\n", bytes, $1 }'

command -v valgrind > /dev/null || exit 0
# The instructions of a run of a file over a file of lines.
instructions() {
    valgrind --tool=callgrind --callgrind-out-file="$work/callgrind" "$program" run "$1" < "$2" 2>&1 > /dev/null |
        sed -n 's/.*Collected : //p'
}

# Whether ten times as much costs at most 12 times as many instructions.
growth() {
    echo "$2 $3" | awk -v of="$1" '{ printf "%s: %.2f times the instructions\n", of, $2 / $1; exit $2 > 12 * $1 }'
}

failed=0
lines 400 > "$work/few"
lines 4000 > "$work/many"
growth "4,000 sessions beside 400" \
    "$(instructions "$work/1.ol" "$work/few")" "$(instructions "$work/1.ol" "$work/many")" || failed=1
echo '{"jsonrpc":"2.0","method":"go","id":1}' > "$work/one"
for most in 497 4997; do
    {
        echo 'interface GoI { RequestResponse: go(void)(int) }'
        echo 'service S { inputPort In { location: "local://s" interfaces: GoI }'
        echo "main { go()(y) { i = 0 ; while (i < $most) { i++ } ; y = i } } }"
    } > "$work/events.$most.ol"
done
growth "10,000 events beside 1,000" \
    "$(instructions "$work/events.497.ol" "$work/one")" "$(instructions "$work/events.4997.ol" "$work/one")" || failed=1
# The instructions of 100 assignments into a vector of so many nodes.
assigned() {
    for most in 1 101; do
        {
            echo 'interface GoI { RequestResponse: go(void)(int) }'
            echo 'service S { inputPort In { location: "local://s" interfaces: GoI }'
            echo "main { go()(y) { v[$(($1 - 1))] = 0 ; i = 0 ; while (i < $most) { v[i] = i ; i++ } ; y = i } } }"
        } > "$work/assigned.$most.ol"
    done
    echo "$(instructions "$work/assigned.1.ol" "$work/one") $(instructions "$work/assigned.101.ol" "$work/one")" |
        awk '{ print $2 - $1 }'
}
echo "$(assigned 600) $(assigned 60000)" | awk '{
    printf "100 assignments into a vector of 60,000 nodes: %.2f times those into one of 600\n", $2 / $1
    exit $2 > 2 * $1
}' || failed=1
{
    echo 'type Name: void { id: string }'
    echo 'interface WaitI { RequestResponse: begin(Name)(string) OneWay: end(Name) }'
    echo 'service Wait { execution: concurrent'
    echo '  inputPort In { location: "local://wait" interfaces: WaitI }'
    echo '  cset { id: Name.id }'
    echo '  main { begin(x)(y) { y = x.id } ; end(z) ; w = 1 } }'
} > "$work/waits.ol"

# So many sessions that begin and wait, and then so many more that begin and end.
waits() {
    awk -v most="$1" -v more="$2" 'BEGIN {
        for (n = 1; n <= most + more; n++) {
            printf "{\"jsonrpc\":\"2.0\",\"method\":\"begin\",\"params\":{\"id\":\"s%d\"},\"id\":%d}\n", n, n
            if (n > most) printf "{\"jsonrpc\":\"2.0\",\"method\":\"end\",\"params\":{\"id\":\"s%d\"}}\n", n
        }
    }'
}

# The instructions of 80 sessions that begin and end beside so many that wait.
beside() {
    waits "$1" 0 > "$work/waiting"
    waits "$1" 80 > "$work/more"
    echo "$(instructions "$work/waits.ol" "$work/waiting") $(instructions "$work/waits.ol" "$work/more")" | awk '{ print $2 - $1 }'
}
echo "$(beside 10) $(beside 3900)" | awk '{
    printf "a call beside 3,900 sessions that wait: %.2f times one beside 10\n", $2 / $1
    exit $2 > 1.3 * $1
}' || failed=1
exit "$failed"
