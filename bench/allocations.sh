#!/bin/sh
# Refuses each allocation of calls of the proved program in turn, over the lines and texts of the worked rows: each run
# has to end with status 9 and a part of the right output at most. It needs a C compiler and a program that `rt ci` has
# proved, outside the gate: bench/allocations.sh
# shellcheck source=bench/common.sh
. "$(dirname "$0")/common.sh"
find_program

cc -shared -fPIC -O1 -o "$work/malloc.so" "$top/bench/malloc.c" -ldl

cat > "$work/calls.jsonl" <<'END'
{"jsonrpc":"2.0","method":"twice","params":{"n":21},"id":"a"}
[{"jsonrpc":"2.0","method":"twice","params":{"n":21},"id":"b"},1,{"jsonrpc":"2.0","method":"twice","params":{"n":2147483647},"id":2}]

[{"jsonrpc":"2.0","method":"none","params":[1.5]}]
{"jsonrpc":"2.0","method":"twice","params":{"n":"x"},"id":3}
x
END
# A scope that waits for an install, a scope that is killed, one that waits for an answer, and a request that is killed.
for name in install killed waits request; do
    printf '{"jsonrpc":"2.0","method":"go","params":{},"id":1}\n{"jsonrpc":"2.0","method":"halt"}\n' > "$work/go.jsonl"
    {
        echo 'type Res: void { c?: string end?: string t?: string }'
        echo 'interface GoI { RequestResponse: go(void)(undefined) OneWay: pause(void), halt(void) }'
        echo 'interface AskI { RequestResponse: ask(int)(int) }'
        echo 'service S { inputPort In { location: "socket://localhost:8000" protocol: jsonrpc interfaces: GoI }'
        echo 'outputPort P { location: "local://p" interfaces: AskI }'
        case $name in
            install) echo 'main { go()(y) { scope(s) { throw(f) | install(f => y = 1) } } } }' ;;
            killed) echo 'main { go()(y) { scope(outer) { install(bad => y.end = "handled") ; { scope(left) {
install(this => comp(child) ; comp(child) ; y.t = "term") ; scope(child) { install(this => y.c = y.c + "c") } ;
pause() } | scope(right) { throw(bad) } } } } } }' ;;
            waits) echo 'main { go()(y) { scope(q) { install(f => comp(q) ; y = c) ;
{ ask@P(1)(r) [this => c = 1] | throw(f) } } } } }' ;;
            request) echo 'main { go()(y) { pause() } | { halt() ; throw(g) } } }' ;;
        esac
        echo 'service T { inputPort In { location: "local://p" interfaces: AskI } main { ask(a)(b) { b = a } } }'
    } > "$work/$name.ol"
done
# What faults before it takes a message, and what it is called by.
cat > "$work/faulty.ol" <<'END'
interface GoI { RequestResponse: go(any)(any) OneWay: tell(any) }
service Go {
  execution: concurrent
  inputPort In { location: "socket://localhost:8000" protocol: jsonrpc interfaces: GoI }
  init { a = 1 / 0 }
  main { [ go(x)(y) { y = 1 } ] { nullProcess } [ tell(x) ] { nullProcess } }
}
END
cat > "$work/faulty.jsonl" <<'END'
{"jsonrpc":"2.0","method":"go","id":1}
{"jsonrpc":"2.0","method":"tell","id":1}
END

# Texts that are refused, one a line, by each name that a refusal has.
cat > "$work/refused" <<'END'
service S { main { x = "a } }
service S { main { x = 1 } /*
service S { main { x = 2147483648 } }
service S { main { x = 1 $ } }
service S { main { x = } }
type A: int type A: int service S { main { nullProcess } }
type A: B service S { main { nullProcess } }
service S { main { go@P(1) } }
service S { main { go(x) } }
service S { main { println@Console(1) } }
service S { main { csets.id = 1 } }
type A: void { i: int j: int } interface I { OneWay: go(A) } service S { execution: concurrent inputPort P { location: "local://s" interfaces: I } cset { x: A.i } cset { y: A.j } main { go(a) } }
service S { main { comp(q) } }
service S { main { cH } }
service S { execution: concurrent main { nullProcess } }
service S { init { nullProcess } main { nullProcess } }
END
awk 'BEGIN { printf "service S { main { x = "; for (n = 0; n < 64; n++) printf "("; print "1 } }" }' >> "$work/refused"
: > "$work/nothing"

runs=0
odd=0

# Runs a call with its words, with the allocation of that number refused, if it has one.
call() {
    REFUSED=$1
    shift
    status=0
    REFUSED=$REFUSED LD_PRELOAD="$work/malloc.so" "$program" "$@" < "$input" > "$work/output" 2> "$work/notes" || status=$?
}

# Whether a file is the beginning of another.
begins() {
    cmp -s -n "$(wc -c < "$1")" "$1" "$2"
}

each() {
    export CALLS="$work/count"
    call 0 "$@"
    unset CALLS
    count=$(cat "$work/count")
    mv "$work/output" "$work/right"
    mv "$work/notes" "$work/right_notes"
    for number in $(seq "$count"); do
        call "$number" "$@"
        runs=$((runs + 1))
        if [ "$status" != 9 ] || ! begins "$work/output" "$work/right" || ! begins "$work/notes" "$work/right_notes"; then
            echo "allocation $number of $*: status $status"
            odd=$((odd + 1))
        fi
    done
}

input=$work/calls.jsonl
each run "$top/examples/twice.ol"
for lines in "$top"/examples/*.jsonl; do
    input=$lines
    each run "${lines%.jsonl}.ol"
done
input=$work/go.jsonl
for name in install killed waits request; do
    each run "$work/$name.ol" --picks 0,1
done
input=$work/faulty.jsonl
each run "$work/faulty.ol"
input=$work/nothing
for example in "$top"/examples/*.ol; do
    each check "$example"
    each print "$example"
done
while IFS= read -r text; do
    printf '%s' "$text" > "$work/refused.ol"
    each check "$work/refused.ol"
done < "$work/refused"
each check "$work/none.ol"
each check
each --help
each --version
echo "$runs runs, $odd of them wrong"
[ "$odd" = 0 ]
