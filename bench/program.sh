#!/bin/sh
# Runs the proved program as a person would, over real words, files and streams, and compares what it prints and its
# status: what `main` of `crates/roqsulei` and the adapters over files and streams do, which no contract says. Outside
# the gate: bench/program.sh
# shellcheck source=bench/common.sh
. "$(dirname "$0")/common.sh"
find_program

rows=0
odd=0

# Whether a row, named by what it shows, has that status, output and notes.
row() {
    rows=$((rows + 1))
    if [ "$status" != "$2" ] || [ "$(cat "$work/output")" != "$3" ] || [ "$(cat "$work/notes")" != "$4" ]; then
        echo "$1: status $status, output: $(cat "$work/output"), notes: $(cat "$work/notes")"
        odd=$((odd + 1))
    fi
}

# Runs the program over an input, a file or a stream.
over() {
    input=$1
    shift
    status=0
    "$program" "$@" < "$input" > "$work/output" 2> "$work/notes" || status=$?
}

twice=$top/examples/twice.ol
answer='{"id":1,"jsonrpc":"2.0","result":42}'
usage="For more information, try '--help'."
printf '{"jsonrpc":"2.0","method":"twice","params":{"n":21},"id":1}\n' > "$work/one"
printf '{"jsonrpc":"2.0","method":"twice","params":{"n":21},"id":1}' > "$work/open"
printf '\n\n' > "$work/blank"
printf 'service S { main { comp(q) } }' > "$work/bad.ol"
printf 'type Req: void { n: int } // x' > "$work/type.ol"
printf 'service S { main { x = 1 } } \377' > "$work/bytes.ol"
printf 'service S { main { x = 1 } }' > "$work/set.ol"
awk 'BEGIN { for (n = 0; n < 1048570; n++) printf " "; printf "type " }' > "$work/long.ol"
printf 'T: int ' >> "$work/long.ol"
awk 'BEGIN { for (n = 0; n < 1048570; n++) printf " "; printf "type T" }' > "$work/most.ol"
: > "$work/empty"

over "$work/empty" check "$twice"
row 'a program is ok' 0 ok ''
over "$work/empty" check "$work/bad.ol"
row 'a refusal is one line with its place' 3 'refused check CompOutsideHandler 19' ''
over "$work/empty" explain "$twice"
row 'a program is explained by ok' 0 ok ''
for file in "$top"/examples/*.ol "$top"/examples/elsewhere/*.ol; do
    over "$work/empty" explain "$file"
    row "nothing is noted of ${file##*/}" 0 ok ''
done
over "$work/empty" explain "$work/set.ol"
row 'a note of a program has its line and a mark' 0 "ok
$work/set.ol:1:20: note: this variable is set, and nothing reads it
service S { main { x = 1 } }
                   ^" ''
over "$work/empty" explain "$work/bad.ol"
row 'a refusal is explained by its line, a mark and the rule' 3 "$work/bad.ol:1:20: \`comp\` stands in no handler [check CompOutsideHandler]
service S { main { comp(q) } }
                   ^
rule: \`comp\` stands in a handler of \`install\`, or of the brackets after a call" ''
none="roqsulei: $work/none.ol: No such file or directory (os error 2)"
over "$work/empty" explain "$work/none.ol"
row 'a file that is not there is told' 2 "$work/none.ol: cannot be read" "$none"
over "$work/empty" print "$work/type.ol"
row 'what is printed has one space between every two tokens' 0 'type Req : void { n : int }' ''
over "$work/empty" check "$work/bytes.ol"
row 'a byte that begins no token has its place' 3 'refused lex BadByte 29' ''
over "$work/empty" check "$work/long.ol"
row 'a text is too long from its byte 1,048,577 on' 3 'refused lex TooLong 1048576' ''
over "$work/empty" check "$work/most.ol"
row 'a text of 1,048,576 bytes is read' 3 'refused parse Syntax 1048576' ''
over "$work/empty" check "$work/none.ol"
row 'a file that is not there has its reason' 2 '' "$none"
over "$work/empty" check "$work"
row 'a directory is no file' 2 '' "roqsulei: $work: Is a directory (os error 21)"
over "$work/empty" print "$work/empty"
row 'an empty file has no token to print' 0 '' ''
over "$work/empty" check "$work/empty"
row 'a file without a service is no program' 3 'refused check NoStart 0' ''
over "$work/one" run "$twice"
row 'a line is answered' 0 "$answer" ''
over "$work/open" run "$twice"
row 'a last line without its end is answered' 0 "$answer" ''
over "$work/blank" run "$twice"
row 'blank lines have no answer' 0 '' ''
over "$work/empty" run "$twice"
row 'an empty input is read to its end' 0 '' ''
over "$work" run "$twice"
row 'an input that is a directory fails' 4 '' 'roqsulei: the standard input failed'
sed 's/localhost:8000/203.0.113.1:8000/' "$top/examples/shop.ol" > "$work/shop.ol"
over "$work/empty" serve "$work/shop.ol"
unassigned='roqsulei: socket://203.0.113.1:8000: Cannot assign requested address (os error 99)'
row 'a port at an address of another machine is told' 7 '' "$unassigned"
# Of two ports the second can't be had: that is told before anything comes, and the first is served.
free=$(python3 -c 'import socket; s = socket.socket(); s.bind(("127.0.0.1", 0)); print(s.getsockname()[1])')
{
    sed "s/localhost:8000/127.0.0.1:$free/" "$top/examples/shop.ol"
    sed '/^type/d; /^interface/d; s/service Shop/service Other/' "$work/shop.ol"
} > "$work/two.ol"
"$program" serve "$work/two.ol" --connections 1 > "$work/output" 2> "$work/notes" &
serving=$!
tries=0
while [ "$(wc -l < "$work/notes")" -lt 2 ] && [ $tries -lt 100 ]; do
    tries=$((tries + 1))
    sleep 0.1
done
told="roqsulei: listening at socket://127.0.0.1:$free
$unassigned"
[ "$(cat "$work/notes")" = "$told" ] || { echo "while it serves: $(cat "$work/notes")"; odd=$((odd + 1)); }
curl -s -d '{"jsonrpc":"2.0","method":"price","params":{"name":"bolt","n":5},"id":1}' \
    "http://127.0.0.1:$free/" > "$work/answer" || kill "$serving"
status=0
wait "$serving" || status=$?
mv "$work/answer" "$work/output"
told="$told
roqsulei: ended, since no further connection may come; connections: 1"
row 'one port of two is served, and the other is told' 7 '{"id":1,"jsonrpc":"2.0","result":"5 of bolt cost 15"}' "$told"
for lines in "$top"/examples/*.jsonl; do
    example=${lines%.jsonl}
    over "$lines" run "$example.ol"
    : > "$work/notes"
    row "an example prints what stands beside it: $example" 0 "$(cat "$example.out")" ''
done
printf '{"jsonrpc":"2.0","method":"quotes","params":{"item":"nut","n":10},"id":2}\n' > "$work/quotes"
over "$work/quotes" run "$top/examples/quotes.ol"
row 'console output is told on standard error' 0 '{"id":2,"jsonrpc":"2.0","result":{"error":"not sold by all","north":30,"south":25}}' \
    'nut: not sold by all'
over "$work/one" run "$twice" --budget 2
row 'a session that used its budget is stopped' 6 '{"error":{"code":-32004,"message":"stopped"},"id":1,"jsonrpc":"2.0"}' ''
over "$work/one" run "$twice" --picks 1,,2
row 'picks that are no list are a usage error' 1 '' \
    'error: --picks takes numbers from 0 to 4294967295 with commas between'
over "$work/one" run "$twice" --budget 0
row 'a budget of nothing is a usage error' 1 '' "error: invalid value '0' for '--budget <N>': 0 is not in 1..=10000

For more information, try '--help'."
over "$work/empty" run
row 'words without a FILE are a usage error' 1 '' "error: the following required arguments were not provided:
  <FILE>

Usage: roqsulei run <FILE>

$usage"
over "$work/empty" walk "$twice"
row 'a command that is none is a usage error' 1 '' "error: unrecognized subcommand 'walk'

Usage: roqsulei <COMMAND>

$usage"
over "$work/empty" "$(printf '\377')"
row 'a word that is no UTF-8 is a usage error' 1 '' "error: invalid UTF-8 was detected in one or more arguments

Usage: roqsulei <COMMAND>

$usage"
over "$work/empty" --version
row 'the version has its line' 0 'roqsulei 0.1.0' ''

# An output that takes nothing, and one that is closed.
full='roqsulei: the standard output or the standard error failed'
if [ -w /dev/full ]; then
    for words in "check $twice" "print $twice" "run $twice" "--help"; do
        status=0
        # The words have no blanks of their own unless the checkout's path has.
        # shellcheck disable=SC2086
        "$program" $words < "$work/one" > /dev/full 2> "$work/notes" || status=$?
        : > "$work/output"
        row "an output that is full fails: $words" 5 '' "$full"
    done
fi
# Console output that nobody takes: nothing is answered any more.
if [ -w /dev/full ]; then
    status=0
    "$program" run "$top/examples/quotes.ol" < "$work/quotes" > "$work/output" 2> /dev/full || status=$?
    : > "$work/notes"
    row 'a standard error that is full fails' 5 '' ''
fi
status=0
"$program" run "$twice" < "$work/one" 2> "$work/notes" >&- || status=$?
: > "$work/output"
row 'an output that is closed fails' 5 '' "$full"

echo "$rows rows, $odd of them wrong"
[ "$odd" = 0 ]
