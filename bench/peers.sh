#!/bin/sh
# Runs a program over calls to services of bench/peers.py, which are on this machine and answer well or ill, and compares
# what each session gets with what docs/json-rpc.md, docs/http.md and docs/language.md say: a call that fails is the
# fault IOException of that session alone. Two of the services take up the whole time of a call, so that it needs more
# than a minute. Outside the gate: bench/peers.sh [PROGRAM], the proved one where none is given
# shellcheck source=bench/common.sh
. "$(dirname "$0")/common.sh"
if [ $# -gt 0 ]; then program=$1; else find_program; fi

# How many seconds a call may take, as docs/http.md says.
longest=30

mkfifo "$work/open"
python3 "$top/bench/peers.py" "$work" < "$work/open" &
exec 3> "$work/open"
rates=
trap 'exec 3>&-; ${rates:+kill "$rates"}; wait; rm -rf "$work"' EXIT
while [ ! -f "$work/ports" ]; do sleep 0.1; done

rows=0
odd=0

# The location of a service.
at() {
    echo "socket://127.0.0.1:$(sed -n "s/^$1 //p" "$work/ports")/calls"
}

# Whether a row, named by what it shows, has this.
row() {
    rows=$((rows + 1))
    if [ "$2" != "$3" ]; then
        echo "$1: $2"
        echo "  expected: $3"
        odd=$((odd + 1))
    fi
}

result() {
    echo "{\"id\":1,\"jsonrpc\":\"2.0\",\"result\":$1}"
}

fault() {
    echo "{\"error\":{\"code\":-32000,\"data\":$2,\"message\":\"$1\"},\"id\":1,\"jsonrpc\":\"2.0\"}"
}

# A service whose session asks the one at a location for the number behind 4.
asking() {
    cat <<END
interface GoI { RequestResponse: go(void)(int) }
interface AskI { RequestResponse: ask(int)(int) throws Known(int) OneWay: note(int) }
service S {
  execution: concurrent
  inputPort In { location: "socket://localhost:8000" protocol: jsonrpc interfaces: GoI }
  outputPort P { location: "$1" protocol: jsonrpc interfaces: AskI }
  main { go()(y) { ${2:-ask@P(4)(y)} } }
}
END
}

go='{"jsonrpc":"2.0","method":"go","id":1}'

# What is answered where the service at a location is asked, with the status.
asked() {
    asking "$@" > "$work/asking.ol"
    status=0
    echo "$go" | "$program" run "$work/asking.ol" 2>&1 || status=$?
    [ "$status" = 0 ] || echo "status $status"
}

asks() {
    row "$1" "$(asked "$(at "$1")")" "$2"
}

# ---- answers
for kind in answers answers_and_closes answers_to_the_end answers_late answers_byte_by_byte answers_longest; do
    asks "$kind" "$(result 5)"
done
asks known_fault "$(fault Known 5)"
asks other_fault "$(fault UndeclaredFault null)"
asks no_method "$(fault Refused -32601)"
asks bad_params "$(fault TypeMismatch null)"
asks no_session "$(fault CorrelationError null)"
asks text "$(fault TypeMismatch null)"

# ---- no answers
for kind in array other_id no_version no_json empty_body; do
    asks "$kind" "$(fault IOException null)"
done
for kind in junk interim status_500 status_301 chunked answers_too_long endless; do
    asks "$kind" "$(fault IOException null)"
done
for kind in cut_body cut_head no_byte no_reading resets nobody; do
    asks "$kind" "$(fault IOException null)"
done
row 'a host that has no address' "$(asked socket://nobody.invalid:9000)" "$(fault IOException null)"

# ---- what goes out
port=$(sed -n 's/^answers //p' "$work/ports")
row 'a request' "$(asked "$(at answers)"; cat "$work/answers")" "$(result 5; printf 'POST /calls HTTP/1.1\r
Host: 127.0.0.1:%s\r
Content-Type: application/json\r
Content-Length: 52\r
Connection: close\r
\r
{"id":0,"jsonrpc":"2.0","method":"ask","params":[4]}' "$port")"
row 'a call of a one-way operation has no id' \
    "$(asked "$(at answers)" 'note@P(7) ; y = 1'; tail -1 "$work/answers")" \
    "$(result 1; echo '{"jsonrpc":"2.0","method":"note","params":[7]}')"
row 'a call of a one-way operation is not missed' "$(asked "$(at nobody)" 'note@P(7) ; y = 1')" "$(result 1)"
row 'a name is looked up' "$(asked "socket://localhost:$port")" "$(result 5)"

# ---- time
for kind in silent trickles; do
    before=$(date +%s)
    asks "$kind" "$(fault IOException null)"
    took=$(($(date +%s) - before))
    [ "$took" -ge "$longest" ] && [ "$took" -le $((longest + 5)) ] && took=right
    row "$kind: time" "$took" right
done

# ---- many sessions
cat > "$work/many.ol" <<END
interface GoI { RequestResponse: go(string)(int) }
interface AskI { RequestResponse: ask(int)(int) throws Known(int) }
service S {
  execution: concurrent
  inputPort In { location: "socket://localhost:8000" protocol: jsonrpc interfaces: GoI }
  outputPort Near { location: "$(at answers)" protocol: jsonrpc interfaces: AskI }
  outputPort Far { location: "$(at nobody)" protocol: jsonrpc interfaces: AskI }
  outputPort Cut { location: "$(at cut_body)" protocol: jsonrpc interfaces: AskI }
  outputPort Junk { location: "$(at junk)" protocol: jsonrpc interfaces: AskI }
  main {
    go(where)(y) {
      if (where == "near") { ask@Near(4)(y) }
      else if (where == "far") { ask@Far(4)(y) }
      else if (where == "cut") { ask@Cut(4)(y) }
      else if (where == "both") { scope(s) { install(IOException => ask@Near(8)(y)) ; { ask@Near(4)(y) | ask@Far(4)(y) } } }
      else { ask@Junk(4)(y) }
    }
  }
}
END
printf '[%s,%s,%s,%s]\n%s\n%s\n' \
    '{"jsonrpc":"2.0","method":"go","params":["near"],"id":1}' \
    '{"jsonrpc":"2.0","method":"go","params":["far"],"id":2}' \
    '{"jsonrpc":"2.0","method":"go","params":["cut"],"id":3}' \
    '{"jsonrpc":"2.0","method":"go","params":["near"],"id":4}' \
    '{"jsonrpc":"2.0","method":"go","params":["both"],"id":5}' \
    '{"jsonrpc":"2.0","method":"go","params":["junk"],"id":6}' > "$work/many.jsonl"
lost='"error":{"code":-32000,"data":null,"message":"IOException"}'
row 'a call that fails is the fault of its session alone' "$("$program" run "$work/many.ol" < "$work/many.jsonl" 2>&1)" \
    "[{\"id\":1,\"jsonrpc\":\"2.0\",\"result\":5},{$lost,\"id\":2,\"jsonrpc\":\"2.0\"},{$lost,\"id\":3,\"jsonrpc\":\"2.0\"},\
{\"id\":4,\"jsonrpc\":\"2.0\",\"result\":5}]
{\"id\":5,\"jsonrpc\":\"2.0\",\"result\":9}
{$lost,\"id\":6,\"jsonrpc\":\"2.0\"}"

# ---- the example, with its service at the port at which nobody listened
example=$top/examples/elsewhere/rates
port=$(sed -n 's/^nobody //p' "$work/ports")
sed "s/:9000/:$port/" "$example.ol" > "$work/rates.ol"
python3 "$example.py" "$port" 2> "$work/log" &
rates=$!
until python3 -c "import socket; socket.create_connection(('127.0.0.1', $port))" 2> "$work/gone"; do sleep 0.1; done
row 'the example with its service' "$("$program" run "$work/rates.ol" < "$example.jsonl" 2>&1)" "$(cat "$example.out")"

echo "$rows rows, $odd of them wrong"
[ "$odd" = 0 ]
