"""Answers the lines of bench/runs.sh with the package json-rpc, for a body of so many statements."""
import json
import sys

from jsonrpc import JSONRPCResponseManager, dispatcher

statements = int(sys.argv[1])


@dispatcher.add_method
def twice(n):
    y = n + n
    for _ in range(1, statements):
        y = y + 1
    return y


for line in sys.stdin:
    answer = JSONRPCResponseManager.handle(line, dispatcher)
    if answer is not None:
        print(json.dumps(answer.data, sort_keys=True, separators=(",", ":")))
