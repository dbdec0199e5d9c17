#!/usr/bin/env python3
"""Hands random lines to the proved program over each example: calls with numbers of any size, with missing and with odd
values, batches, notifications, broken, nested and long texts. It counts the answers by their ids, and those of a batch
by all of its ids in order: each call with an id has to be answered once, in its place, and nothing else. The lines go
to runs of 100, so that no session uses up its events, and the last line of each run is a good call: it has to be
answered by a result or by a fault that says so, whatever came before. The service elsewhere that one example calls need
not be there: then its calls fail. With names after the program it takes these examples alone. Outside the gate, where
`rt ci` passed:

    bench/random_lines.py [LINES [SEED [PROGRAM [EXAMPLE ..]]]]
"""
import collections
import json
import pathlib
import random
import subprocess
import sys

TOP = pathlib.Path(__file__).resolve().parent.parent
PROGRAM = TOP / "crates/roqsulei/out/roqsulei"
BROKEN = ["{", "[", "nul", '{"a":}', '"', "[1,", '{"jsonrpc":"2.0"', "[]"]
BLANK = ["", "   ", "\t \r"]
NO_REQUESTS = [1, "x", None, True, {}, {"a": 1}]
NO_IDS = [1.5, [], {}, True]
INTS = [-(2**63), -(2**31), 1 - 2**31, -1, 0, 1, 2, 2**31 - 1, 2**31, 2**63 - 1, 2**63]
A_RUN = 100

# For each example a good call, and the faults that may answer it.
GOOD = {
    "booking": ("book", {"booking": "good", "seats": 1}, ["Full"]),
    "calculator": ("subtract", {"minuend": 42, "subtrahend": 23}, []),
    "ledger": ("statement", None, []),
    "order": ("order", {"id": "good", "sku": "x", "n": 1, "price": 0}, []),
    "payment": ("pay", {"card": "good", "amount": 1}, []),
    "quotes": ("quotes", {"item": "bolt", "n": 10}, []),
    "rates": ("convert", {"cents": 1000, "currency": "USD"}, ["Unknown"]),
    "saga": ("trip", None, []),
    "shop": ("price", {"name": "bolt", "n": 5}, []),
    "twice": ("twice", {"n": 21}, []),
}


class Lines:
    """Random lines made of the calls of an example, and how often each answer is due: by its id, that of a batch by the
    list of its ids."""

    def __init__(self, calls, seed):
        self.calls = calls
        self.random = random.Random(seed)
        self.count = 0
        self.due = collections.Counter()

    def value(self, depth=0):
        """A value as params have it, good or bad."""
        kind = self.random.randrange(9 if depth < 5 else 6)
        if kind < 6:
            number = self.random.randrange(2**31 - 3, 2**33)
            plain = [None, True, self.random.randrange(-5, 300), self.random.choice(["", "a", "h\u00e9", "\u0000x"])]
            return [*plain, number, 1.5][kind]
        if kind == 6:
            return [self.value(depth + 1) for _ in range(self.random.randrange(4))]
        names = ["n", "a", "b", "$", "item", "x y"]
        return {self.random.choice(names): self.value(depth + 1) for _ in range(self.random.randrange(4))}

    def call(self):
        """A call, changed in one place at the most, and the ids to which it is due an answer."""
        self.count += 1
        call = json.loads(json.dumps(self.random.choice(self.calls)))
        call["id"] = self.random.choice([self.count, f"s{self.count}"])
        change = self.random.randrange(20)
        params = call.get("params")
        if change >= 10 and isinstance(params, dict) and params:
            self.change_field(params, change)
            return call, [call["id"]]
        if change == 0:
            call["method"] = "nope"
        elif change == 1:
            call["params"] = self.value()
        elif change == 2:
            call.pop("params", None)
        elif change == 3:
            del call["id"]
            return call, []
        elif change == 4:
            call["jsonrpc"] = "1.0"
        elif change == 5:
            call["method"] = 7
        elif change == 6:
            call["id"] = self.random.choice(NO_IDS)
            return call, [None]
        elif change == 7:
            return self.random.choice(NO_REQUESTS), [None]
        return call, [call["id"]]

    def change_field(self, params, change):
        """Takes a field away, or gives it another value: mostly a number of any size where it has one."""
        name = self.random.choice(list(params))
        if change == 10:
            del params[name]
        elif change == 11:
            params[name] = self.value()
        else:
            numbers = [it for it, value in params.items() if isinstance(value, int)]
            wide = self.random.randrange(-(2**self.random.randrange(1, 64)), 2**self.random.randrange(1, 64))
            params[self.random.choice(numbers or [name])] = self.random.choice([*INTS, wide, wide])

    def line(self):
        """A line, whose answer becomes due."""
        kind = self.random.randrange(12)
        if kind == 0:
            return self.random.choice(BLANK)
        if kind == 1:
            return self.owing(self.random.choice(BROKEN), None)
        if kind == 2:
            depth = self.random.choice([70, 200, 3000])
            # What can be read is a batch of one that is no request.
            return self.owing("[" * depth + "]" * depth, [None] if depth < 128 else None)
        if kind == 3:
            return self.owing(json.dumps({"jsonrpc": "2.0", "method": "x" * 70000, "id": 5}), None)
        if kind == 4:
            return self.batch()
        call, ids = self.call()
        line = json.dumps(call, ensure_ascii=False)
        return self.owing(line, ids[0]) if ids else line

    def batch(self):
        made = [self.call() for _ in range(self.random.randrange(1, 6))]
        ids = [it for _, its in made for it in its]
        line = json.dumps([call for call, _ in made], ensure_ascii=False)
        return self.owing(line, ids) if ids else line

    def owing(self, line, ids):
        """The line, once its answer has become due."""
        self.due[json.dumps(ids)] += 1
        return line


def is_call(said):
    """Whether it is a request, which is a notification where it has no id."""
    return isinstance(said, dict) and said.get("jsonrpc") == "2.0" and isinstance(said.get("method"), str)


def calls_of(example):
    """The calls in the lines of an example."""
    found = []
    for line in example.with_suffix(".jsonl").read_text().splitlines():
        try:
            said = json.loads(line)
        except ValueError:
            continue
        found += [it for it in (said if isinstance(said, list) else [said]) if is_call(it)]
    return found


def answers_in(output):
    """How often each id is answered, and those of each batch together."""
    given = collections.Counter()
    for line in output.splitlines():
        said = json.loads(line)
        for answer in said if isinstance(said, list) else [said]:
            if set(answer) not in ({"id", "jsonrpc", "result"}, {"id", "jsonrpc", "error"}):
                raise ValueError(f"no answer: {line}")
        ids = [answer["id"] for answer in said] if isinstance(said, list) else said["id"]
        given[json.dumps(ids)] += 1
    return given


def wrongs_of(program, example, lines, count):
    """Hands a run of so many lines to the program, and says what is wrong with what it answers."""
    method, params, faults = GOOD[example.stem]
    good = {"jsonrpc": "2.0", "method": method, "id": "good"}
    if params is not None:
        good["params"] = params
    text = "".join(lines.line() + "\n" for _ in range(count)) + lines.owing(json.dumps(good), "good") + "\n"
    ran = subprocess.run([program, "run", example], input=text.encode(), capture_output=True)
    output = ran.stdout.decode()
    given = answers_in(output)
    wrongs = [f"not answered: {it}" for it in (lines.due - given).elements()]
    wrongs += [f"answered, and not asked: {it}" for it in (given - lines.due).elements()]
    if ran.returncode:
        wrongs.append(f"status {ran.returncode}")
    for line in output.splitlines():
        said = json.loads(line)
        if isinstance(said, dict) and said["id"] == "good" and "error" in said:
            if said["error"]["message"] not in faults:
                wrongs.append(f"a good call: {line}")
    return wrongs


def main():
    count = int(sys.argv[1]) if len(sys.argv) > 1 else 10000
    seed = int(sys.argv[2]) if len(sys.argv) > 2 else 1
    program = sys.argv[3] if len(sys.argv) > 3 else PROGRAM
    if not pathlib.Path(program).exists():
        sys.exit("no proved program: run rt ci first")
    names = sys.argv[4:] or list(GOOD)
    wrong = 0
    for example in sorted((TOP / "examples").rglob("*.ol")):
        if example.stem not in names:
            continue
        calls = calls_of(example)
        found = 0
        for run, start in enumerate(range(0, count, A_RUN)):
            size = min(A_RUN, count - start)
            for it in wrongs_of(program, example, Lines(calls, f"{seed} {run}"), size):
                found += 1
                print(f"{example.stem}, run {run}: {it}")
        wrong += found
        print(f"{example.stem}: {count} lines, {found} wrong")
    sys.exit(1 if wrong else 0)


main()
