"""Runs of `run` over orders and ill lines, one after the other."""
import collections
import json
import pathlib
import random
import subprocess
import sys

import drawn
import model

BENCH = pathlib.Path(__file__).resolve().parent.parent
sys.path.append(str(BENCH / "fuzz"))
import answers  # noqa: E402

FILE = BENCH.parent / "examples/order.ol"

# The lines of a run, of which about one in four is ill.
LINES = 200

# How many seconds a run may take.
LONGEST_RUN = 120

ILL = [
    b"{", b"[]", b"nul", b"[1]", b'"\\ud83d"', b"[" * 127 + b"]" * 127, b"[" * 128 + b"]" * 128, b"x" * 66000, b"",
    b" \t\r",
    b'{"jsonrpc":"2.0","method":"none","id":"n"}', b'{"jsonrpc":"2.0","method":"none"}', b'{"jsonrpc":"2.0","id":[]}',
    b'{"jsonrpc":"2.0","method":"order","params":{"id":"i","sku":"x","n":1.5,"price":1},"id":"i"}',
    b'{"jsonrpc":"2.0","method":"order","params":{"id":"j","sku":"x","n":1},"id":"j"}',
]

# The statuses that a run may end with in which calls go wrong, and what it writes then.
CUT = [2, 4, 5]


class Service:
    """What the shop of the example answers, for answers.py."""

    def __init__(self):
        self.orders = model.Orders()

    def __call__(self, method, params, name):
        try:
            tree = answers.tree_of_params(params)
        except answers.NoTree:
            return answers.refusal(answers.INVALID_PARAMS, name)
        if method != "order":
            return answers.refusal(answers.UNKNOWN, name)
        if not is_order(tree):
            return answers.refusal(answers.INVALID_PARAMS, name)
        pieces, price = (tree.children[it][0].root for it in ("n", "price"))
        result, field = self.orders.answer(pieces, price)
        if field is None:
            return {"id": name, "jsonrpc": "2.0", "result": result}
        return {"error": {"code": -32000, "data": field, "message": "Invalid"}, "id": name, "jsonrpc": "2.0"}


def is_order(tree):
    kinds = {"id": str, "sku": str, "n": int, "price": int}
    if tree.root is not None or set(tree.children) != set(kinds):
        return False
    return all(is_one(tree.children[name], kind) for name, kind in kinds.items())


def is_one(nodes, kind):
    """Whether these are one node without children, whose root is of that kind."""
    return len(nodes) == 1 and not nodes[0].children and type(nodes[0].root) is kind


def order_line(number):
    """An order, whose numbers may be out of range."""
    pieces = random.choice([1, 1, 1, 2, 3, 8, 0, -5, 1001])
    params = {"id": str(number), "sku": "x", "n": pieces, "price": random.choice([0, 1, 10, 60, -1])}
    return json.dumps({"jsonrpc": "2.0", "method": "order", "params": params, "id": number}).encode()


class Lines:
    """One run after the other, every second of which has calls that go wrong."""

    def __init__(self, program, calls, folder, ledger):
        self.program, self.library, self.folder, self.ledger = program, calls, folder, ledger
        self.statuses = collections.Counter()
        self.count = self.answers = self.calls = self.wrong = 0

    def keep(self):
        while not self.ledger.is_over:
            self.run(self.count % 2 == 1)
            self.count += 1

    def told(self):
        return ", ".join(f"{kind} {status}: {count:,}" for (kind, status), count in sorted(self.statuses.items()))

    def run(self, has_faults):
        lines = [random.choice(ILL) if random.randrange(4) == 0 else order_line(it) for it in range(LINES)]
        service = Service()
        said = (answers.answers(it, service) for it in lines if it.strip(answers.BLANKS))
        right = [answers.written(it) + b"\n" for it in said if it is not None]
        path = self.folder / "line_sum"
        environment = drawn.environment(self.library, drawn.LINES, path) if has_faults else None
        how = {"input": b"\n".join(lines) + b"\n", "capture_output": True, "env": environment, "timeout": LONGEST_RUN}
        ran = subprocess.run([self.program, "run", FILE], **how, check=False)
        kind = "has faults" if has_faults else "has none"
        self.statuses[kind, ran.returncode] += 1
        self.answers += ran.stdout.count(b"\n")
        harmful = self.harmful(path) if has_faults else 0
        if not is_right(ran, right, harmful):
            self.ledger.wrong(f"run over {b'|'.join(lines)!r}: status {ran.returncode}, {ran.stdout!r}, {ran.stderr!r}")

    def harmful(self, path):
        calls, wrong, harmful = drawn.counted(path)
        self.calls += calls
        self.wrong += wrong
        return sum(harmful[it] for it in ("read", "write"))


def is_right(ran, right, harmful):
    """Whether a run wrote what is right, or the beginning of it where a call failed: whole answers where that was one
    that reads."""
    if ran.returncode == 0:
        return ran.stdout == b"".join(right)
    if not harmful or ran.returncode not in CUT or not b"".join(right).startswith(ran.stdout):
        return False
    return ran.returncode == 5 or ran.stdout[-1:] in (b"\n", b"")
