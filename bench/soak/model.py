"""The shop of the soak by its rules alone: what an order is answered, and whether what a run printed can be."""
import re

PIECES, FUNDS = 300, 5000

DONE = re.compile(r"(reserved|released|paid|refunded) (\S+) (\d+) (\d+)")

# What is printed of an order, apart from that it came, by its answer; what is given back is given back once.
TRACES = {
    "ok": [{"reserved", "paid"}],
    "short": [set(), {"paid", "refunded"}],
    "no funds": [set(), {"reserved", "released"}],
    "invalid": [set()],
}


def outcome_of(answer):
    """What an order came to, by its answer."""
    if "error" in answer:
        return "invalid" if answer["error"].get("message") == "Invalid" else None
    result = answer.get("result")
    return "ok" if isinstance(result, str) and result.startswith("ok, ") else result


class Shop:
    """The orders of a run, as its notes have them."""

    def __init__(self):
        self.left, self.funds = PIECES, FUNDS
        self.traces = {}
        self.wrongs = []

    def note(self, line):
        """A line that the run printed."""
        word, _, rest = line.partition(" ")
        if word == "order":
            if rest in self.traces:
                self.wrongs.append(f"the order {rest} came twice")
            self.traces[rest] = []
            return
        done = DONE.fullmatch(line)
        if not done or done[2] not in self.traces:
            self.wrongs.append(f"the run printed {line!r}")
            return
        self.do(done[1], done[2], int(done[3]), int(done[4]))

    def do(self, word, order, count, rest):
        """Something was done of an order: so many pieces or so much money, and so much is left."""
        trace = self.traces[order]
        if word in [it[0] for it in trace]:
            self.wrongs.append(f"{word} twice of {order}")
        trace.append((word, rest))
        sign = -1 if word in ("reserved", "paid") else 1
        if word in ("reserved", "released"):
            self.left = have = self.left + sign * count
        else:
            self.funds = have = self.funds + sign * count
        if have != rest or have < 0:
            self.wrongs.append(f"{word} of {order}: {rest} are left, expected {have}")

    def is_right(self, order, answer):
        """Whether the answer of an order is what was printed of it."""
        trace, outcome = self.traces[order], outcome_of(answer)
        if outcome not in TRACES or {it[0] for it in trace} not in TRACES[outcome]:
            return False
        left = dict(trace)
        return outcome != "ok" or answer["result"] == f"ok, {left['reserved']} left, {left['paid']} to spend"


class Orders:
    """The shop of examples/order.ol, each of whose orders is done before the next one comes."""

    def __init__(self):
        self.left, self.funds = 10, 100

    def answer(self, pieces, price):
        """What an order is answered: its result, or the field that is out of range."""
        if not 1 <= pieces <= 1000:
            return None, "n"
        if not 0 <= price <= 1000000:
            return None, "price"
        if pieces > self.left:
            return "short", None
        if pieces * price > self.funds:
            return "no funds", None
        self.left -= pieces
        self.funds -= pieces * price
        return f"ok, {self.left} left, {self.funds} to spend", None
