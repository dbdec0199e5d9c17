"""Clients of the shop, who behave well or ill, and what is known of each order.

An order is sent once, with an id of its own, and is told apart by what its client heard: its answer, or nothing. Who
finds nobody, as while a run starts anew, tries again with the same order."""
import collections
import contextlib
import itertools
import json
import pathlib
import random
import socket
import struct
import sys
import threading
import time

sys.path.append(str(pathlib.Path(__file__).resolve().parent.parent / "fuzz"))
import heads  # noqa: E402

# How many seconds a client waits for an answer.
LONGEST_WAIT = 60

# How many orders one connection brings at most.
MOST_ORDERS = 4

IDS = itertools.count(1)

# What is counted where an answer came in part, as a fault may have it.
CUT = "answers that were cut"


class Ledger:
    """What is known of the orders that were sent, and what was counted."""

    def __init__(self):
        self.lock = threading.Lock()
        self.open = set()
        self.answered = {}
        self.notified = set()
        self.unheard = {}
        self.run = 0
        self.counts = collections.Counter()
        self.wrongs = []
        self.is_over = False

    def begin(self, order):
        with self.lock:
            self.open.add(order)
            self.counts["orders"] += 1

    def heard(self, order, answer):
        """The answer of an order came."""
        with self.lock:
            self.open.discard(order)
            self.answered[order] = answer
            self.counts["answers"] += 1

    def lost(self, order, is_waited_for=True):
        """An order has no answer: its connection has ended, or its client did not wait."""
        with self.lock:
            self.open.discard(order)
            self.unheard[order] = self.run, is_waited_for
            self.counts["orders without an answer"] += 1

    def done(self, order):
        """An order without an id is done, whose answer nobody hears."""
        with self.lock:
            self.open.discard(order)
            self.notified.add(order)
            self.counts["notifications"] += 1

    def settle(self, order):
        """What is known of an order that a run had, and is forgotten: its answer, whether it has none since it is a
        notification, and whether its client waits for one in vain."""
        with self.lock:
            answer = self.answered.pop(order, None)
            is_notified = order in self.notified
            self.notified.discard(order)
            _, is_waited_for = self.unheard.pop(order, (0, None))
        return answer, is_notified, is_waited_for

    def forget(self, run):
        """Forgets the orders without an answer that came in no run up to this one, and can come in none after it."""
        with self.lock:
            self.unheard = {order: it for order, it in self.unheard.items() if it[0] > run}

    def count(self, name):
        with self.lock:
            self.counts[name] += 1

    def wrong(self, text):
        with self.lock:
            self.wrongs.append(text)


class Ended(Exception):
    """A connection has ended before an answer."""


class Connection:
    """A connection on which requests are sent and responses read."""

    def __init__(self, port):
        self.socket = socket.create_connection(("127.0.0.1", port), LONGEST_WAIT)
        self.socket.setsockopt(socket.IPPROTO_TCP, socket.TCP_NODELAY, 1)
        self.bytes = b""

    def send(self, text):
        try:
            self.socket.sendall(text)
        except ConnectionError:
            raise Ended from None

    def more(self):
        try:
            piece = self.socket.recv(65536)
        except ConnectionError:
            raise Ended from None
        if not piece:
            raise Ended
        self.bytes += piece

    def response(self):
        """The status of the next response, and its body."""
        while b"\r\n\r\n" not in self.bytes:
            self.more()
        head, _, rest = self.bytes.partition(b"\r\n\r\n")
        lengths = [int(it[15:]) for it in head.split(b"\r\n") if it.startswith(b"Content-Length:")]
        length = lengths[0] if lengths else 0
        self.bytes = rest
        while len(self.bytes) < length:
            self.more()
        body, self.bytes = self.bytes[:length], self.bytes[length:]
        return int(head.split()[1]), body

    def all(self):
        """All that comes until the end."""
        try:
            while True:
                self.more()
        except Ended:
            return self.bytes

    def close(self):
        self.socket.close()

    def reset(self):
        self.socket.setsockopt(socket.SOL_SOCKET, socket.SO_LINGER, struct.pack("ii", 1, 0))
        self.socket.close()


def post(body, fields=""):
    text = body.encode()
    return f"POST / HTTP/1.1\r\nHost: a\r\n{fields}Content-Length: {len(text)}\r\n\r\n".encode() + text


def order_text(order, has_name=True, pieces=None):
    """The text of an order, with or without an id."""
    pieces = random.choice([1, 1, 2, 3, 40]) if pieces is None else pieces
    said = {"jsonrpc": "2.0", "method": "order", "params": {"id": order, "n": pieces, "price": random.randrange(60)}}
    return json.dumps({**said, "id": order} if has_name else said)


def refusal(code, message, name=None):
    error = {"code": code, "message": message}
    return json.dumps({"error": error, "id": name, "jsonrpc": "2.0"}, separators=(",", ":")).encode()


class Client(threading.Thread):
    """One who does what its kind does, again and again, until it is over."""

    def __init__(self, port, ledger, kinds):
        super().__init__(daemon=True)
        self.port, self.ledger, self.kinds = port, ledger, kinds

    def run(self):
        while not self.ledger.is_over:
            kind = random.choice(self.kinds)
            try:
                connection = Connection(self.port)
            except ConnectionError:
                self.ledger.count("tries that found nobody")
                time.sleep(0.02)
                continue
            try:
                kind(self, connection)
                self.ledger.count("connections")
            except Ended:
                self.ledger.count("connections that ended early")
            except Exception as error:
                self.ledger.wrong(f"{kind.__name__}: {error!r}")
                time.sleep(1)
            finally:
                connection.close()

    def new_orders(self, count):
        orders = [f"o{next(IDS)}" for _ in range(count)]
        for it in orders:
            self.ledger.begin(it)
        return orders

    def exchange(self, connection, text, groups):
        """Sends a text, and hears the answer of each order or batch in it: all are lost that are not answered."""
        left = list(groups)
        try:
            connection.send(text)
            while left:
                self.hear(connection, left[0])
                left.pop(0)
        except TimeoutError:
            self.ledger.wrong(f"no answer in {LONGEST_WAIT} s to {left[0]}")
        finally:
            for order in itertools.chain(*left):
                self.ledger.lost(order)

    def hear(self, connection, orders):
        """Hears the answer of an order, or of a batch of them."""
        status, body = connection.response()
        said = json.loads(body) if status == 200 else []
        said = said if isinstance(said, list) else [said]
        if status != 200 or [it.get("id") for it in said] != orders:
            self.ledger.wrong(f"{orders} are answered {status} {body!r}")
        for order, answer in zip(orders, said):
            self.ledger.heard(order, answer)

    def expect(self, connection, status, body=b""):
        """Hears an answer with which the connection closes: nothing of it where the connection ended before."""
        heard = connection.all()
        right = heads.response(status, body, True)
        if not heard:
            raise Ended
        if heard != right and right.startswith(heard):
            self.ledger.count(CUT)
        elif heard != right:
            self.ledger.wrong(f"heard {heard!r}, expected {right!r}")


# ---- those who behave well


def keeps(client, connection):
    """Some orders, one after the other."""
    for _ in range(random.randrange(1, MOST_ORDERS + 1)):
        orders = client.new_orders(1)
        client.exchange(connection, post(order_text(*orders)), [orders])


def closes(client, connection):
    """One order, with whose answer the connection closes."""
    orders = client.new_orders(1)
    client.exchange(connection, post(order_text(*orders), "Connection: close\r\n"), [orders])


def pipelines(client, connection):
    """Several orders at once."""
    orders = client.new_orders(MOST_ORDERS)
    client.exchange(connection, b"".join(post(order_text(it)) for it in orders), [[it] for it in orders])


def batches(client, connection):
    """A batch of orders, of which the last is a notification."""
    *orders, last = client.new_orders(MOST_ORDERS)
    texts = [*(order_text(it) for it in orders), order_text(last, has_name=False)]
    notifies_of(client, last, lambda: client.exchange(connection, post("[" + ",".join(texts) + "]"), [orders]))


def notifies(client, connection):
    """An order that is a notification."""

    def exchange():
        connection.send(post(order_text(last, has_name=False)))
        status, _ = connection.response()
        if status != 204:
            client.ledger.wrong(f"the notification {last} is answered {status}")

    last = client.new_orders(1)[0]
    notifies_of(client, last, exchange)


def notifies_of(client, order, exchange):
    """An exchange with a notification in it: that is done where the exchange comes to its end."""
    is_done = False
    try:
        exchange()
        is_done = True
    finally:
        (client.ledger.done if is_done else client.ledger.lost)(order)


def asks_wrongly(client, connection):
    """Orders that are refused with a reason."""
    connection.send(post('{"jsonrpc":"2.0","method":"none","id":1}', "Connection: close\r\n"))
    client.expect(connection, 200, refusal(-32601, "Method not found", 1))


def orders_out_of_range(client, connection):
    """An order of too few pieces."""
    orders = client.new_orders(1)
    client.exchange(connection, post(order_text(*orders, pieces=-5)), [orders])


def is_slow(client, connection):
    """An order that comes byte by byte."""
    orders = client.new_orders(1)
    text = post(order_text(*orders))
    with contextlib.suppress(Ended):
        for at in range(len(text) - 1):
            connection.send(text[at : at + 1])
            time.sleep(0.005)
    client.exchange(connection, text[-1:], [orders])


WELL = [keeps, keeps, closes, closes, pipelines, batches, notifies, asks_wrongly, orders_out_of_range, is_slow]

# ---- those who behave ill


def is_silent(_client, connection):
    """Nothing at all, for a while."""
    time.sleep(random.choice([0, 0.1, 1]))
    connection.send(b"")


def leaves_early(client, connection):
    """An order, or half of one, whose answer is not waited for."""
    orders = client.new_orders(1)
    text = post(order_text(*orders))
    try:
        connection.send(text[: random.choice([len(text), len(text) // 2, 10])])
    finally:
        client.ledger.lost(orders[0], is_waited_for=False)
    if random.randrange(2):
        connection.reset()


def sends_another_method(client, connection):
    connection.send(b"GET / HTTP/1.1\r\nHost: a\r\n\r\n")
    client.expect(connection, 405)


def sends_no_length(client, connection):
    connection.send(b"POST / HTTP/1.1\r\nHost: a\r\n\r\n")
    client.expect(connection, 411)


def sends_too_much(client, connection):
    connection.send(b"POST / HTTP/1.1\r\nHost: a\r\nContent-Length: 65537\r\n\r\n")
    client.expect(connection, 413)


def sends_a_long_head(client, connection):
    connection.send((b"POST / HTTP/1.1\r\nX: " + b"y" * 8192)[:8192])
    client.expect(connection, 431)


def sends_odd_bytes(client, connection):
    connection.send(bytes.fromhex("16030100c6010000c20303") + random.randbytes(40).replace(b"\n", b"") + b"\r\n\r\n")
    client.expect(connection, 400)


def sends_no_json(client, connection):
    text = random.choice(["{", "nul", '{"a":}', "[" * 128 + "]" * 128, '{"n":1e309}', '"\\ud83d"', " "])
    connection.send(post(text, "Connection: close\r\n"))
    client.expect(connection, 200, refusal(-32700, "Parse error"))


def sends_no_request(client, connection):
    text = random.choice(["[]", "7", "null", '{"jsonrpc":"1.0"}', '{"jsonrpc":"2.0","method":7}'])
    connection.send(post(text, "Connection: close\r\n"))
    client.expect(connection, 200, refusal(-32600, "Invalid Request"))


ILL = [
    is_silent, leaves_early, leaves_early, sends_another_method, sends_no_length, sends_too_much, sends_a_long_head,
    sends_odd_bytes, sends_no_json, sends_no_request,
]
