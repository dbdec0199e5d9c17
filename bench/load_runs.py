#!/usr/bin/env python3
"""Load on `serve`, for bench/load.sh:

    bench/load_runs.py PROGRAM FILE [SECONDS]

FILE has a service at port 8000 whose operation `twice` gives 2 * n. Runs of the program follow one another for so many
seconds, 600 where none are named. In each one clients at the same time keep a connection, pipeline, send batches and
notifications, connect for each request, and close early; they stay within the sessions that a run has, and the run
ends with its last connection. Each id has to be answered once and right where its client stayed to hear it, each run
has to end with status 0, and no descriptor may be left. What is told in the end is counted, with the descriptors and
the resident memory of the runs behind their first request and before their last connection is closed.
"""
import collections
import itertools
import json
import os
import pathlib
import random
import socket
import struct
import subprocess
import sys
import tempfile
import threading
import time

# How many seconds a client waits for an answer, which comes once those before it were served.
LONGEST_WAIT = 60

IDS = itertools.count(1)


class Connection:
    """A connection, on which requests are sent and responses read."""

    def __init__(self, port):
        self.socket = socket.create_connection(("127.0.0.1", port), LONGEST_WAIT)
        self.bytes = b""

    def send(self, *texts, fields=""):
        heads = (f"POST / HTTP/1.1\r\nHost: a\r\n{fields}Content-Length: {len(it)}\r\n\r\n{it}" for it in texts)
        self.socket.sendall("".join(heads).encode())

    def more(self):
        piece = self.socket.recv(65536)
        if not piece:
            raise ConnectionError("closed before an answer")
        self.bytes += piece

    def response(self):
        """The status of the next response, and its body."""
        while b"\r\n\r\n" not in self.bytes:
            self.more()
        head, _, rest = self.bytes.partition(b"\r\n\r\n")
        lengths = [int(it[15:]) for it in head.split(b"\r\n") if it.startswith(b"Content-Length:")]
        length = lengths[0] if lengths else 0
        self.bytes = rest
        while len(self.bytes) < length:
            self.more()
        body, self.bytes = self.bytes[:length], self.bytes[length:]
        return int(head.split()[1]), body

    def close(self):
        self.socket.close()

    def reset(self):
        self.socket.setsockopt(socket.SOL_SOCKET, socket.SO_LINGER, struct.pack("ii", 1, 0))
        self.socket.close()


class Client(threading.Thread):
    """One who does what its kind does so many times, and notes what is due and what is heard."""

    def __init__(self, port, kind, count):
        super().__init__()
        self.port, self.kind, self.count = port, kind, count
        self.due, self.heard, self.notes = {}, [], []
        self.sent = 0

    def run(self):
        try:
            self.kind(self)
        except OSError as error:
            self.notes.append(f"{self.kind.__name__}: {error!r}")

    def call(self, is_due=True):
        """A call with an id of its own, whose answer is due or not."""
        name, number = next(IDS), random.randrange(1 << 20)
        self.sent += 1
        if is_due:
            self.due[name] = 2 * number
        return {"jsonrpc": "2.0", "method": "twice", "params": {"n": number}, "id": name}

    def notification(self):
        self.sent += 1
        return {"jsonrpc": "2.0", "method": "twice", "params": {"n": 1}}

    def hear(self, connection):
        status, body = connection.response()
        said = json.loads(body) if status == 200 else []
        self.heard += said if isinstance(said, list) else [said]
        if status not in (200, 204):
            self.notes.append(f"status {status}")


def one_by_one(client, message):
    connection = Connection(client.port)
    for _ in range(client.count):
        connection.send(json.dumps(message()))
        client.hear(connection)
    connection.close()


def keeps(client):
    one_by_one(client, client.call)


def pipelines(client):
    connection = Connection(client.port)
    for _ in range(client.count // 20):
        connection.send(*[json.dumps(client.call()) for _ in range(20)])
        for _ in range(20):
            client.hear(connection)
    connection.close()


def batches(client):
    connection = Connection(client.port)
    for _ in range(client.count // 10):
        connection.send(json.dumps([client.call() for _ in range(9)] + [client.notification()]))
        client.hear(connection)
    connection.close()


def notifies(client):
    one_by_one(client, client.notification)


def connects(client):
    for _ in range(client.count):
        connection = Connection(client.port)
        connection.send(json.dumps(client.call()), fields="Connection: close\r\n")
        client.hear(connection)
        connection.close()


def closes_early(client):
    """Says nothing, half a request, or whole ones whose answers it does not wait for, and is gone."""
    for number in range(client.count):
        connection = Connection(client.port)
        if number % 4 == 1:
            connection.socket.sendall(b"POST / HTTP/1.1\r\nHost: a\r\nContent-Le")
        if number % 4 > 1:
            connection.send(json.dumps(client.call(is_due=False)), json.dumps(client.call(is_due=False)))
        if number % 4 == 3:
            client.hear(connection)
        if number % 2:
            connection.reset()
        else:
            connection.close()


# The clients of a run: their kinds, how often each does it, and on how many connections. Together they start 3,682
# sessions, of the 4,096 that a run has.
PLAN = [
    (keeps, 400, 1),
    (keeps, 400, 1),
    (keeps, 400, 1),
    (pipelines, 400, 1),
    (pipelines, 400, 1),
    (batches, 500, 1),
    (batches, 500, 1),
    (notifies, 400, 1),
    (connects, 200, 200),
    (closes_early, 80, 80),
]


class Load:
    """What was counted in all runs."""

    def __init__(self):
        self.counts = collections.Counter()
        self.statuses = collections.Counter()
        self.files = [[], []]
        self.memory = [[], []]
        self.notes = []

    def look(self, when, process):
        """Notes the descriptors and the resident memory of a run, behind its first request or before its end."""
        self.files[when].append(len(os.listdir(f"/proc/{process.pid}/fd")))
        status = pathlib.Path(f"/proc/{process.pid}/status").read_text(encoding="ascii")
        self.memory[when].append(int(status.partition("VmRSS:")[2].split()[0]))

    def run(self, program, path, port):
        connections = 2 + sum(it for _, _, it in PLAN)
        words = [program, "serve", path, "--connections", str(connections)]
        process = subprocess.Popen(words, stdout=subprocess.DEVNULL, stderr=subprocess.DEVNULL)
        clients = [Client(port, kind, count) for kind, count, _ in random.sample(PLAN, len(PLAN))]
        first, last = (Client(port, keeps, 0) for _ in range(2))
        connection = first_connection(port)
        self.ask(first, connection)
        self.look(0, process)
        connection.close()
        for client in clients:
            client.start()
        for client in clients:
            client.join()
        connection = Connection(port)
        self.ask(last, connection)
        self.look(1, process)
        connection.close()
        self.statuses[self.end(process)] += 1
        self.count([first, *clients, last], connections)

    def ask(self, client, connection):
        connection.send(json.dumps(client.call()))
        client.hear(connection)

    def end(self, process):
        """The status of a run, which ends once its last connection is closed."""
        try:
            return process.wait(LONGEST_WAIT)
        except subprocess.TimeoutExpired:
            process.kill()
            process.wait()
            return "none: it does not end"

    def count(self, clients, connections):
        self.counts["runs"] += 1
        self.counts["connections"] += connections
        for client in clients:
            given = collections.Counter(it["id"] for it in client.heard)
            self.counts["requests"] += client.sent
            self.counts["due"] += len(client.due)
            self.counts["lost"] += sum(1 for it in client.due if it not in given)
            self.counts["doubled"] += sum(1 for it in given if given[it] > 1)
            right = (client.due.get(it["id"], it.get("result")) == it.get("result") for it in client.heard)
            self.counts["wrong"] += sum(1 for it in right if not it)
            self.notes += client.notes

    def is_right(self):
        kept = all(files == [self.files[0][0]] * len(files) for files in self.files)
        counts = (self.counts[it] for it in ("lost", "doubled", "wrong"))
        return kept and not any(counts) and not self.notes and set(self.statuses) == {0}

    def tell(self, seconds):
        runs, connections, requests = (f"{self.counts[it]:,}" for it in ("runs", "connections", "requests"))
        due, lost, doubled, wrong = (f"{self.counts[it]:,}" for it in ("due", "lost", "doubled", "wrong"))
        print(f"{runs} runs, {connections} connections, {requests} requests in {seconds:.0f} s")
        print(f"{due} answers were due: {lost} lost, {doubled} doubled, {wrong} wrong")
        print("statuses:", ", ".join(f"{status} {count} times" for status, count in self.statuses.items()))
        for name, seen in (("descriptors", self.files), ("resident memory in KB", self.memory)):
            before, after = (f"{min(it):,} to {max(it):,}" for it in seen)
            print(f"{name}: {before} before a run's clients, {after} behind them")
        for note in self.notes[:20]:
            print(note)


def first_connection(port):
    """A connection as soon as somebody listens."""
    for _ in range(1000):
        try:
            return Connection(port)
        except ConnectionRefusedError:
            time.sleep(0.01)
    sys.exit(f"nobody listens at {port}")


def main(program, path, seconds="600"):
    random.seed(1)
    load = Load()
    begun = time.monotonic()
    with tempfile.TemporaryDirectory() as folder:
        while time.monotonic() - begun < float(seconds):
            with socket.create_server(("127.0.0.1", 0)) as free:
                port = free.getsockname()[1]
            text = pathlib.Path(path).read_text(encoding="utf-8").replace("localhost:8000", f"127.0.0.1:{port}")
            copy = pathlib.Path(folder, "load.ol")
            copy.write_text(text, encoding="utf-8")
            load.run(program, copy, port)
    load.tell(time.monotonic() - begun)
    sys.exit(not load.is_right())


main(*sys.argv[1:])
