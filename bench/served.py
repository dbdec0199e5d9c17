"""The program that serves a file, and peers that call it: what bench/clients.py and bench/crowds.py share."""
import contextlib
import os
import random
import signal
import socket
import subprocess
import time

TWICE = '{"jsonrpc":"2.0","method":"twice","params":{"n":21},"id":1}'
ANSWER = '{"id":1,"jsonrpc":"2.0","result":42}'


class Served:
    """A server in a process of its own, until the block ends."""

    def __init__(self, *words, port=8000, **settings):
        self.words, self.port, self.settings = words, port, settings

    def __enter__(self):
        self.process = subprocess.Popen(self.words, stdout=subprocess.PIPE, stderr=subprocess.PIPE, **self.settings)
        for _ in range(100):
            try:
                connect(self.port).close()
                break
            except OSError:
                time.sleep(0.05)
        return self

    def __exit__(self, *_):
        self.process.send_signal(signal.SIGKILL)
        self.process.wait()

    def descriptors(self):
        """How many files the program has open."""
        return len(os.listdir(f"/proc/{self.process.pid}/fd"))

    def memory(self):
        """How many KiB of it are in memory."""
        with open(f"/proc/{self.process.pid}/status") as file:
            return next(int(line.split()[1]) for line in file if line.startswith("VmRSS"))

    def processor_seconds(self):
        """How much of a processor it has used."""
        with open(f"/proc/{self.process.pid}/stat") as file:
            fields = file.read().rsplit(")", 1)[1].split()
        return (int(fields[11]) + int(fields[12])) / os.sysconf("SC_CLK_TCK")


class Peer:
    """A connection that sends requests and reads the bodies of their answers."""

    def __init__(self, port=8000, wait=10):
        self.socket = connect(port, wait)
        self.file = self.socket.makefile("rb")

    def send(self, *bodies):
        """Sends a request for each body, one behind the other. Where they can't be sent there is no answer."""
        with contextlib.suppress(OSError):
            self.socket.sendall(b"".join(post(body) for body in bodies))

    def answer(self):
        """The body of the next response, none where the connection ends or nothing comes in time."""
        try:
            return self.response()
        except OSError:
            return None

    def response(self):
        if not self.file.readline():
            return None
        length = 0
        for line in self.file:
            name, _, value = line.partition(b":")
            if name.lower() == b"content-length":
                length = int(value)
            if line == b"\r\n":
                break
        return self.file.read(length).decode()

    def calls(self, bodies, at_once=64):
        """Calls so many at once, and gives all answers in order."""
        answers = []
        for start in range(0, len(bodies), at_once):
            some = bodies[start : start + at_once]
            self.send(*some)
            answers += [self.answer() for _ in some]
        return answers

    def close(self):
        self.file.close()
        self.socket.close()


def free_port():
    """A port at which nobody listens, below those that the system hands out by itself."""
    for port in random.sample(range(18000, 32000), 1000):
        with contextlib.suppress(OSError), socket.create_server(("127.0.0.1", port)):
            return port
    raise SystemExit("no port is free")


def connect(port=8000, wait=5):
    return socket.create_connection(("127.0.0.1", port), wait)


def post(body, extra=""):
    """A request."""
    text = body.encode()
    return f"POST / HTTP/1.1\r\nHost: localhost\r\n{extra}Content-Length: {len(text)}\r\n\r\n".encode() + text


def call(method, params, number):
    """The text of a call."""
    return f'{{"jsonrpc":"2.0","method":"{method}","params":{params},"id":{number}}}'


def result(value, number):
    """The text of its answer."""
    return f'{{"id":{number},"jsonrpc":"2.0","result":{value}}}'


def full(number):
    """The answer where a run is full."""
    return f'{{"error":{{"code":-32003,"message":"run full"}},"id":{number},"jsonrpc":"2.0"}}'
