"""Connections to `serve`, for main.py: the bytes that come back on each are those that the rules name.

The connections of a batch go to one run, several at a time and in pieces, and each sends no more after its bytes. Where
the run closes one that has sent more than was read, the system may reset it, so that the end of what was sent to it is
lost: then what comes back has to be a prefix of what is right."""
import collections
import contextlib
import os
import pathlib
import socket
import subprocess
import tempfile
import time

import answers
import data
import heads
from mutants import Mutants
from served import free_port

# How many inputs there are where nobody says so, and how many a batch has.
MOST_INPUTS = 1_000_000
INPUTS = 500
AT_ONCE = 50

# After so many sessions a batch begins no more: a body may have a thousand calls, and a run has 4,096 sessions.
MOST_SESSIONS = 2900

# How many seconds an answer may take, and a run.
LONGEST_WAIT = 60

WORDS = [
    b"POST", b"GET", b" / ", b"HTTP/1.1", b"HTTP/1.0", b"HTTP/2.0", b"\r\n", b"\r\n\r\n", b"\n", b"\n\n", b"\r", b" ",
    b"\t", b"Host: a\r\n", b"Content-Length: 0\r\n", b"Content-Length: 5\r\n", b"Content-Length: 65536\r\n",
    b"Content-Length: 65537\r\n",
    b"Content-Length: 18446744073709551616\r\n", b"Content-Length: 1, 1\r\n", b"Transfer-Encoding: chunked\r\n",
    b"Connection: close\r\n", b"Connection: keep-alive, Close\r\n", b"Expect: 100-continue\r\n", b"X: " + b"y" * 8192,
    b"A: b\r\n" * 65, b"A: b\r\n" * 62, b": x\r\n", b"A : b\r\n", b" folded\r\n", b"\xc3\xa9", b"\xff", b"\0",
]

BODY_WORDS = [b'"n"', b'"twice"', b'"id"', b"21", b"[", b"]", b"{}", b"null", b",", b":", b" "]

FILE = """type Req: void { n: int }
interface TwiceI { RequestResponse: twice(Req)(int) }
service Twice {
  execution: concurrent
  inputPort In { location: "socket://127.0.0.1:PORT" protocol: jsonrpc interfaces: TwiceI }
  main { twice(x)(y) { y = x.n * 2 } }
}
"""


class Connections:
    """Connections with what each sends, in pieces, and what is to come back."""

    def __init__(self, seed):
        lines = data.lines()
        self.bodies = Mutants(lines + [it for it in lines if b"twice" in it] * 20, BODY_WORDS, seed)
        self.random = self.bodies.random
        self.streams = Mutants(data.connections(), WORDS, seed)
        self.streams.random = self.random
        self.service = answers.Twice()
        self.made = [self.next() for _ in range(INPUTS)]

    def next(self):
        if self.service.sessions > MOST_SESSIONS:
            text = b"GET / HTTP/1.1\r\nHost: a\r\n\r\n"
        elif self.random.randrange(3) == 0:
            text = self.streams.next()
        else:
            text = b"".join(self.request() for _ in range(self.random.choice([1, 1, 2, 3, 5])))
            text = self.streams.changed(text) if self.random.randrange(2) else text
        return (text, *heads.answered(text, self.service))

    def request(self):
        """A request with a body of its own, and a head that says how long that is."""
        body = self.bodies.next() if self.random.randrange(2) else self.random.choice(self.bodies.texts)
        close, expects = (self.random.randrange(8) == 0 for _ in range(2))
        fields = (b"Connection: close\r\n" if close else b"") + (b"Expect: 100-continue\r\n" if expects else b"")
        return b"POST / HTTP/1.1\r\nHost: a\r\n%sContent-Length: %d\r\n\r\n%s" % (fields, len(body), body)

    def pieces(self, text):
        """A text in one piece, in some, or in many where it is short."""
        count = self.random.choice([1, 1, 2, 3, 5, 200 if len(text) < 300 else 5])
        places = sorted(self.random.randrange(len(text) + 1) for _ in range(count - 1))
        return [text[start:end] for start, end in zip([0, *places], [*places, len(text)])]


class Run:
    """A run of `serve`, which ends with its last connection."""

    def __init__(self, program, folder, count):
        self.port = free_port()
        path = pathlib.Path(folder, "twice.ol")
        path.write_text(FILE.replace("PORT", str(self.port)), encoding="ascii")
        words = [program, "serve", path, "--connections", str(count)]
        pipes = {name: subprocess.PIPE for name in ("stdin", "stdout", "stderr")}
        # It ends with this process, also where that comes to its end too early.
        held = {**os.environ, "ROQSULEI_HELD_BY_INPUT": "1"}
        self.process = subprocess.Popen(words, env=held, **pipes)
        self.process.stderr.readline()

    def connect(self):
        return socket.create_connection(("127.0.0.1", self.port), LONGEST_WAIT)

    def end(self):
        """Its status, and what it noted."""
        try:
            _, notes = self.process.communicate(timeout=LONGEST_WAIT)
        except subprocess.TimeoutExpired:
            self.process.kill()
            _, notes = self.process.communicate()
        return self.process.returncode, notes


def batches(count):
    """The numbers of the batches of so many inputs."""
    return range(-(-(count or MOST_INPUTS) // INPUTS))


def tried(program, seed):
    """What was counted of a batch of connections, and what was wrong."""
    its = Connections(seed)
    counts = collections.Counter(inputs=INPUTS)
    wrongs = []
    with tempfile.TemporaryDirectory() as folder:
        run = Run(program, folder, INPUTS)
        try:
            for start in range(0, INPUTS, AT_ONCE):
                some = its.made[start : start + AT_ONCE]
                for made, (heard, is_reset) in zip(some, exchanged(run, its, some)):
                    counts.update(kinds_of(made, heard, is_reset))
                    wrongs += wrongs_of(made, heard, is_reset)
        except OSError as error:
            wrongs.append(f"nobody is served any more: {error!r}")
        status, notes = run.end()
    if status != 0 or b"connections: %d\n" % INPUTS not in notes:
        wrongs.append(f"status {status}, notes {notes!r}")
    return counts, wrongs


def exchanged(run, its, some):
    """What came back on each of these connections, and whether it was reset, once the pieces of all were sent."""
    peers = [run.connect() for _ in some]
    pieces = [its.pieces(text) for text, *_ in some]
    for number in range(max(map(len, pieces))):
        for peer, its_pieces in zip(peers, pieces):
            with contextlib.suppress(OSError):
                if number < len(its_pieces):
                    peer.sendall(its_pieces[number])
                if number == len(its_pieces) - 1:
                    peer.shutdown(socket.SHUT_WR)
        if number == 0 and its.random.randrange(4) == 0:
            time.sleep(0.002)
    return [heard_of(peer) for peer in peers]


def heard_of(peer):
    """All that comes on a connection, and whether it was reset."""
    heard = b""
    with peer:
        try:
            while piece := peer.recv(65536):
                heard += piece
        except ConnectionError:
            return heard, True
        return heard, False


def kinds_of(made, heard, is_reset):
    _, _, is_closed = made
    yield "closed" if is_closed else "ended"
    yield from ["answers"] * heard.count(b"HTTP/1.1 200 OK\r\n")
    yield from ["reset"] * is_reset


def wrongs_of(made, heard, is_reset):
    """What is wrong of what came back on a connection."""
    text, right, is_closed = made
    if heard == right or (is_reset and is_closed and right.startswith(heard)):
        return []
    return [f"the bytes {text[:3000]!r} have the answer {heard!r:.600}, expected {right!r:.600}"]
