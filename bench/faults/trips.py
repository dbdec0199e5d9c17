"""Each call of the trips to services elsewhere goes wrong in turn: the session that called hears IOException or what is
right, no call is made twice, and no other session is harmed."""
import errno
import json
import socket
import subprocess
import sys
import threading
import time

from lines import TOP, differences
from running import NOTHING, ONE_BYTE, faults_of, moved

# How many bytes a read or a write moves at most, so that there are many of them.
PIECE = 40

WAYS = {
    "socket": [errno.EMFILE, errno.ENFILE, errno.EACCES],
    "ioctl": [errno.EIO],
    "connect": [errno.ECONNREFUSED, errno.ENETUNREACH, errno.ETIMEDOUT, errno.EADDRNOTAVAIL],
    "poll": [errno.ENOMEM, errno.EINTR],
    "setsockopt": [errno.ENOPROTOOPT],
    "getsockopt": [errno.ENOPROTOOPT],
    "send": [errno.EPIPE, errno.ECONNRESET, errno.EAGAIN, NOTHING, errno.EINTR, ONE_BYTE],
    "recv": [errno.ECONNRESET, errno.EAGAIN, errno.EIO, NOTHING, errno.EINTR, ONE_BYTE],
    "shutdown": [errno.ENOTCONN],
    "close": [errno.EIO],
    "getaddrinfo": [errno.EIO],
}

# Ways in which nothing is lost, and calls of which nothing hangs.
HARMLESS = [errno.EINTR, ONE_BYTE]
UNHEARD = ["shutdown", "close"]

FILE = """interface GoI { RequestResponse: go(int)(int), told(int)(int), both(int)(int), safe(int)(int), far(int)(int) }
interface AskI { RequestResponse: ask(int)(int) OneWay: note(int) }
service S {
  execution: concurrent
  inputPort In { location: "socket://localhost:8000" protocol: jsonrpc interfaces: GoI }
  outputPort Near { location: "socket://127.0.0.1:NEAR/calls" protocol: jsonrpc interfaces: AskI }
  outputPort Far { location: "socket://127.0.0.1:FAR" protocol: jsonrpc interfaces: AskI }
  main {
    [ go(n)(y) { ask@Near(n)(y) } ] { nullProcess }
    [ told(n)(y) { note@Near(n) ; y = n } ] { nullProcess }
    [ both(n)(y) { { ask@Near(n)(a) | ask@Near(n + 10)(b) } ; y = a + b } ] { nullProcess }
    [ safe(n)(y) { scope(asked) { install(IOException => y = -1) ; ask@Near(n)(y) } } ] { nullProcess }
    [ far(n)(y) { ask@Far(n)(y) } ] { nullProcess }
  }
}
"""

# The names of the requests, whose ids and arguments are their places from 1 on. The last two are a batch.
NAMES = ["go", "told", "both", "safe", "far", "go"]
# What they are answered where each service gives the number behind the one that it is asked for.
RESULTS = [2, 2, 18, 5, 6, 7]
LOST = {"code": -32000, "data": None, "message": "IOException"}

EXAMPLE = TOP / "examples/elsewhere/rates"


class Services:
    """A service that waits with its connection until the other side closes, and one that closes behind its answer and
    says by that alone how long it is."""

    def __init__(self):
        self.heard = []
        self.lengths = {}
        self.listeners = [socket.create_server(("127.0.0.1", 0)) for _ in range(2)]
        self.ports = [it.getsockname()[1] for it in self.listeners]
        for number, listener in enumerate(self.listeners):
            threading.Thread(target=self.serve, args=(listener, number == 0), daemon=True).start()

    def serve(self, listener, is_sized):
        while True:
            connection, _ = listener.accept()
            try:
                with connection:
                    connection.settimeout(10)
                    self.answer(connection, is_sized)
            except OSError:
                pass

    def settle(self):
        """Waits until every connection that came is over: each service has one at a time, in order."""
        for port in self.ports:
            with socket.create_connection(("127.0.0.1", port)) as last:
                last.shutdown(socket.SHUT_WR)
                while last.recv(4096):
                    pass

    def answer(self, connection, is_sized):
        body = body_on(connection)
        if body is None:
            return
        call = json.loads(body)
        self.heard.append(call["params"][0])
        said = {"jsonrpc": "2.0", "id": call.get("id"), "result": call["params"][0] + 1}
        text = json.dumps(said).encode()
        head = b"HTTP/1.1 200 OK\r\nContent-Length: %d\r\n\r\n" % len(text) if is_sized else b"HTTP/1.0 200 OK\r\n\r\n"
        self.lengths[call["params"][0]] = len(head + text)
        connection.sendall(head + text)
        while is_sized and connection.recv(4096):
            pass


def body_on(connection):
    """The body of the request that comes on a connection, none where it is cut."""
    heard = b""
    while True:
        head, end, body = heard.partition(b"\r\n\r\n")
        lengths = [int(it.partition(b":")[2]) for it in head.split(b"\r\n") if it.startswith(b"Content-Length:")]
        if end and len(body) >= lengths[0]:
            return body
        piece = connection.recv(4096)
        if not piece:
            return None
        heard += piece


def asked():
    """The lines that are asked."""
    calls = [{"jsonrpc": "2.0", "method": name, "params": [it], "id": it} for it, name in enumerate(NAMES, 1)]
    return "".join(json.dumps(it) + "\n" for it in [*calls[:4], calls[4:]]).encode()


def answered(lost=None):
    """The lines that are answered, where the trips of one request are lost."""
    texts = [text_of(it, lost) for it in range(1, len(NAMES) + 1)]
    return "".join(it + "\n" for it in [*texts[:4], "[" + ",".join(texts[4:]) + "]"]).encode()


def text_of(number, lost):
    """The answer of a request, which is harmed by a loss unless it notices none or catches it."""
    if number != lost or NAMES[number - 1] == "told":
        said = {"id": number, "jsonrpc": "2.0", "result": RESULTS[number - 1]}
    elif NAMES[number - 1] == "safe":
        said = {"id": number, "jsonrpc": "2.0", "result": -1}
    else:
        said = {"error": LOST, "id": number, "jsonrpc": "2.0"}
    return json.dumps(said, separators=(",", ":"))


def trips(program, tally):
    """Each call of the trips of a file of sessions that call in several ways."""
    services = Services()
    text = FILE.replace("NEAR", str(services.ports[0])).replace("FAR", str(services.ports[1]))
    words = ["run", program.file("trips.ol", text)]
    right = program.run(words, asked(), piece=PIECE)
    services.settle()
    tally.run("trips", None, differences(right, 0, answered(), b""))
    callers = [it % 10 for it in services.heard]
    for fault in faults_of(right.calls, ways):
        if tally.wants("trips", fault):
            services.heard.clear()
            ran = program.run(words, asked(), fault, PIECE)
            services.settle()
            tally.run("trips", fault, problems(fault, ran, callers, services))


def ways(call):
    return WAYS.get(call.name, [])


def problems(fault, ran, callers, services):
    """What is wrong of a run in which that call goes wrong."""
    call = ran.wrong()
    if call is None:
        return ["no such call"]
    found = [] if ran.left_open == 0 else [f"{ran.left_open} descriptors are left"]
    if len(services.heard) != len(set(services.heard)):
        found.append(f"a call was made twice: {services.heard}")
    trip = sum(1 for it in ran.calls[: ran.place() + 1] if it.name == "socket")
    lost = callers[trip - 1]
    is_whole = fault.how == NOTHING and call.name == "recv" and has_all(ran, services.lengths.get(lost))
    if fault.how in HARMLESS or call.name in UNHEARD or is_whole:
        return [*found, *differences(ran, 0, answered(), b"")]
    return [*found, *differences(ran, 0, answered(lost), b"")]


def has_all(ran, length):
    """Whether so many bytes had been read in the trip in which a call went wrong."""
    since = max(it for it, call in enumerate(ran.before()) if call.name == "socket")
    return moved(ran.before()[since:], "recv", ran.wrong().file) == length


def rates(program, tally):
    """Each call of the trips of the example, whose service is looked up by its name: what is lost is as it was."""
    port = free_port()
    words = ["run", program.file("rates.ol", EXAMPLE.with_suffix(".ol").read_text().replace(":9000", f":{port}"))]
    service = subprocess.Popen([sys.executable, EXAMPLE.with_suffix(".py"), str(port)], stderr=subprocess.DEVNULL)
    try:
        wait_for(port)
        try_rates(program, tally, words)
    finally:
        service.kill()
        service.wait()


def free_port():
    with socket.create_server(("127.0.0.1", 0)) as listener:
        return listener.getsockname()[1]


def wait_for(port):
    for _ in range(200):
        try:
            socket.create_connection(("127.0.0.1", port)).close()
            return
        except OSError:
            time.sleep(0.05)
    sys.exit(f"nobody listens at {port}")


# The answer of each line of the example where its trip is lost.
AS_IT_IS = [
    b'{"id":1,"jsonrpc":"2.0","result":{"cents":1000,"currency":"EUR"}}\n',
    b'{"id":2,"jsonrpc":"2.0","result":{"cents":1000,"currency":"EUR"}}\n',
    b'{"id":3,"jsonrpc":"2.0","result":{"cents":250,"currency":"EUR"}}\n',
]


def try_rates(program, tally, words):
    lines, output = (EXAMPLE.with_suffix(end).read_bytes() for end in (".jsonl", ".out"))
    right = program.run(words, lines, piece=PIECE)
    tally.run("rates", None, differences(right, 0, output, b""))
    for fault in faults_of(right.calls, ways):
        if tally.wants("rates", fault):
            ran = program.run(words, lines, fault, PIECE)
            tally.run("rates", fault, problems_of_rates(fault, ran, output))


def problems_of_rates(fault, ran, output):
    """What is wrong of a run of the example in which that call goes wrong: where it is one of the name or of an address
    that is not the last, another may do."""
    call = ran.wrong()
    if call is None:
        return ["no such call"]
    found = [] if ran.left_open == 0 else [f"{ran.left_open} descriptors are left"]
    if fault.how in HARMLESS or call.name in UNHEARD:
        return [*found, *differences(ran, 0, output, b"")]
    trip = sum(1 for it in ran.calls[: ran.place() + 1] if it.name == "getaddrinfo")
    answers = output.splitlines(keepends=True)
    answers[trip - 1] = AS_IT_IS[trip - 1]
    lost = b"".join(answers)
    may_do = call.name in ("socket", "ioctl", "connect", "poll", "getsockopt")
    if may_do and ran.output == output:
        lost = output
    return [*found, *differences(ran, 0, lost, b"")]
