"""Clients of `serve`: each row says what a client did and heard, and what it should have heard.

    python3 bench/clients.py PROGRAM FOLDER [CLIENT]

PROGRAM is the proved program, FOLDER that of the examples, and CLIENT what bench/client.cpp became, where it could be
compiled. Ports 8000, 8080 and 8443 have to be free. curl is needed; the other clients are left out where they aren't
installed, each with a line that says so.
"""
import contextlib
import http.client
import json
import os
import re
import resource
import shutil
import socket
import subprocess
import sys
import tempfile
import time

from served import ANSWER, TWICE, Peer, Served, call, connect, full, post, result

PROGRAM, FOLDER = sys.argv[1], sys.argv[2]
CLIENT = sys.argv[3] if len(sys.argv) > 3 else ""
HERE = os.path.dirname(os.path.abspath(__file__))
GO = """interface GoI { RequestResponse: go(void)(int) OneWay: halt(void) }
service S {
  execution: single
  inputPort In { location: "socket://localhost:8000" protocol: jsonrpc interfaces: GoI }
  main { go()(y) { halt() ; y = 1 } }
}
"""
COUNT = """type Open: void { id: int live: bool }
type Call: void { id: int }
interface CountI { RequestResponse: open(Open)(int), count(Call)(int) }
service Count {
  execution: concurrent
  inputPort In { location: "socket://localhost:8000" protocol: jsonrpc interfaces: CountI }
  cset { id: Open.id Call.id }
  main {
    open(o)(n) { n = 0 } ;
    while (o.live) { count(c)(n) { n = n + 1 } }
  }
}
"""
wrong = 0
rows = 0


def row(name, have, want):
    """Tells one row, and counts it."""
    global wrong, rows
    rows += 1
    if have == want:
        print(f"{name}: as expected")
    else:
        wrong += 1
        print(f"{name}: got {have!r:.300} where {want!r:.300} was expected")


def serving(path, *options, **settings):
    """The program that serves a file."""
    return Served(PROGRAM, "serve", path, *options, **settings)


def example(name):
    return f"{FOLDER}/{name}.ol"


def curl(*words):
    done = subprocess.run(["curl", "-s", *words, "http://localhost:8000/"], capture_output=True, text=True, timeout=30)
    return done.stdout


def heard(sent, pieces=1, wait=4.0):
    """What comes back on a connection of its own, until nothing more does."""
    with connect() as peer:
        step = max(1, len(sent) // pieces)
        for start in range(0, len(sent), step):
            peer.sendall(sent[start : start + step])
        peer.shutdown(socket.SHUT_WR)
        peer.settimeout(wait)
        got = b""
        try:
            while True:
                piece = peer.recv(65536)
                if not piece:
                    return got.decode()
                got += piece
        except OSError:
            return got.decode()


def ok(body):
    return f"HTTP/1.1 200 OK\r\nContent-Type: application/json\r\nContent-Length: {len(body)}\r\n\r\n{body}"


def clients():
    with serving(example("twice")) as served:
        row("curl", curl("-d", TWICE), ANSWER)
        row("curl, a batch", curl("-d", f"[{TWICE},{TWICE}]"), f"[{ANSWER},{ANSWER}]")
        notification = '{"jsonrpc":"2.0","method":"twice","params":{"n":1}}'
        row("curl, a notification", curl("-o", "/dev/null", "-w", "%{http_code}", "-d", notification), "204")
        row("curl, GET", curl("-o", "/dev/null", "-w", "%{http_code}"), "405")
        row("curl, waiting for the interim line", curl("-H", "Expect: 100-continue", "-d", TWICE), ANSWER)
        row("curl, HTTP/1.0", curl("-0", "-d", TWICE), ANSWER)
        big = json.dumps({"jsonrpc": "2.0", "method": "twice", "params": {"n": "x" * 66000}, "id": 1})
        row("curl, a body that is too large", curl("-o", "/dev/null", "-w", "%{http_code}", "-d", big), "413")
        connection = http.client.HTTPConnection("localhost", 8000, timeout=10)
        told = []
        for _ in range(3):
            connection.request("POST", "/", TWICE)
            told.append(connection.getresponse().read().decode())
        connection.close()
        row("http.client, three on one connection", told, [ANSWER] * 3)
        row("pipelined", heard(post(TWICE) * 3), ok(ANSWER) * 3)
        row("byte by byte", heard(post(TWICE), 200), ok(ANSWER))
        row("half a request", heard(post(TWICE)[:70]), "")
        row("TLS bytes", heard(bytes.fromhex("16030100c6010000c20303") + b"\r\n\r\n")[:24], "HTTP/1.1 400 Bad Request")
        idle = connect()
        begun = time.monotonic()
        row("beside one who says nothing", curl("-d", TWICE), ANSWER)
        row("who holds up nobody", time.monotonic() - begun < 1.0, True)
        idle.close()
        for _ in range(20):
            peer = connect()
            peer.setsockopt(socket.SOL_SOCKET, socket.SO_LINGER, b"\1\0\0\0\0\0\0\0")
            peer.sendall(post(TWICE))
            peer.close()
        row("behind twenty who reset", curl("-d", TWICE), ANSWER)
        row("no descriptor is left", served.descriptors() <= 8, True)
        row("it is still there", served.process.poll(), None)
        h2load(served)
        nginx()
    page()
    examples()
    wrk()
    json_rpc_cpp()
    pelix()
    late()
    few_files()
    bounds()
    ends()


def page():
    """The client in Python that stands in the page, over the example that it calls."""
    with open(f"{HERE}/../docs/before-you-go-live.md", encoding="utf-8") as file:
        client = re.search(r"```python\n(.*?)```", file.read(), re.DOTALL)[1]
    with serving(example("shop")):
        done = subprocess.run([sys.executable, "-c", client], capture_output=True, text=True, timeout=30)
        row("the client of the page", done.stdout, "5 of bolt cost 15\n")


def examples():
    """What `run` answers to the lines of an example is what its requests are answered on a connection."""
    for name in ["calculator", "ledger", "order", "payment", "quotes", "saga", "shop", "twice"]:
        with open(f"{FOLDER}/{name}.jsonl", encoding="utf-8") as file:
            lines = [line for line in file.read().splitlines() if line.strip()]
        with open(f"{FOLDER}/{name}.out", encoding="utf-8") as file:
            answers = file.read().splitlines()
        with serving(example(name)):
            peer = Peer()
            told = [peer.calls([line])[0] for line in lines]
            peer.close()
        row(f"the lines of {name}, on one connection", [answer for answer in told if answer], answers)


def left_out(name):
    print(f"{name}: left out, since it is not installed")


def h2load(served):
    if not shutil.which("h2load"):
        return left_out("h2load")
    with open("/tmp/roqsulei-call.json", "w") as file:
        file.write(TWICE)
    words = ["h2load", "--h1", "-n", "400", "-d", "/tmp/roqsulei-call.json"]
    for name, more in [("one connection", ["-c", "1"]), ("eight pipelined", ["-c", "1", "-m", "8"]),
                       ("four connections", ["-c", "4"]),
                       ("closing each time", ["-c", "1", "-H", "Connection: close"])]:
        said = subprocess.run([*words, *more, "http://localhost:8000/"], capture_output=True, text=True, timeout=60)
        counts = re.search(r"(\d+) succeeded, (\d+) failed, (\d+) errored", said.stdout)
        row(f"h2load, {name}", counts and counts.groups(), ("400", "0", "0"))
    early = subprocess.Popen([*words[:2], "-n", "100000", "-c", "8", "-m", "8", *words[4:], "http://localhost:8000/"],
                             stdout=subprocess.DEVNULL)
    time.sleep(0.1)
    early.kill()
    early.wait()
    row("behind an h2load that was killed", curl("-d", TWICE), ANSWER)
    row("it has left no descriptor", served.descriptors() <= 8, True)


def wrk():
    if not shutil.which("wrk"):
        return left_out("wrk")
    words = ["wrk", "-t1", "-c1", "-d1s", "-s", f"{HERE}/pipeline.lua", "http://localhost:8000/"]
    with serving(example("twice")) as served:
        said = subprocess.run(words, capture_output=True, text=True, timeout=30).stdout
        row("wrk, eight pipelined: all are answered", "Socket errors" in said or "Non-2xx" in said, False)
        row("wrk, eight pipelined: some are", re.search(r"([1-9]\d*) requests in", said) is not None, True)
        row("behind wrk it is still there", served.process.poll(), None)


def json_rpc_cpp():
    if not CLIENT:
        return left_out("libjson-rpc-cpp's client")

    def said(*words):
        done = subprocess.run([CLIENT, "http://localhost:8000/", *words], capture_output=True, text=True, timeout=30)
        return done.stdout.splitlines()

    with serving(example("twice")):
        row("libjson-rpc-cpp, twice", said("call", "twice", '{"n":21}', "call", "twice", '{"n":4}'), ["42", "8"])
        row("libjson-rpc-cpp, a batch", said("batch", "twice", '{"n":5}'), ["10 10"])
        row("libjson-rpc-cpp, no operation", said("call", "none", "{}", "call", "twice", '{"n":1}'),
            ["error -32601", "2"])
        row("libjson-rpc-cpp, no int", said("call", "twice", '{"n":"x"}'), ["error -32602"])
    with serving(example("calculator")):
        row("libjson-rpc-cpp, calculator",
            said("call", "subtract", '{"minuend":42,"subtrahend":23}', "call", "sum", '{"n":[1,2,4]}',
                 "call", "get_data", "{}"),
            ["19", "7", '{"list":["hello",5]}'])
    with serving(example("ledger")):
        row("libjson-rpc-cpp, ledger",
            said("call", "enter", '{"text":"opened","amount":100}', "call", "enter", '{"text":"rent","amount":-130}',
                 "call", "statement", "{}"),
            ["100", "error -32000", '{"balance":100,"entry":[{"amount":100,"text":"opened"}]}'])
        # It takes the status 204 for a fault; the notification is done all the same.
        row("libjson-rpc-cpp, a notification", said("notify", "clear", "{}", "call", "statement", "{}"),
            ["error -32603", '{"balance":0}'])


def pelix():
    try:
        import jsonrpclib
    except ImportError:
        return left_out("jsonrpclib-pelix")

    def code(method, **params):
        try:
            return method(**params)
        except jsonrpclib.ProtocolError as error:
            return error.args[0][0]

    def notified(method):
        try:
            return method()
        except jsonrpclib.jsonrpc.TransportError as error:
            return error.args[1]

    with serving(example("twice")):
        server = jsonrpclib.ServerProxy("http://localhost:8000")
        row("jsonrpclib-pelix, twice", [server.twice(n=21), server.twice(n=4)], [42, 8])
        batch = jsonrpclib.MultiCall(server)
        batch.twice(n=1)
        batch.twice(n=2)
        row("jsonrpclib-pelix, a batch", list(batch()), [2, 4])
        row("jsonrpclib-pelix, no operation", code(server.none), -32601)
        row("jsonrpclib-pelix, no int", code(server.twice, n="x"), -32602)
    with serving(example("calculator")):
        server = jsonrpclib.ServerProxy("http://localhost:8000")
        row("jsonrpclib-pelix, calculator", [server.subtract(minuend=42, subtrahend=23), server.sum(n=[1, 2, 4]),
                                             server.get_data()], [19, 7, {"list": ["hello", 5]}])
    with serving(example("ledger")):
        server = jsonrpclib.ServerProxy("http://localhost:8000")
        row("jsonrpclib-pelix, ledger",
            [server.enter(text="opened", amount=100), code(server.enter, text="rent", amount=-130), server.statement()],
            [100, -32000, {"balance": 100, "entry": [{"amount": 100, "text": "opened"}]}])
        # It takes the status 204 for a fault, and its connection is no use then; the notification is done all the same.
        heard_of_it = notified(server._notify.clear)
        server("close")()
        row("jsonrpclib-pelix, a notification",
            [heard_of_it, jsonrpclib.ServerProxy("http://localhost:8000").statement()], [204, {"balance": 0}])


def nginx():
    if not shutil.which("nginx"):
        return left_out("nginx")
    call = ["curl", "-s", "-d", TWICE]
    with proxy("/tmp", f"{FOLDER}/nginx.conf"):
        done = subprocess.run([*call, "http://localhost:8080/"], capture_output=True, text=True)
        row("through nginx", done.stdout, ANSWER)
        chunked = [*call, "-H", "Transfer-Encoding: chunked", "http://localhost:8080/"]
        done = subprocess.run(chunked, capture_output=True, text=True)
        row("a chunked body through nginx", done.stdout, ANSWER)
    if not shutil.which("openssl"):
        return left_out("nginx with TLS")
    with tempfile.TemporaryDirectory() as folder:
        words = ["openssl", "req", "-x509", "-newkey", "rsa:2048", "-nodes", "-subj", "/CN=localhost", "-days", "1"]
        subprocess.run([*words, "-keyout", "key.pem", "-out", "cert.pem"], cwd=folder, check=True, capture_output=True)
        shutil.copy(f"{FOLDER}/nginx-tls.conf", folder)
        with proxy(folder, "nginx-tls.conf"):
            done = subprocess.run([*call, "-k", "https://localhost:8443/"], capture_output=True, text=True)
            row("through nginx with TLS", done.stdout, ANSWER)
            words = ["curl", "-s", "-k", "-o", "/dev/null", "-w", "%{http_code}", "https://localhost:8443/health"]
            row("the health of nginx", subprocess.run(words, capture_output=True, text=True).stdout, "204")


@contextlib.contextmanager
def proxy(folder, config):
    """nginx in front, as a configuration says, over the files of a folder."""
    words = ["nginx", "-p", folder, "-c", config, "-g", "daemon off;"]
    server = subprocess.Popen(words, stderr=subprocess.DEVNULL)
    time.sleep(1)
    try:
        yield
    finally:
        server.terminate()
        server.wait()


def late():
    """A request waits for what comes on another connection."""
    path = "/tmp/roqsulei-go.ol"
    with open(path, "w") as file:
        file.write(GO)
    with serving(path):
        first = connect()
        first.sendall(post('{"jsonrpc":"2.0","method":"go","params":{},"id":1}'))
        time.sleep(0.5)
        code = curl("-o", "/dev/null", "-w", "%{http_code}", "-d", '{"jsonrpc":"2.0","method":"halt"}')
        row("a one-way call on another connection", code, "204")
        first.settimeout(10)
        row("answers the one that waited", first.recv(65536).decode(), ok('{"id":1,"jsonrpc":"2.0","result":1}'))
        first.close()


def few_files():
    """Where no file is left, who comes waits until one is."""
    files = 16

    def limit():
        resource.setrlimit(resource.RLIMIT_NOFILE, (files, files))

    with serving(example("twice"), preexec_fn=limit) as served:
        peers = [Peer() for _ in range(20)]
        told = []
        for peer in peers:
            peer.send(TWICE)
            told.append(peer.answer())
            peer.close()
        row("twenty guests where ten files are left", told, [ANSWER] * 20)
        row("and one behind them", curl("-d", TWICE), ANSWER)
        row("no door has failed", served.process.poll(), None)
    path = "/tmp/roqsulei-go.ol"
    with serving(path, preexec_fn=limit) as served:
        # Of 16 files three are the streams, two the poll and one the door.
        waiting = [Peer() for _ in range(14)]
        for number, peer in enumerate(waiting):
            peer.send(call("go", "{}", number))
        time.sleep(1)
        row("no file is left", served.descriptors(), files)
        used = served.processor_seconds()
        time.sleep(2)
        row("it rests where none is left", served.processor_seconds() - used < 0.1, True)
        row("and waits for one", served.process.poll(), None)
        for peer in waiting:
            peer.close()


def bounds():
    """What is answered where a run is full."""
    with serving(example("twice")) as served:
        peer = Peer()
        told = peer.calls([call("twice", '{"n":21}', number) for number in range(4096)])
        row("4,096 sessions", told, [result(42, number) for number in range(4096)])
        row("a call behind them", peer.calls([call("twice", '{"n":21}', 7)] * 2), [full(7)] * 2)
        unknown = '{"error":{"code":-32601,"message":"Method not found"},"id":8,"jsonrpc":"2.0"}'
        row("one of no operation", peer.calls([call("none", "{}", 8)]), [unknown])
        wrong = '{"error":{"code":-32602,"message":"Invalid params"},"id":9,"jsonrpc":"2.0"}'
        row("one with no int", peer.calls([call("twice", "{}", 9)]), [wrong])
        peer.close()
        notification = '{"jsonrpc":"2.0","method":"twice","params":{"n":1}}'
        row("a notification behind them", curl("-o", "/dev/null", "-w", "%{http_code}", "-d", notification), "204")
        row("it goes on", served.process.poll(), None)
    path = "/tmp/roqsulei-count.ol"
    with open(path, "w") as file:
        file.write(COUNT)
    with serving(path):
        peer = Peer(wait=60)
        opened = peer.calls([opening(number, "true" if number == 5 else "false") for number in range(4096)])
        row("4,096 sessions, of which one lives", opened, [result(0, number) for number in range(4096)])
        row("a further one", peer.calls([opening(4096, "true")]), [full(4096)])
        told = peer.calls([call("count", '{"id":5}', 2)] * 2)
        row("messages for the one that lives", told, [result(1, 2), result(2, 2)])
        peer.close()
    with serving(path):
        peer = Peer(wait=60)
        peer.calls([opening(number, "true") for number in range(32)])
        most = 65536 - 32
        told = peer.calls([call("count", f'{{"id":{number % 32}}}', number) for number in range(most)])
        row("65,536 messages", told, [result(number // 32 + 1, number) for number in range(most)])
        row("a message behind them", peer.calls([call("count", '{"id":5}', 3)] * 2), [full(3)] * 2)
        row("a session behind them", peer.calls([opening(99, "true")]), [full(99)])
        row("one of no operation behind them", peer.calls([call("none", "{}", 5)]), [full(5)])
        row("one with no id behind them", peer.calls([call("count", "{}", 6)]), [full(6)])
        peer.close()


def opening(number, live):
    """The call that starts the session of a number, which ends at once or lives on."""
    return call("open", f'{{"id":{number},"live":{live}}}', number)


def ends():
    """With so many connections it ends."""
    # The first connection is the one that looks whether the door is open.
    with serving(example("twice"), "--connections", "3") as served:
        row("the second of three", curl("-d", TWICE), ANSWER)
        row("the third of three", curl("-d", TWICE), ANSWER)
        row("then it ends", served.process.wait(15), 0)
        row("and has said no more than where it listened and why it ended", served.process.stderr.read(),
            b"roqsulei: listening at socket://localhost:8000\n"
            b"roqsulei: ended, since no further connection may come; connections: 3\n")
    with serving(example("twice")):
        second = subprocess.run([PROGRAM, "serve", example("twice")], capture_output=True, timeout=30)
        row("a port in use", (second.returncode, second.stderr),
            (7, b"roqsulei: socket://localhost:8000: Address already in use (os error 98)\n"))


clients()
print(f"{rows} rows, {wrong} not as expected")
sys.exit(wrong != 0)
