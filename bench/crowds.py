"""Figures of `serve`, for bench/http.sh.

    python3 bench/crowds.py PROGRAM FOLDER WORK [SERVER]

PROGRAM is the program, FOLDER that of the examples, WORK a folder for what is written, and SERVER what bench/server.cpp
became, where it could be compiled. Ports 8000 to 8002 and 8080 have to be free.
"""
import collections
import re
import resource
import shutil
import socket
import statistics
import subprocess
import sys
import threading
import time

from served import ANSWER, TWICE, Peer, Served, call, connect, full, post

PROGRAM, FOLDER, WORK = sys.argv[1:4]
SERVER = sys.argv[4] if len(sys.argv) > 4 else ""

# A session that answers in a loop, for each id.
COUNT = """type Call: void { id: int }
interface CountI { RequestResponse: open(Call)(int), count(Call)(int) }
service Count {
  execution: concurrent
  inputPort In { location: "socket://localhost:8000" protocol: jsonrpc interfaces: CountI }
  cset { id: Call.id }
  main {
    open(c)(n) { n = 0 } ;
    while (true) { count(c)(n) { n = n + 1 } }
  }
}
"""

# A session that answers once another message has come, for each id.
WAIT = """type Call: void { id: int }
interface WaitI { RequestResponse: wait(Call)(int) OneWay: go(Call) }
service Wait {
  execution: concurrent
  inputPort In { location: "socket://localhost:8000" protocol: jsonrpc interfaces: WaitI }
  cset { id: Call.id }
  main { wait(c)(y) { go(c) ; y = 1 } }
}
"""

PELIX = """import sys
from jsonrpclib.SimpleJSONRPCServer import SimpleJSONRPCServer
server = SimpleJSONRPCServer(("127.0.0.1", int(sys.argv[1])), logRequests=False)
server.register_function(lambda n: n * 2, "twice")
server.serve_forever()
"""


def serving(path):
    return Served(PROGRAM, "serve", path)


def written(name, text):
    path = f"{WORK}/{name}"
    with open(path, "w") as file:
        file.write(text)
    return path


def servers():
    """Each server with its name and its port."""
    yield "Roqsulei", Served(PROGRAM, "serve", f"{FOLDER}/twice.ol")
    try:
        import jsonrpclib  # noqa: F401
        yield "jsonrpclib-pelix", Served(sys.executable, "-c", PELIX, "8001", port=8001)
    except ImportError:
        print("jsonrpclib-pelix: left out, since it is not installed")
    if SERVER:
        yield "libjson-rpc-cpp", Served(SERVER, "8002", port=8002)
    else:
        print("libjson-rpc-cpp: left out, since it is not installed")


def rates():
    """Requests a second, the better of two runs of 4,000 requests each."""
    if not shutil.which("h2load"):
        print("requests a second: left out, since h2load is not installed")
        return
    words = ["h2load", "--h1", "-n", "4000", "-d", written("call.json", TWICE)]
    patterns = [("one connection", ["-c", "1"]), ("eight pipelined", ["-c", "1", "-m", "8"]),
                ("16 connections", ["-c", "16"]), ("one for each", ["-c", "1", "-H", "Connection: close"])]
    for name, server in servers():
        told = []
        for pattern, more in patterns:
            best = 0
            for _ in range(2):
                with server:
                    url = f"http://127.0.0.1:{server.port}/"
                    said = subprocess.run([*words, *more, url], capture_output=True, text=True, timeout=60).stdout
                rate = re.search(r"([0-9.]+) req/s", said)
                right = " 4000 succeeded, 0 failed, 0 errored" in said
                best = max(best, float(rate[1]) if rate and right else 0)
            told.append(f"{pattern} {best:,.0f}" if best else f"{pattern} failed")
        print(f"requests a second, {name}: {'; '.join(told)}")


def memory():
    """What is in memory behind many requests."""
    most = 0
    begun = time.monotonic()
    for _ in range(25):
        with serving(f"{FOLDER}/twice.ol") as served:
            peer = Peer()
            answers = peer.calls([TWICE] * 4096)
            assert answers == [ANSWER] * 4096, "not all were answered"
            most = max(most, served.memory())
            peer.close()
    took = time.monotonic() - begun
    print(f"25 runs of 4,096 sessions, one after the other: at most {most / 1024:.1f} MiB, {took:.1f} s")
    with serving(written("count.ol", COUNT)) as served:
        peer = Peer(wait=60)
        first = served.memory()
        peer.calls([call("open", f'{{"id":{number}}}', 0) for number in range(32)])
        told = []
        begun = time.monotonic()
        for quarter in range(4):
            peer.calls([call("count", f'{{"id":{number % 32}}}', 0) for number in range(16376)])
            told.append(f"{served.memory() / 1024:.1f}")
        took = time.monotonic() - begun
        behind = peer.calls([call("count", '{"id":5}', 1)])
        assert behind == [full(1)], "the run is not full"
        peer.close()
    print(f"one run of 65,536 messages: {first / 1024:.1f} MiB at first, {', '.join(told)} MiB behind each quarter, "
          f"{took:.1f} s")


def living_sessions():
    """What a request costs where many sessions live."""
    with serving(written("count.ol", COUNT)) as served:
        peer = Peer(wait=60)
        told = []
        for first, behind in [(0, 250), (250, 500), (500, 1000)]:
            peer.calls([call("open", f'{{"id":{number}}}', 0) for number in range(first, behind)])
            used = served.processor_seconds()
            peer.calls([call("count", '{"id":5}', 0)] * 200)
            told.append(f"{(served.processor_seconds() - used) * 5:.1f} ms beside {behind:,}")
        peer.close()
    print(f"a request beside sessions that live: {', '.join(told)}, of a processor")


def one_call():
    """What comes of a call on a connection of its own."""
    try:
        with connect(wait=10) as peer:
            peer.sendall(post(TWICE, "Connection: close\r\n"))
            told = b""
            while piece := peer.recv(65536):
                told += piece
    except OSError as error:
        return type(error).__name__
    if told.endswith(ANSWER.encode()):
        return "answered"
    return "run full" if told.endswith(full(1).encode()) else "something else"


def flood():
    """As many calls as 64 connections at once can make."""
    counts = collections.Counter()
    end = time.monotonic() + 3

    def guest():
        while time.monotonic() < end:
            counts[one_call()] += 1

    with serving(f"{FOLDER}/twice.ol") as served:
        before = served.descriptors()
        guests = [threading.Thread(target=guest) for _ in range(64)]
        for it in guests:
            it.start()
        for it in guests:
            it.join()
        told = ", ".join(f"{name} {count:,}" for name, count in counts.most_common())
        print(f"a flood of three seconds by 64 at once: {told}; descriptors {before} before and "
              f"{served.descriptors()} after, {served.memory() / 1024:.1f} MiB, status {served.process.poll()}")


class SlowPeers:
    """So many peers that each send a byte of a request a second, until the block ends."""

    def __init__(self, count, port=8000):
        self.count, self.port, self.over = count, port, False

    def __enter__(self):
        self.peers = [connect_later(self.port) for _ in range(self.count)]
        self.thread = threading.Thread(target=self.drip, daemon=True)
        self.thread.start()
        return self

    def drip(self):
        text = post(TWICE)
        for at in range(len(text)):
            for peer in self.peers:
                try:
                    peer.send(text[at : at + 1])
                except OSError:
                    pass
            for _ in range(10):
                if self.over:
                    return
                time.sleep(0.1)

    def __exit__(self, *_):
        self.over = True
        self.thread.join()
        for peer in self.peers:
            peer.close()


def connect_later(port):
    """A connection that comes about when it does."""
    peer = socket.socket()
    peer.setblocking(False)
    peer.connect_ex(("127.0.0.1", port))
    return peer


def honest_call(port=8000, wait=30):
    """How many seconds a call on a connection of its own takes, none where there is no answer in time."""
    begun = time.monotonic()
    try:
        peer = Peer(port, wait)
        peer.send(TWICE)
        answer = peer.answer()
        peer.close()
    except OSError:
        return None
    return time.monotonic() - begun if answer == ANSWER else None


def beside_idle():
    """How long calls of one kept connection take, beside connections that say nothing."""
    for count in (0, 1000):
        with serving(f"{FOLDER}/twice.ol"):
            idle = [connect() for _ in range(count)]
            peer = Peer()
            took = []
            for _ in range(2000):
                begun = time.perf_counter()
                peer.send(TWICE)
                if peer.answer() != ANSWER:
                    raise SystemExit("a call beside idle connections has another answer")
                took.append(time.perf_counter() - begun)
            peer.close()
            for one in idle:
                one.close()
        took.sort()
        middle, late = (1000 * took[len(took) * part // 100] for part in (50, 99))
        print(f"2,000 calls beside {count:,} idle connections: {middle:.2f} ms in the middle, {late:.2f} ms for 99 of 100")


def slow_peers():
    """What an honest client has of peers that send a byte a second."""
    for count, wait in [(0, 30), (1, 30), (3, 30), (1000, 15)]:
        with serving(f"{FOLDER}/twice.ol"), SlowPeers(count):
            time.sleep(1)
            took = honest_call(wait=wait)
        said = f"{took:.3f} s" if took is not None else f"no answer in {wait} s"
        print(f"a call beside {count:,} slow peers: {said}")
    if not shutil.which("nginx"):
        print("through nginx: left out, since it is not installed")
        return
    words = ["nginx", "-p", WORK, "-c", f"{FOLDER}/nginx.conf", "-g", "daemon off;"]
    with serving(f"{FOLDER}/twice.ol"):
        proxy = subprocess.Popen(words, stderr=subprocess.DEVNULL)
        time.sleep(1)
        with SlowPeers(1000, 8080):
            time.sleep(1)
            times = [honest_call(8080, 5) for _ in range(200)]
        proxy.terminate()
        proxy.wait()
    answered = [took * 1000 for took in times if took is not None] or [float("nan")]
    print(f"the same through nginx, beside 1,000: {len(times) - times.count(None)} of {len(times)} answered, "
          f"{statistics.median(answered):.1f} ms in the middle and {max(answered):.1f} ms at most")


def full_house():
    """1,024 connections, and one more."""
    path = written("wait.ol", WAIT)
    with serving(path) as served:
        peers = [waiting_peer(number) for number in range(1023)]
        settle(served)
        silent = connect()
        time.sleep(0.5)
        there = served.descriptors()
        begun = time.monotonic()
        last = Peer(wait=30)
        last.calls([going(0)])
        took = time.monotonic() - begun
        last.calls([going(number) for number in range(1, 1023)])
        answers = sum(peer.answer() is not None for peer in peers)
        silent.close()
        for peer in [last, *peers]:
            peer.close()
        print(f"1,023 that wait, one that is silent and one more: {there} descriptors; the last is answered after "
              f"{took:.2f} s; then {answers:,} are")
    with serving(path) as served:
        peers = [waiting_peer(number) for number in range(1024)]
        settle(served)
        there = served.descriptors()
        used = served.processor_seconds()
        last = Peer(wait=5)
        last.send(going(0))
        said = "has no answer in 5 s" if last.answer() is None else "is answered"
        used = served.processor_seconds() - used
        print(f"1,024 that wait and one more: {there} descriptors; the last {said}, which takes {used:.2f} s of a "
              f"processor; status {served.process.poll()}")


def settle(served):
    """Waits until the program does nothing."""
    used = -1
    while used != served.processor_seconds():
        used = served.processor_seconds()
        time.sleep(1)


def going(number):
    """What has the session of a number answer."""
    return f'{{"jsonrpc":"2.0","method":"go","params":{{"id":{number}}}}}'


def waiting_peer(number):
    """A peer whose request waits, and whose connection closes with its answer."""
    peer = Peer(wait=30)
    peer.socket.sendall(post(call("wait", f'{{"id":{number}}}', number), "Connection: close\r\n"))
    return peer


most = resource.getrlimit(resource.RLIMIT_NOFILE)[1]
resource.setrlimit(resource.RLIMIT_NOFILE, (most, most))
rates()
memory()
living_sessions()
flood()
beside_idle()
slow_peers()
full_house()
