"""The runs of `serve` that follow one another at one port, and what has to be true of the orders of each."""
import collections
import contextlib
import os
import pathlib
import random
import signal
import subprocess
import sys
import threading
import time

import clients
import drawn
import model

BENCH = pathlib.Path(__file__).resolve().parent.parent
sys.path.append(str(BENCH))
from served import free_port  # noqa: E402

# The connections of a run, whose orders have to be within the events of its stock.
CONNECTIONS = 100

# After how many seconds a run that is to be stopped is, at the least and at the most.
BEFORE_SIGNAL = 0.1, 0.6

# How many seconds a run may take to end, and its clients then to hear so.
LONGEST_END = 90

# How often a run is looked at, in seconds.
BETWEEN_LOOKS = 0.05


class Server:
    """One run after the other."""

    def __init__(self, script, program, calls, folder, ledger):
        self.script, self.program, self.calls_library = script, program, calls
        self.folder, self.ledger = folder, ledger
        self.port = free_port()
        self.path = folder / "shop.ol"
        text = (BENCH / "soak/shop.ol").read_text(encoding="utf-8")
        self.path.write_text(text.replace(":8000", f":{self.port}"), encoding="utf-8")
        self.statuses = collections.Counter()
        self.count = self.calls = self.wrong = self.cut = self.judged = self.hidden = 0
        self.unjudged = collections.deque()
        self.lock = threading.Lock()
        self.looks = []

    def keep(self):
        """Keeps a run under way until it is over."""
        kinds = [self.ends_by_itself, self.is_stopped, self.has_faults]
        while not self.ledger.is_over:
            self.ledger.run = self.count
            kinds[self.count % len(kinds)]()
            self.count += 1
            while len(self.unjudged) > 1:
                self.judge(*self.unjudged.popleft())

    def settle_all(self):
        """Judges what is left, once all clients have gone."""
        while self.unjudged:
            self.judge(*self.unjudged.popleft())
        for order in [*self.ledger.answered, *self.ledger.notified]:
            self.ledger.wrong(f"{order} was answered, and no run had it")
        if self.ledger.counts[clients.CUT] > self.cut:
            self.ledger.wrong(f"faults cut {self.cut} connections, and more answers were cut")

    def ends_by_itself(self):
        self.run("ends by itself", [self.script])

    def is_stopped(self):
        self.run("is stopped", [self.script], stops=True)

    def has_faults(self):
        """A run of the program itself, which a pipe holds as the script would."""
        path = self.folder / "sum"
        environment = drawn.environment(self.calls_library, drawn.SERVED, path)
        self.run("has faults", [self.program], {**environment, "ROQSULEI_HELD_BY_INPUT": "1"}, path)

    def run(self, kind, words, environment=None, path=None, stops=False):
        """One run, and what came of it."""
        notes = self.folder / f"notes.{self.count}"
        words = [*words, "serve", self.path, "--connections", str(CONNECTIONS)]
        with open(notes, "wb") as file:
            process = subprocess.Popen(
                words, stdin=subprocess.PIPE, stdout=subprocess.PIPE, stderr=file, env=environment
            )
        status = self.watched(process, notes, stops, path is not None)
        process.stdin.close()
        output = process.stdout.read()
        process.stdout.close()
        self.statuses[kind, status] += 1
        if status != 0 or output:
            noted = notes.read_bytes()[-300:]
            self.ledger.wrong(f"a run that {kind} has the status {status}, output {output!r}, notes {noted!r}")
        cuts = self.cuts(path) if path else 0
        self.unjudged.append((self.count, kind, notes, cuts))

    def cuts(self, path):
        """How many connections faults may have cut."""
        calls, wrong, harmful = drawn.counted(path)
        self.calls += calls
        self.wrong += wrong
        cuts = sum(harmful[it] for it in drawn.CUTTING)
        self.cut += cuts
        return cuts

    def watched(self, process, notes, stops, is_alone):
        """The status of a run, which is looked at until it ends. One that is to be stopped, or that is there when all
        is over, is ended as docs/before-you-go-live.md says, once it listens."""
        most = random.uniform(*BEFORE_SIGNAL) if stops else 20 * LONGEST_END
        begun = ended = None
        while process.poll() is None:
            time.sleep(BETWEEN_LOOKS)
            self.look(process.pid)
            now = time.monotonic()
            if begun is None and b"listening" in notes.read_bytes():
                begun = now
            if begun and not ended and (self.ledger.is_over or now - begun > most):
                ended = now
                if is_alone:
                    process.stdin.close()
                else:
                    process.send_signal(signal.SIGTERM)
            if now - (ended or now) > LONGEST_END:
                process.kill()
                return "none: it came to no end"
        return process.returncode

    def look(self, pid):
        """Notes the descriptors and the memory of the program, and the memory of the script, if it has one."""
        with contextlib.suppress(OSError, StopIteration, ValueError):
            children = pathlib.Path(f"/proc/{pid}/task/{pid}/children").read_text().split()
            inner = int(children[0]) if children else pid
            files = len(os.listdir(f"/proc/{inner}/fd"))
            its = files, memory_of(inner), memory_of(pid) if inner != pid else 0
            with self.lock:
                self.looks.append(its)

    def looked(self):
        """The most that was noted since it was asked last."""
        with self.lock:
            looks, self.looks = self.looks, []
        return tuple(max((it[number] for it in looks), default=0) for number in range(3))

    def judge(self, run, kind, notes, cuts):
        """What is wrong of the orders of a run: each that it had is answered once, but for those of clients that did
        not wait and of connections that a fault cut."""
        shop = model.Shop()
        for line in notes.read_text(encoding="utf-8").splitlines():
            if not line.startswith("roqsulei: "):
                shop.note(line)
        notes.unlink()
        self.wait_for(shop.traces)
        in_vain = sum(self.is_in_vain(shop, order) for order in shop.traces)
        if in_vain > cuts * clients.MOST_ORDERS:
            shop.wrongs.append(f"{in_vain} orders were done and not answered, where faults cut {cuts} connections")
        for it in shop.wrongs:
            self.ledger.wrong(f"a run that {kind}: {it}")
        self.ledger.forget(run)

    def is_in_vain(self, shop, order):
        """Whether the client of an order that a run had waits for its answer in vain; notes what is wrong of it."""
        answer, is_notified, is_waited_for = self.ledger.settle(order)
        self.judged += 1
        self.hidden += is_waited_for is not None
        if answer is not None and not shop.is_right(order, answer):
            shop.wrongs.append(f"{order} is answered {answer}, and printed is {shop.traces[order]}")
        if answer is None and not is_notified and is_waited_for is None:
            shop.wrongs.append(f"nobody sent {order}, or another run had it too")
        return is_waited_for is True

    def wait_for(self, orders):
        """Waits until the clients of these orders have heard what they will hear."""
        end = time.monotonic() + LONGEST_END
        while time.monotonic() < end:
            with self.ledger.lock:
                if not any(it in self.ledger.open for it in orders):
                    return
            time.sleep(0.05)
        self.ledger.wrong("an order of a run that has ended is still waited for")


def memory_of(pid):
    """How many KB of a process are in memory."""
    status = pathlib.Path(f"/proc/{pid}/status").read_text(encoding="ascii", errors="replace")
    return next(int(line.split()[1]) for line in status.splitlines() if line.startswith("VmRSS"))
