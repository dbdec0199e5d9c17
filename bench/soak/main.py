"""Keeps the program under mixed use, for bench/soak.sh:

    bench/soak/main.py SCRIPT PROGRAM CALLS [SECONDS]

SCRIPT is `roqsulei` beside a copy of PROGRAM, CALLS is bench/faults/calls.c as a library."""
import pathlib
import random
import sys
import tempfile
import threading
import time
import traceback

import clients
import drawn
import line_runs
import runs

# Clients at the same time, and how many of them behave ill.
WELL, ILL = 6, 4

# A line of figures is printed after so many seconds.
MINUTE = 60

# By how much the resident memory and the descriptors of the last quarter may pass those of the first one.
MOST_GROWTH = 1.25
MOST_FILES = 4 * (WELL + ILL) + 16

MOST_PRINTED = 30


class Soak:
    """What runs at the same time, and what was seen of it."""

    def __init__(self, script, program, calls, folder):
        self.ledger = clients.Ledger()
        self.server = runs.Server(script, program, calls, folder, self.ledger)
        self.lines = line_runs.Lines(program, calls, folder, self.ledger)
        self.clients = [clients.Client(self.server.port, self.ledger, clients.WELL) for _ in range(WELL)]
        self.clients += [clients.Client(self.server.port, self.ledger, clients.ILL) for _ in range(ILL)]
        self.minutes = []
        self.printed = 0

    def keep(self, seconds):
        """Goes on for so many seconds, and then until nothing is under way."""
        begun = time.monotonic()
        threads = [threading.Thread(target=self.guard, args=(it,), daemon=True) for it in (self.server, self.lines)]
        for it in [*threads, *self.clients]:
            it.start()
        while time.monotonic() - begun < seconds:
            time.sleep(min(MINUTE, max(0.0, seconds - (time.monotonic() - begun))))
            self.tell(time.monotonic() - begun)
        self.ledger.is_over = True
        for it in [*self.clients, *threads]:
            it.join(4 * clients.LONGEST_WAIT)
            if it.is_alive():
                self.ledger.wrong(f"{it} comes to no end")
        self.server.settle_all()
        self.print_wrongs()

    def guard(self, runs_of_a_kind):
        """Keeps runs of a kind under way: that they come to an end too early is wrong."""
        try:
            runs_of_a_kind.keep()
        except Exception:
            self.ledger.wrong(traceback.format_exc())

    def tell(self, seconds):
        """Prints the figures since the last line."""
        files, memory, script = self.server.looked()
        if files:
            self.minutes.append((files, memory))
        counts = self.ledger.counts
        print(
            f"{seconds:,.0f} s: {self.server.count:,} runs of serve and {self.lines.count:,} of run, "
            f"{counts['orders']:,} orders, {counts['answers']:,} answers, {self.lines.answers:,} lines answered; "
            f"at most {memory:,} KB and {files} descriptors, the script {script:,} KB",
            flush=True,
        )
        self.print_wrongs()

    def print_wrongs(self):
        for it in self.ledger.wrongs[self.printed : MOST_PRINTED]:
            print(f"wrong: {it}", flush=True)
        self.printed = min(len(self.ledger.wrongs), MOST_PRINTED)

    def is_right(self):
        """Whether nothing was wrong, and memory and descriptors stayed as they were."""
        if not self.minutes:
            self.ledger.wrong("no run was under way as it was looked at")
            return False
        quarter = max(1, len(self.minutes) // 4)
        first, last = (max(it[1] for it in its) for its in (self.minutes[:quarter], self.minutes[-quarter:]))
        if last > MOST_GROWTH * first:
            self.ledger.wrong(f"resident memory has grown from {first:,} KB to {last:,} KB")
        most = max(files for files, _ in self.minutes)
        if most > MOST_FILES:
            self.ledger.wrong(f"{most} descriptors were open at once, where {WELL + ILL} clients have one each")
        self.print_wrongs()
        return not self.ledger.wrongs

    def tell_all(self):
        counts, server = self.ledger.counts, self.server
        statuses = ", ".join(f"{kind} {status}: {count:,}" for (kind, status), count in sorted(server.statuses.items()))
        print(f"runs of serve by their kind and status: {statuses}")
        print(f"runs of run by their kind and status: {self.lines.told()}")
        calls, wrong = server.calls + self.lines.calls, server.wrong + self.lines.wrong
        print(f"calls to the system, of which one in {drawn.RATE:,} was to go wrong: {calls:,}, {wrong:,} did")
        print(", ".join(f"{count:,} {name}" for name, count in sorted(counts.items())))
        print(f"{server.judged:,} orders were accepted, {server.hidden:,} of them answered to nobody")
        print(f"{len(self.ledger.wrongs)} wrong")


def main(script, program, calls, seconds="3600"):
    random.seed(1)
    with tempfile.TemporaryDirectory() as folder:
        soak = Soak(script, program, calls, pathlib.Path(folder))
        soak.keep(float(seconds))
        is_right = soak.is_right()
        soak.tell_all()
    sys.exit(not is_right)


if __name__ == "__main__":
    main(*sys.argv[1:])
