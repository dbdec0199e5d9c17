"""Runs of the program in which one of its calls goes wrong, by calls.c."""
import collections
import os
import pathlib
import subprocess
import tempfile
from typing import NamedTuple, Optional

# How a call goes wrong, beside an errno with which it fails.
NOTHING, ONE_BYTE = 0, -1

# How many seconds a run may take, which needs far less.
LONGEST_RUN = 30


class Call(NamedTuple):
    """A call that a run made: `option` is that of a setsockopt, `gave` what the call gave."""

    name: str
    file: int
    option: int
    gave: int
    is_wrong: bool


class Fault(NamedTuple):
    """The call that goes wrong: of those of its name the one of this number, from 1."""

    name: str
    number: int
    how: int

    def __str__(self):
        return f"{self.name}:{self.number}:{self.how}"


class Ran(NamedTuple):
    """What came of a run: its status is none where it took too long."""

    status: Optional[int]
    output: bytes
    notes: bytes
    calls: list
    left_open: int

    def before(self):
        """The calls before the one that went wrong: all, where none did."""
        return self.calls[: self.place()]

    def behind(self):
        return self.calls[self.place() + 1 :]

    def wrong(self):
        """The call that went wrong, if one did."""
        return next((call for call in self.calls if call.is_wrong), None)

    def place(self):
        return next((it for it, call in enumerate(self.calls) if call.is_wrong), len(self.calls))


def moved(calls, name, file):
    """How many bytes the calls of a name moved at a descriptor."""
    return sum(max(call.gave, 0) for call in calls if call.name == name and call.file == file)


def faults_of(calls, ways):
    """The faults that are to be tried where a run makes these calls: each in all the ways in which it may go wrong."""
    counts = collections.Counter()
    for call in calls:
        counts[call.name] += 1
        for how in ways(call):
            yield Fault(call.name, counts[call.name], how)


class Program:
    """The program, of which each call is told and one may go wrong."""

    def __init__(self, path, library):
        self.path = path
        self.library = library
        self.folder = tempfile.TemporaryDirectory()
        self.told = os.path.join(self.folder.name, "calls")

    def file(self, name, text):
        """A file of that text."""
        path = os.path.join(self.folder.name, name)
        pathlib.Path(path).write_bytes(text if isinstance(text, bytes) else text.encode())
        return path

    def start(self, words, fault=None, piece=None):
        """Starts a run."""
        pathlib.Path(self.told).unlink(missing_ok=True)
        how = {"CALLS": self.told, "LD_PRELOAD": self.library}
        if fault:
            how["WRONG"] = str(fault)
        if piece:
            how["PIECE"] = str(piece)
        pipes = {name: subprocess.PIPE for name in ("stdin", "stdout", "stderr")}
        return subprocess.Popen([self.path, *words], env={**os.environ, **how}, **pipes)

    def end(self, process, given=b""):
        """What came of a run, once it has ended."""
        try:
            output, notes = process.communicate(given, timeout=LONGEST_RUN)
            status = process.returncode
        except subprocess.TimeoutExpired:
            process.kill()
            output, notes = process.communicate()
            status = None
        calls, left_open = self.calls()
        return Ran(status, output, notes, calls, left_open)

    def run(self, words, given=b"", fault=None, piece=None):
        return self.end(self.start(words, fault, piece), given)

    def calls(self):
        """The calls that were told, and how many descriptors were open at the end."""
        calls = []
        left_open = None
        told = pathlib.Path(self.told)
        for line in told.read_text(encoding="ascii").splitlines() if told.exists() else []:
            name, file, option, gave, *wrong = line.split()
            if name == "left_open":
                left_open = int(gave)
            else:
                calls.append(Call(name, int(file), int(option), int(gave), bool(wrong)))
        return calls, left_open


class Tally:
    """How many calls went wrong, in how many runs, and how many of these came to something else than they should."""

    def __init__(self, part, only):
        self.part = part
        self.only = only
        self.calls = 0
        self.runs = 0
        self.odd = 0
        self.last = None

    def wants(self, case, fault=""):
        """Whether a run belongs to what is asked for: a case, or a case and its fault."""
        return all(have.startswith(want) for have, want in zip((case, str(fault)), self.only))

    def run(self, case, fault, problems):
        """Counts a run, and tells what is wrong of it."""
        self.runs += 1
        if fault and (case, fault[:2]) != self.last:
            self.calls += 1
            self.last = (case, fault[:2])
        if problems:
            self.odd += 1
            print(f"bench/faults.sh {self.part} '{case}' {fault or ''}", *problems, sep="\n  ", flush=True)

    def tell(self):
        calls, runs = f"{self.calls:,}", f"{self.runs:,}"
        print(f"{self.part}: {calls} calls went wrong in turn, {runs} runs, {self.odd} of them wrong", flush=True)
