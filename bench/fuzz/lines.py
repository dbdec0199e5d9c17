"""Lines to `run`, for main.py: each has the answers that the rules name, in its place, and nothing else is written.

Of `twice` each answer is told whole. Of the other examples the ids of each line are, and the codes of what no service
sees; where a session may keep a line waiting, as one of `booking` may and one that has used its events, the lines of
answers are counted."""
import collections
import itertools
import json
import random
import subprocess

import answers
import data
from mutants import Mutants

# How many inputs there are where nobody says so, and how many a batch has.
MOST_INPUTS = 1_000_000
INPUTS = 500

# How many seconds a run may take.
LONGEST_RUN = 120

# The example of which each answer is told whole, which has half of the lines.
TWICE = data.TOP / "examples/twice.ol"

# An example whose sessions may keep a line waiting.
WAITS = ["booking"]

CODES = [answers.PARSE_ERROR[0], answers.INVALID_REQUEST[0]]

WORDS = [
    b'"id"', b'"jsonrpc"', b'"method"', b'"params"', b'"2.0"', b'"$"', b"null", b"true", b"false", b"[]", b"{}", b"[",
    b"]", b"{", b"}", b",", b":", b'"n"', b'"twice"', b'"\\ud83d"', b'"\\ud83d\\ude00"', b'"\\u0000"', b'"\\/"', b" ",
    b"-0", b"5.0", b"1e5", b'"id":null,', b'"id":[],', b'"jsonrpc":"1.0",', b"[" * 126, b"]" * 126, b'{"a":' * 64,
    b"}" * 64, b" " * 66000,
]


def batches(count):
    """The numbers of the batches of so many inputs."""
    return range(-(-(count or MOST_INPUTS) // INPUTS))


def tried(program, seed):
    """What was counted of a batch of lines, and what was wrong."""
    path = random.Random(seed).choice([*data.EXAMPLES, *[TWICE] * len(data.EXAMPLES)])
    mutants = Mutants(half(data.lines(), path.with_suffix(".jsonl").read_bytes().splitlines()), WORDS, seed)
    text = b"\n".join(it for it in itertools.islice(iter(mutants.next, None), INPUTS)) + b"\n"
    lines = [it for it in text.split(b"\n") if it.strip(answers.BLANKS)]
    due = (told_whole if path == TWICE else told_in_part)(lines)
    ran = subprocess.run([program, "run", path], input=text, capture_output=True, check=False, timeout=LONGEST_RUN)
    given = ran.stdout.split(b"\n")
    wrongs = [f"{path.stem}: {it}" for it in wrongs_of(ran, given, due, path.stem in WAITS or ran.returncode == 6)]
    counts = collections.Counter(inputs=INPUTS, lines=len(lines), answers=ran.stdout.count(b"\n"))
    counts["whole answers"] += len(due) if path == TWICE else 0
    return counts, wrongs


def half(texts, own):
    """Texts, of which half are from a second list."""
    return [*texts, *own * (len(texts) // len(own))]


def told_whole(lines):
    """The bytes that answer each line that is answered, with the line."""
    service = answers.Twice()
    said = ((line, answers.answers(line, service)) for line in lines)
    return [(line, answers.written(it)) for line, it in said if it is not None]


def told_in_part(lines):
    """What can be told of the answer of each line that is answered, with the line."""
    said = ((line, answers.answers(line, some_answer)) for line in lines)
    return [(line, part_of(it)) for line, it in said if it is not None]


def some_answer(_method, _params, name):
    return {"id": name, "jsonrpc": "2.0", "result": None}


def part_of(answered):
    """The id of an answer, and its code where no service sees what it answers; a list of these."""
    if isinstance(answered, list):
        return [part_of(it) for it in answered]
    code = answered["error"]["code"] if "error" in answered else None
    return [code if code in CODES else None, answered["id"]]


def part_of_line(line):
    """The same of a line of output, which has to be written as answers are."""
    said = json.loads(line)
    for it in said if isinstance(said, list) else [said]:
        kinds = ({"id", "jsonrpc", "result"}, {"id", "jsonrpc", "error"})
        if set(it) not in kinds or answers.written(said) != line:
            raise ValueError("no answer")
    return part_of(said)


def wrongs_of(ran, given, due, may_wait):
    """What is wrong of what a run gave."""
    if ran.returncode not in (0, 6):
        yield f"status {ran.returncode}, notes {ran.stderr[-300:]!r}"
    if given.pop() != b"":
        yield "a line of output without its end"
    if due and isinstance(due[0][1], list):
        try:
            given = [part_of_line(it) for it in given]
        except ValueError as error:
            yield f"a line of output: {error}"
            return
    if may_wait:
        yield from wrong_counts(given, due)
        return
    for (line, right), have in itertools.zip_longest(due, given, fillvalue=(b"nothing", "nothing")):
        if have != right:
            yield f"the line {line[:2000]!r} has the answer {have!r:.300}, expected {right!r:.300}"
            return


def wrong_counts(given, due):
    have, want = (collections.Counter(json.dumps(it) for it in its) for its in (given, [it for _, it in due]))
    yield from (f"not answered: {it}" for it in (want - have).elements())
    yield from (f"answered, and not asked: {it}" for it in (have - want).elements())
