"""Each read and each write of `run` over lines goes wrong in turn, and those of the other commands."""
import collections
import errno
import json
import os
import pathlib
import sys

from running import NOTHING, ONE_BYTE, faults_of, moved

BENCH = pathlib.Path(__file__).resolve().parent.parent
TOP = BENCH.parent
sys.path.insert(0, str(BENCH))
import pages  # noqa: E402

# How many bytes a read or a write moves at most, so that there are many of them.
PIECE = 24

INPUT, OUTPUT, NOTES = 0, 1, 2
STOPPED = {"code": -32004, "message": "stopped"}

WAYS = {
    "open": [errno.EACCES, errno.EMFILE],
    "read": [errno.EIO, errno.EAGAIN, errno.EINTR, ONE_BYTE],
    "write": [errno.EIO, errno.EPIPE, errno.ENOSPC, errno.EAGAIN, NOTHING, errno.EINTR, ONE_BYTE],
    "close": [errno.EIO],
}

# Ways in which nothing is lost: a call that is made again, and one that moves less.
HARMLESS = [errno.EINTR, ONE_BYTE]

# The last line of the notes, by the status.
LAST_LINES = {
    4: b"roqsulei: the standard input failed\n",
    5: b"roqsulei: the standard output or the standard error failed\n",
}


def ways(call):
    return WAYS.get(call.name, [])


class Case:
    """A file, its lines, and what they are answered."""

    def __init__(self, name, text, options, lines, output, status):
        self.name, self.text, self.options = name, text, options
        self.lines, self.output, self.status = lines, output, status


def examples():
    for path in sorted((TOP / "examples").glob("*.ol")):
        lines, output = (path.with_suffix(end).read_bytes() for end in (".jsonl", ".out"))
        yield Case(path.stem, path.read_text(encoding="utf-8"), [], lines, output, 0)


def flows():
    for name, it in pages.rows_in([str(TOP / "crates/test_program/data/flows.txt")]):
        if "comes" not in it:
            lines, output = it["input"].encode(), it["output"].encode()
            yield Case(name, it["file"], it.get("options", "").split(), lines, output, int(it["status"]))


def lines(program, tally):
    """Each call of `run` over each case."""
    for case in [*examples(), *flows()]:
        if tally.wants(case.name):
            try_case(program, tally, case)


def try_case(program, tally, case):
    words = ["run", program.file("case.ol", case.text), *case.options]
    right = program.run(words, case.lines, piece=PIECE)
    tally.run(case.name, None, problems_of_right(case, right))
    for fault in faults_of(right.calls, ways):
        if tally.wants(case.name, fault):
            ran = program.run(words, case.lines, fault, PIECE)
            tally.run(case.name, fault, problems(case, fault, right, ran, words[1]))


def problems_of_right(case, right):
    """What is wrong of a run in which each call ends well."""
    if (right.status, right.output, right.left_open) != (case.status, case.output, 0):
        return [f"status {right.status}, {right.left_open} descriptors left, output {right.output!r}"]
    return []


def problems(case, fault, right, ran, path):
    """What is wrong of a run in which that call goes wrong."""
    call = ran.wrong()
    if call is None or ran.before() != right.calls[: ran.place()]:
        return ["it does something else before the call goes wrong"]
    if ran.left_open != 0:
        return [f"{ran.left_open} descriptors are left"]
    if fault.how in HARMLESS or call.name == "close":
        return differences(ran, right.status, right.output, right.notes)
    if call.name == "open" or (call.name == "read" and call.file != INPUT):
        return differences(ran, 2, b"", unread(path))
    if call.name == "read":
        return [*problems_of_cut_input(case, right, ran), *goes_on(ran, "read", INPUT)]
    return problems_of_cut_output(right, ran, 5)


def why(name, fault):
    """What is noted of a file or a location of which a call went wrong."""
    return f"roqsulei: {name}: {os.strerror(fault.how)} (os error {fault.how})\n".encode()


def unread(path):
    """What is noted of a file of which a call went wrong, and which can be read when it is asked again."""
    return f"roqsulei: {path}: cannot be read\n".encode()


def differences(ran, status, output, notes):
    """What differs from what should have come of a run: these notes, and the last line of its status."""
    have = {"status": ran.status, "output": ran.output, "notes": ran.notes}
    want = {"status": status, "output": output, "notes": notes + LAST_LINES.get(status, b"")}
    return [f"{it}: {have[it]!r}, expected {want[it]!r}" for it in have if have[it] != want[it]]


def problems_of_cut_output(right, ran, status):
    """What is wrong where a write has failed: what was written before it has to be there, and nothing else but why it
    ended."""
    output, notes = (moved(ran.before(), "write", it) for it in (OUTPUT, NOTES))
    # Of a file that can't be read the notes say so also behind an output that failed.
    told = right.notes if status == 2 and ran.wrong().file == OUTPUT else right.notes[:notes]
    found = differences(ran, status, right.output[:output], told)
    return [*found, *goes_on(ran, "read", INPUT), *goes_on(ran, "write", OUTPUT)]


def goes_on(ran, name, file):
    """Whether such a call was made behind the one that went wrong."""
    if any(call.name == name and call.file == file for call in ran.behind()):
        return [f"it goes on with {name} of {file}"]
    return []


def problems_of_cut_input(case, right, ran):
    """What is wrong where a read of the input has failed: of the lines that came whole each request has to be answered
    once, as where all came, or that it was stopped."""
    came = case.lines[: moved(ran.before(), "read", INPUT)]
    due = collections.Counter(json.dumps(it) for line in came.split(b"\n")[:-1] for it in due_ids(line))
    have, want = ran.output.splitlines(), right.output.splitlines()
    same = next((it for it, line in enumerate(have) if want[it : it + 1] != [line]), len(have))
    found = [] if ran.status == 4 else [f"status: {ran.status}, expected 4"]
    given = [answer for line in have for answer in answers_in(line)]
    if collections.Counter(json.dumps(answer["id"]) for answer in given) != due:
        found.append(f"answered {given}, due are {due}")
    known = [answer for line in want for answer in answers_in(line)]
    for line in have[same:]:
        late = answers_in(line)
        if not any(answer.get("error") == STOPPED for answer in late):
            found.append(f"not in its place: {line!r}")
        if not all(answer.get("error") == STOPPED or answer in known for answer in late):
            found.append(f"another answer: {line!r}")
    if not ran.notes.endswith(LAST_LINES[4]) or not right.notes.startswith(ran.notes.removesuffix(LAST_LINES[4])):
        found.append(f"notes: {ran.notes!r}")
    if ran.output and not ran.output.endswith(b"\n"):
        found.append("a line without its end")
    return found


def answers_in(line):
    said = json.loads(line)
    return said if isinstance(said, list) else [said]


def due_ids(line):
    """The ids to which a line is due an answer, as docs/json-rpc.md says."""
    if not line.strip(b" \t\r"):
        return []
    try:
        said = json.loads(line)
    except ValueError:
        return [None]
    if isinstance(said, list) and said:
        return [it for request in said for it in ids_of(request)]
    return ids_of(said)


def ids_of(request):
    """The id to which a request is due an answer, none where it is a notification."""
    if not isinstance(request, dict):
        return [None]
    name = request.get("id")
    has_name = name is None or isinstance(name, str) or type(name) is int
    is_call = request.get("jsonrpc") == "2.0" and isinstance(request.get("method"), str) and has_name
    if is_call and "id" not in request:
        return []
    return [name if has_name else None]


# The other commands: the words, the status, and the status where what is written is cut, as docs/claims.md says.
GOOD, BAD, BROKEN = "service S { main { x = 1 } }\n", "service S { main { comp(q) } }\n", "service S { main {"
COMMANDS = [
    (["check", GOOD], 0, 5),
    (["check", BAD], 3, 3),
    (["print", GOOD], 0, 5),
    (["print", BROKEN], 3, 3),
    (["explain", GOOD], 0, 5),
    (["explain", BAD], 3, 3),
    (["run", BAD], 3, 3),
    (["serve", BAD], 3, 3),
    (["explain"], 2, 2),
    (["--help"], 0, 5),
    (["--version"], 0, 5),
    (["run"], 1, 1),
    (["walk"], 1, 1),
]


def commands(program, tally):
    """Each call of the other commands."""
    for command, status, cut in COMMANDS:
        name = " ".join(command).strip()
        if tally.wants(name):
            try_command(program, tally, name, words_of(program, command), status, cut)


def words_of(program, command):
    """The words of a command: a text in it is that of a file, and `explain` alone has one that is not there."""
    name, *texts = command
    if texts:
        return [name, program.file("case.ol", texts[0])]
    return [name, "/nowhere.ol"] if name == "explain" else [name]


def try_command(program, tally, name, words, status, cut):
    right = program.run(words, piece=PIECE)
    tally.run(name, None, differences(right, status, right.output, right.notes))
    for fault in faults_of(right.calls, ways):
        if tally.wants(name, fault):
            ran = program.run(words, fault=fault, piece=PIECE)
            tally.run(name, fault, problems_of_command(fault, right, ran, cut, words))


def problems_of_command(fault, right, ran, cut, words):
    """What is wrong of a run of another command in which that call goes wrong."""
    call = ran.wrong()
    if call is None or ran.before() != right.calls[: ran.place()]:
        return ["it does something else before the call goes wrong"]
    if fault.how in HARMLESS or call.name == "close":
        return differences(ran, right.status, right.output, right.notes)
    if call.name == "write":
        return problems_of_cut_output(right, ran, cut)
    if words[0] == "explain":
        notes = notes_of_unread(fault, right, words[1])
        return [] if (ran.status, ran.notes) == (2, notes) and b"cannot be read" in ran.output else [f"{ran}"]
    return differences(ran, 2, b"", unread(words[1]))


def notes_of_unread(fault, right, path):
    """What is noted of a file that can't be read: what the system says where it is asked again."""
    if right.status != 2:
        return unread(path)
    return right.notes if fault.number == 1 else why(path, fault)
