"""Files to `check`, `explain`, `print` and `run`, for main.py.

The four say the same of each file; what is printed of a file prints the same again, and is accepted as the file is. A
file that is accepted runs over no line, unless it may call a service elsewhere: nobody is to be called here."""
import collections
import pathlib
import re
import subprocess
import tempfile

import data
from mutants import Mutants

# How many inputs there are where nobody says so, and how many a batch has.
MOST_INPUTS = 100_000
INPUTS = 100

# How many seconds a batch may take.
LONGEST_BATCH = 300

# How many events a session may have.
BUDGET = 300

# A status above this one, or a signal, is a crash.
GREATEST_STATUS = 9

WORDS = [
    *b"type interface service inputPort outputPort execution cset csets init main scope install throw comp cH".split(),
    *b"this nullProcess if else while for undef is_defined true false void bool int long string any undefined".split(),
    *b"throws RequestResponse OneWay location protocol interfaces concurrent single jsonrpc Console println".split(),
    *b"=> == != <= >= << ++ -- && || { } ( ) [ ] , ; : . | = < > + - * / % ! # @ ? // /* */".split(),
    b'"local://s"', b'"socket://localhost:8000"', b'"', b"0", b"1L", b"2147483648", b"1.5", b"x", b"{" * 63, b"(" * 63,
    b"-" * 63, b"\n", b" ",
]

# Says of each file what comes of it: each output with its status after it. Files that may run are named so.
SCRIPT = """
program=$1 mark=$2 budget=$3
say() { printf '\\n%s %s\\n' "$mark" "$1"; }
for file in *.ol; do
    "$program" check "$file" 2>> notes; say $?
    "$program" explain "$file" 2>> notes; say $?
    "$program" print "$file" > "$file.again" 2>> notes; status=$?; say $status
    if [ $status = 0 ]; then
        "$program" print "$file.again" > "$file.twice" 2>> notes; say $?
        "$program" check "$file.again" 2>> notes; say $?
    else
        cp "$file.again" "$file.twice"; say 0; say 0
    fi
    case $file in
        *.run.ol) "$program" run "$file" --budget "$budget" < /dev/null 2> /dev/null; say $? ;;
        *) say 0 ;;
    esac
done
"""
ANSWERS = 6


class Answer(collections.namedtuple("Answer", "output status")):
    """What a command said of a file."""

    def is_ok(self):
        return self.status == 0

    def reason(self):
        """The words of a refusal without its place."""
        return self.output.split(b" ")[:3]


def batches(count):
    """The numbers of the batches of so many inputs."""
    return range(-(-(count or MOST_INPUTS) // INPUTS))


def tried(program, seed):
    """What was counted of a batch of files, and what was wrong."""
    mutants = Mutants(data.programs(), WORDS, seed)
    texts = [mutants.next() for _ in range(INPUTS)]
    counts = collections.Counter(inputs=INPUTS)
    with tempfile.TemporaryDirectory() as folder:
        names = [f"{number:03}{'.run' if may_run(it) else ''}.ol" for number, it in enumerate(texts)]
        paths = [pathlib.Path(folder, it) for it in names]
        for path, text in zip(paths, texts):
            path.write_bytes(text)
        answers, notes = said_of(program, folder, seed)
        if len(answers) != ANSWERS * INPUTS:
            text = texts[min(len(answers) // ANSWERS, INPUTS - 1)]
            return counts, [f"the batch came to no end, at {text!r}"]
        wrongs = [f"notes: {notes[:300]!r}"] if notes else []
        for number, (path, text) in enumerate(zip(paths, texts)):
            its = answers[ANSWERS * number : ANSWERS * (number + 1)]
            again, twice = (pathlib.Path(f"{path}.{it}").read_bytes() for it in ("again", "twice"))
            wrongs += [f"{it}, of {text!r}" for it in wrongs_of(path.name, text, its, again, twice)]
            counts.update(kinds_of(its))
    return counts, wrongs


def may_run(text):
    """Whether a file can call nobody elsewhere."""
    return b"outputPort" not in text or b"socket" not in text


def said_of(program, folder, seed):
    """What was said of the files of a folder, one after the other, and the notes."""
    mark = "answered-" + re.sub(r"\W", "-", seed)
    words = ["sh", "-c", SCRIPT, "sh", program, mark, str(BUDGET)]
    try:
        ran = subprocess.run(words, cwd=folder, capture_output=True, check=False, timeout=LONGEST_BATCH)
        output, said = ran.stdout, ran.stderr
    except subprocess.TimeoutExpired as late:
        output, said = late.stdout or b"", b"too late"
    *parts, _ = re.split(rb"\n%s (\d+)\n" % mark.encode(), output)
    answers = [Answer(text, int(status)) for text, status in zip(parts[::2], parts[1::2])]
    return answers, pathlib.Path(folder, "notes").read_bytes() + said


def kinds_of(its):
    checked, _, printed, *_ = its
    yield "accepted" if checked.is_ok() else checked.output.split(b" ")[1].decode(errors="replace") + " refused"
    if printed.is_ok():
        yield "printed"


def wrongs_of(name, text, its, again, twice):
    """What is wrong of what was said of a file."""
    checked, explained, printed, printed_again, checked_again, run = its
    if any(it.status > GREATEST_STATUS for it in its):
        yield f"statuses {[it.status for it in its]}"
        return
    if checked not in (Answer(b"ok\n", 0), Answer(checked.output, 3)):
        yield f"check says {checked}"
    if not checked.is_ok():
        yield from wrongs_of_refusal(name, text, checked, explained)
    elif explained.status != 0 or not explained.output.startswith(b"ok\n"):
        yield f"check says ok, and explain {explained}"
    stage = checked.output.split(b" ")[1:2]
    if printed != (Answer(b"", 3) if stage in ([b"lex"], [b"parse"]) else Answer(b"", 0)):
        yield f"check says {checked}, and print {printed}"
    elif not printed.is_ok() and again != checked.output:
        yield f"check says {checked}, and print {again!r}"
    if printed_again.status != 0 or again != twice:
        yield f"what is printed prints as {twice!r}, and not as {again!r}"
    if printed.is_ok() and checked_again.reason() != checked.reason():
        yield f"check says {checked}, and {checked_again} of what is printed"
    right = (b"", [0, 6]) if checked.is_ok() else (checked.output, [3])
    if ".run" in name and (run.output, run.status in right[1]) != (right[0], True):
        yield f"check says {checked}, and run {run}"


def wrongs_of_refusal(name, text, checked, explained):
    """What is wrong of a refusal: it has a place in the text, of which explain names the line and the column."""
    told = re.fullmatch(rb"refused (lex|parse|check) ([A-Za-z]+) (\d+)\n", checked.output)
    if not told or int(told[3]) > len(text):
        yield f"check says {checked}"
        return
    before = text[: int(told[3])]
    line, start = before.count(b"\n") + 1, before.rfind(b"\n") + 1
    column = sum(1 for byte in before[start:] if byte & 0xC0 != 0x80) + 1
    head = b"%s:%d:%d: " % (name.encode(), line, column)
    names_it = explained.output.startswith(head) and b"[%s %s]" % told.groups()[:2] in explained.output
    if explained.status != 3 or not names_it:
        yield f"check says {checked}, and explain {explained}"
