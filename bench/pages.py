#!/usr/bin/env python3
"""The programs of the documents are tests. This makes their rows, and runs rows over a program.

    bench/pages.py make                  makes the rows of all pages in crates/test_program/data anew, and the
                                         lines that the tests print, in crates/test_program/stdout
    bench/pages.py example NAME GROUP    the row of examples/NAME.ol, where it notes nothing, for data/examples.txt
    bench/pages.py run PROGRAM DATA ..   runs a program over the rows of such files that say no more than what it reads,
                                         and says which give something else

In a page a program stands in a block ```jolie GROUP, and what is sent and answered behind it in blocks ```lines ROW:
`> ` a line that is sent, `< ` a line of output, `! ` a line of notes, `$ ` options of `run`, `~ ` what the first trip
brings back, `= ` the status where it is not 0, `. ` what goes on with the line before it. A table behind
`<!-- rows GROUP -->` has statements and what they answer, by twos; the statements stand in the place of BODY in the
page's block ```jolie frame, and the line that is sent is GO. A table behind `<!-- refused GROUP -->` has texts in its
first column and in its last one what they are refused by: statements where the place is `+N`, counted from their first
byte, and files else. What is too long for a row of the table before it stands in a block ```jolie rows or ```jolie
refused behind it: each program over lines of its own, and then what the table would say of it as a comment.
"""
import json
import os
import re
import subprocess
import sys
import tempfile

GO = '{"jsonrpc":"2.0","method":"go","id":1}'
PAGES = ["language", "traps", "flows", "before-you-go-live"]
TOP = os.path.join(os.path.dirname(os.path.abspath(__file__)), "..")
TESTS = os.path.join(TOP, "crates", "test_program")


def quoted(text):
    return '"' + text.replace("\\", "\\\\").replace('"', '\\"').replace("\n", "\\n") + '"'


def field(key, text):
    """A field of one or more lines, whose last line is quoted where the text ends with a line feed."""
    lines = text.split("\n")
    if len(lines) > 1 and lines[-1] == "":
        lines = lines[:-2] + [lines[-2] + "\n"]
    plain = [f"{key}: {it}" if it and "\n" not in it else f"{key} = {quoted(it)}" for it in lines]
    return "\n".join(plain) + "\n"


def row(name, lines):
    """A row of a block of lines."""
    lines = "\n".join(lines).replace("\n. ", "").split("\n")
    parts = {it: [x[2:] for x in lines if x[:2] == it + " "] for it in "><!$~="}
    said = f"-- {name}\n"
    for key, mark in (("options", "$"), ("comes", "~")):
        if parts[mark]:
            said += f"{key}: {parts[mark][0]}\n"
    said += field("input", "".join(x + "\n" for x in parts[">"]))
    said += f"status: {(parts['='] or ['0'])[0]}\n"
    said += field("output", "".join(x + "\n" for x in parts["<"]))
    return said + field("notes", "".join(x + "\n" for x in parts["!"]))


def group(name, shared):
    return f"\n== {name}\ncall: run\ncommand: run\n" + shared


def small_row(name, program, lines):
    """A row with a program of its own, over the one line and without notes."""
    status, *output = lines
    return f"-- {name}\n" + field("file", program) + f"status: {status}\n" + field("output", "\n".join(output) + "\n")


def answered(cell):
    """The status and the line of what a cell of a table says is answered."""
    if cell.startswith("refused "):
        return ["3", cell]
    if cell.startswith("fault "):
        fault, _, data = cell[6:].partition(" ")
        error = {"code": -32000, "data": json.loads(data or "null"), "message": fault}
        said = {"error": error, "id": 1, "jsonrpc": "2.0"}
    else:
        said = {"id": 1, "jsonrpc": "2.0", "result": json.loads(cell)}
    return ["0", json.dumps(said, separators=(",", ":"), sort_keys=True, ensure_ascii=False)]


def answered_row(body, answer, frame):
    return small_row(one_line(body), frame.replace("BODY", body), answered(answer))


def table_rows(table, frame):
    said = ""
    for line in table[2:]:
        cells = [it[1:-1] for it in cells_of(line) if re.fullmatch(r"`[^`]+`", it)]
        for body, answer in zip(cells[::2], cells[1::2]):
            said += answered_row(body, answer, frame)
    return said


def cells_of(line):
    return [it.strip().replace("\\|", "|") for it in re.split(r"(?<!\\)\|", line)[1:-1]]


def refused_row(text, refusal, frame):
    stage, reason, place = refusal.split()
    program = frame.replace("BODY", text) if place[0] == "+" else text + "\n"
    place = int(place) + (frame.index("BODY") if place[0] == "+" else 0)
    return small_row(one_line(text), program, ["3", f"refused {stage} {reason} {place}"])


def refused_rows(table, frame):
    said = ""
    for line in table[2:]:
        first, *_, last = [re.findall(r"`([^`]+)`", it) for it in cells_of(line)]
        for text, refusal in zip(first, last * len(first) if len(last) == 1 else last):
            said += refused_row(text, refusal, frame)
    return said


def one_line(text):
    return " ".join(text.split())


def block_rows(block, row_of, frame):
    """The rows of a block of programs, each of which ends with what is said of it."""
    said, program = "", []
    for line in block:
        if line.startswith("// "):
            said += row_of("\n".join(program), line[3:], frame)
            program = []
        elif line:
            program.append(line)
    return said


def block_in(lines, head):
    """The lines of the first block of that head, or none."""
    behind = lines[lines.index(head) + 1 :] if head in lines else ["```"]
    return behind[: behind.index("```")]


def page_rows(page):
    lines = read(page).split("\n")
    name = os.path.basename(page)
    said = f"The programs of `docs/{name}`, made from it by `bench/pages.py`. Found by hand from the rules.\n"
    frame = "\n".join(block_in(lines, "```jolie frame")) + "\n"
    at = 0
    while at < len(lines):
        block = re.match(r"```(jolie|lines) (.+)$", lines[at])
        table = re.match(r"<!-- (rows|refused) (\S+) -->$", lines[at])
        if block:
            end = lines.index("```", at)
            body = lines[at + 1 : end]
            at = end
            if block[1] == "lines":
                said += row(block[2], body)
            elif block[2] in ("rows", "refused"):
                said += block_rows(body, answered_row if block[2] == "rows" else refused_row, frame)
            elif block[2] != "frame":
                said += group(block[2], field("file", "\n".join(body) + "\n"))
        elif table:
            at += 1
            end = next(it for it in range(at, len(lines)) if not lines[it].startswith("|"))
            rows_of = table_rows if table[1] == "rows" else refused_rows
            said += group(table[2], field("input", GO + "\n") + field("notes", "")) + rows_of(lines[at:end], frame)
        at += 1
    return said


def unquoted(text):
    escapes = {"n": "\n", "r": "\r", "t": "\t", "0": "\0"}
    byte = lambda it: chr(int(it[1][1:], 16)) if len(it[1]) > 1 else escapes.get(it[1], it[1])
    return re.sub(r"\\(x..|.)", byte, text)


def fields(text):
    """The fields of a group or a row: each value by its key."""
    found = {}
    for line in text.split("\n"):
        it = re.match(r'(\w+)(?:: (.*)| = "(.*)")$', line)
        if it:
            value = it[2] if it[2] is not None else unquoted(it[3])
            found.setdefault(it[1], []).append(value)
    return {key: "\n".join(values) for key, values in found.items()}


def rows_in(files):
    """Each row of the files: its names and its fields."""
    for file in files:
        for part in read(file).split("\n== ")[1:]:
            head, *own = part.split("\n-- ")
            name, _, shared = head.partition("\n")
            for it in own:
                title, _, rest = it.partition("\n")
                yield f"{name} {title}", {**fields(shared), **fields(rest)}


def run_rows(program, files):
    told = odd = 0
    with tempfile.TemporaryDirectory() as folder:
        for name, it in rows_in(files):
            in_memory = any(key in ("comes", "blanks") or key.endswith("_fails_at") for key in it)
            if it.get("call") != "run" or in_memory:
                continue
            told += 1
            with open(f"{folder}/twice.ol", "w", encoding="utf-8") as file:
                file.write(it["file"])
            words = [program, it["command"], it.get("operand", "twice.ol"), *it.get("options", "").split()]
            how = {"cwd": folder, "input": it["input"], "capture_output": True, "text": True}
            ran = subprocess.run(words, **how)
            have = (str(ran.returncode), ran.stdout, ran.stderr)
            if have != (it["status"], it["output"], it["notes"]):
                odd += 1
                print(f"{name}: status {have[0]}, output {have[1]!r}, notes {have[2]!r}")
    print(f"{told} rows, {odd} not as expected")
    return odd


def read(*names):
    with open(os.path.join(*names), encoding="utf-8") as file:
        return file.read()


def make():
    for page in PAGES:
        with open(os.path.join(TESTS, "data", f"{page}.txt"), "w", encoding="utf-8") as file:
            file.write(page_rows(os.path.join(TOP, "docs", f"{page}.md")))
    names = [name for name, _ in rows_in(os.path.join(TESTS, "data", it) for it in read(TESTS, "args").split())]
    with open(os.path.join(TESTS, "stdout"), "w", encoding="utf-8") as file:
        file.writelines(f"{name}: as expected\n" for name in names)
        file.write(f"{len(names)} rows, 0 not as expected\n")


def example(name, title):
    program, lines, out = (read(TOP, "examples", name + end) for end in (".ol", ".jsonl", ".out"))
    lines = ["> " + it for it in lines.splitlines()] + ["< " + it for it in out.splitlines()]
    return group(title, field("file", program)) + row(name, lines)


def main(words):
    command, *rest = words
    if command == "make":
        make()
    elif command == "example":
        sys.stdout.write(example(*rest))
    elif command == "run":
        sys.exit(run_rows(os.path.abspath(rest[0]), rest[1:]) != 0)
    else:
        sys.exit(__doc__)


if __name__ == "__main__":
    main(sys.argv[1:] or [""])
