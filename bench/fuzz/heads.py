"""What `serve` answers to the bytes of a connection, by the rules of docs/http.md alone: nothing of the program is in
it."""
import re

import answers

LONGEST_HEAD = 8192
LONGEST_BODY = 65536
MOST_FIELDS = 64

TOKEN = rb"[!#$%&'*+\-.^_`|~0-9A-Za-z]+"
HEAD = re.compile(
    rb"(?:\r?\n)*(" + TOKEN + rb") ([\x21-\x7e\x80-\xff]+) HTTP/1\.([01])\r?\n((?:"
    + TOKEN + rb":[\t\x20-\x7e\x80-\xff]*\r?\n)*)\r?\n"
)
INTERIM = b"HTTP/1.1 100 Continue\r\n\r\n"
REASONS = {
    200: b"OK", 204: b"No Content", 400: b"Bad Request", 405: b"Method Not Allowed", 411: b"Length Required",
    413: b"Content Too Large", 431: b"Request Header Fields Too Large",
}


def head_part(text):
    """The bytes up to and with the first empty line that follows another one, none where the first 8,192 have none."""
    begun = False
    end = 0
    for line in text[:LONGEST_HEAD].split(b"\n")[:-1]:
        end += len(line) + 1
        if line not in (b"", b"\r"):
            begun = True
        elif begun:
            return text[:end]
    return None


def response(status, body, closes):
    """The bytes of a response."""
    lines = [b"HTTP/1.1 %d %s" % (status, REASONS[status])]
    lines += [b"Allow: POST"] if status == 405 else []
    lines += [b"Content-Type: application/json"] if status == 200 else []
    lines += [b"Content-Length: %d" % len(body)] if status != 204 else []
    lines += [b"Connection: close"] if closes else []
    return b"\r\n".join([*lines, b"", body])


class Head:
    """A head that is one: its method, its minor version and its fields."""

    def __init__(self, method, minor, fields):
        self.method, self.minor = method, minor
        self.fields = [(name.lower(), value.strip(b" \t")) for name, _, value in (it.partition(b":") for it in fields)]

    def values(self, name):
        return [value for it, value in self.fields if it == name]

    def has_option(self, name, option):
        return any(option == it.strip(b" \t").lower() for value in self.values(name) for it in value.split(b","))

    def refused(self):
        """The status by which it is refused, if it is."""
        lengths = self.values(b"content-length")
        if self.minor == 1 and len(self.values(b"host")) != 1:
            return 400
        if len(lengths) > 1 or not all(re.fullmatch(rb"[0-9]+", it) for it in lengths):
            return 400
        if lengths and self.values(b"transfer-encoding"):
            return 400
        if self.method != b"POST":
            return 405
        if not lengths:
            return 411
        return 413 if self.length() > LONGEST_BODY else None

    def length(self):
        digits = self.values(b"content-length")[0].lstrip(b"0")
        return int(digits or b"0") if len(digits) < 10 else LONGEST_BODY + 1

    def closes(self):
        return self.minor == 0 or self.has_option(b"connection", b"close")

    def wants_interim(self):
        return self.minor == 1 and self.has_option(b"expect", b"100-continue")


def head_of(part):
    """The head that a head part is, if it is one."""
    it = HEAD.match(part)
    if it is None:
        return None
    try:
        it[2].decode("utf-8")
    except UnicodeDecodeError:
        return None
    fields = [line.removesuffix(b"\r") for line in it[4].split(b"\n")[:-1]]
    return Head(it[1], int(it[3]), fields) if len(fields) <= MOST_FIELDS else None


def answered(text, service):
    """The bytes that answer those of a connection, which then sends no more, and whether it was closed by them."""
    said = b""
    while True:
        part = head_part(text)
        if part is None:
            return (said + response(431, b"", True), True) if len(text) >= LONGEST_HEAD else (said, False)
        head = head_of(part)
        refused = head.refused() if head else 400
        if refused:
            return said + response(refused, b"", True), True
        said += INTERIM if head.wants_interim() else b""
        end = len(part) + head.length()
        if len(text) < end:
            return said, False
        answer = answers.answers(text[len(part) : end], service)
        body = b"" if answer is None else answers.written(answer)
        said += response(204 if answer is None else 200, body, head.closes())
        if head.closes():
            return said, True
        text = text[end:]
