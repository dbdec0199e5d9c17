#!/usr/bin/env python3
"""Draws the text of a run's record as a sequence of messages: who is outside and each session is a column, and each
row is a call of the office that moves a message or ends something, from above to below.

    bench/drawn.py RECORD           as text
    bench/drawn.py --svg RECORD     as SVG

A message is drawn where its session takes it, as an arrow from who sent it; an answer where it is given."""
import json
import sys
from html import escape

WORKERS = 4096
WIDTH = 18


def words_of(line):
    """The words of a line: a string and a tree are one word each, whatever is in their strings."""
    words, word, quoted, escaped = [], "", False, False
    for sign in line:
        if sign == " " and not quoted:
            words.append(word)
            word = ""
            continue
        if quoted and escaped:
            escaped = False
        elif quoted and sign == "\\":
            escaped = True
        elif sign == '"':
            quoted = not quoted
        word += sign
    return words + [word]


def outcome(words):
    """An outcome in few words."""
    if words[0] == "value":
        return words[1]
    if words[0] == "fault":
        return f"fault {json.loads(words[1])} {words[2]}"
    return f"refused {words[1]}"


class Drawing:
    """Rows over columns: an arrow from one to another, or a remark at one."""

    def __init__(self):
        self.columns = ["outside"]
        self.rows = []
        self.messages = []
        self.services = {}

    def column(self, name):
        if name not in self.columns:
            self.columns.append(name)
        return self.columns.index(name)

    def actor(self, number):
        return self.column("outside" if number >= WORKERS else f"session {number}")

    def arrow(self, start, end, text):
        self.rows.append((start, end, text))

    def remark(self, place, text):
        self.rows.append((place, place, text))

    def accepted(self, sender, text):
        self.messages.append((sender, text))

    def entry(self, words):
        actor, call, rest = int(words[0]), words[1], words[2:]
        here = self.actor(actor)
        if call == "post":
            text = f"{json.loads(rest[4])} {rest[5]}"
            if rest[6] == "ok":
                self.accepted(here, text)
            else:
                self.remark(here, f"{text}: refused {rest[7]}")
        elif call == "adopt":
            self.remark(here, f"begins, of service {rest[0]}")
        elif call == "take":
            sender, text = self.messages[int(rest[0])]
            self.arrow(sender, here, f"#{rest[0]} {text}")
        elif call == "bind":
            self.remark(here, f"binds {rest[0]} {rest[1]}: {' '.join(rest[2:])}")
        elif call == "reply":
            sender, _ = self.messages[int(rest[0])]
            self.arrow(here, sender, f"#{rest[0]} {outcome(rest[1:])}")
        elif call == "send":
            text = f"op {rest[2]} {rest[3]}"
            if rest[5] == "ok":
                self.accepted(here, text)
            elif rest[5] == "out":
                self.arrow(here, self.column("elsewhere"), f"call {rest[0]} {text}")
            else:
                self.remark(here, f"call {rest[0]} {text}: refused {rest[6]}")
        elif call == "answered":
            self.arrow(self.column("elsewhere"), self.actor(int(rest[0])), f"call {rest[1]} {outcome(rest[2:])}")
        elif call == "end":
            self.remark(here, "ends")
        elif call in ("close", "stop"):
            self.remark(here, call)


def drawing_of(text):
    drawing = Drawing()
    for line in text.split("\n"):
        words = words_of(line)
        if words[0] == "entry":
            drawing.entry(words[1:])
    return drawing


def cut(text, width):
    return text if len(text) <= width else text[: width - 1] + "…"


def as_text(drawing):
    """Columns of lines, with the arrows between them and what they say after them."""
    count = len(drawing.columns)
    yield "".join(name.ljust(WIDTH) for name in drawing.columns).rstrip()
    for start, end, text in drawing.rows:
        signs = list(" " * (WIDTH * count))
        for place in range(count):
            signs[place * WIDTH] = "|"
        low, high = sorted((start, end))
        for place in range(low * WIDTH + 1, high * WIDTH):
            signs[place] = "-"
        if start < end:
            signs[high * WIDTH - 1] = ">"
        elif end < start:
            signs[low * WIDTH + 1] = "<"
        else:
            signs[start * WIDTH] = "*"
        yield "".join(signs).rstrip() + "  " + cut(text, 60)


def as_svg(drawing):
    """The same as SVG."""
    step, high = 160, 26
    width, height = step * len(drawing.columns) + 200, high * (len(drawing.rows) + 3)
    yield f'<svg xmlns="http://www.w3.org/2000/svg" width="{width}" height="{height}" font-family="sans-serif" font-size="11">'
    yield '<defs><marker id="tip" markerWidth="8" markerHeight="8" refX="7" refY="4" orient="auto"><path d="M0,0 L8,4 L0,8 z"/></marker></defs>'
    for place, name in enumerate(drawing.columns):
        x = 60 + place * step
        yield f'<text x="{x}" y="16" text-anchor="middle">{escape(name)}</text>'
        yield f'<line x1="{x}" y1="24" x2="{x}" y2="{height - 10}" stroke="#bbb"/>'
    for row, (start, end, text) in enumerate(drawing.rows):
        y = high * (row + 2)
        x1, x2 = 60 + start * step, 60 + end * step
        if start == end:
            yield f'<circle cx="{x1}" cy="{y}" r="3"/><text x="{x1 + 8}" y="{y + 4}">{escape(cut(text, 40))}</text>'
        else:
            yield f'<line x1="{x1}" y1="{y}" x2="{x2}" y2="{y}" stroke="black" marker-end="url(#tip)"/>'
            yield f'<text x="{min(x1, x2) + 6}" y="{y - 4}">{escape(cut(text, 40))}</text>'
    yield "</svg>"


def main():
    words = sys.argv[1:]
    svg = words[:1] == ["--svg"]
    names = words[1:] if svg else words
    if len(names) != 1:
        sys.exit(__doc__)
    with open(names[0], encoding="utf-8") as file:
        drawing = drawing_of(file.read())
    print("\n".join(as_svg(drawing) if svg else as_text(drawing)))


main()
