"""Inputs made of others by a few small changes, as a seed draws them."""
import random
import re

SIGNS = [bytes([it]) for it in b'\0\t\n\r !"#$%&()*+,-./0:;<=>?@[\\]{|}\x7f\x80\xff']
CHARACTERS = ["\u00e9", "\u2028", "\U0001f4a9", "\ufeff"]
NO_CHARACTERS = [b"\xc3", b"\xed\xa0\x80", b"\xc0\x80", b"\xf4\x90\x80\x80"]
ODD_BYTES = [*SIGNS, *(it.encode() for it in CHARACTERS), *NO_CHARACTERS]

NUMBERS = [
    *(str(sign * 2**power + more) for sign in (1, -1) for power in (0, 15, 31, 32, 63, 64) for more in (-1, 0, 1)),
    "-0", "00", "0.0", "1.5", "1e3", "1e308", "1e309", "-1e309", "1e-400", "9" * 309, "9" * 400, "65536", "65537",
]

TOKENS = re.compile(rb"\w+|\s+|.", re.DOTALL)
DIGITS = re.compile(rb"-?\d+")

# How many changes are made of an input.
CHANGES_MADE = [0, 1, 1, 1, 1, 2, 2, 3, 5]

# An input is cut after so many bytes.
LONGEST = 100_000


class Mutants:
    """Inputs that changes make of some texts, in which words of a list may come."""

    def __init__(self, texts, words, seed):
        self.texts = texts
        self.words = words
        self.random = random.Random(seed)

    def next(self):
        """The next input."""
        return self.changed(self.random.choice(self.texts))

    def changed(self, text):
        """A text after a few changes, or after none."""
        for _ in range(self.random.choice(CHANGES_MADE)):
            text = self.random.choice(CHANGES)(self, text)[:LONGEST]
        return text

    def place(self, text):
        return self.random.randrange(len(text) + 1)

    def slice(self, text, most=20):
        """The two ends of a slice, which is short unless it is seldom long."""
        start = self.place(text)
        longest = most if self.random.randrange(8) else len(text)
        return start, min(len(text), start + self.random.randrange(longest + 1))

    def sets_byte(self, text):
        at = self.place(text)
        return text[:at] + bytes([self.random.randrange(256)]) + text[at + 1 :]

    def puts_odd_bytes(self, text):
        at = self.place(text)
        return text[:at] + self.random.choice(ODD_BYTES) + text[at:]

    def drops(self, text):
        start, end = self.slice(text)
        return text[:start] + text[end:]

    def doubles(self, text):
        start, end = self.slice(text)
        return text[:end] + text[start:end] * self.random.choice([1, 1, 1, 2, 70]) + text[end:]

    def cuts(self, text):
        return text[: self.place(text)]

    def splices(self, text):
        other = self.random.choice(self.texts)
        return text[: self.place(text)] + other[self.place(other) :]

    def sets_number(self, text):
        found = list(DIGITS.finditer(text))
        if not found:
            return self.puts_odd_bytes(text)
        it = self.random.choice(found)
        return text[: it.start()] + self.random.choice(NUMBERS).encode() + text[it.end() :]

    def with_tokens(self, text, change):
        tokens = TOKENS.findall(text)
        if not tokens:
            return self.random.choice(self.words)
        change(tokens, self.random.randrange(len(tokens)))
        return b"".join(tokens)

    def drops_token(self, text):
        return self.with_tokens(text, lambda tokens, at: tokens.pop(at))

    def doubles_token(self, text):
        return self.with_tokens(text, lambda tokens, at: tokens.insert(at, tokens[at]))

    def swaps_tokens(self, text):
        def swap(tokens, at):
            other = self.random.randrange(len(tokens))
            tokens[at], tokens[other] = tokens[other], tokens[at]

        return self.with_tokens(text, swap)

    def sets_token(self, text):
        def replace(tokens, at):
            tokens[at] = self.random.choice([*self.words, self.random.choice(tokens)])

        return self.with_tokens(text, replace)

    def puts_word(self, text):
        return self.with_tokens(text, lambda tokens, at: tokens.insert(at, self.random.choice(self.words)))


CHANGES = [
    Mutants.sets_byte, Mutants.puts_odd_bytes, Mutants.drops, Mutants.doubles, Mutants.cuts, Mutants.splices,
    Mutants.sets_number, Mutants.sets_number, Mutants.drops_token, Mutants.drops_token, Mutants.doubles_token,
    Mutants.swaps_tokens, Mutants.sets_token, Mutants.sets_token, Mutants.puts_word, Mutants.puts_word,
]
