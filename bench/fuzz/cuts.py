"""Texts that are cut at each byte, for main.py: the file of a shop, of which `check` refuses each beginning without the
last brace, and the bytes of a connection with two requests, of which `serve` answers those that are whole."""
import collections
import subprocess
import tempfile

import data
import heads
import streams

# How many beginnings of the file a batch has.
INPUTS = 100

FILE = next(it["file"] for it in data.rows("test_program") if '"nofunds"' in it.get("file", "")).encode()
BEGINNINGS = FILE.rindex(b"}") + 1

CALL = b'{"jsonrpc":"2.0","method":"twice","params":{"n":21},"id":1}'
REQUEST = b"POST / HTTP/1.1\r\nHost: a\r\nContent-Length: %d\r\n\r\n%s" % (len(CALL), CALL)
STREAM = REQUEST + REQUEST.replace(b"\r\nContent", b"\r\nExpect: 100-continue\r\nContent")

# The batch of the connection is after those of the file.
LAST = -(-BEGINNINGS // INPUTS)


def batches(_count):
    return range(LAST + 1)


def tried(program, seed):
    """What was counted of a batch, and what was wrong."""
    number = int(seed.split()[-1])
    if number == LAST:
        return tried_streams(program)
    lengths = range(number * INPUTS, min((number + 1) * INPUTS, BEGINNINGS))
    with tempfile.NamedTemporaryFile(suffix=".ol") as file:
        wrongs = [it for length in lengths for it in wrongs_of_file(program, file, FILE[:length])]
    return collections.Counter(inputs=len(lengths)), wrongs


def wrongs_of_file(program, file, text):
    """What is wrong of what `check` says of a beginning of the file."""
    file.seek(0)
    file.truncate()
    file.write(text)
    file.flush()
    ran = subprocess.run([program, "check", file.name], capture_output=True, check=False, timeout=streams.LONGEST_WAIT)
    if ran.returncode != 3 or not ran.stdout.startswith(b"refused "):
        yield f"check says {ran.stdout!r}, status {ran.returncode}, of {len(text)} bytes"


def tried_streams(program):
    """The same of the bytes of a connection."""
    texts = [STREAM[:length] for length in range(len(STREAM) + 1)]
    with tempfile.TemporaryDirectory() as folder:
        run = streams.Run(program, folder, len(texts))
        wrongs = [it for text in texts for it in wrongs_of_stream(run, text)]
        status, notes = run.end()
    if status != 0:
        wrongs.append(f"status {status}, notes {notes!r}")
    return collections.Counter(inputs=len(texts)), wrongs


def wrongs_of_stream(run, text):
    """What is wrong of what is answered to a beginning of those bytes."""
    with run.connect() as peer:
        peer.sendall(text)
        peer.shutdown(streams.socket.SHUT_WR)
        heard, is_reset = streams.heard_of(peer)
    right, is_closed = heads.answered(text, streams.answers.Twice())
    return streams.wrongs_of((text, right, is_closed), heard, is_reset)
