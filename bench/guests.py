#!/usr/bin/env python3
"""Guests who come in at doors over sockets well or ill, for bench/doors.sh.

    bench/guests.py PROGRAM ACCEPT    runs the program, which follows the lines of its input at doors, and compares
                                      what it says of each with what docs/http.md says of doors over sockets; ACCEPT
                                      is bench/accept.c as a library to be preloaded, by which accepts fail
"""
import errno
import os
import resource
import socket
import struct
import subprocess
import sys
import tempfile
import threading
import time

# How many seconds the program waits: for a next request, for the rest of one, for an answer to be taken, in a rest.
IDLE, REQUEST, ANSWER, REST = 0.6, 3.0, 0.9, 0.4

# What is allowed beyond a time; that a connection is late is found after a rest at most.
LATE = 0.25


class House:
    """A run of the program."""

    def __init__(self, program, files=None, **settings):
        def few_files():
            if files:
                resource.setrlimit(resource.RLIMIT_NOFILE, (files, files))

        self.notes = tempfile.TemporaryFile("a+")
        self.process = subprocess.Popen(
            [program], stdin=subprocess.PIPE, stdout=subprocess.PIPE, stderr=self.notes, text=True,
            preexec_fn=few_files, env={**os.environ, **settings})

    def say(self, line):
        """What the program says of a line."""
        self.process.stdin.write(line + "\n")
        self.process.stdin.flush()
        return self.process.stdout.readline().rstrip("\n")

    def timed(self, line):
        """The same, and how many seconds it took."""
        before = time.monotonic()
        said = self.say(line)
        return said, time.monotonic() - before

    def noted(self):
        """The lines that it has written to standard error by now."""
        self.notes.seek(0)
        return self.notes.read().splitlines()

    def processor_seconds(self):
        """How much of a processor the program has used."""
        with open(f"/proc/{self.process.pid}/stat") as file:
            fields = file.read().rsplit(")", 1)[1].split()
        return (int(fields[11]) + int(fields[12])) / os.sysconf("SC_CLK_TCK")

    def end(self):
        self.process.stdin.close()
        return self.process.wait()


class Rows:
    def __init__(self):
        self.rows = 0
        self.wrong = 0

    def row(self, name, have, want):
        self.rows += 1
        if have != want:
            self.wrong += 1
            print(f"{name}: {have}\n  expected: {want}")

    def time(self, name, took, least, most):
        right = least <= took <= most
        want = f"{least:.2f} to {most:.2f} s"
        self.row(name, want if right else f"{took:.3f} s", want)


def free_port():
    with socket.socket() as listener:
        listener.bind(("127.0.0.1", 0))
        return listener.getsockname()[1]


def come(port, host="127.0.0.1"):
    return socket.create_connection((host, port))


def reset(guest):
    """Closes a connection by a reset."""
    guest.setsockopt(socket.SOL_SOCKET, socket.SO_LINGER, struct.pack("ii", 1, 0))
    guest.close()


def drip(guest):
    """Sends a byte now and then, for as long as the other side takes them."""

    def send():
        try:
            while True:
                guest.sendall(b"x")
                time.sleep(0.1)
        except OSError:
            pass

    threading.Thread(target=send, daemon=True).start()


def reason(number):
    """What the system says of an error."""
    return f"{os.strerror(number)} (os error {number})"


def let_in(rows, house, name):
    """Somebody has come since a try found nobody. The next try is after a rest, by which that is reported."""
    _, took = house.timed("rest")
    rows.time(f"a rest where somebody has come: {name}", took, 0, LATE)
    rows.row(name, house.say("accept"), "came")


def is_refused(port):
    try:
        come(port).close()
        return False
    except ConnectionRefusedError:
        return True


def one_door(rows, house, port):
    rows.row("a door", house.say(f"open socket://127.0.0.1:{port}"), "opened")
    rows.row("it is noted where it listens", house.noted(), [f"roqsulei: listening at socket://127.0.0.1:{port}"])
    rows.row("nobody", house.say("accept"), "not yet")
    said, took = house.timed("rest")
    rows.row("a rest", said, "rested")
    rows.time("a rest where nobody comes", took, REST - 0.01, REST + LATE)
    guests = []
    coming = threading.Timer(0.1, lambda: guests.append(come(port)))
    coming.start()
    _, took = house.timed("rest")
    coming.join()
    rows.time("a rest ends where somebody comes", took, 0.05, 0.1 + LATE)
    rows.row("somebody", house.say("accept"), "came")
    rows.row("nobody else", house.say("accept"), "not yet")
    guest = guests[0]
    guest.sendall(b"hello")
    rows.row("what a guest sends", house.say("read"), "read hello")
    rows.row("an answer", house.say("write good day"), "wrote 8")
    rows.row("what a guest gets", guest.recv(64), b"good day")
    for word in ["one", "two", "three"]:
        time.sleep(IDLE / 2)
        guest.sendall(word.encode())
        rows.row("a next request", house.say("read"), f"read {word}")
        rows.row("its answer", house.say("write ok"), "wrote 2")
        rows.row("what a guest gets then", guest.recv(64), b"ok")
    guest.shutdown(socket.SHUT_WR)
    rows.row("the end of what a guest sends", house.say("read"), "read ")
    rows.row("an answer after it", house.say("write bye"), "wrote 3")
    rows.row("what a guest gets after it", guest.recv(64), b"bye")
    rows.row("a wire that goes back", house.say("back"), "back")
    rows.row("a wire that went back is closed", guest.recv(64), b"")
    rows.row("it tells the end", house.say("wires"), "e;")
    guest.close()


def ill_guests(rows, house, port):
    guest = come(port)
    let_in(rows, house, "a guest who says nothing")
    said, took = house.timed("read")
    rows.row("a guest who says nothing is given up", said, "failed")
    rows.time("idle", took, IDLE - 0.01, IDLE + REST + LATE)
    house.say("back")
    guest.close()

    guest = come(port)
    rows.row("a guest who drips", house.say("accept"), "came")
    drip(guest)
    before = time.monotonic()
    reads = 0
    while house.say("read") != "failed":
        reads += 1
    rows.time("a request that is never whole", time.monotonic() - before, REQUEST - 0.01, REQUEST + REST + LATE)
    rows.row("it is read as it comes", reads > 5, True)
    house.say("back")
    guest.close()

    guest = come(port)
    rows.row("a guest who takes nothing", house.say("accept"), "came")
    said, took = house.timed("fill 100000")
    rows.row("an answer that is not taken", said, "failed")
    rows.time("an answer that is not taken", took, ANSWER - 0.01, ANSWER + REST + LATE + 0.5)
    house.say("back")
    guest.close()

    guest = come(port)
    time.sleep(0.05)
    reset(guest)
    time.sleep(0.05)
    rows.row("a guest who has gone", house.say("accept"), "came")
    rows.row("a guest who has gone sends nothing", house.say("read"), "failed")
    rows.row("a guest who has gone takes nothing", house.say("write x"), "failed")
    house.say("back")
    rows.row("each wire tells how it failed", house.say("wires"), "e;l;l;c;lc;")

    guests = [come(port) for _ in range(50)]
    rows.row("many at once", [house.say("accept") for _ in guests], ["came" for _ in guests])
    rows.row("no more than that", house.say("accept"), "not yet")
    guests[-1].sendall(b"last")
    rows.row("the last of many", house.say("read"), "read last")
    for guest in guests:
        house.say("back")
        guest.close()


def places(rows, house, port):
    rows.row("an address that is in use", house.say(f"open socket://127.0.0.1:{port}"), "failed")
    rows.row("it is noted", house.noted()[1:], [f"roqsulei: socket://127.0.0.1:{port}: {reason(errno.EADDRINUSE)}"])
    for location in ["local://shop", "http://127.0.0.1:9", "127.0.0.1:9", "socket://127.0.0.1", "socket://",
                     "socket://127.0.0.1:port", "socket://127.0.0.1:65536", "socket://nobody.invalid:9", ""]:
        rows.row(f"no door at {location!r}", house.say(f"open {location}"), "failed")
        rows.row(f"{location!r} is noted", house.noted()[-1].startswith(f"roqsulei: {location}: "), True)
    other = free_port()
    rows.row("a location with a path", house.say(f"open socket://127.0.0.1:{other}/calls/x:1"), "opened")
    guest = come(other)
    rows.row("a second door", house.say("accept"), "came")
    house.say("back")
    guest.close()
    rows.row("a door that goes back", house.say("shut"), "shut")
    rows.row("a door that went back is closed", is_refused(other), True)
    rows.row("it may open again at once", house.say(f"open socket://127.0.0.1:{other}"), "opened")
    house.say("shut")
    rows.row("all addresses", house.say(f"open socket://0.0.0.0:{other}"), "opened")
    guest = come(other)
    rows.row("a guest at one of all addresses", house.say("accept"), "came")
    house.say("back")
    guest.close()
    house.say("shut")
    rows.row("a name", house.say(f"open socket://localhost:{other}"), "opened")
    guest = come(other, "localhost")
    rows.row("a guest at a name", house.say("accept"), "came")
    house.say("back")
    guest.close()
    house.say("shut")


def few_files(rows, program):
    """Where no file is left for a connection, nobody has come yet: who waits comes in once one is."""
    # Of ten files three are the streams, two the poll and one the listener.
    house = House(program, files=10)
    port = free_port()
    house.say(f"open socket://127.0.0.1:{port}")
    guests = [come(port) for _ in range(10)]
    rows.row("no file is left", [house.say("accept") for _ in guests], ["came"] * 4 + ["not yet"] * 6)
    used = house.processor_seconds()
    for _ in range(3):
        _, took = house.timed("rest")
        rows.time("a rest where no file is left", took, REST - 0.01, REST + LATE)
        rows.row("still none is left", house.say("accept"), "not yet")
    rows.row("such a rest takes no processor", house.processor_seconds() - used < 0.05, True)
    house.say("back")
    rows.row("a file is left again", house.say("accept"), "came")
    guests[4].sendall(b"fifth")
    rows.row("who waited is heard", house.say("read"), "read fifth")
    rows.row("it was the last file", house.say("accept"), "not yet")
    house.say("shut")
    rows.row("no door has failed", house.say("told"), "doors 1 1 0 wires 5 1 0 0 waits 10 faults 0")
    rows.row("the door tells so", house.say("doors"), "5 10 0;")
    rows.row("it ends", house.end(), 0)
    for guest in guests:
        guest.close()


def rests(rows, house, port):
    """A rest lasts where who is there is not let in."""
    guests = [come(port) for _ in range(3)]
    let_in(rows, house, "the first of three")
    for _ in range(2):
        _, took = house.timed("rest")
        rows.time("a rest beside one who is not let in", took, REST - 0.01, REST + LATE)
    rows.row("the others", [house.say("accept") for _ in guests], ["came", "came", "not yet"])
    guests.append(come(port))
    _, took = house.timed("rest")
    rows.time("a rest that finds somebody", took, 0, LATE)
    _, took = house.timed("rest")
    rows.time("the rest after it", took, REST - 0.01, REST + LATE)
    rows.row("who was found", house.say("accept"), "came")
    for guest in guests:
        house.say("back")
        guest.close()


def readiness(rows, house, port):
    """A rest does not last beside what came before it, and lasts beside what no read gives."""
    guest = come(port)
    rows.row("one more guest", house.say("accept"), "came")
    rows.row("nothing of him yet", house.say("look"), "nothing yet")
    for word in ["half", "more", "x" * 200]:
        guest.sendall(word.encode())
        _, took = house.timed("rest")
        rows.time("a rest after bytes", took, 0, LATE)
        said = [house.say("look") for _ in range(len(word) // 64 + 1)]
        rows.row("what came before it", "".join(text.removeprefix("read ") for text in said), word)
        rows.row("and no more", house.say("look"), "nothing yet")
    for _ in range(3):
        guest.send(b"!", socket.MSG_OOB)
        time.sleep(0.05)
        rows.row("an urgent byte is not read", house.say("look"), "nothing yet")
        _, took = house.timed("rest")
        rows.time("a rest after an urgent byte", took, REST - 0.01, REST + LATE)
    guest.sendall(b"end")
    guest.shutdown(socket.SHUT_WR)
    _, took = house.timed("rest")
    rows.time("a rest after the end", took, 0, LATE)
    rows.row("what came last", house.say("look"), "read end")
    rows.row("and the end", house.say("look"), "read ")
    house.say("back")
    guest.close()


# What an accept may meet that says no more than that who came is gone.
GONE = [errno.EINTR, errno.ECONNABORTED, errno.ECONNRESET, errno.ENETDOWN, errno.ENETUNREACH, errno.EHOSTUNREACH,
        errno.ETIMEDOUT, errno.ENONET, errno.EPROTO, errno.ENOPROTOOPT, errno.EOPNOTSUPP, errno.EHOSTDOWN]

# What says that who waits can't be let in now.
WANTS = [errno.EPERM, errno.ENOMEM, errno.ENFILE, errno.EMFILE, errno.ENOBUFS]

# How many in a row are passed over who are gone.
MOST_GONE = 64

# And what says that the listener is none.
FAULTS = [errno.EBADF, errno.ENOTSOCK, errno.EINVAL, errno.EFAULT, errno.EACCES, errno.ENOSYS, errno.EIO]


def failing_accepts(rows, program, preloaded):
    """Accepts that fail by each of these numbers."""
    wants = [number for number in WANTS for _ in range(2)]
    # Where the number is 0 the system is asked.
    errors = GONE + [0] + wants + GONE + [0] + [errno.ECONNABORTED] * MOST_GONE
    house = House(program, LD_PRELOAD=preloaded, ERRORS=" ".join(map(str, errors)))
    port = free_port()
    house.say(f"open socket://127.0.0.1:{port}")
    guests = [come(port) for _ in range(3)]
    rows.row("one after those who are gone", house.say("accept"), "came")
    for number in WANTS:
        name = errno.errorcode[number]
        rows.row(name, house.say("accept"), "not yet")
        _, took = house.timed("rest")
        rows.time(f"a rest after {name}", took, REST - 0.01, REST + LATE)
        rows.row(f"{name} again", house.say("accept"), "not yet")
    rows.row("who waited through all of it", house.say("accept"), "came")
    rows.row("so many who are gone", house.say("accept"), "not yet")
    _, took = house.timed("rest")
    rows.time("a rest after so many", took, REST - 0.01, REST + LATE)
    rows.row("who came after so many", house.say("accept"), "came")
    rows.row("nobody more", house.say("accept"), "not yet")
    house.say("shut")
    waits = len(wants) + 2
    rows.row("none of it is noted", len(house.noted()), 1)
    rows.row("none was a failure", house.say("told"), f"doors 1 1 0 wires 3 0 0 0 waits {waits} faults 0")
    rows.row("the door tells so", house.say("doors"), f"3 {waits} 0;")
    rows.row("it ends then", house.end(), 0)
    for guest in guests:
        guest.close()
    for number in FAULTS:
        house = House(program, LD_PRELOAD=preloaded, ERRORS=str(number))
        location = f"socket://127.0.0.1:{free_port()}"
        house.say(f"open {location}")
        rows.row(errno.errorcode[number], house.say("accept"), "failed")
        rows.row(f"{errno.errorcode[number]} is noted", house.noted()[1:],
                 [f"roqsulei: {location}: the listener failed: {reason(number)}"])
        house.say("shut")
        rows.row(f"{errno.errorcode[number]} is told", house.say("told"),
                 "doors 1 1 1 wires 0 0 0 0 waits 0 faults 1")
        rows.row(f"{errno.errorcode[number]} is told of its door", house.say("doors"), "0 0 1;")
        house.end()


def main(program, preloaded):
    rows = Rows()
    house = House(program)
    port = free_port()
    one_door(rows, house, port)
    ill_guests(rows, house, port)
    rests(rows, house, port)
    readiness(rows, house, port)
    places(rows, house, port)
    rows.row("the first door still stands", house.say("accept"), "not yet")
    house.say("shut")
    rows.row("what is told", house.say("told"), "doors 5 5 0 wires 63 63 3 2 waits 5 faults 10")
    rows.row("the program ends", house.end(), 0)
    few_files(rows, program)
    failing_accepts(rows, program, preloaded)
    print(f"{rows.rows} rows, {rows.wrong} of them wrong")
    return 1 if rows.wrong else 0


if __name__ == "__main__":
    sys.exit(main(sys.argv[1], sys.argv[2]))
