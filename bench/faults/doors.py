"""Each call of `serve` goes wrong in turn, under the traffic of three connections at two doors and of probes behind it:
one connection is cut, or one door fails, and all others are answered as if nothing was. Standard error says where it
listens, and which door fails."""
import errno
import itertools
import json
import socket
import threading
import time

from lines import differences, why
from running import LONGEST_RUN, NOTHING, ONE_BYTE, faults_of, moved
from trips import free_port

# How many bytes a read or a write moves at most, so that there are many of them.
PIECE = 64

NOTES = 2

# Errors of an accept by which nobody has come yet or nobody can be let in now, and those by which a door has failed.
NOBODY = [errno.EAGAIN, errno.EINTR, errno.ECONNABORTED, errno.EPROTO, errno.EMFILE, errno.ENOBUFS]
FAILED = [errno.EBADF, errno.EINVAL, errno.ENOTSOCK]

WAYS = {
    "socket": [errno.EMFILE, errno.EACCES],
    "bind": [errno.EADDRINUSE, errno.EACCES],
    "listen": [errno.EADDRINUSE],
    "ioctl": [errno.EIO],
    "accept4": [*NOBODY, *FAILED],
    "poll": [errno.EINTR, errno.ENOMEM],
    "setsockopt": [errno.ENOPROTOOPT],
    "recv": [errno.ECONNRESET, errno.EAGAIN, errno.EIO, NOTHING, errno.EINTR, ONE_BYTE],
    "send": [errno.EPIPE, errno.ECONNRESET, errno.EAGAIN, NOTHING, errno.EINTR, ONE_BYTE],
    "write": [errno.EIO, errno.EPIPE, NOTHING, errno.EINTR, ONE_BYTE],
    "shutdown": [errno.ENOTCONN],
    "close": [errno.EIO],
}

# Ways in which nothing is lost: a call that is made again, and one that moves less.
HARMLESS = [errno.EINTR, ONE_BYTE]

# Calls that open a door.
OPENING = ["socket", "bind", "listen", "ioctl"]

FILE = """type Req: void { n: int }
interface TwiceI { RequestResponse: twice(Req)(int) OneWay: note(Req) }
interface ThriceI { RequestResponse: thrice(Req)(int) }
service Twice {
  execution: concurrent
  inputPort In { location: "socket://127.0.0.1:FIRST" protocol: jsonrpc interfaces: TwiceI }
  main {
    [ twice(x)(y) { y = x.n * 2 } ] { nullProcess }
    [ note(x) ] { nullProcess }
  }
}
service Thrice {
  execution: concurrent
  inputPort In { location: "socket://127.0.0.1:SECOND" protocol: jsonrpc interfaces: ThriceI }
  main { thrice(x)(y) { y = x.n * 3 ; println@Console("thrice")() } }
}
"""
SAID = b"thrice\n"


def call(method, number, **name):
    return {"jsonrpc": "2.0", "method": method, "params": {"n": number}, **name}


def post(said, fields=""):
    body = json.dumps(said)
    return f"POST / HTTP/1.1\r\nHost: localhost\r\n{fields}Content-Length: {len(body)}\r\n\r\n{body}".encode()


def answer(text, fields=""):
    head = f"HTTP/1.1 200 OK\r\nContent-Type: application/json\r\nContent-Length: {len(text)}\r\n{fields}\r\n"
    return (head + text).encode()


def result(name, number):
    return f'{{"id":{name},"jsonrpc":"2.0","result":{number}}}'


class Step:
    """Bytes that a guest sends, and those that answer them once all of them were read."""

    def __init__(self, sent, answered):
        self.sent, self.answered = sent, answered


CLOSE = "Connection: close\r\n"
EXPECT = post(call("thrice", 7, id=5), "Expect: 100-continue\r\n" + CLOSE)
HEAD = EXPECT.index(b"\r\n\r\n") + 4
REFUSED = b"HTTP/1.1 405 Method Not Allowed\r\nAllow: POST\r\nContent-Length: 0\r\nConnection: close\r\n\r\n"
INVALID = '{"error":{"code":-32600,"message":"Invalid Request"},"id":null,"jsonrpc":"2.0"}'

# Requests that are kept on one connection: one that is answered, one that is not, and a batch.
KEPT = [
    Step(post(call("twice", 21, id=1)), answer(result(1, 42))),
    Step(post(call("note", 1)), b"HTTP/1.1 204 No Content\r\n\r\n"),
    Step(
        post([call("twice", 1, id="a"), {}, call("twice", 2, id="b")]),
        answer(f'[{result(chr(34) + "a" + chr(34), 2)},{INVALID},{result(chr(34) + "b" + chr(34), 4)}]'),
    ),
]
# One that asks whether its body may come, and is the last of its connection.
EXPECTING = [
    Step(EXPECT[:HEAD], b"HTTP/1.1 100 Continue\r\n\r\n"),
    Step(EXPECT[HEAD:], answer(result(5, 21), CLOSE)),
]
# One that is refused behind one that is not.
ILL = [
    Step(post(call("twice", 5, id=3)), answer(result(3, 10))),
    Step(b"GET / HTTP/1.1\r\nHost: localhost\r\n\r\n", REFUSED),
]
PROBE = [
    [Step(post(call("twice", 4, id=9), CLOSE), answer(result(9, 8), CLOSE))],
    [Step(post(call("thrice", 4, id=9), CLOSE), answer(result(9, 12), CLOSE))],
]

# The guests of the traffic, each with its door.
GUESTS = [(0, KEPT), (1, EXPECTING), (0, ILL)]
PROBES = 2
MOST_GUESTS = len(GUESTS) + 4 * PROBES


class Guest(threading.Thread):
    """A connection at a door, what is sent on it, and what is heard."""

    def __init__(self, door, steps, port):
        super().__init__()
        self.door, self.steps = door, steps
        self.heard = b""
        self.is_late = False
        try:
            self.connection = socket.create_connection(("127.0.0.1", port), LONGEST_RUN / 2)
            self.has_come = True
        except OSError:
            self.has_come = False

    def run(self):
        """Sends all, and hears what comes until the other side closes."""
        if not self.has_come:
            return
        with self.connection:
            try:
                self.connection.sendall(b"".join(step.sent for step in self.steps))
                self.connection.shutdown(socket.SHUT_WR)
                while piece := self.connection.recv(4096):
                    self.heard += piece
            except TimeoutError:
                self.is_late = True
            except OSError:
                pass

    def due(self, count):
        """What is answered once so many bytes of it were read."""
        answered, end = b"", 0
        for step in self.steps:
            end += len(step.sent)
            if end <= count:
                answered += step.answered
        return answered

    def right(self):
        return b"".join(step.answered for step in self.steps)


class Taken:
    """A connection that was taken in at a door, and the calls that were made on it."""

    def __init__(self, door):
        self.door = door
        self.calls = []

    def count(self, name):
        """How many bytes were moved by the calls of a name."""
        return sum(max(it.gave, 0) for it in self.calls if it.name == name)

    def wrong(self):
        return next((it for it in self.calls if it.is_wrong), None)


def doors_of(calls):
    """The number of the door that listens at each descriptor."""
    begun = [it.gave for it in calls if it.name == "socket"]
    return {file: door for door, file in enumerate(begun) if file >= 0}


def taken_in(calls):
    """The connections that were taken in, in their order."""
    found, now = [], {}
    doors = doors_of(calls)
    for it in calls:
        if it.name == "accept4" and it.gave >= 0:
            now[it.gave] = Taken(doors[it.file])
            found.append(now[it.gave])
        elif it.file in now:
            now[it.file].calls.append(it)
            if it.name == "close":
                del now[it.file]
    return found


def failed_door(calls, fault):
    """The door that could not be opened or has failed by a fault, if one has by now."""
    for place, it in enumerate(calls):
        if it.is_wrong and (it.name in OPENING or it.option == socket.SO_REUSEADDR):
            return sum(1 for other in calls[: place + 1] if other.name == "socket") - 1
        if it.is_wrong and it.name == "accept4" and fault.how in FAILED:
            return doors_of(calls)[it.file]
    return None


def doors(program, tally):
    """Each call of `serve` under that traffic."""
    right, guests, locations = serve(program, None)
    tally.run("doors", None, problems(None, right, guests, locations))
    for fault in faults_of(right.calls, lambda it: WAYS.get(it.name, [])):
        if tally.wants("doors", fault):
            ran, guests, locations = serve(program, fault)
            tally.run("doors", fault, problems(fault, ran, guests, locations))


def serve(program, fault):
    """What came of a run, and of its guests, and the locations of its doors."""
    ports = [free_port(), free_port()]
    text = FILE.replace("FIRST", str(ports[0])).replace("SECOND", str(ports[1]))
    most = str(len(GUESTS) + PROBES)
    process = program.start(["serve", program.file("doors.ol", text), "--connections", most], fault, PIECE)
    while process.poll() is None and not any(it.name == "accept4" for it in program.calls()[0]):
        time.sleep(0.002)
    guests = [Guest(door, steps, ports[door]) for door, steps in GUESTS]
    for guest in guests:
        guest.start()
    probe(program, process, fault, ports, guests)
    for guest in guests:
        guest.join()
    return program.end(process), guests, [f"socket://127.0.0.1:{port}" for port in ports]


def probe(program, process, fault, ports, guests):
    """Sends one probe after the other to a door that has not failed, until the run has ended."""
    last = None
    while process.poll() is None and len(guests) < MOST_GUESTS:
        failed = failed_door(program.calls()[0], fault)
        if last is None or not last.is_alive() or last.door == failed:
            door = 1 if failed == 0 else 0
            last = Guest(door, PROBE[door], ports[door])
            last.start()
            guests.append(last)
        time.sleep(0.002)


def problems(fault, ran, guests, locations):
    """What is wrong of a run in which that call goes wrong, if one does."""
    failed = failed_door(ran.calls, fault)
    is_unwritten = is_failed_write(fault, ran.wrong())
    is_halted = is_unwritten and has_begun(ran)
    pairs = list(zip(guests, connections_of(guests, taken_in(ran.calls))))
    noted = SAID * sum(1 for it in pairs if is_noted(*it))
    notes = notes_of_doors(fault, ran, locations)
    if is_halted:
        noted = SAID[: moved(ran.before(), "write", NOTES) - len(notes)]
    elif is_unwritten:
        notes = without_rest(notes, moved(ran.before(), "write", NOTES))
    ran, found = without_failure(fault, ran, locations)
    found += differences(ran, status_of(failed, is_halted), b"", notes + noted)
    if ran.left_open != 0:
        found.append(f"{ran.left_open} descriptors are left")
    if is_halted and any(it.name == "send" for it in ran.behind()):
        found.append("something is sent behind a failed output")
    for number, (guest, connection) in enumerate(pairs):
        must_come = number < len(GUESTS) and guest.door != failed and not is_halted
        found += [f"guest {number}: {it}" for it in problems_of(fault, guest, connection, is_halted, must_come)]
    return found


def is_failed_write(fault, wrong):
    return wrong is not None and wrong.name == "write" and fault.how not in HARMLESS


def has_begun(ran):
    """Whether the call that went wrong was one behind the opening of the doors."""
    return any(it.name == "accept4" for it in ran.calls[: ran.place() + 1])


def notes_of_doors(fault, ran, locations):
    """What is said as the doors open: where each listens, or why it can't."""
    failed = None if has_begun(ran) else failed_door(ran.calls, fault)
    return b"".join(
        why(location, fault) if door == failed else f"roqsulei: listening at {location}\n".encode()
        for door, location in enumerate(locations)
    )


def without_rest(notes, count):
    """Those notes, of which a write behind so many bytes failed: the rest of its line is not written."""
    ends = itertools.accumulate(len(line) for line in notes.splitlines(keepends=True))
    return notes[:count] + notes[next(it for it in ends if it > count) :]


def without_failure(fault, ran, locations):
    """A run without the line that says why a listener failed, and what is wrong where that is not there."""
    failed = failed_door(ran.calls, fault) if has_begun(ran) else None
    if failed is None:
        return ran, []
    line = why(f"{locations[failed]}: the listener failed", fault)
    found = [] if ran.notes.count(line) == 1 else [f"notes: {ran.notes!r}, without {line!r}"]
    return ran._replace(notes=ran.notes.replace(line, b"")), found


def status_of(failed, is_halted):
    if is_halted:
        return 5
    return 0 if failed is None else 7


def connections_of(guests, taken):
    """The connection of each guest: those who came to a door are taken in there in order."""
    by_door = {door: iter([it for it in taken if it.door == door]) for door in (0, 1)}
    return [next(by_door[it.door], None) if it.has_come else None for it in guests]


def is_noted(guest, connection):
    """Whether the request of a guest came whole to the second service, which notes each."""
    sent = sum(len(step.sent) for step in guest.steps)
    return connection is not None and guest.door == 1 and connection.count("recv") == sent


def problems_of(fault, guest, connection, is_halted, must_come):
    """What is wrong of what a guest heard."""
    if guest.is_late:
        return ["it waited too long"]
    if connection is None:
        found = ["it is not taken in"] if must_come else []
        return [*found, f"it heard {guest.heard!r}"] if guest.heard else found
    wrong = connection.wrong()
    if is_halted or (wrong is not None and is_cut(fault, wrong)):
        return problems_of_cut(guest, connection, is_halted)
    if guest.heard != guest.right():
        return [f"it heard {guest.heard!r}, expected {guest.right()!r}"]
    return []


def is_cut(fault, wrong):
    """Whether a call that goes wrong cuts its connection."""
    is_option = wrong.name == "setsockopt" and wrong.option in (socket.SO_RCVTIMEO, socket.SO_SNDTIMEO)
    return is_option or (wrong.name in ("recv", "send") and fault.how not in HARMLESS)


def problems_of_cut(guest, connection, is_halted):
    """What is wrong of a connection that was cut: it has to be sent what is due to what was read of it, or the front of
    that which went out before a send failed, and may have lost the end of this where it is reset."""
    found = []
    sent = guest.right()[: connection.count("send")]
    if not sent.startswith(guest.heard):
        found.append(f"it heard {guest.heard!r}, sent was {sent!r}")
    due = guest.due(connection.count("recv"))
    wrong = connection.wrong()
    is_read = wrong is not None and (wrong.name == "recv" or wrong.option == socket.SO_RCVTIMEO)
    if is_read and sent != due:
        found.append(f"sent was {sent!r}, due {due!r}")
    if not due.startswith(sent):
        found.append(f"more than what is due was sent: {sent!r}")
    if wrong is not None and goes_on(connection, wrong):
        found.append("it goes on behind the call that went wrong")
    return found


def goes_on(connection, wrong):
    behind = connection.calls[connection.calls.index(wrong) + 1 :]
    return any(it.name in ("recv", "send") for it in behind)
