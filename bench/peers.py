#!/usr/bin/env python3
"""Services on this machine that answer calls over HTTP well or ill, for bench/peers.sh.

    bench/peers.py FOLDER    listens with one service of each kind, each at a port of its own; writes these ports into
                             FOLDER/ports, a kind and its port a line, and what a service heard last into FOLDER/KIND
                             where it keeps its connections open; serves until its standard input ends
"""
import json
import os
import socket
import struct
import sys
import threading
import time


def request_on(connection):
    """The bytes of the request that comes on a connection, or of what comes of it."""
    heard = b""
    while b"\r\n\r\n" not in heard or len(body_of(heard)) < length_of(heard):
        piece = connection.recv(4096)
        if not piece:
            break
        heard += piece
    return heard


def body_of(heard):
    return heard.partition(b"\r\n\r\n")[2]


def length_of(heard):
    fields = [line.split(b":", 1) for line in heard.partition(b"\r\n\r\n")[0].split(b"\r\n")[1:]]
    return max([int(value) for name, value in fields if name.lower() == b"content-length"] or [0])


def text(said, heard):
    """A response to the call, with these members beside its version and its id."""
    call = json.loads(body_of(heard) or b"{}")
    return json.dumps({"jsonrpc": "2.0", "id": call.get("id"), **said}).encode()


def response(body, status="200 OK", fields=""):
    head = f"HTTP/1.1 {status}\r\nContent-Type: application/json\r\n{fields}Content-Length: {len(body)}\r\n\r\n"
    return head.encode() + body


def next_number(heard):
    """The result that is right: the number behind the one that is sent."""
    params = json.loads(body_of(heard)).get("params", [0])
    return text({"result": params[0] + 1}, heard)


def error(code, message, data=None):
    return lambda heard: response(text({"error": {"code": code, "message": message, "data": data}}, heard))


def pause(connection):
    """Waits until the other side has closed the connection."""
    while connection.recv(4096):
        pass


def sends(answer):
    """A service that sends these bytes, and then waits until the other side closes."""

    def serve(connection, folder, kind):
        heard = request_on(connection)
        with open(os.path.join(folder, kind), "wb") as file:
            file.write(heard)
        connection.sendall(answer(heard))
        pause(connection)

    return serve


def ends(answer):
    """One that sends these bytes and closes."""
    return lambda connection, folder, kind: connection.sendall(answer(request_on(connection)))


def byte_by_byte(connection, folder, kind):
    for byte in response(next_number(request_on(connection))):
        connection.sendall(bytes([byte]))


def late(connection, folder, kind):
    heard = request_on(connection)
    time.sleep(2)
    connection.sendall(response(next_number(heard)))


def resets(connection, folder, kind):
    request_on(connection)
    connection.setsockopt(socket.SOL_SOCKET, socket.SO_LINGER, struct.pack("ii", 1, 0))


def is_endless(connection, folder, kind):
    request_on(connection)
    connection.sendall(b"HTTP/1.1 200 OK\r\n")
    while True:
        connection.sendall(b"a: b\r\n" * 100)


def trickles(connection, folder, kind):
    request_on(connection)
    connection.sendall(b"HTTP/1.1 200 OK\r\na: ")
    while True:
        connection.sendall(b"b")
        time.sleep(1)


def chunked(heard):
    body = next_number(heard)
    head = b"HTTP/1.1 200 OK\r\nTransfer-Encoding: chunked\r\n\r\n"
    return head + b"%x\r\n%s\r\n0\r\n\r\n" % (len(body), body)


def as_long(count):
    """A response of the right result with so many bytes of body, by blanks at its end."""
    return lambda heard: response(next_number(heard).ljust(count))


KINDS = {
    "answers": sends(lambda heard: response(next_number(heard))),
    "answers_and_closes": ends(lambda heard: response(next_number(heard))),
    "answers_to_the_end": ends(lambda heard: b"HTTP/1.0 200 OK\r\n\r\n" + next_number(heard)),
    "answers_late": late,
    "answers_byte_by_byte": byte_by_byte,
    "answers_longest": sends(as_long(65536)),
    "answers_too_long": sends(as_long(65537)),
    "known_fault": sends(error(-32000, "Known", 5)),
    "other_fault": sends(error(-32000, "Hidden", 5)),
    "no_method": sends(error(-32601, "Method not found")),
    "bad_params": sends(error(-32602, "Invalid params")),
    "no_session": sends(error(-32001, "CorrelationError")),
    "text": sends(lambda heard: response(text({"result": "x"}, heard))),
    "array": sends(lambda heard: response(text({"result": [1, 2]}, heard))),
    "other_id": sends(lambda heard: response(b'{"jsonrpc":"2.0","id":77,"result":5}')),
    "no_version": sends(lambda heard: response(b'{"id":0,"result":5}')),
    "no_json": sends(lambda heard: response(b"hello")),
    "empty_body": sends(lambda heard: response(b"")),
    "junk": sends(lambda heard: b"\x00\xff hello\r\n\r\n"),
    "interim": sends(lambda heard: b"HTTP/1.1 100 Continue\r\n\r\n" + response(next_number(heard))),
    "status_500": sends(lambda heard: response(next_number(heard), "500 Internal Server Error")),
    "status_301": sends(lambda heard: response(b"", "301 Moved Permanently", "Location: /\r\n")),
    "chunked": sends(chunked),
    "cut_body": ends(lambda heard: response(next_number(heard))[:-1]),
    "cut_head": ends(lambda heard: b"HTTP/1.1 200 OK\r\nContent-Le"),
    "no_byte": ends(lambda heard: b""),
    "no_reading": lambda connection, folder, kind: None,
    "resets": resets,
    "endless": is_endless,
    "trickles": trickles,
    "silent": sends(lambda heard: b""),
}


def serve(listener, folder, kind):
    while True:
        connection, _ = listener.accept()
        try:
            with connection:
                KINDS[kind](connection, folder, kind)
        except OSError:
            pass


def main(folder):
    ports = []
    for kind in KINDS:
        listener = socket.create_server(("127.0.0.1", 0))
        ports.append(f"{kind} {listener.getsockname()[1]}\n")
        threading.Thread(target=serve, args=(listener, folder, kind), daemon=True).start()
    # A port at which nobody listens.
    with socket.create_server(("127.0.0.1", 0)) as listener:
        ports.append(f"nobody {listener.getsockname()[1]}\n")
    with open(os.path.join(folder, "ports.new"), "w", encoding="ascii") as file:
        file.writelines(ports)
    os.rename(os.path.join(folder, "ports.new"), os.path.join(folder, "ports"))
    sys.stdin.read()


main(sys.argv[1])
