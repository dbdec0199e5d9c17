"""Runs in which one system call in a thousand goes wrong, by calls.c."""
import errno
import os
import pathlib
import random

RATE = 1000
NOTHING, ONE_BYTE = 0, -1

# How calls go wrong as a system may have them: a call of HARMLESS loses nothing, and stands in for several.
SERVED = {
    "read": [errno.EINTR, ONE_BYTE],
    "write": [errno.EINTR, ONE_BYTE],
    "recv": [errno.EINTR, ONE_BYTE, errno.ECONNRESET, errno.EIO, NOTHING],
    "send": [errno.EINTR, ONE_BYTE, errno.EPIPE, errno.ECONNRESET],
    "accept4": [errno.EINTR, errno.ECONNABORTED, errno.EPROTO, errno.EMFILE, errno.ENOBUFS],
    "epoll_wait": [errno.EINTR],
    "shutdown": [errno.ENOTCONN],
    "close": [errno.EIO],
}
LINES = {
    "read": [errno.EINTR, ONE_BYTE, errno.EIO],
    "write": [errno.EINTR, ONE_BYTE, errno.EIO, errno.ENOSPC],
    "close": [errno.EIO],
}

# Calls that cut a connection where they fail.
CUTTING = ["recv", "send"]


def environment(calls, ways, path):
    """The environment of a run, whose counts then stand in a file."""
    names = " ".join(f"{name}={','.join(map(str, its))}" for name, its in ways.items())
    drawn = f"{RATE}:{random.randrange(1 << 30)} {names}"
    return {**os.environ, "LD_PRELOAD": str(calls), "DRAWN": drawn, "SUM": str(path)}


def counted(path):
    """How many calls a run made of these names, how many went wrong, and how many by name were not harmless."""
    total = wrong = 0
    harmful = {}
    for line in pathlib.Path(path).read_text(encoding="ascii").splitlines():
        name, its, wrongs, harms = line.split()
        total += int(its)
        wrong += int(wrongs)
        harmful[name] = int(harms)
    return total, wrong, harmful
