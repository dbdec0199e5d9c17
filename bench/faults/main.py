#!/usr/bin/env python3
"""Lets each call go wrong by which the program reaches its streams, files and sockets, one in each run, and looks at
what comes of it, for bench/faults.sh:

    bench/faults/main.py PROGRAM CALLS [PART [CASE [CALL]]]

CALLS is calls.c as a library. The parts are `lines`, `commands`, `trips`, `rates` and `doors`, a case is named as in
what is told of a run that is wrong, and so is a call, as read:5:4. All are tried where none is named.
"""
import sys

from doors import doors
from lines import commands, lines
from running import Program, Tally
from trips import rates, trips

PARTS = {"lines": lines, "commands": commands, "trips": trips, "rates": rates, "doors": doors}


def main(path, library, only_part=None, *only):
    program = Program(path, library)
    odd = 0
    for name, part in PARTS.items():
        if only_part in (None, name):
            tally = Tally(name, only)
            part(program, tally)
            tally.tell()
            odd += tally.odd
    sys.exit(odd != 0)


main(*sys.argv[1:])
