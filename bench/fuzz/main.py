"""Hands inputs to the program that small changes make of the repository's own data, for bench/fuzz.sh:

    bench/fuzz/main.py PROGRAM [INPUTS [SEED [PART [BATCH]]]]

The parts are `cuts`, `files`, `lines` and `streams`. The inputs of a batch follow from the seed and its number. Where
INPUTS is 0, as where nothing is named, each part has as many as it names itself.
"""
import collections
import concurrent.futures
import itertools
import os
import resource
import subprocess
import sys
import time

import cuts
import files
import lines
import streams

PARTS = {"cuts": cuts, "files": files, "lines": lines, "streams": streams}

# How many wrong inputs of a part are printed.
MOST_PRINTED = 20


def tried(part, program, seed, number):
    """What came of a batch: its number, what was counted, and what was wrong."""
    try:
        return number, *PARTS[part].tried(program, f"{seed} {part} {number}")
    except (OSError, subprocess.SubprocessError) as error:
        return number, collections.Counter(), [f"the batch came to no end: {error!r:.1000}"]


def batches(part, program, seed, numbers):
    """What came of these batches, as many at once as there are processors, each as it is through."""
    left = iter(numbers)
    with concurrent.futures.ProcessPoolExecutor(len(os.sched_getaffinity(0))) as pool:
        open_ones = {pool.submit(tried, part, program, seed, it) for it in itertools.islice(left, 64)}
        while open_ones:
            done, open_ones = concurrent.futures.wait(open_ones, return_when=concurrent.futures.FIRST_COMPLETED)
            open_ones |= {pool.submit(tried, part, program, seed, it) for it in itertools.islice(left, len(done))}
            yield from (it.result() for it in done)


def try_part(part, program, count, seed, numbers):
    """Tries a part, prints what came of it, and gives how many inputs were wrong."""
    counts, found = collections.Counter(), 0
    begun = time.monotonic()
    for number, counted, wrongs in batches(part, program, seed, numbers):
        counts += counted
        for wrong in wrongs:
            found += 1
            if found <= MOST_PRINTED:
                print(f"bench/fuzz.sh {count} {seed} {part} {number}: {wrong}", flush=True)
    seconds = time.monotonic() - begun
    said = ", ".join(f"{counts[it]:,} {it}" for it in counts if it != "inputs")
    inputs = counts["inputs"]
    print(f"{part}: {inputs:,} inputs in {seconds:,.0f} s, {inputs / seconds:,.0f} a second", flush=True)
    print(f"{part}: {said or 'nothing else was counted'}; {found} wrong", flush=True)
    return found


def main(program, count="0", seed="1", only=None, batch=None):
    resource.setrlimit(resource.RLIMIT_CORE, (0, 0))
    count = int(count)
    found = 0
    for part, its in PARTS.items():
        if only in (None, part):
            numbers = [int(batch)] if batch else its.batches(count)
            found += try_part(part, program, count, seed, numbers)
    sys.exit(found != 0)


if __name__ == "__main__":
    main(*sys.argv[1:])
