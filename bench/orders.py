#!/usr/bin/env python3
"""Whether `load N` says of each N from 0 to 600 how the orders go by the rule of the lines and that of the shop:

    bench/orders.py [PROGRAM]

Outside the gate, after `rt ci`. The shop has 10 pieces and pays up to 100; what is not paid is given back.
"""
import pathlib
import subprocess
import sys

BUILT = pathlib.Path(__file__).parent.parent / "crates/roqsulei/out/roqsulei"


def orders(count):
    """Pieces and price of each order of a load of so many lines."""
    number = count
    for _ in range(count):
        number = (number * 1103515245 + 12345) % 2147483648
        yield 1 + number % 3, 1 + number % 60


def summary(count):
    """The line of a load of so many lines."""
    left = 10
    well = unpaid = short = 0
    for pieces, price in orders(count):
        if pieces > left:
            short += 1
        elif pieces * price > 100:
            unpaid += 1
        else:
            well += 1
            left -= pieces
    return f"lines {count} ok {well} nofunds {unpaid} short {short}\n"


def main():
    program = sys.argv[1] if len(sys.argv) > 1 else BUILT
    wrong = 0
    for count in range(601):
        ran = subprocess.run([program, "load", str(count)], capture_output=True, text=True, check=False)
        if (ran.returncode, ran.stdout, ran.stderr) != (0, summary(count), ""):
            wrong += 1
            print(f"load {count}: {ran.returncode} {ran.stdout!r} {ran.stderr!r}, and not {summary(count)!r}")
    print(f"601 loads, {wrong} not as expected")
    sys.exit(wrong > 0)


main()
