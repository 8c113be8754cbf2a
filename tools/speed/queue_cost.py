"""Prints what an entry and its withdrawal cost in a queue of so many orders, in instructions (callgrind).

    queue_cost.py PROGRAM..

Each pair enters a buy at the end or at the front of the queue and withdraws it. What it takes to fill the queue is not
counted.
"""

import re
import subprocess
import sys
import tempfile

from commands import fields

PAIRS = 5000
QUEUES = [0, 1, 8, 16, 32, 48, 63]
PRICES = {"end": 1, "front": 9000}


def commands(resting, price, pairs):
    lines = ["O   " + fields(1, 100000, 50)]
    lines += ["EBLQ" + fields(101 + i % 3, 7000 + i % 7, 1) for i in range(resting)]
    for number in range(resting + 1, resting + pairs + 1):
        lines += ["EBLQ" + fields(101, price, 1), "W   " + fields(101, number, None)]
    return "".join(line + "\n" for line in lines)


def instructions(program, text):
    with tempfile.TemporaryFile("w+") as given:
        given.write(text)
        given.seek(0)
        words = ["valgrind", "--tool=callgrind", "--callgrind-out-file=/dev/null", program]
        ran = subprocess.run(words, stdin=given, capture_output=True, check=True)
    outcomes = [line[7:10] for line in ran.stdout.splitlines()]
    assert set(outcomes) <= {b" 60", b" 51", b" 56"}, "a command was refused"
    return int(re.search(rb"Collected : (\d+)", ran.stderr).group(1))


def main():
    for resting in QUEUES:
        row = []
        for program in sys.argv[1:]:
            filled = instructions(program, commands(resting, 1, 0))
            for at, price in PRICES.items():
                pair = (instructions(program, commands(resting, price, PAIRS)) - filled) / PAIRS
                row.append(f"{program} at the {at}: {pair:.0f}")
        print(resting, *row, sep=", ")


main()
