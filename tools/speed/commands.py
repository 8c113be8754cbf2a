"""Writes a file of commands for measuring, most of which are accepted.

    commands.py PLAIN COUNT > FILE

PLAIN is the program built of plain.rs: it answers each command while the file is made, so that withdrawals and
reductions name orders that rest. Entries are of both sides and of every kind and type, over 18 prices to a side; one
command in six is refused or cannot be read. The same COUNT gives the same file.
"""

import random
import subprocess
import sys

ACCOUNTS = [101, 102, 103]
UNREADABLE = [
    "EBLq        103       7000         12",
    "EBLQ        103      +7000         12",
    "EBLQ        103       7000         1",
]


def fields(*numbers):
    return "".join(" " * 11 if n is None else f"{n:11}" for n in numbers)


class Floor:
    """The program that answers, and the orders that rest: the account of each by its number."""

    def __init__(self, plain):
        self.program = subprocess.Popen([plain], stdin=subprocess.PIPE, stdout=subprocess.PIPE)
        self.resting = {}
        self.said = 0

    def say(self, command, account=None):
        line = command.encode() + b"\n"
        sys.stdout.buffer.write(line)
        self.program.stdin.write(line)
        self.program.stdin.flush()
        answer = self.program.stdout.readline()
        self.said += 1
        outcome, number = int(answer[7:10]), int(answer[14:21])
        if outcome in (51, 52):
            self.resting[number] = account
        elif outcome == 56:
            del self.resting[number]
        elif outcome == 10:
            self.resting.pop(int(command[15:26]), None)


def next_command(floor, rng):
    """Says one command, or two where the market is suspended and resumed."""
    kind, account = rng.random(), rng.choice(ACCOUNTS)
    if floor.resting and (kind < 0.40 or len(floor.resting) > 40):
        number = rng.choice(list(floor.resting))
        floor.say("W   " + fields(floor.resting[number], number, None))
    elif floor.resting and kind < 0.48:
        number = rng.choice(list(floor.resting))
        floor.say("R   " + fields(floor.resting[number], number, 1))
    elif kind < 0.90:
        side, away = rng.choice("BS"), rng.randint(-1, 16)
        price = 7000 - away if side == "B" else 7001 + away
        floor.say(f"E{side}L{rng.choice('QQQQQQTF')}" + fields(account, price, rng.randint(1, 4)), account)
    elif kind < 0.93:
        floor.say(f"E{rng.choice('BS')}M{rng.choice('TTF')}" + fields(account, 0, rng.randint(1, 4)))
    elif kind < 0.935:
        floor.say("H".ljust(37))
        floor.say("G".ljust(37))
    elif kind < 0.96:
        floor.say("EBLQ" + fields(account, rng.choice([0, 100001, 6000]), rng.choice([0, 1000001, 500])), account)
    elif kind < 0.98:
        floor.say(rng.choice(UNREADABLE))
    elif kind < 0.99:
        floor.say("W   " + fields(account, rng.randint(1, 999999), None))
    else:
        floor.say("O   " + fields(1, 100000, 50))


def main():
    plain, count = sys.argv[1], int(sys.argv[2])
    floor, rng = Floor(plain), random.Random(7)
    floor.say("O   " + fields(1, 100000, 8))
    while floor.said < count:
        next_command(floor, rng)


if __name__ == "__main__":
    main()
