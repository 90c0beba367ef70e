#!/usr/bin/env python3
"""Times edits and undos in documents of many runs, and fetches of old revisions, through `richd serve` over standard input.

usage: bench/runs.py [COUNT] [ROUNDS]     (default: 1,000 commands a row, the least of 5 rounds)

A document of N runs has N letters with the attribute {"n": i}, so no two neighbours are one run. An edit deletes the letter at a
place drawn anew each time, and puts another one there with an attribute of its own: the count of runs stays. An undo takes the
source's last change back, so each second one brings it again. A fetch asks for the newest revision, or for one 4,000 back, of a
plain document. Each row has the least processor time of a command: that of a run less that of the same run without these commands.

Run ./demo first, which builds crates/richd/out/richd, or name another program in RICHD. The store lies in a temporary folder
(TMPDIR); with TMPDIR=/dev/shm its syncs cost next to nothing.
"""
import random
import sys
from pathlib import Path

sys.path.insert(0, str(Path(__file__).resolve().parent.parent / "clients/python"))
sys.path.insert(0, str(Path(__file__).resolve().parent / "load"))

from piped import cost
from richd import messages

count = int(sys.argv[1]) if len(sys.argv) > 1 else 1_000
rounds = int(sys.argv[2]) if len(sys.argv) > 2 else 5
piece = 1_000


def letter(mark):
    return {"insert": "x", "attributes": {"n": mark}}


def rich(runs):
    """The document, in messages of at most 1,000 runs."""
    first = min(piece, runs)
    yield messages.create("d", 1, [letter(i) for i in range(first)])
    for n, start in enumerate(range(first, runs, piece), 2):
        yield messages.edit("d", n, n - 1, [{"retain": start}, *(letter(i) for i in range(start, min(start + piece, runs)))])


def at_random(runs, number, places):
    at = places.randrange(runs)
    ops = ([{"retain": at}] if at else []) + [letter(1_000_000 + number), {"delete": 1}]
    return messages.edit("d", number, number - 1, ops)


def edits(runs, first):
    places = random.Random(42)
    return [at_random(runs, first + k, places) for k in range(count)]


def undos(first):
    return [messages.undo("d", first + k) for k in range(count)]


def plain():
    """A document of 8,192 letters with 4,100 revisions."""
    yield messages.create("d", 1, [{"insert": "x" * 8_192}])
    places = random.Random(7)
    for n in range(2, 4_101):
        at = 1 + places.randrange(8_000)
        yield messages.edit("d", n, n - 1, [{"retain": at}, {"insert": "y"}, {"delete": 1}])


def fetches(rev):
    return [messages.fetch("d", rev)] * count


sizes = (80, 8_000)
made = {runs: list(rich(runs)) for runs in sizes}
edit = {runs: cost(made[runs], edits(runs, 1 + len(made[runs])), rounds) for runs in sizes}
undo = {runs: cost(made[runs] + edits(runs, 1 + len(made[runs]))[:1], undos(2 + len(made[runs])), rounds) for runs in sizes}
for name, costs in (("an edit at a random place", edit), ("an undo", undo)):
    few, many = (costs[runs] for runs in sizes)
    print(f"{name}: {few:.0f} us of the processor's time in {sizes[0]} runs, {many:.0f} in {sizes[1]}, {many / few:.2f} times as much")
history = list(plain())
print(f"a fetch of the newest revision: {cost(history, fetches(4_100), rounds):.0f} us, of one 4,000 back: {cost(history, fetches(100), rounds):.0f}")
