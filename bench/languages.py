#!/usr/bin/env python3
"""Times a letter that is typed into one long run, by how many bytes its letters have, through `richd serve` over standard input.

usage: bench/languages.py [COUNT] [ROUNDS]     (default: 2,000 letters a row, the least of 5 rounds)

The document has 200,000 letters of one kind and no attributes; each edit puts one more of them into its middle. Then lines with as many
names of attributes as a message holds, in rising and in falling order. Each row has the least processor time of a command: that of a run
less that of the same run without these commands.

Run ./demo first, which builds crates/richd/out/richd, or name another program in RICHD. The store lies in a temporary folder (TMPDIR);
with TMPDIR=/dev/shm its syncs cost next to nothing.
"""
import sys
from pathlib import Path

sys.path.insert(0, str(Path(__file__).resolve().parent.parent / "clients/python"))
sys.path.insert(0, str(Path(__file__).resolve().parent / "load"))

from piped import cost
from richd import messages

count = int(sys.argv[1]) if len(sys.argv) > 1 else 2_000
rounds = int(sys.argv[2]) if len(sys.argv) > 2 else 5
LETTERS = 200_000
PIECE = 10_000  # letters of four bytes that a message holds
NAMES = 3_000  # names of attributes that a message holds
KINDS = [("ASCII", "x", 1), ("two-byte", "\u0434", 1), ("three-byte", "\u0915", 1), ("four-byte", "\U0001f600", 2)]


def long(letter, units):
    """The document, in messages of 10,000 letters."""
    text = letter * PIECE
    yield messages.create("d", 1, [{"insert": text}])
    for n in range(2, LETTERS // PIECE + 1):
        yield messages.edit("d", n, n - 1, [{"retain": (n - 1) * PIECE * units}, {"insert": text}])


def typed(letter, units):
    first = LETTERS // PIECE + 1
    middle = LETTERS // 2 * units
    return [messages.edit("d", first + k, first + k - 1, [{"retain": middle + k * units}, {"insert": letter}]) for k in range(count)]


def named(order):
    return [messages.edit("d", 2 + k, 1 + k, [{"retain": 1, "attributes": {f"{name:05d}": k for name in order}}]) for k in range(10)]


costs = {name: cost(long(letter, units), typed(letter, units), rounds) for name, letter, units in KINDS}
for name, one in costs.items():
    print(f"a {name} letter in the middle of {LETTERS:,}: {one:.1f} us of the processor's time, {one / costs['ASCII']:.2f} times ASCII's")
start = [messages.create("d", 1, [{"insert": "x"}])]
for name, order in (("rising", range(NAMES)), ("falling", range(NAMES - 1, -1, -1))):
    print(f"a line of {NAMES:,} names in {name} order: {cost(start, named(order), rounds) / 1e3:.1f} ms")
