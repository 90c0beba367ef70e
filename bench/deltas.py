#!/usr/bin/env python3
"""Times `richd delta ..` on deltas of 128 to 1,024 operations, the most that a word may have.

usage: bench/deltas.py [ROUNDS]     (default: 20 calls of each)

Run ./demo first, which builds crates/richd/out/richd, or name another program in RICHD. Each call is a process of its own, so the time of an empty
`richd delta compose` is printed first: what is above it is reading the words, the command, and printing.
"""
import json
import subprocess
import sys
import time
from pathlib import Path

sys.path.insert(0, str(Path(__file__).resolve().parent.parent / "clients/python"))

from richd.program import find

rounds = int(sys.argv[1]) if len(sys.argv) > 1 else 20


def word(operations):
    return json.dumps({"ops": operations})


def milliseconds(*words):
    start = time.monotonic()
    for _ in range(rounds):
        subprocess.run([find(), "delta", *words], check=True, stdout=subprocess.DEVNULL)
    return 1000 * (time.monotonic() - start) / rounds


def document(count):
    """Inserts of ten units, of which no two neighbours have equal attributes."""
    return word([{"insert": "0123456789", "attributes": {"size": k % 7 + 1}} for k in range(count)])


def edit(count, name):
    """Retains that change attributes, inserts and deletes, in turn."""
    kinds = [{"retain": 5, "attributes": {name: True}}, {"insert": "ab"}, {"delete": 2}, {"retain": 3}]
    return word([kinds[k % 4] for k in range(count)])


print(f"empty: {milliseconds('compose', word([]), word([])):.2f} ms")
for count in (128, 256, 512, 1024):
    base, one, other = document(count), edit(count, "bold"), edit(count, "italic")
    times = [
        ("apply", milliseconds("apply", base, one)),
        ("compose", milliseconds("compose", one, other)),
        ("transform", milliseconds("transform", one, other)),
        ("invert", milliseconds("invert", one, base)),
    ]
    print(f"{count} operations: " + ", ".join(f"{name} {took:.2f} ms" for name, took in times))
