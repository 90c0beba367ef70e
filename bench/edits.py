#!/usr/bin/env python3
"""Times edits through `richd serve`: single letters typed into one document. Each edit is one batch, with two syncs of the file.

usage: bench/edits.py [COUNT]     (default: 5,000 edits a row)

Each row is a new store: how many letters the document has before, which letters (x has one byte, é two), how many revisions are
kept, where the letters are typed (at the beginning, in the middle or at the end), and how many revisions back the base of each
edit lies. The time of a run that takes the document alone is measured first, and taken off. The last line compares letters typed
at the end of 30,000 letters of one byte with letters typed at the beginning.

Run ./demo first, which builds crates/richd/out/richd, or name another program in RICHD. The store lies in a temporary folder (TMPDIR); the time depends on how
long that disk takes to sync. The processor's time is that of the program, whatever else runs on the machine.
"""
import os
import resource
import subprocess
import sys
import tempfile
import time
from pathlib import Path

sys.path.insert(0, str(Path(__file__).resolve().parent.parent / "clients/python"))

from richd import messages
from richd.program import find, format_store

count = int(sys.argv[1]) if len(sys.argv) > 1 else 5000
line_bound = 60_000

rows = [
    # letters before, which, keep, where, revisions back
    (1_000, "x", 16, "end", 0),
    (1_000, "x", 4_096, "end", 0),
    (30_000, "x", 16, "end", 0),
    (30_000, "x", 4_096, "end", 0),
    (30_000, "x", 4_096, "beginning", 0),
    (30_000, "x", 4_096, "middle", 0),
    (30_000, "é", 4_096, "end", 0),
    (30_000, "é", 4_096, "beginning", 0),
    (30_000, "é", 4_096, "middle", 0),
    (1_000, "x", 4_096, "beginning", 10),
    (1_000, "x", 4_096, "beginning", 1_000),
]


def create(length, letter):
    """The document, in as many messages as its length asks for."""
    first = min(length, line_bound)
    yield messages.create("d", 1, [{"insert": letter * first}])
    for n in range(2, 2 + (length - first) // line_bound):
        yield messages.edit("d", n, n - 1, [{"insert": letter * line_bound}])


def typed(length, letter, number, where, back):
    revision = number - 1
    base = max(1, revision - back)
    at = {"beginning": 0, "middle": length // 2, "end": length + (base - 1)}[where]
    ops = ([{"retain": at}] if at else []) + [{"insert": letter}]
    return messages.edit("d", number, base, ops)


def serve(store, commands):
    """The time by the clock and the processor's, and how many were taken."""
    lines = b"".join(map(messages.spelled, [messages.hello("bench"), *commands]))
    before = resource.getrusage(resource.RUSAGE_CHILDREN)
    start = time.monotonic()
    served = subprocess.run([find(), "serve", store], input=lines, capture_output=True)
    took = time.monotonic() - start
    after = resource.getrusage(resource.RUSAGE_CHILDREN)
    return took, after.ru_utime - before.ru_utime + after.ru_stime - before.ru_stime, served.stdout.count(b'"ok":"taken"')


with tempfile.TemporaryDirectory() as folder:
    costs = {}
    for place, (length, letter, keep, where, back) in enumerate(rows):
        store = os.path.join(folder, str(place))
        words = ["--docs", "1", "--cell", "16777216", "--slots", "2", "--slot", "16777216", "--keep", str(keep)]
        format_store(store, *words)
        alone, alone_cpu, _ = serve(store, list(create(length, letter)))
        took, took_cpu, taken = serve(store, [typed(length, letter, n, where, back) for n in range(2, 2 + count)])
        clock = (took - alone) / max(1, taken) * 1e6
        cpu = (took_cpu - alone_cpu) / max(1, taken) * 1e6
        costs[length, letter, keep, where, back] = clock, cpu
        print(
            f"{length} letters {letter}, keep {keep}, at the {where}, {back} revisions back: "
            f"{taken} edits, {clock:.0f} us each by the clock, {cpu:.0f} us of the processor's time"
        )
        os.remove(store)
    end, beginning = costs[30_000, "x", 4_096, "end", 0], costs[30_000, "x", 4_096, "beginning", 0]
    print(f"at the end it costs {end[0] / beginning[0]:.2f} times what it costs at the beginning, {end[1] / beginning[1]:.2f} of the processor's time")
