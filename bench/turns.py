#!/usr/bin/env python3
"""Times edits through `richd serve`, over standard input and over TCP, by how far milestones lie apart.

usage: bench/turns.py [COUNT] [LETTERS] [ROUNDS]     (default: 4,096 edits a row, 8,192 letters, the best of 3 rounds)

Each row is a new store, and each edit puts a letter in place of another one, alone in its batch, with two syncs of the file. Once
8 documents are edited in turn, once there is one. Each row has the best time, and the least processor time of an edit, which
depends less on what else the machine does. Milestones lie 16, 256 (the default) and 65,536 revisions apart, where the last
means none. In the third rows the journal is that of two small slots, which is freed again and again. In the last rows 64 sessions edit
at once over TCP, by the load of bench/load (which needs rustc): each row has the medians of the rounds, of 3 seconds each.

Run ./demo first, which builds crates/richd/out/richd, or name another program in RICHD. The store lies in a temporary folder (TMPDIR); the time depends on how
long that disk takes to sync. With TMPDIR=/dev/shm its syncs cost next to nothing, and the milestones' share is the largest.
"""
import os
import resource
import subprocess
import sys
import tempfile
import time
from pathlib import Path

sys.path.insert(0, str(Path(__file__).resolve().parent.parent / "clients/python"))

from richd import messages
from richd.program import find, format_store

sys.path.insert(0, str(Path(__file__).resolve().parent / "load"))

from runs import Richd, Row, built, medians, milliseconds, temporary_folder

count = int(sys.argv[1]) if len(sys.argv) > 1 else 4096
letters = int(sys.argv[2]) if len(sys.argv) > 2 else 8192
rounds = int(sys.argv[3]) if len(sys.argv) > 3 else 3

rows = [
    # documents, bytes of a slot
    (8, 4_194_304),
    (1, 4_194_304),
    (1, 65_536),
]
spacings = [("65536", "none"), ("16", "16"), ("256", "256")]


def creations(documents):
    for k in range(documents):
        yield messages.create(f"d{k}", 1, [{"insert": "x" * letters}])


def edits(documents):
    for k in range(count):
        number = 2 + k // documents
        at = (37 * k) % letters
        ops = ([{"retain": at}] if at else []) + [{"insert": "y"}, {"delete": 1}]
        yield messages.edit(f"d{k % documents}", number, number - 1, ops)


def serve(store, commands, spacing):
    lines = b"".join(map(messages.spelled, [messages.hello("bench"), *commands]))
    before = processor_time()
    start = time.monotonic()
    served = subprocess.run([find(), "serve", store, "--every", spacing], input=lines, capture_output=True)
    took = time.monotonic() - start
    return took, processor_time() - before, served.stdout.count(b'"ok":"taken"')


def processor_time():
    used = resource.getrusage(resource.RUSAGE_CHILDREN)
    return used.ru_utime + used.ru_stime


def measured(folder, documents, slot, spacing):
    store = os.path.join(folder, "store")
    cell = 12 * letters + 1_024
    words = ["--docs", str(documents), "--cell", str(cell), "--slots", "2", "--slot", str(slot)]
    format_store(store, *words)
    _, _, made = serve(store, creations(documents), spacing)
    took, used, taken = serve(store, edits(documents), spacing)
    os.remove(store)
    if (made, taken) != (documents, count):
        sys.exit(f"{taken} of {count} edits were taken, {made} of {documents} creations")
    return took, used


with tempfile.TemporaryDirectory() as folder:
    for documents, slot in rows:
        print(f"{documents} of {letters} letters, two slots of {slot} bytes:")
        without = None
        for spacing, name in spacings:
            runs = [measured(folder, documents, slot, spacing) for _ in range(rounds)]
            best = count / min(took for took, _ in runs)
            least = min(used for _, used in runs) / count * 1e6
            without = without or least
            more = 100 * (least - without) / without
            print(f"  milestones: {name}: {best:.0f} edits a second, {least:.1f} us of a processor each, {more:+.0f} %")


SECONDS = 3
OVER_TCP = [
    Row("64 sessions, own documents", ["--sessions", "64"]),
    Row("64 sessions, one document", ["--sessions", "64", "--documents", "one"]),
]

with temporary_folder() as folder:
    built(folder)
    found = {}
    for spacing, _ in spacings:
        told = medians(folder, [(Richd(folder, spacing), row) for row in OVER_TCP], rounds, SECONDS)
        found |= {(spacing, name): measured for (_, name), measured in told.items()}

for row in OVER_TCP:
    print(f"{row.name}, over TCP:")
    without = found[spacings[0][0], row.name]
    for spacing, name in spacings:
        here = found[spacing, row.name]
        ratio = here.p99 / without.p99
        print(f"  milestones: {name}: {here.edits:.0f} edits a second, p50 and p99 {milliseconds(here)} ms, p99 {ratio:.2f} of that without")
