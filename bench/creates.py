#!/usr/bin/env python3
"""Times creations through `richd serve`: each is one batch, with two syncs of the file.

usage: bench/creates.py [COUNT ..] [--bytes BYTES]     (default: 1,000 and then 8,000 documents of 20 bytes of text; at most 65,536)

Each count is a new store. The time of a run that makes one document is taken off, so what is left is that of the creations. Where
there are several counts, the last line compares what a creation costs in the last store and in the first one.

Run ./demo first, which builds crates/richd/out/richd, or name another program in RICHD. The store lies in a temporary folder (TMPDIR); the time depends on
how long that disk takes to sync. The processor's time is that of the program, whatever else runs on the machine.
"""
import argparse
import os
import resource
import subprocess
import sys
import tempfile
import time
from pathlib import Path

sys.path.insert(0, str(Path(__file__).resolve().parent.parent / "clients/python"))

from richd import messages
from richd.program import dump, find, format_store

parser = argparse.ArgumentParser()
parser.add_argument("counts", metavar="COUNT", type=int, nargs="*", default=[1_000, 8_000])
parser.add_argument("--bytes", type=int, default=20)
words = parser.parse_args()
size = words.bytes


def made(store, first, last):
    """Makes the documents of these numbers. The time by the clock and the processor's, and how many were taken."""
    commands = [messages.create(f"d{i}", 1, [{"insert": "x" * size}]) for i in range(first, last)]
    lines = b"".join(map(messages.spelled, [messages.hello("bench"), *commands]))
    before = resource.getrusage(resource.RUSAGE_CHILDREN)
    start = time.monotonic()
    served = subprocess.run([find(), "serve", store], input=lines, capture_output=True)
    took = time.monotonic() - start
    after = resource.getrusage(resource.RUSAGE_CHILDREN)
    return took, after.ru_utime - before.ru_utime + after.ru_stime - before.ru_stime, served.stdout.count(b'"ok":"taken"')


with tempfile.TemporaryDirectory() as folder:
    each = []
    for place, count in enumerate(words.counts):
        store = os.path.join(folder, str(place))
        cell = str(max(256, 12 * size + 64 + 128))
        slot = str(min(16_777_216, max(256, 64 + count * (size + 64))))
        shape = ["--docs", str(count + 1), "--cell", cell, "--slots", "2", "--slot", slot]
        format_store(store, *shape)
        alone, alone_cpu, _ = made(store, 0, 1)
        took, took_cpu, taken = made(store, 1, count + 1)
        clock = (took - alone) / max(1, taken) * 1e6
        cpu = (took_cpu - alone_cpu) / max(1, taken) * 1e6
        each.append((clock, cpu))
        print(f"{taken} of {count} creations of {size} bytes taken: {clock:.1f} us each by the clock, {cpu:.1f} us of the processor's time")
        start = time.monotonic()
        documents = dump(store).count("\n")
        print(f"opened and dumped {documents} documents in {time.monotonic() - start:.2f} s")
        os.remove(store)
    if len(each) > 1:
        print(f"a creation in the last store costs {each[-1][0] / each[0][0]:.2f} times one in the first, {each[-1][1] / each[0][1]:.2f} of the processor's time")
