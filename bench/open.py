#!/usr/bin/env python3
"""Times opening a store whose journal is full of edits, by `richd dump`.

usage: bench/open.py [SLOTS] [BYTES] [EVERY] [DOCUMENTS]     (default: 64 slots of 1,048,576 bytes, 65536, and 64 documents)

Run ./demo first, which builds crates/richd/out/richd, or name another program in RICHD. Single letters are typed at the end of so
many documents in turn until the journal is nearly full. The store is served with `--every EVERY`: by default so that no milestone is
put, and all that was typed has to be read again; with 256, which is what `serve` does by itself, a milestone of each document spares
most of it. The store is opened once `dump` writes its first byte. The processor's time, in the program and not in the kernel, is that
of the whole `dump`, whatever else runs on the machine. The store lies in a temporary folder (TMPDIR); with TMPDIR=/dev/shm its syncs
cost next to nothing.
"""
import os
import resource
import subprocess
import sys
import tempfile
import threading
import time
from pathlib import Path

sys.path.insert(0, str(Path(__file__).resolve().parent.parent / "clients/python"))

from richd import messages
from richd.program import find, format_store

slots = int(sys.argv[1]) if len(sys.argv) > 1 else 64
size = int(sys.argv[2]) if len(sys.argv) > 2 else 1_048_576
every = sys.argv[3] if len(sys.argv) > 3 else "65536"
documents = int(sys.argv[4]) if len(sys.argv) > 4 else 64
RECORD = 66  # bytes of a record with one letter: its gate and length, the batch's count, the entry
EDITS = (size - 10) // RECORD * slots // documents - 1  # of each document, so that no slot has to be freed


def lines():
    yield messages.hello("bench")
    for i in range(documents):
        yield messages.create(f"d{i}", 1, [])
    for n in range(2, EDITS + 1):
        for i in range(documents):
            ops = [{"retain": n - 2}, {"insert": "x"}] if n > 2 else [{"insert": "x"}]
            yield messages.edit(f"d{i}", n, n - 1, ops)


with tempfile.TemporaryDirectory() as folder:
    store = os.path.join(folder, "store")
    shape = ["--slots", str(slots), "--slot", str(size), "--docs", str(documents), "--cell", "1048576"]
    format_store(store, *shape)
    words = [find(), "serve", store, "--every", every]
    serve = subprocess.Popen(words, stdin=subprocess.PIPE, stdout=subprocess.PIPE, stderr=subprocess.DEVNULL)
    taken = 0

    def count():
        global taken
        for line in serve.stdout:
            taken += b'"ok":"taken"' in line

    reader = threading.Thread(target=count)
    reader.start()
    start = time.monotonic()
    for line in lines():
        serve.stdin.write(messages.spelled(line))
    serve.stdin.close()
    serve.wait()
    reader.join()
    filled = time.monotonic() - start
    print(f"{taken} commands taken in {filled:.1f} s: {taken / filled:.0f} a second")
    before = resource.getrusage(resource.RUSAGE_CHILDREN).ru_utime
    start = time.monotonic()
    dump = subprocess.Popen([find(), "dump", store], stdout=subprocess.PIPE)
    first = dump.stdout.read(1)
    took = time.monotonic() - start
    opened = (first + dump.stdout.read()).count(b"\n")
    dump.wait()
    used = resource.getrusage(resource.RUSAGE_CHILDREN).ru_utime - before
    print(f"opened {opened} documents in {took:.2f} s: {taken * RECORD / 1e6 / took:.0f} MB a second, {took / taken * 1e6:.2f} microseconds a command")
    print(f"{used:.2f} s of the processor in the program, {used / taken * 1e6:.2f} microseconds a command")
