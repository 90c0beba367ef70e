#!/usr/bin/env python3
"""Times edits through `richd serve` by how many sources a document has.

usage: bench/sources.py [COUNT]     (default: 5,000 edits a row)

Each row is a new store with one document of 1,000 letters, to which so many sources have sent a command. Then one of them types
letters at its end over standard input, each alone in its batch. The processor's time is that of the program, whatever else runs on
the machine; that of a run without edits is taken off.

Run ./demo first, which builds crates/richd/out/richd, or name another program in RICHD. The store lies in a temporary folder (TMPDIR).
"""
import os
import resource
import subprocess
import sys
import tempfile
from pathlib import Path

sys.path.insert(0, str(Path(__file__).resolve().parent.parent / "clients/python"))

from richd import messages
from richd.program import Server, find, format_store

LETTERS = 1_000
count = int(sys.argv[1]) if len(sys.argv) > 1 else 5_000


def processor_time(store, lines):
    before = resource.getrusage(resource.RUSAGE_CHILDREN)
    served = subprocess.run([find(), "serve", store], input=b"".join(map(messages.spelled, lines)), capture_output=True)
    after = resource.getrusage(resource.RUSAGE_CHILDREN)
    return after.ru_utime + after.ru_stime - before.ru_utime - before.ru_stime, served.stdout.count(b'"ok":"taken"')


def with_sources(store, sources):
    """A document that the first source created, and to which each other one has sent an edit without effect."""
    with Server(store) as server:
        with server.connect("s0", is_new=True) as client:
            client.create("d", [{"insert": "x" * LETTERS}])
        for number in range(1, sources):
            with server.connect(f"s{number}", is_new=True) as client:
                client.edit("d", [], base=number)


with tempfile.TemporaryDirectory() as folder:
    for sources in [1, 64, 256, 1_024, 4_096]:
        store = os.path.join(folder, "store")
        format_store(store, "--docs", "1", "--sources", "4096", "--cell", "1048576")
        with_sources(store, sources)
        hello = messages.hello("s0")
        idle, _ = processor_time(store, [hello])
        edits = [messages.edit("d", 2 + k, sources + k, [{"retain": LETTERS + k}, {"insert": "y"}]) for k in range(count)]
        used, taken = processor_time(store, [hello, *edits])
        if taken != count:
            sys.exit(f"{taken} of {count} edits were taken")
        print(f"{sources} sources: {(used - idle) / count * 1e6:.0f} us of a processor an edit")
        os.remove(store)
