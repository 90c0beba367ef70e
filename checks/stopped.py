#!/usr/bin/env python3
"""Copies the store of a server under load, while the server stands still, and opens each copy.

usage: checks/stopped.py [COPIES]     (default: 120)

Eight writers put words into documents that all share, take some back, and delete documents of their own. At a random moment the server is stopped
by SIGSTOP, its file is copied by `cp --sparse=always`, and it goes on by SIGCONT, as docs/OPERATIONS.md has it. The copy has to open, by the newer
milestones and by the older, to hold all that was acknowledged before the stop, and nothing that nobody sent; `richd check` has to find it sound. The
clients of the server notice nothing but the wait.

Run ./demo first, which builds crates/richd/out/richd, or name another program in RICHD. The store lies in a temporary folder (TMPDIR).
"""
import os
import random
import signal
import subprocess
import sys
import tempfile
import time

from loading import PATIENCE, Place, Writer, agrees, agrees_with, dumped, format_store, percentile, richd, snapshot

copies = int(sys.argv[1]) if len(sys.argv) > 1 else 120
WRITERS = 8

with tempfile.TemporaryDirectory() as folder:
    store, other, place = os.path.join(folder, "store"), os.path.join(folder, "copy"), Place(pause=0.1)
    format_store(store, 128 + 16 * copies)
    words = [richd, "serve", store, "--listen", f"127.0.0.1:{place.port}", "--every", "64"]
    server = subprocess.Popen(words, stdout=subprocess.PIPE, text=True)
    assert server.stdout.readline().startswith("listening ")
    writers, took, acknowledged, drawn = [Writer(number, place) for number in range(WRITERS)], [], 0, random.Random(2)
    try:
        for writer in writers:
            writer.start()
        for number in range(copies):
            time.sleep(drawn.uniform(0.05, 0.3))
            before = [snapshot(writer) for writer in writers]
            began = time.monotonic()
            server.send_signal(signal.SIGSTOP)
            try:
                subprocess.run(["cp", "--sparse=always", store, other], check=True, timeout=PATIENCE)
            finally:
                server.send_signal(signal.SIGCONT)
            took.append(time.monotonic() - began)
            time.sleep(0.05)
            after = [snapshot(writer) for writer in writers]
            found = dumped(other)
            assert found == dumped(other, "--pick", "older"), "the picks differ"
            acknowledged = agrees_with(found, before, after)
            checked = subprocess.run([richd, "check", other], capture_output=True, text=True, timeout=PATIENCE)
            assert checked.returncode == 0 and checked.stdout.startswith("ok documents "), checked
            os.unlink(other)
            for writer in writers:
                if writer.fault is not None:
                    raise writer.fault
                assert not writer.is_cut, "a client was cut"
        place.ends.set()
        for writer in writers:
            writer.join(PATIENCE)
            assert not writer.is_alive() and writer.fault is None, writer.fault
        server.kill()
        server.wait()
        agrees(dumped(store), writers)
    finally:
        server.send_signal(signal.SIGCONT)
        server.kill()
        server.wait()
        server.stdout.close()
print(f"the server stood still for {percentile(took, 0.5) * 1000:.0f} ms, at most for {max(took) * 1000:.0f} ms")
print(f"ok: {copies} copies of {copies} open, with all that was acknowledged before the stop, {acknowledged} commands in the last")
