#!/usr/bin/env python3
"""Measures what a server holds in memory for a typed letter and for a run of a rich document.

usage: bench/memory.py [LETTERS] [DOCUMENTS]     (default: 50,000 letters, 32 documents of 8,000 runs)

Letters are typed at the end of one document, each an edit of its own, all of which the past holds (`--keep 65536`): what the server's resident
memory grew by from a tenth of them on, over their number. Runs are letters with the attribute {"n": i}, i below 100, so that neighbours differ:
what a server holds more that has opened a store with them than one that has opened the store without them, over their number.

Run ./demo first, which builds crates/richd/out/richd, or name another program in RICHD. The stores lie in a temporary folder (TMPDIR).
"""
import subprocess
import sys
import tempfile
from pathlib import Path

sys.path.insert(0, str(Path(__file__).resolve().parent.parent / "clients/python"))

from richd import messages
from richd.program import find, format_store

letters = int(sys.argv[1]) if len(sys.argv) > 1 else 50_000
documents = int(sys.argv[2]) if len(sys.argv) > 2 else 32
RUNS, PIECE = 8_000, 1_000


class Served:
    """A server over standard input, which is asked a line at a time."""

    def __init__(self, store):
        self.process = subprocess.Popen([find(), "serve", store], stdin=subprocess.PIPE, stdout=subprocess.PIPE)
        self.ask([messages.hello("bench")])

    def ask(self, commands):
        for start in range(0, len(commands), 100):
            piece = commands[start : start + 100]
            self.process.stdin.write(b"".join(map(messages.spelled, piece)))
            self.process.stdin.flush()
            for _ in piece:
                line = self.process.stdout.readline()
                if b'"ok":' not in line:
                    sys.exit(f"refused: {line!r}")

    def resident(self):
        """The bytes of its resident memory."""
        status = Path(f"/proc/{self.process.pid}/status").read_text()
        return next(int(it.split()[1]) * 1_024 for it in status.splitlines() if it.startswith("VmRSS"))

    def close(self):
        self.process.stdin.close()
        self.process.wait()


def typed(store):
    format_store(store, "--docs", "1", "--cell", "1048576", "--slots", "64", "--slot", "1048576", "--keep", "65536")
    served = Served(store)
    served.ask([messages.create("d", 1, [{"insert": "x"}])])
    edits = [messages.edit("d", n, n - 1, [{"retain": n - 1}, {"insert": "x"}]) for n in range(2, letters + 2)]
    tenth = letters // 10
    served.ask(edits[:tenth])
    before = served.resident()
    served.ask(edits[tenth:])
    print(f"a typed letter that the past holds: {(served.resident() - before) / (letters - tenth):.0f} bytes")
    served.close()


def opened(store):
    format_store(store, "--docs", str(documents), "--cell", "4194304", "--slots", "8", "--slot", "1048576")
    empty = Served(store)
    before = empty.resident()
    for doc in range(documents):
        first = [{"insert": "x", "attributes": {"n": i % 100}} for i in range(PIECE)]
        more = [messages.edit(f"d{doc}", 1 + k, k, [{"retain": PIECE * k}, *first]) for k in range(1, RUNS // PIECE)]
        empty.ask([messages.create(f"d{doc}", 1, first), *more])
    empty.close()
    served = Served(store)
    print(f"a run of an opened store: {(served.resident() - before) / (documents * RUNS):.0f} bytes")
    served.close()


for measure in (typed, opened):
    with tempfile.TemporaryDirectory() as folder:
        measure(str(Path(folder) / "store"))
