#!/usr/bin/env python3
"""Counts how often richd reads its store's file as it makes one and as it starts.

usage: checks/opening.py

- `format` reads the superblock, once, and nothing else, of a file that it makes and of one that is there.
- A start reads gates, what stands in open cells, and the open slots, and no zeros: with cells of 16 MiB it makes as many reads as with cells of
  256 bytes.

Run ./demo first, which builds crates/richd/out/richd, or name another program in RICHD. It needs a C compiler, `cc`. The stores lie in a
temporary folder (TMPDIR).
"""
import subprocess
import sys
import tempfile

from refusing import PATIENCE, S, Disagreement, Refusal, agree, library_in, richd

LARGE = ["--slots", "2", "--slot", "16777216", "--docs", "2", "--cell", "16777216"]
LINES = b'{"do":"hello","source":"a"}\n{"do":"create","doc":"d","n":1,"ops":[{"insert":"z"}]}\n'


def reads_of(library, folder, *words, given=b""):
    """How often the program reads the store's file under these words, which end with its path."""
    refusal = Refusal(library, folder, "read", 0)
    done = subprocess.run([richd, words[0], refusal.store, *words[1:]], input=given, capture_output=True, timeout=PATIENCE, env=refusal.variables)
    agree(done.returncode == 0, f"{words[0]} ends with status {done.returncode}: {done.stderr[:200]!r}")
    return refusal.count()


def play(library, shape):
    """Makes a store of this shape, and looks at how often it is read: as it is made, while it is empty, and with a change in it."""
    with tempfile.TemporaryDirectory() as folder:
        made = reads_of(library, folder, "format", *shape)
        agree(made == 1, f"format reads {made} times")
        empty = reads_of(library, folder, "dump")
        reads_of(library, folder, "serve", given=LINES)
        return empty, reads_of(library, folder, "dump")


def play_there(library):
    """A file that is there is read once too."""
    with tempfile.TemporaryDirectory() as folder:
        with open(f"{folder}/store", "wb") as file:
            file.truncate(64 << 20)
        made = reads_of(library, folder, "format", *S)
        agree(made == 1, f"format of a file that is there reads {made} times")


def main():
    with tempfile.TemporaryDirectory() as room:
        library = library_in(room)
        small, large = play(library, S), play(library, LARGE)
        agree(small[0] == large[0], f"a start reads {small[0]} times with small cells, and {large[0]} with large ones")
        agree(large[1] < large[0] + 8, f"a start reads {large[1]} times where one change stands in the journal, and {large[0]} without")
        play_there(library)
    print(f"format reads once; a start of an empty store of two documents reads {large[0]} times, with a change {large[1]}")


if __name__ == "__main__":
    try:
        main()
    except Disagreement as found:
        sys.exit(f"opening.py: {found}")
