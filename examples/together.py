#!/usr/bin/env python3
"""Two editors who write one document at the same time, over TCP.

    python3 examples/together.py HOST:PORT

HOST:PORT is the address of a `richd serve STORE --listen HOST:PORT` over a new store, so that nobody was ann or bob before. They have a
session each, and type into the document, each before he has seen what the other typed; the server puts both in, and each is shown
what the other wrote. Each line that is sent is printed behind `> `, each that comes behind `< `.
"""

import sys
import time
from pathlib import Path

sys.path.insert(0, str(Path(__file__).resolve().parent.parent / "clients/python"))

import richd


def session(address, source):
    host, port = address.rsplit(":", 1)
    trace = lambda way, line: print(f"{source} {way} {line}")
    return richd.connect(host, int(port), source=source, is_new=True, trace=trace)


def write_together(address):
    with session(address, "ann") as ann, session(address, "bob") as bob:
        ann.create("letter", [{"insert": "Dear all, good night"}])
        for_ann, for_bob = ann.open("letter"), bob.open("letter")

        # Both type into what they see, which is revision 1. One of the edits is late, and is moved behind the other.
        for_ann.apply([{"retain": 15}, {"insert": "morning"}, {"delete": 5}])
        for_bob.apply([{"retain": 20}, {"insert": "!"}])

        for document in (for_ann, for_bob):
            document.flush()
            while document.revision < 3:
                time.sleep(0.01)  # until what the other typed has come
        assert for_ann.contents == for_bob.contents
        print(f"both have revision {for_ann.revision}: {for_ann.text}")


if __name__ == "__main__":
    if len(sys.argv) != 2:
        sys.exit("usage: together.py HOST:PORT")
    write_together(sys.argv[1])
