#!/usr/bin/env python3
"""Plays rows of sessions over standard input and over TCP, and checks that the same bytes come.

usage: checks/rows.py

A row is an input over a new store. `richd serve` has it over standard input, and `richd serve --listen` over a connection whose sending
half is closed behind it: whole, in pieces of 7 bytes, and a byte at a time. What is written has to be the same bytes each time, and one
line for each line of the input. Which bytes these are, test_server and test_session say. Rows that fix when news are told are left out.

Run ./demo first, which builds crates/richd/out/richd, or name another program in RICHD. The stores lie in a temporary folder (TMPDIR).
"""
import os
import subprocess
import sys
import tempfile
from pathlib import Path

sys.path.insert(0, str(Path(__file__).resolve().parent.parent / "clients/python"))

from richd.link import TcpLink
from richd.messages import spelled
from richd.program import Server, find, format_store

PATIENCE = 30  # seconds
SMALL = ["--slots", "2", "--slot", "256", "--docs", "2", "--cell", "256", "--sources", "4", "--keep", "2"]
DEEP = ["--slots", "2", "--slot", "4096", "--docs", "2", "--cell", "4096", "--sources", "4", "--keep", "100"]


def line(**message):
    return spelled(message)


def edit(n, base, *ops):
    return line(do="edit", doc="d", n=n, base=base, ops=list(ops))


HELLO = line(do="hello", source="a")
CREATE = line(do="create", doc="d", n=1, ops=[{"insert": "Hi"}])
BOLD = edit(2, 1, {"retain": 2}, {"insert": "!", "attributes": {"bold": True}})
FETCH = line(do="fetch", doc="d")


def fetch(rev):
    return line(do="fetch", doc="d", rev=rev)


def since(rev):
    return line(do="since", doc="d", rev=rev)


def creation(*ops, n=1, doc="d"):
    return line(do="create", doc=doc, n=n, ops=list(ops))


# Lines that are refused behind hello, and change nothing.
REFUSED = [
    HELLO,
    line(do="hello", source="a b"),
    line(do=1),
    line(do="create", doc="d", n=1),
    line(do="create", doc="d", n=1, ops=[], x=0),
    line(do="create", doc="d", n=1, ops={}),
    creation(n=0),
    creation(n=2**53, doc=""),
    creation(0, doc=""),
    creation(doc="d/e"),
    creation(doc="d" * 65),
    creation({"retain": -1}, n=2),
    creation({"delete": 2**32}, n=2),
    creation({"insert": {"image": "u", "link": "v"}}, n=2),
    creation({"insert": "z", "attributes": {"bold": None}}, n=2),
    creation({"delete": 1}),
    creation({"insert": "abcdef"}),
    creation({"insert": "z"}, n=2),
    line(do="undo", doc="d", n=1),
    line(do="undo", doc="d", n=1, ops=[]),
    line(do="fetch", doc="d/e"),
    fetch(0),
    since(-1),
]

# A name, a store's numbers, an input, and how many replies come besides one for each line end.
ROWS = [
    ("an empty line, and a fetch before hello", SMALL, b"\n" + FETCH, 0),
    ("no line end", SMALL, HELLO[:-1], 0),
    ("a hello of 65,536 bytes", SMALL, b" " * (65_537 - len(HELLO)) + HELLO + FETCH, 0),
    ("a hello of 65,537 bytes", SMALL, b" " * (65_538 - len(HELLO)) + HELLO + FETCH, 0),
    ("70,000 bytes without a line end", SMALL, b"x" * 70_000, 1),
    ("70,000 bytes, and a line", SMALL, b"x" * 70_000 + b"\n" + HELLO, 0),
    ("bytes that aren't UTF-8", SMALL, b"\xff\xfe\n" + HELLO + b'{"do":"fetch","doc":"\xc3\x28"}\n', 0),
    ("an unknown message, and two names", SMALL, line(do="drop") + line(do="hello", source="a b") + HELLO, 0),
    ("arrays 127 deep, and 128", SMALL, b"[" * 127 + b"]" * 127 + b"\n" + b"[" * 128 + b"]" * 128 + b"\n", 0),
    ("1,024 operations", SMALL, HELLO + creation(*[{"insert": ""}] * 1_024), 0),
    ("1,025 operations", SMALL, HELLO + creation(*[{"insert": ""}] * 1_025), 0),
    ("what is refused", SMALL, HELLO + b"".join(REFUSED), 0),
    (
        "reads, an undo and a retry",
        SMALL,
        b"".join([HELLO, CREATE, BOLD, FETCH, fetch(1), fetch(3), since(1), since(2), edit(3, 2, {"retain": 2**32})])
        + b"".join([edit(3, 2, {"retain": 2**32 - 1}), line(do="undo", doc="d", n=4), fetch(0), since(0), fetch(4)])
        + b"".join([line(do="undo", doc="d", n=4), line(do="unsubscribe", doc="d")]),
        0,
    ),
    (
        "numbers of one source",
        SMALL,
        b"".join([HELLO, CREATE] + [edit(n, 1, {"insert": "q"}) for n in (2, 2, 1, 4)] + [FETCH]),
        0,
    ),
    (
        "lines sent ahead, with reads between",
        DEEP,
        b"".join([HELLO, CREATE, BOLD, line(do="undo", doc="d", n=3), FETCH, edit(4, 3, {"insert": "c"}), FETCH]),
        0,
    ),
    (
        "a deletion, and a creation again",
        DEEP,
        b"".join([HELLO, CREATE, line(do="delete", doc="d", n=2), FETCH, fetch(1), since(2), line(do="subscribe", doc="d", rev=2)])
        + b"".join([line(do="delete", doc="d", n=2), line(do="delete", doc="d", n=3), edit(3, 2, {"insert": "q"})])
        + b"".join([creation({"insert": "n"}, n=3), creation({"insert": "n"}), edit(4, 1, {"insert": "q"}), FETCH]),
        0,
    ),
    (
        "a creation that is settled, sent again before and between edits",
        DEEP,
        b"".join([HELLO, CREATE, FETCH])
        + b"".join(CREATE + edit(n, n - 1, {"insert": "a"}) + CREATE + edit(n + 1, n, {"insert": "b"}) + FETCH for n in range(2, 16, 2)),
        0,
    ),
    (
        "65 older revisions, and the first again",
        DEEP,
        b"".join([HELLO, CREATE] + [edit(n, n - 1, {"insert": "a"}) for n in range(2, 67)] + [fetch(r) for r in [*range(1, 66), 1]]),
        0,
    ),
]


def over_pipes(store, data):
    return subprocess.run([find(), "serve", store], input=data, capture_output=True, timeout=PATIENCE).stdout


def over_tcp(store, data, size):
    with Server(store) as server, TcpLink(*server.address, timeout=PATIENCE) as link:
        for at in range(0, len(data), size):
            link.send(data[at : at + size])
        link.finish()
        return b"".join(iter(link.receive, b""))


def anew(folder, shape, play, *more):
    """What comes of playing something over a new store."""
    store = os.path.join(folder, "store")
    format_store(store, *shape)
    try:
        return play(store, *more)
    finally:
        os.unlink(store)


failed = 0
with tempfile.TemporaryDirectory() as folder:
    for name, shape, data, more in ROWS:
        wanted = anew(folder, shape, over_pipes, data)
        wrong = [] if wanted.count(b"\n") == data.count(b"\n") + more else ["the count of replies"]
        for size in (len(data), 7, 1):
            got = anew(folder, shape, over_tcp, data, size)
            if got != wanted:
                wrong.append(f"pieces of {size} bytes: {got[-200:]!r} for {wanted[-200:]!r}")
        failed += bool(wrong)
        print(f"FAILED  {name}: {'; '.join(wrong)}" if wrong else f"ok      {name}, {wanted.count(bytes([10]))} replies", flush=True)
print(f"{'FAILED' if failed else 'ok'}: {len(ROWS)} rows, {failed} failed")
sys.exit(1 if failed else 0)
