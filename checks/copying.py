#!/usr/bin/env python3
"""Copies a store to four times its numbers, stops that at many moments, serves the copy, and lets every client go on.

usage: checks/copying.py [STOPS]     (default: 50 stops)

A store of small numbers is full: it has as many documents as it may have, and one of them as many sources. Its documents are live, long,
empty, deleted, and deleted and created again, at many revisions, with milestones and without. Each source has sent more commands of the
shared document than a window holds. The server is killed, and `richd copy` makes a store of four times the numbers of it.

Whole copies are timed first. Then each stop kills a copy by SIGKILL at a moment of that time, to a file that is missing or is there, in turn.
The old file has to stay as it was, and what is left to be no file, a file of which `dump` says that it isn't formatted, or a store whose
dump is that of the old one but for the floors. In the first two cases the copy is made again, onto what was left.

Then that store is served, with milestones 16 revisions apart. Each client of before goes on with its source, its numbers and its base: its last 16
numbers are retries with their revisions, one above the next is refused, and its next one, on the base that it had, is taken. A
deleted document is refused and created again, and documents and sources that the old numbers had no room for are taken. At the end the
server is killed, and the store of the copy has to hold what was acknowledged.

At last each refusal is asked for: of numbers below the old store's, of files that are no store, of one file for both. No file is made then.

Run ./demo first, which builds crates/richd/out/richd, or name another program in RICHD. The stores lie in a temporary folder (TMPDIR).
"""
import itertools
import os
import random
import subprocess
import sys
import tempfile
import time
from pathlib import Path

sys.path.insert(0, str(Path(__file__).resolve().parent.parent / "clients/python"))

import richd
from richd.program import Server, dump, find, format_store

stops = int(sys.argv[1]) if len(sys.argv) > 1 else 50

NUMBERS = {"docs": 6, "cell": 16_384, "sources": 4, "slots": 3, "slot": 16_384, "keep": 512}
LARGER = {name: 4 * number for name, number in NUMBERS.items()}
SOURCES = [f"s{i}" for i in range(NUMBERS["sources"])]
SHARED, LONG, EMPTY, GONE, AGAIN, OTHER = "shared", "long", "empty", "gone", "again", "other"
ROUNDS = 24  # of edits of the shared document by each source
WINDOW = 16
GAP, TOO_MANY_DOCUMENTS, TOO_MANY_SOURCES, DELETED = 9, 20, 11, 40


def options(numbers):
    """Numbers as options of `format` and `copy`."""
    return [word for name, number in numbers.items() for word in (f"--{name}", str(number))]


def is_refused(code, call, *words, **more):
    try:
        raise AssertionError(call(*words, **more))
    except richd.Refused as refusal:
        assert refusal.code == code, refusal


def content_of(path):
    with open(path, "rb") as file:
        return file.read()


def copy(*words):
    """What a copy comes to."""
    ended = subprocess.run([find(), "copy", *words], capture_output=True, text=True)
    return ended.returncode, ended.stdout, ended.stderr


def held(store, *words):
    """The lines of a dump without the floors."""
    lines = [line.split(" ", 3) for line in dump(store, *words).splitlines()]
    return [(name, revision, content) for name, revision, _, content in lines]


class Known:
    """What a source knows of the shared document when the old server ends: the revisions of its numbers, and its base, the newest one."""

    def __init__(self, source):
        self.source, self.revisions, self.base = source, [], 0


def fill(store):
    """Fills a store, and gives what each source knows."""
    all_known = [Known(source) for source in SOURCES]
    with Server(store, "--every", "16") as server:
        clients = [server.connect(source, is_new=True) for source in SOURCES]
        first = clients[0]
        all_known[0].revisions.append(first.create(SHARED, [{"insert": "begin;"}]).rev)
        first.create(LONG, [{"insert": "x" * 500}, {"insert": "y" * 200, "attributes": {"bold": True}}])
        first.create(EMPTY, [])
        first.create(GONE, [{"insert": "not for long"}])
        first.delete(GONE)
        first.create(AGAIN, [{"insert": "once"}])
        first.delete(AGAIN)
        clients[1].create(AGAIN, [{"insert": "again"}])
        clients[1].create(OTHER, [{"insert": "other"}])
        for round in range(ROUNDS):
            for client, known in zip(clients, all_known):
                base = client.fetch(SHARED).rev
                known.revisions.append(client.edit(SHARED, [{"insert": f"{round}"}, {"retain": 1}], base).rev)
        for client, known in zip(clients, all_known):
            known.base = client.fetch(SHARED).rev
        is_refused(TOO_MANY_DOCUMENTS, first.create, "more", [])
        with server.connect("more", is_new=True) as more:
            is_refused(TOO_MANY_SOURCES, more.edit, SHARED, [], first.fetch(SHARED).rev)
        server.kill()
        for client in clients:
            client.close()
    return all_known


def retries(server, known):
    """The last numbers of a source are retries, one above the next is refused."""
    count = len(known.revisions)
    for number in range(count - WINDOW + 1, count + 1):
        with server.connect(known.source) as client:
            taken = client.edit(SHARED, [], known.base, number=number)
            assert taken == richd.Taken(known.revisions[number - 1], True), (known.source, number, taken)
    with server.connect(known.source) as client:
        assert client.next_number(SHARED) == count + 1
        is_refused(GAP, client.edit, SHARED, [], known.base, number=count + 2)


def goes_on(store, all_known):
    """Every client goes on with the copy, which has room."""
    with Server(store, "--every", "16") as server:
        for known in all_known:
            retries(server, known)
        for known in all_known:
            with server.connect(known.source) as client:
                revision = client.edit(SHARED, [{"insert": "on;"}], known.base).rev
        assert revision == known.base + len(SOURCES), revision
        with server.connect(SOURCES[0]) as client:
            is_refused(DELETED, client.edit, GONE, [], 2)
            assert client.create(GONE, [{"insert": "back"}]).rev == 3
            assert client.edit(AGAIN, [{"insert": "and "}], 3).rev == 4
            for number in range(NUMBERS["docs"], LARGER["docs"]):
                assert client.create(f"new{number}", []).rev == 1
            is_refused(TOO_MANY_DOCUMENTS, client.create, "more", [])
        for number in range(LARGER["sources"] - len(SOURCES)):
            with server.connect(f"more{number}", is_new=True) as client:
                revision = client.edit(SHARED, [{"insert": f"{number};"}], revision).rev
        with server.connect("most", is_new=True) as client:
            is_refused(TOO_MANY_SOURCES, client.edit, SHARED, [], revision)
        server.kill()
    lines = held(store)
    assert lines == held(store, "--pick", "older"), "the picks differ"
    assert [name for name, _, _ in lines[: NUMBERS["docs"]]] == [SHARED, LONG, EMPTY, GONE, AGAIN, OTHER], lines
    assert len(lines) == LARGER["docs"] and lines[0][1] == str(revision), lines


def timed(old, new):
    """How long a copy takes, which then goes."""
    began = time.monotonic()
    assert copy(old, new, *options(LARGER)) == (0, "", "")
    took = time.monotonic() - began
    os.unlink(new)
    return took


def stopped(old, new, after):
    """A copy that is killed so long after its start, if it isn't done by then."""
    process = subprocess.Popen([find(), "copy", old, new, *options(LARGER)], stdout=subprocess.PIPE, stderr=subprocess.STDOUT)
    try:
        printed = process.communicate(timeout=after)[0]
        assert (process.returncode, printed) == (0, b""), (process.returncode, printed)
        return False
    except subprocess.TimeoutExpired:
        process.kill()
        process.communicate()
        return True


def is_none_or_all(new, wanted):
    """Whether the file is a store, which then holds all."""
    if not os.path.exists(new):
        return False
    ended = subprocess.run([find(), "dump", new], capture_output=True, text=True)
    if ended.returncode == 1:
        assert ended.stderr == "error 30 NotFormatted\n", ended.stderr
        return False
    assert held(new) == held(new, "--pick", "older") == wanted, "the copy holds something else"
    return True


def refusals(folder, old, content):
    """Each refusal, which leaves both files alone, or makes none."""
    new, none, text = (os.path.join(folder, name) for name in ("new", "none", "text"))
    for name in ("docs", "cell", "sources"):
        below = options({name: NUMBERS[name] - 1})
        assert copy(old, none, *below) == (1, "", "error 33 BadShape\n"), name
        assert copy(old, new, *below) == (1, "", "error 31 AlreadyFormatted\n"), name
    for name, number in {"slots": 1, "slot": 255, "docs": 65_537, "cell": 16_777_217, "sources": 4_097, "keep": 0}.items():
        assert copy(old, none, f"--{name}", str(number)) == (1, "", "error 33 BadShape\n"), name
    for bytes_of_text, wanted in ((bytes(64), "30 NotFormatted"), (b"\xa5QDSTORE1" + bytes(55), "38 OldFormat"), (b"\xa5" * 64, "32 Damaged")):
        with open(text, "wb") as file:
            file.write(bytes_of_text)
        assert copy(text, none) == copy(text, new) == (1, "", f"error {wanted}\n"), wanted
    with open(text, "wb") as file:
        file.write(b"\x77" * 1_000)
    assert copy(old, text) == (1, "", "error 33 BadShape\n")
    assert content_of(text) == b"\x77" * 1_000, "a file that is too short was written"
    locked = f"error 34 Fault\nrichd: locking {old}: "
    status, printed, told = copy(old, old)
    assert status == 1 and printed == "" and told.startswith(locked), told
    assert content_of(old) == content and not os.path.exists(none)


with tempfile.TemporaryDirectory() as folder:
    old, new = os.path.join(folder, "old"), os.path.join(folder, "new")
    format_store(old, *options(NUMBERS))
    all_known = fill(old)
    content, wanted = content_of(old), held(old)
    kinds = {line[2] for line in wanted}
    assert len(wanted) == NUMBERS["docs"] and "deleted" in kinds and '{"ops":[]}' in kinds, wanted

    whole = min(timed(old, new) for _ in range(5))
    assert copy(old, new, *options(LARGER)) == (0, "", "")
    assert os.path.getsize(new) == 64 + 2 * LARGER["docs"] * LARGER["cell"] + LARGER["slots"] * LARGER["slot"]
    assert is_none_or_all(new, wanted)
    made = content_of(new)
    os.unlink(new)
    assert copy(old, new) == (0, "", "") and os.path.getsize(new) == len(content) and is_none_or_all(new, wanted)
    os.unlink(new)

    killed, without = 0, 0
    for number, is_there in zip(range(stops), itertools.cycle((False, True))):
        if is_there:
            with open(new, "wb") as file:
                file.write(b"\x00" + b"\xa5" * (len(made) - 1))
        killed += stopped(old, new, random.uniform(0, whole))
        assert content_of(old) == content, "the old file was changed"
        if not is_none_or_all(new, wanted):
            without += 1
            if os.path.exists(new) and os.path.getsize(new) < len(made):
                os.unlink(new)  # it was stopped while the file was made
            assert copy(old, new, *options(LARGER)) == (0, "", "")
        assert is_none_or_all(new, wanted)
        goes_on(new, all_known)
        os.unlink(new)
    assert copy(old, new, *options(LARGER)) == (0, "", "")
    refusals(folder, old, content)
print(f"ok: {stops} copies of {1000 * whole:.0f} ms, {killed} killed, {without} of them left without a store and made again; each went on")
