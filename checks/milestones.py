#!/usr/bin/env python3
"""Feeds one document by eight sessions at once, and looks how far its newest milestone is behind. And by one session, and looks where it is.

usage: checks/milestones.py [SECONDS] [SESSIONS]     (default: 10 seconds, 8 sessions)

Twice a new store that keeps 4,096 revisions is served, with milestones 16 and then 256 revisions apart. Each session is a source of
its own: it puts a letter before the document of all and takes the next one away, as fast as it is answered. Then the program is
killed. `dump` shows how far back the document's past is held by the newer milestone, which is the milestone's own revision: it has
to be at most 2,000 revisions behind the newest one. The journal takes all that is written, so each milestone is one of the composers'.

Then one session edits the document, and at the end with pauses, in which a milestone is composed and put: the newest one has to be
at the last multiple, of 16, of 256, and of 100.

Run ./demo first, which builds crates/richd/out/richd, or name another program in RICHD. The stores lie in a temporary folder (TMPDIR).
"""
import json
import os
import socket
import sys
import tempfile
import threading
import time
from pathlib import Path

sys.path.insert(0, str(Path(__file__).resolve().parent.parent / "clients/python"))

from richd import messages
from richd.program import Server, dump, format_store

seconds = float(sys.argv[1]) if len(sys.argv) > 1 else 10
sessions = int(sys.argv[2]) if len(sys.argv) > 2 else 8

NAME = "all"
LETTERS = 8_192
BEHIND = 2_000  # revisions at most
SLOT = 16_777_216  # some 280,000 edits fill one: no milestone comes of a full journal
PATIENCE = 60  # seconds


class Session:
    """A source with a connection of its own."""

    def __init__(self, address, source):
        self.socket = socket.create_connection(address, PATIENCE)
        self.input = self.socket.makefile("rb")
        self.number, self.revision = 0, 1
        self.ask(messages.hello(source))

    def ask(self, message):
        self.socket.sendall(messages.spelled(message))
        reply = json.loads(self.input.readline())
        if "code" in reply:
            sys.exit(f"{message} was refused: {reply}")
        return reply

    def create(self):
        self.ask(messages.create(NAME, 1, [{"insert": "x" * LETTERS}]))

    def edit(self):
        self.number += 1
        reply = self.ask(messages.edit(NAME, self.number, self.revision, [{"insert": "y"}, {"delete": 1}]))
        self.revision = reply["rev"]


def feed(session, until):
    while time.monotonic() < until:
        session.edit()


def row(folder, every):
    store = os.path.join(folder, f"every{every}")
    format_store(store, "--docs", "1", "--keep", "4096", "--slots", "2", "--slot", str(SLOT))
    with Server(store, "--every", every) as server:
        Session(server.address, "first").create()
        writers = [Session(server.address, f"s{k}") for k in range(sessions)]
        until = time.monotonic() + seconds
        threads = [threading.Thread(target=feed, args=(writer, until)) for writer in writers]
        for thread in threads:
            thread.start()
        for thread in threads:
            thread.join()
    revision, floor = newest_and_floor(store)
    print(f"{every} revisions apart: {revision} revisions, the newest milestone is at {floor}")
    return revision - floor <= BEHIND


def newest_and_floor(store):
    """The document's revision, and that of its newest milestone."""
    _, revision, floor, _ = dump(store, "--pick", "newer").split(" ", 3)
    return int(revision), int(floor)


def row_of_one(folder, every):
    """One session edits the document, slowly once its last multiple is reached."""
    store, multiple = os.path.join(folder, f"one{every}"), 3 * every
    format_store(store, "--docs", "1", "--keep", "4096", "--slots", "2", "--slot", str(SLOT))
    with Server(store, "--every", str(every)) as server:
        session = Session(server.address, "first")
        session.create()
        session.number = 1
        while session.revision < multiple + 12:
            session.edit()
            if session.revision >= multiple:
                time.sleep(0.1)
    revision, floor = newest_and_floor(store)
    print(f"{every} revisions apart, by one session: {revision} revisions, the newest milestone is at {floor}")
    return floor == multiple


with tempfile.TemporaryDirectory() as folder:
    if not all([row(folder, every) for every in ("16", "256")]):
        sys.exit("a milestone is too far behind")
    if not all([row_of_one(folder, every) for every in (16, 100, 256)]):
        sys.exit("a milestone isn't at the last multiple")
