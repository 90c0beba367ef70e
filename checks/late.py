#!/usr/bin/env python3
"""Plays edits that come late by hundreds of revisions, from several sessions at once, and checks what they became.

usage: checks/late.py [--seed N] [--revisions N]     (default: seed 1, 400 revisions)

One session makes a document with so many small edits. Then four sessions send edits that were made on any of these revisions, some of them
several lines at once, while a fifth goes on with edits of the newest one. Of each that is taken, the change that the store has under its
revision has to be the edit past all changes since its base, one after another, each with priority. The Python client's `transform`, which
is quill-delta's, says what that is. No edit may be missing or stand twice. Then they send such edits again while the fifth deletes the
document and creates it anew: behind that no edit on a base from before may be taken.

Run ./demo first, which builds crates/richd/out/richd, or name another program in RICHD. The store lies in a temporary folder (TMPDIR).
"""
import argparse
import json
import os
import random
import socket
import sys
import tempfile
import threading
from pathlib import Path

sys.path.insert(0, str(Path(__file__).resolve().parent.parent / "clients/python"))

from richd.delta import length, normal, transform
from richd.messages import spelled
from richd.program import Server, format_store

PATIENCE = 60  # seconds
SESSIONS, ROUNDS, AHEAD = 4, 12, 5
DOC = "d"

parser = argparse.ArgumentParser()
parser.add_argument("--seed", type=int, default=1)
parser.add_argument("--revisions", type=int, default=400)
words = parser.parse_args()


class Lines:
    """A session, as lines."""

    def __init__(self, server, source):
        self.socket = socket.create_connection(server.address, timeout=PATIENCE)
        self.file, self.number = self.socket.makefile("rb"), 0
        self.ask({"do": "hello", "source": source})

    def send(self, *messages):
        self.socket.sendall(b"".join(spelled(it) for it in messages))

    def reply(self):
        return json.loads(self.file.readline())

    def ask(self, message):
        self.send(message)
        return self.reply()

    def edits(self, *changes):
        """Sends edits in one write, each a base with operations, and gives the revisions that were made, None where one was refused."""
        messages = []
        for base, ops in changes:
            self.number += 1
            messages.append({"do": "edit", "doc": DOC, "n": self.number, "base": base, "ops": ops})
        self.send(*messages)
        made = []
        for _ in messages:
            reply = self.reply()
            made.append(reply["rev"] if reply.get("ok") == "taken" else None)
        if None in made:
            # (what was refused used no number, and what was sent behind it is refused as a gap)
            self.number = messages[made.index(None)]["n"] - 1
        return made


def change_of(draws, units):
    """A small change of a document of so many code units."""
    place = draws.randrange(units + 1)
    gone = min(draws.randrange(3), units - place)
    middle = [{"retain": gone, "attributes": {"bold": draws.choice([True, None])}}] if draws.random() < 0.2 else [{"delete": gone}]
    return normal([{"retain": place}, {"insert": draws.choice("abcdefgh") * draws.randrange(1, 4)}, *(middle if gone else [])])


def grown(units, ops):
    """The code units of a document after a change."""
    return units + sum(length(it) if "insert" in it else -length(it) if "delete" in it else 0 for it in ops)


def send_late(server, name, lengths, taken, draws):
    session = Lines(server, name)
    for turn in range(ROUNDS):
        changes = []
        for _ in range(AHEAD if turn % 3 == 0 else 1):
            base = draws.randrange(1, len(lengths))
            changes.append((base, change_of(draws, lengths[base])))
        for change, revision in zip(changes, session.edits(*changes)):
            if revision is not None:
                taken.append((revision, *change))


def all_late(server, names, lengths, draws, meanwhile):
    """What is taken of the late edits of several sessions, while something else is done."""
    taken = []
    threads = [
        threading.Thread(target=send_late, args=(server, name, list(lengths), taken, random.Random(draws.random()))) for name in names
    ]
    for thread in threads:
        thread.start()
    meanwhile(taken)
    for thread in threads:
        thread.join()
    return taken


def check_changes(taken, first, changes):
    """Each edit is what it has to be, and tells by how many revisions one was late at most."""
    by_revision = {2 + place: ops for place, ops in enumerate(changes)}
    made = [revision for revision, _, _ in taken]
    assert len(set(made)) == len(made), "two edits have one revision"
    assert sorted(made) == list(range(first, max(by_revision) + 1)), "an edit is missing"
    for revision, base, ops in taken:
        wanted = ops
        for passed in range(base + 1, revision):
            wanted = transform(by_revision[passed], wanted, True)
        assert normal(wanted) == by_revision[revision], (revision, base, ops, wanted, by_revision[revision])
    return max(revision - 1 - base for revision, base, _ in taken)


def main():
    draws = random.Random(words.seed)
    with tempfile.TemporaryDirectory() as folder:
        store = os.path.join(folder, "store")
        format_store(store)
        with Server(store) as server:
            first = Lines(server, "first")
            text = [{"insert": "The quick brown fox"}]
            first.number = 1
            assert first.ask({"do": "create", "doc": DOC, "n": 1, "ops": text})["rev"] == 1
            lengths = [0, grown(0, text)]  # by revision
            for base in range(1, words.revisions):
                ops = change_of(draws, lengths[base])
                assert first.edits((base, ops)) == [base + 1]
                lengths.append(grown(lengths[base], ops))

            def go_on(taken):
                for _ in range(20):
                    newest = first.ask({"do": "fetch", "doc": DOC})
                    base, ops = newest["rev"], change_of(draws, sum(length(it) for it in newest["ops"]))
                    [revision] = first.edits((base, ops))
                    taken.append((revision, base, ops))

            taken = all_late(server, [f"late{it}" for it in range(SESSIONS)], lengths, draws, go_on)
            most = check_changes(taken, words.revisions + 1, first.ask({"do": "since", "doc": DOC, "rev": 1})["deltas"])
            anew = []

            def create_again(_):
                first.number += 2
                deletion, creation = {"do": "delete", "doc": DOC, "n": first.number - 1}, {"do": "create", "doc": DOC, "n": first.number, "ops": text}
                assert first.ask(deletion)["ok"] == "taken"
                anew.append(first.ask(creation)["rev"])

            later = all_late(server, [f"later{it}" for it in range(SESSIONS)], lengths, draws, create_again)
            assert all(revision < anew[0] for revision, _, _ in later), "an edit was taken on a base from before the document was created again"
            rev = first.ask({"do": "fetch", "doc": DOC})
            assert (rev["rev"], rev["ops"]) == (anew[0], text), rev
    print(f"ok: {len(taken)} edits, late by up to {most} revisions, are what they have to be")


main()
