#!/usr/bin/env python3
"""Kills `richd serve --listen` by SIGKILL under load, again and again, and checks what the store holds afterwards.

usage: checks/kill.py [ROUNDS] [SESSIONS]     (default: 50 rounds, 16 sessions)

Each round is a new store. Each session is a source of its own, which creates a document of its own. It puts words at the beginning
of that and of one document that all share, in turn one edit of each at a time and 16 of each ahead of their replies. Each word is
used once. In every second round the journal has two small slots and milestones lie 16 revisions apart, so that slots are freed
all the time. At a random moment the program is killed. Then `dump` has to show, with the newer milestones and with the older ones:
each word that was acknowledged once, no word twice, and besides them none but what was on its way. Then the program is started
again. Each client connects to it by itself, and sends what was on its way once more, with its numbers, the oldest first: the reply has
to be `again` just where the word stands in the document. Then each source sends the last 16 of its numbers once more, the oldest first: each was
acknowledged, so the reply has to be `again` with its revision. A number above the next one is refused, and the next one is taken.

SIGKILL ends the program and not the system, so what the program wrote is there even where it was not synced. What a loss of power
leaves is proved of each call, and isn't tried here.

Run ./demo first, which builds crates/richd/out/richd, or name another program in RICHD. The stores lie in a temporary folder (TMPDIR).
"""
import itertools
import json
import os
import random
import sys
import tempfile
import threading
import time
from pathlib import Path
from types import SimpleNamespace

sys.path.insert(0, str(Path(__file__).resolve().parent.parent / "clients/python"))

import richd
from richd.delta import text
from richd.link import TcpLink
from richd.program import Server, dump, format_store

rounds = int(sys.argv[1]) if len(sys.argv) > 1 else 50
sessions = int(sys.argv[2]) if len(sys.argv) > 2 else 16

SHARED = "all"
MOST_EDITS = 4_800 // sessions  # of one session on one document, so that the shared document stays within its weight
PATIENCE = 60  # seconds
TOO_OLD, GAP = 13, 9
WINDOW = 16  # how many of its last numbers a source may send again, and so how many commands of a document are on their way

# Two kinds of stores and servers, in turn: the options of `format`, and those of `serve`.
KINDS = [
    (["--slots", "64"], []),
    (["--slots", "2", "--slot", "32768"], ["--every", "16"]),
]


class Sent:
    """A word that was sent to a document, and what came or comes of it."""

    def __init__(self, doc, word, answer):
        self.doc, self.word, self.answer = doc, word, answer


class Writer:
    """A source with its client. `place` has the server that runs now."""

    def __init__(self, number, place):
        self.source, self.own = f"s{number}", f"own{number}"
        self.client = richd.connect(link=lambda: TcpLink(*place.server.address), source=self.source, is_new=True, timeout=PATIENCE)
        self.base = {self.own: 1, SHARED: 1}  # the newest revision that is known
        self.revisions = {self.own: [], SHARED: []}  # of the numbers 1 and so on
        self.sent = []
        self.fault = None

    def create(self, doc):
        taken = self.client.create(doc, [{"insert": "begin;"}])
        assert taken == richd.Taken(1), taken
        self.revisions[doc].append(1)

    def edit_both(self, count=1):
        """Sends so many words to each document, and waits for their answers."""
        words = []
        for doc in (self.own, SHARED) * count:
            word = f"{self.source}.{len(self.sent)};"
            words.append(Sent(doc, word, self.client.ahead.edit(doc, [{"insert": word}], self.base[doc])))
            self.sent.append(words[-1])
        for sent in words:
            try:
                self.base[sent.doc] = sent.answer.result(PATIENCE).rev
                self.revisions[sent.doc].append(self.base[sent.doc])
            except richd.Refused as refusal:
                if refusal.code != TOO_OLD:
                    raise
                self.base[sent.doc] = self.client.fetch(sent.doc).rev  # after a start the base may be held no longer

    def run(self, until):
        try:
            for count in itertools.cycle((1, WINDOW)):
                if until.is_set() or len(self.sent) >= 2 * (MOST_EDITS - WINDOW):
                    return
                self.edit_both(count)
        except Exception as fault:
            self.fault = fault

    def send_again(self, server, doc):
        """Sends the last numbers again, the oldest first."""
        revisions = self.revisions[doc]
        for number in range(max(1, len(revisions) - WINDOW + 1), len(revisions) + 1):
            with server.connect(self.source, timeout=PATIENCE) as other:
                answer = other.edit(doc, [], self.base[doc], number=number)
                assert answer == richd.Taken(revisions[number - 1], True), (doc, number, answer)

    def go_on(self, server):
        """What comes after the restart: the last numbers are retries, one above the next is refused, and the next one is taken."""
        for doc in (self.own, SHARED):
            self.base[doc] = self.client.fetch(doc).rev
            self.send_again(server, doc)
            beyond = self.client.next_number(doc) + 1
            with server.connect(self.source, timeout=PATIENCE) as other:
                assert other.next_number(doc) == beyond - 1
                try:
                    raise AssertionError(other.edit(doc, [], self.base[doc], number=beyond))
                except richd.Refused as refusal:
                    assert refusal.code == GAP, refusal
        self.edit_both()


def words_in(printed):
    """The words of each document of a dump, in its order."""
    words = {}
    for line in printed.splitlines():
        name, _, _, content = line.split(" ", 3)
        words[name] = [word + ";" for word in text(json.loads(content)["ops"]).split(";") if word]
    return words


def held_words(store):
    """The words of each document that a store holds, which by either pick has to be the same."""
    held = words_in(dump(store))
    assert held == words_in(dump(store, "--pick", "older")), "the picks differ"
    return held


def check(held, acknowledged, pending):
    """Each acknowledged word stands in its document, none twice, and no other but those that were on their way."""
    for doc, words in held.items():
        assert len(words) == len(set(words)), f"a word stands twice in {doc}"
        may_be = {"begin;"} | {sent.word for sent in acknowledged + pending if sent.doc == doc}
        assert set(words) <= may_be, f"words in {doc} that nobody sent"
    stands = {doc: set(words) for doc, words in held.items()}
    for sent in acknowledged:
        assert sent.word in stands[sent.doc], f"{sent.word} is missing in {sent.doc}"


def sent_by(writers):
    return [sent for writer in writers for sent in list(writer.sent)]


def answered(sent):
    """What a command was answered: a taken one, or None where its base was held no longer."""
    try:
        return sent.answer.result(PATIENCE)
    except richd.Refused as refusal:
        assert refusal.code == TOO_OLD, refusal
        return None


def once(folder, number):
    """One round. Gives how many edits were acknowledged, and how many on their way were taken and how many weren't."""
    shape, options = KINDS[number % len(KINDS)]
    store, place = os.path.join(folder, "store"), SimpleNamespace()
    format_store(store, "--docs", str(sessions + 1), "--cell", "524288", *shape)
    place.server = Server(store, *options)
    writers = [Writer(i, place) for i in range(sessions)]
    try:
        for writer in writers:
            writer.create(writer.own)
        writers[0].create(SHARED)
        until = threading.Event()
        threads = [threading.Thread(target=writer.run, args=[until]) for writer in writers]
        for thread in threads:
            thread.start()
        time.sleep(random.uniform(0.02, 0.5))
        place.server.kill()
        until.set()
        while any(writer.client.is_connected for writer in writers):
            time.sleep(0.001)  # what came before the end is read

        acknowledged, pending = [], []
        for sent in sent_by(writers):
            (acknowledged if sent.answer.done() else pending).append(sent)
        assert all(answered(sent) is not None and not answered(sent).again for sent in acknowledged)
        held = held_words(store)
        check(held, acknowledged, pending)

        place.server = Server(store, *options)
        for thread in threads:
            thread.join()
        for writer in writers:
            if writer.fault is not None:
                raise writer.fault
        taken = 0
        for sent in pending:
            answer, stands = answered(sent), sent.word in held[sent.doc]
            assert (answer is not None and answer.again) == stands, (sent.word, answer, stands)
            taken += stands
        for writer in writers:
            writer.go_on(place.server)
        place.server.kill()
        check(held_words(store), [sent for sent in sent_by(writers) if answered(sent) is not None], [])
    finally:
        place.server.kill()
        for writer in writers:
            writer.client.close()
    os.unlink(store)
    return len(acknowledged), taken, len(pending) - taken


totals = [0, 0, 0]
with tempfile.TemporaryDirectory() as folder:
    for number in range(rounds):
        totals = [total + count for total, count in zip(totals, once(folder, number))]
print(f"on their way when the program was killed: {totals[1]} were taken, {totals[2]} were not")
print(f"ok: {rounds} rounds of {sessions} sessions, {totals[0]} acknowledged edits, none missing, none twice")
