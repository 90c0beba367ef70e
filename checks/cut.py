#!/usr/bin/env python3
"""Cuts connections to `richd serve --listen`, and checks that nothing is lost by it, and nothing taken twice.

usage: checks/cut.py [CUTS] [CLIENTS]     (default: 1000 cuts by 16 clients at a time)

Each client is a source of its own. It puts words at the beginning of one document that all share, and follows that document. Its
connection is cut at one of four places, in turn, half of the times by a close and half by a reset, as of a machine that fails:

- in the middle of a command's line: nothing may come of it;
- behind a command's line, at once;
- behind a command's line, once the command was taken, with its reply unread;
- while it follows the document, with part of the news unread.

Then the client connects again and sends the command once more, by itself. The reply has to be `again` with the revision that an
observer was told of the word, where the word had been taken, and `taken` with that revision where it had not. What it follows goes on
behind the last news that was read in whole: each further revision once, in order. At the end each word stands in the document once,
the observer was told each revision once, and 64 sessions find places.

Run ./demo first, which builds crates/richd/out/richd, or name another program in RICHD. The store lies in a temporary folder (TMPDIR).
"""
import os
import random
import sys
import tempfile
import threading
import time
from pathlib import Path

sys.path.insert(0, str(Path(__file__).resolve().parent.parent / "clients/python"))

import richd
from richd.delta import text
from richd.link import TcpLink
from richd.program import Server, format_store

cuts = int(sys.argv[1]) if len(sys.argv) > 1 else 1000
clients = int(sys.argv[2]) if len(sys.argv) > 2 else 16

DOC = "all"
PLACES = 64
PATIENCE = 60  # seconds
QUIET = 2  # seconds without news, after which nobody is taken to write any more


class Wire(TcpLink):
    """A connection that can be cut. `sending`, where it is set, sends the next bytes in its own way."""

    def __init__(self):
        super().__init__(*server.address)
        self.sending = None
        self.is_deaf = False  # what comes is not read

    def send(self, data):
        sending, self.sending = self.sending, None
        if sending is None:
            super().send(data)
        else:
            sending(data)

    def receive(self):
        while True:
            data = super().receive()
            if not (self.is_deaf and data):
                return data

    def cut(self, by_reset):
        self.is_deaf = True
        if by_reset:
            self.reset()
        self.close()


class Observer:
    """Follows the document from its beginning on, and knows at which revision each word was taken."""

    def __init__(self):
        self.client = server.connect("observer", timeout=PATIENCE)
        self.told = threading.Condition()
        self.revisions = {}  # by word
        self.wrong = None
        threading.Thread(target=self.follow, args=[self.client.follow(DOC, 1)], daemon=True).start()

    def follow(self, changes):
        last = 1
        for change in changes:
            (word,) = (operation["insert"] for operation in change.ops if "insert" in operation)
            with self.told:
                if change.rev != last + 1 or word in self.revisions:
                    self.wrong = change, last
                last = change.rev
                self.revisions[word] = last
                self.told.notify_all()

    def revision_of(self, word):
        """The revision at which a word was taken, once it was told."""
        with self.told:
            assert self.told.wait_for(lambda: word in self.revisions, PATIENCE), f"{word} was never told"
            return self.revisions[word]

    def knows(self, word):
        with self.told:
            return word in self.revisions


class Writer:
    """A source, whose connection is cut again and again."""

    def __init__(self, number):
        self.source = f"s{number}"
        self.words = []
        self.followed = None  # the last revision that was read of the news
        self.counts = {False: 0, True: 0}  # commands by whether they had been taken before they were sent again
        self.random = random.Random(number)
        self.may_connect = threading.Event()
        self.may_connect.set()
        self.client = richd.connect(link=self.connected, source=self.source, is_new=True, timeout=PATIENCE)

    def connected(self):
        self.may_connect.wait()
        self.wire = Wire()
        return self.wire

    def begin(self, base, sending=None):
        """Sends a word that wasn't used yet, in a given way. Gives it with what will be answered."""
        word = f"{self.source}.{len(self.words)};"
        self.words.append(word)
        self.wire.sending = sending
        return word, self.client.ahead.edit(DOC, [{"insert": word}], base)

    def finish(self, word, answer, may_be):
        """Waits for the answer to a command, which the client has sent once more where it had to."""
        taken = answer.result(PATIENCE)
        assert taken.again in may_be and taken.rev == observer.revision_of(word), (word, taken, may_be)
        self.counts[taken.again] += 1

    def newest(self):
        return self.client.fetch(DOC).rev

    def cut_in_line(self, by_reset):
        is_cut = threading.Event()

        def sending(line):
            TcpLink.send(wire, line[: self.random.randrange(1, len(line))])
            wire.cut(by_reset)
            is_cut.set()

        base, wire = self.newest(), self.wire
        self.may_connect.clear()
        word, answer = self.begin(base, sending)
        assert is_cut.wait(PATIENCE)
        time.sleep(0.01)
        assert not observer.knows(word), f"{word} was taken from part of its line"
        self.may_connect.set()
        self.finish(word, answer, [False])

    def cut_at_once(self, by_reset):
        def sending(line):
            TcpLink.send(wire, line)
            wire.cut(by_reset)

        base, wire = self.newest(), self.wire
        self.finish(*self.begin(base, sending), [False, True])

    def cut_before_reply(self, by_reset):
        def sending(line):
            wire.is_deaf = True
            TcpLink.send(wire, line)

        base, wire = self.newest(), self.wire
        word, answer = self.begin(base, sending)
        observer.revision_of(word)
        wire.cut(by_reset)
        self.finish(word, answer, [True])

    def cut_following(self, by_reset):
        if self.followed is None:
            self.followed = self.newest()
        with self.client.follow(DOC, self.followed) as changes:
            wire = self.wire
            word, answer = self.begin(self.followed)
            for _ in range(self.random.randrange(1, 12)):
                if not self.reads_news(changes):
                    break  # the other clients are done
            was_answered = answer.done()
            wire.cut(by_reset)
            self.finish(word, answer, [False] if was_answered else [False, True])
            for _ in range(2):
                self.reads_news(changes)  # it follows on

    def reads_news(self, changes):
        try:
            change = changes.next(QUIET)
        except TimeoutError:
            return False
        assert change.rev == self.followed + 1, (change, self.followed)
        self.followed += 1
        return True

    def run(self, count):
        ways = [self.cut_in_line, self.cut_at_once, self.cut_before_reply, self.cut_following]
        try:
            for i in range(count):
                ways[i % len(ways)](by_reset=i // len(ways) % 2 == 1)
        except Exception as error:
            failures.append(f"{self.source}: {error!r}")
        self.client.close()


failures = []
with tempfile.TemporaryDirectory() as folder:
    format_store(os.path.join(folder, "store"))
    server = Server(os.path.join(folder, "store"))
    first = server.connect("first", timeout=PATIENCE)
    assert first.create(DOC, [{"insert": "begin;"}]) == richd.Taken(1)
    observer = Observer()
    everyone = [Writer(number) for number in range(clients)]
    begin = time.monotonic()
    threads = [threading.Thread(target=writer.run, args=[(cuts + number) // clients]) for number, writer in enumerate(everyone)]
    for thread in threads:
        thread.start()
    for thread in threads:
        thread.join()
    took = time.monotonic() - begin

    # What the document holds.
    contents = first.fetch(DOC)
    words = [word for writer in everyone for word in writer.words]
    if sorted(text(contents.ops).split(";")) != sorted(["", "begin", *(word[:-1] for word in words)]):
        failures.append("the document does not hold each word once")
    if contents.rev != len(words) + 1:
        failures.append(f"{contents.rev} revisions of {len(words)} words")
    if observer.wrong:
        failures.append(f"the observer was told {observer.wrong}")

    # Each place comes free.
    first.close()
    observer.client.close()
    try:
        everybody = [server.connect(f"place{number}", timeout=PATIENCE) for number in range(PLACES)]
        print(f"at the end {len(everybody)} sessions have a place")
        for client in everybody:
            client.close()
    except (OSError, TimeoutError) as error:
        failures.append(f"no place came free: {error!r}")
    if server.process.poll() is not None:
        failures.append("the server ended")
    server.kill()
for failure in failures:
    print(f"FAILED  {failure}")
again = sum(writer.counts[True] for writer in everyone)
end = f"{cuts} connections cut in {took:.1f} s; of {len(words)} commands {again} had been taken when they were sent again, or answered, and {len(words) - again} had not"
print(f"FAILED: {end}" if failures else f"ok: {end}")
sys.exit(1 if failures else 0)
