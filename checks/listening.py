#!/usr/bin/env python3
"""Lets the listener of `richd serve --listen` give each error that accept(2) names, and refuses threads, and checks whom it serves and what it says.

usage: checks/listening.py

- An error that concerns one connection, or that may pass, is waited out: the server says nothing of it, and serves who connects next. Of those
  that say that the system has no room it makes ten tries a second at most.
- A listener that can't work any more ends the program with `error 34 Fault`, its cause, and status 1, and the store holds what was taken.
- Peers that give their connections up before these are taken end nothing.
- `listening` is printed once the thread that writes and at least one session's are there.
- Where the system refuses all threads from one on, a line on standard error says how many sessions there are, and so many find a place; where
  there would be none the program ends with `error 22 NoMemory`, status 1, `listening` isn't printed, and the store is unchanged.

Run ./demo first, which builds crates/richd/out/richd, or name another program in RICHD. It needs a C compiler, `cc`, and Linux's /proc. The
stores lie in a temporary folder (TMPDIR).
"""
import errno
import os
import select
import signal
import socket
import struct
import subprocess
import sys
import tempfile
import time

from refusing import FAULT, NO_MEMORY, PATIENCE, S, Disagreement, Refusal, agree, content_of, library_in, refusals_of, undisturbed
from three import PLACES, is_greeted

PASSING = (
    "ENETDOWN EPROTO ENOPROTOOPT EHOSTDOWN ENONET EHOSTUNREACH EOPNOTSUPP ENETUNREACH "  # of the network
    "ECONNABORTED EPERM ETIMEDOUT EAGAIN EINTR ECONNRESET "  # of one connection
    "EMFILE ENFILE ENOBUFS ENOMEM"  # of the system's room
).split()
FULL = "EMFILE ENFILE ENOBUFS ENOMEM".split()
LASTING = "EBADF EINVAL ENOTSOCK".split()
CREATE = b'{"do":"hello","source":"s"}\n{"do":"create","doc":"d","n":1,"ops":[{"insert":"a"}]}\n'
CREATED = [b'{"ok":"hello"}\n{"doc":"d","n":1,"ok":"%s","rev":1}\n' % word for word in (b"taken", b"again")]
DUMPED = b'd 1 0 {"ops":[{"insert":"a"}]}\n'


class Listening:
    """A server of a new store, of which one request is refused, or each from one on."""

    def __init__(self, kind, at, how="none", more=""):
        self.refusal = Refusal(library, folder, kind, at, how, more)
        if os.path.exists(self.refusal.store):
            os.unlink(self.refusal.store)
        undisturbed("format", self.refusal.store, *S)
        self.before = content_of(self.refusal.store)
        words = ["serve", self.refusal.store, "--listen", "127.0.0.1:0"]
        self.process = self.refusal.start(words, stdin=subprocess.DEVNULL, stdout=subprocess.PIPE)
        if not select.select([self.process.stdout], [], [], 2 * PATIENCE)[0]:
            self.end()
            raise Disagreement("it neither listens nor ends")
        self.tasks = 0
        self.line = self.process.stdout.readline()
        if self.line:
            agree(self.line.startswith(b"listening 127.0.0.1:"), f"it prints {self.line!r}")
            self.tasks = len(os.listdir(f"/proc/{self.process.pid}/task"))
            self.address = "127.0.0.1", int(self.line.rsplit(b":", 1)[1])

    def connect(self):
        return socket.create_connection(self.address, PATIENCE)

    def create(self):
        """What a session gets that creates a document, or sends its creation again."""
        got = b""
        try:
            with self.connect() as connection:
                connection.sendall(CREATE)
                connection.shutdown(socket.SHUT_WR)
                while piece := connection.recv(1 << 16):
                    got += piece
        except OSError as error:
            return got, error
        return got, None

    def check_serves(self):
        """A session is answered."""
        got, error = self.create()
        agree(got in CREATED and error is None, f"a session gets {got}, {error or ''}")

    def end(self):
        """Ends it, if it runs: its status, where it has ended by itself, what it printed, and the refusals."""
        status = self.process.poll()
        if status is None:
            self.process.kill()
        output, errors = self.process.communicate()
        return status, output, errors

    def ends(self):
        """The end to which it comes by itself."""
        try:
            self.process.wait(PATIENCE)
        except subprocess.TimeoutExpired:
            self.end()
            raise Disagreement("it doesn't end") from None
        return self.end()


def passes(name, at):
    """The error is given once, at the first call or a later one, and each session is answered, before it and behind it."""
    server = Listening("accept", at, str(getattr(errno, name)))
    try:
        for _ in range(at + 2):
            server.check_serves()
    finally:
        ended = server.end()
    agree(server.refusal.met(), "no accept was refused")
    agree(ended == (None, b"", b""), f"it has ended, or says something: {ended}")


def waits(name):
    """The error is given again and again."""
    server = Listening("accept", 1, str(getattr(errno, name)), "onward")
    time.sleep(1.5)
    count = server.refusal.count()
    status, _, errors = server.end()
    agree(status is None, f"it has ended with status {status}, {errors}")
    agree(4 <= count <= 17, f"{count} tries in 1.5 seconds")


def ends(name):
    server = Listening("accept", 2, str(getattr(errno, name)))
    got, _ = server.create()
    status, output, errors = server.ends()
    agree((status, output) == (1, b""), f"it ends with status {status}, {output}")
    found = errors.split(b"\n")
    agree(len(found) == 3 and found[0] + b"\n" == FAULT and found[2] == b"", f"it says {errors}")
    agree(found[1].startswith(b"richd: ") and b"127.0.0.1:" in found[1] and len(found[1].split(b": ")[-1]) > 3, f"it says {errors}")
    for pick in ("newer", "older"):
        held = undisturbed("dump", server.refusal.store, "--pick", pick)
        agree(held == DUMPED or held == b"" and got not in CREATED, f"a session got {got}, and the store holds {held}")


def given_up():
    """Peers connect and reset their connections while the server stands still, so before it takes them."""
    server = Listening("accept", 0)
    try:
        server.process.send_signal(signal.SIGSTOP)
        for _ in range(50):
            connection = server.connect()
            connection.setsockopt(socket.SOL_SOCKET, socket.SO_LINGER, struct.pack("ii", 1, 0))
            connection.close()
        server.process.send_signal(signal.SIGCONT)
        server.check_serves()
    finally:
        ended = server.end()
    agree(ended == (None, b"", b""), f"it has ended, or says something: {ended}")


def listens_late():
    """Each thread takes a while to be made. At the line the one that writes and one of a session are there, besides the first one."""
    server = Listening("thread", 1, more="slow")
    try:
        agree(server.tasks >= 3, f"at the line there are {server.tasks} threads")
        server.check_serves()
    finally:
        ended = server.end()
    agree(ended == (None, b"", b""), f"it has ended, or says something: {ended}")


def places(at):
    """The threads from this one on are refused."""
    server = Listening("thread", at, more="onward")
    if not server.line:
        ended = server.ends()
        agree(at <= FEWEST, f"it ends, though it had {at - 1} threads")
        agree(ended == (1, b"", NO_MEMORY), f"it ends with {ended}")
        agree(content_of(server.refusal.store) == server.before, "the store has changed")
        return 0
    connections = []
    try:
        for _ in range(PLACES + 1):
            connections.append(server.connect())
        found = sum(is_greeted(connection) for connection in connections)
    finally:
        for connection in connections:
            connection.close()
        status, output, errors = server.end()
    agree(status is None, f"it has ended with status {status}, {errors}")
    agree(found >= 1, "it says that it listens, and nobody is served")
    wanted = b"" if found == PLACES else b"richd: %d of %d sessions\n" % (found, PLACES)
    agree(errors == wanted, f"{found} sessions find a place, and it says {errors}")
    return found


def fewer_places():
    """The more threads there are the more sessions, from none to all."""
    counts = []
    for at in THREADS:
        try:
            counts.append(places(at))
        except Disagreement as disagreement:
            raise Disagreement(f"without the threads from {at} on: {disagreement}") from None
    agree(counts == sorted(counts) and counts[0] == 0 and counts[-1] == PLACES, f"of {THREADS} threads and more: {counts} sessions")
    agree(0 < counts[THREADS.index(FEWEST + 1)] < PLACES, f"of {FEWEST} threads {counts} sessions")


FEWEST = 4  # with fewer threads, besides the first one, there may be none for a session: one writes, and others compose milestones
THREADS = [1, 2, 3, 4, 5, 10, 37, 64, 80]

ROWS = [
    *((f"an accept that gives {name} at once", passes, name, 1) for name in PASSING),
    *((f"an accept that gives {name} later", passes, name, 3) for name in PASSING),
    *((f"a listener that gives {name} again and again", waits, name) for name in FULL),
    *((f"a listener that gives {name}", ends, name) for name in LASTING),
    ("peers that give up before they are taken", given_up),
    ("listening", listens_late),
    ("fewer threads", fewer_places),
]

failed = 0
with tempfile.TemporaryDirectory() as folder:
    library = library_in(folder)
    for name, call, *words in ROWS:
        try:
            call(*words)
        except (Disagreement, OSError) as disagreement:
            failed += 1
            print(f"FAILED  {name}: {disagreement}", flush=True)
print(f"{'FAILED' if failed else 'ok'}: {len(ROWS)} rows, {failed} failed")
sys.exit(1 if failed else 0)
