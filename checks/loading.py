"""Writers that put words into the documents of a server, and what came of each: for soak.py, stopped.py, backup.py, archive.py and power.py.

A word is used once, so it is found again in what a store holds. Each writer is a source of its own with one session at a time. What had no
reply when its session ended it sends again in the next one, with the numbers of before.
"""
import copy
import itertools
import json
import os
import random
import socket
import subprocess
import sys
import threading
import time
from pathlib import Path
from types import SimpleNamespace
from typing import NamedTuple

HERE = Path(__file__).resolve().parent.parent / "clients/python"
sys.path.insert(0, str(HERE))
CLIENT = os.pathsep.join([str(HERE), *filter(None, [os.environ.get("PYTHONPATH")])])  # where Python finds the client, and what it found before

from richd.delta import text
from richd.program import find
from richd.tables import Database

PATIENCE = 60  # seconds of one reply, or of one run
NO_DOCUMENT, EXISTS, GAP, TOO_OLD, NOTHING_TO_UNDO, DELETED = 6, 7, 9, 13, 19, 40
NEWEST = 60  # documents that a follower looks at
AHEAD = 8  # edits that a writer sends ahead of their replies
WORDS = 40  # of one writer in one document, which so stays within the weight of CELL for 12 writers
CELL = "65536"
richd = find()


class Cut(Exception):
    """The server has ended."""


class Place:
    """Where writers and followers find the server, and the documents that they have made."""

    def __init__(self, pause):
        self.port, self.pause = free_port(), pause
        self.ends, self.lock, self.docs = threading.Event(), threading.Lock(), []

    def made(self, doc):
        with self.lock:
            if doc not in self.docs[-NEWEST:]:
                self.docs.append(doc)

    def newest(self):
        with self.lock:
            return self.docs[-NEWEST:]


class Session:
    """A connection to the server of this port, or of this address of another host, which has so many seconds to answer."""

    def __init__(self, port, source, patience=PATIENCE):
        try:
            self.connection = socket.create_connection(port if isinstance(port, tuple) else ("127.0.0.1", port), patience)
        except OSError as error:
            raise Cut from error
        self.connection.setsockopt(socket.IPPROTO_TCP, socket.TCP_NODELAY, 1)
        self.lines = self.connection.makefile("rb")
        assert self.ask({"do": "hello", "source": source}) == {"ok": "hello"}

    def send(self, *messages):
        try:
            self.connection.sendall(b"".join(json.dumps(message).encode() + b"\n" for message in messages))
        except OSError as error:
            raise Cut from error

    def read(self):
        try:
            line = self.lines.readline()
        except OSError as error:
            raise Cut from error
        if not line.endswith(b"\n"):
            raise Cut
        return json.loads(line)

    def ask(self, message):
        self.send(message)
        return self.read()

    def close(self):
        self.connection.close()


class Command:
    """A command of a writer, and what came of it: `rev` where it was taken, `code` where it was refused, neither where no reply came."""

    def __init__(self, message, word):
        self.message, self.word = message, word
        self.rev = self.code = None

    @property
    def is_open(self):
        return self.rev is None and self.code is None


class Peer(threading.Thread):
    """A source whose session is begun again where it is cut, until the place ends. What a session does is its `serve`."""

    def __init__(self, source, place):
        super().__init__(daemon=True)
        self.source, self.place = source, place
        self.fault, self.session, self.is_cut = None, None, True

    def run(self):
        while not self.place.ends.is_set():
            try:
                self.session = self.connect()
                self.serve()
            except Cut:
                time.sleep(0.02)
            except Exception as fault:
                self.fault = fault
                return
            finally:
                if self.session is not None:
                    self.session.close()
                self.is_cut = True

    def connect(self):
        return Session(self.place.port, self.source)


class Writer(Peer):
    """A source. It puts words into documents that all share, in some of which it takes its last change back, and it creates, edits and deletes
    a document of its own. `commands` are all that it sent, by document."""

    def __init__(self, number, place):
        super().__init__(f"s{number}", place)
        self.number = number
        self.drawn = random.Random(number)
        self.commands, self.base, self.numbers = {}, {}, {}
        self.words, self.placed = 0, {"shared": 0, "undone": 0}
        self.waits, self.refused, self.sent_again = [], {}, 0

    def serve(self):
        self.is_cut = False
        self.send_again()
        while not self.place.ends.is_set():
            self.turn()
            time.sleep(self.drawn.random() * self.place.pause)

    def turn(self):
        kind = self.drawn.random()
        if kind < 0.5:
            self.put("shared", 1 if kind < 0.4 else AHEAD)
        elif kind < 0.8:
            doc = self.put("undone", 1)
            if self.drawn.random() < 0.4:
                self.command({"do": "undo", "doc": doc}, None)
        else:
            self.live_of_own()

    def put(self, kind, count):
        """Puts so many words into the document of this kind that the writer is at, which is made where it isn't there."""
        doc = f"{kind}.{self.placed[kind] // WORDS}"
        if doc not in self.base:
            self.command({"do": "create", "doc": doc, "ops": [{"insert": ";"}]}, None)
            self.catch_up(doc)
            self.place.made(doc)
        self.placed[kind] += count
        words = [self.word() for _ in range(count)]
        self.take(doc, [self.note(doc, self.edit(doc, word), word) for word in words])
        return doc

    def word(self):
        self.words += 1
        return f"{self.source}.{self.words}"

    def edit(self, doc, word):
        return {"do": "edit", "doc": doc, "base": self.base[doc], "ops": [{"insert": word + ";"}]}

    def live_of_own(self):
        """One step in the life of the writer's own document: it is edited a few times, and then deleted and created anew."""
        doc, word = f"own{self.number}", self.word()
        steps = [command for command in self.commands.get(doc, []) if command.rev is not None]
        if not steps or steps[-1].message["do"] == "delete":
            self.command({"do": "create", "doc": doc, "ops": [{"insert": word + ";"}]}, word)
            self.place.made(doc)
        elif self.drawn.random() < 0.15:
            self.command({"do": "delete", "doc": doc}, None)
        else:
            self.command(self.edit(doc, word), word)

    def command(self, message, word):
        self.take(message["doc"], [self.note(message["doc"], message, word)])

    def note(self, doc, message, word):
        """Gives a command its number, as if those before it were taken."""
        sent = self.commands.setdefault(doc, [])
        ahead = sum(command.is_open for command in sent[-AHEAD:])
        sent.append(Command({**message, "n": self.numbers.get(doc, 0) + ahead + 1}, word))
        return sent[-1]

    def take(self, doc, commands):
        """Sends commands of a document, and notes what comes of each, in their order."""
        began = time.monotonic()
        self.session.send(*(command.message for command in commands))
        for command in commands:
            self.settle(doc, command, self.session.read())
        self.waits.append(time.monotonic() - began)
        if commands[-1].code in (TOO_OLD, GAP):
            self.catch_up(doc)  # after a start the base may be held no longer

    def settle(self, doc, command, reply):
        command.code = reply.get("code")
        if command.code is not None:
            assert command.code in (EXISTS, GAP, TOO_OLD, NOTHING_TO_UNDO), (command.message, reply)
            self.refused[command.code] = self.refused.get(command.code, 0) + 1
            return
        assert reply["ok"] in ("taken", "again") and reply["n"] == command.message["n"], (command.message, reply)
        command.rev = reply["rev"]
        self.base[doc] = max(self.base.get(doc, 0), command.rev)
        self.numbers[doc] = command.message["n"]

    def catch_up(self, doc):
        """Fetches the document. One that is being made may not be shown yet."""
        while "rev" not in (reply := self.session.ask({"do": "fetch", "doc": doc})):
            time.sleep(0.001)
        self.base[doc] = reply["rev"]

    def send_again(self):
        """Sends what had no reply again, one after another. Where one is refused, those after it are numbered anew."""
        for doc, sent in list(self.commands.items()):
            for command in [command for command in sent[-AHEAD:] if command.is_open]:
                command.message["n"] = self.numbers.get(doc, 0) + 1
                self.settle(doc, command, self.session.ask(command.message))
                self.sent_again += 1
            if sent[-1].code in (TOO_OLD, GAP):
                self.catch_up(doc)


class Follower(Peer):
    """A session that follows the newest documents, and folds their news. `texts` are the documents that it holds, with their revisions;
    `inserted` has the words of each revision that it was told of."""

    def __init__(self, number, place):
        super().__init__(f"f{number}", place)
        self.texts, self.inserted, self.news, self.fetched = {}, {}, 0, 0

    def serve(self):
        self.session.connection.settimeout(PATIENCE)
        self.follow()

    def follow(self):
        """Follows until the server ends. It asks for a document that isn't there now and then, so that a reply comes."""
        followed = set()
        self.is_cut = False
        while not self.place.ends.is_set():
            for doc in self.place.newest():
                if doc not in followed and self.subscribe(doc):
                    followed.add(doc)
            self.session.send({"do": "unsubscribe", "doc": "nothing"})
            while (line := self.session.read()) != {"doc": "nothing", "ok": "unsubscribed"}:
                self.hear(line, followed)
            time.sleep(0.05)

    def ask(self, message):
        """The reply to a message, past the news before it."""
        self.session.send(message)
        while "ok" not in (line := self.session.read()) and "code" not in line:
            self.hear(line, set())
        return line

    def subscribe(self, doc):
        revision = self.texts[doc][0] if doc in self.texts else 0
        reply = self.ask({"do": "subscribe", "doc": doc, "rev": revision})
        if reply.get("code") == TOO_OLD:
            reply = self.ask({"do": "fetch", "doc": doc})
            if "rev" in reply:
                self.texts[doc] = reply["rev"], "".join(op["insert"] for op in reply["ops"])
                self.fetched += 1
                reply = self.ask({"do": "subscribe", "doc": doc, "rev": reply["rev"]})
        assert "ok" in reply or reply["code"] in (NO_DOCUMENT, DELETED, TOO_OLD), reply
        return "ok" in reply

    def hear(self, line, followed):
        doc = line["doc"]
        if "ended" in line:
            assert doc.startswith("own"), line  # what isn't deleted is held
            followed.discard(doc)
            return
        revision, before = self.texts.get(doc, (0, ""))
        assert line["news"] == revision + 1, f"{doc}: after {revision} comes {line['news']}"
        self.texts[doc] = line["news"], applied(before, line["ops"])
        self.inserted[doc, line["news"]] = {word for op in line["ops"] for word in str(op.get("insert", "")).split(";")}
        self.news += 1


def applied(before, operations):
    """A plain text after operations."""
    after, at = "", 0
    for operation in operations:
        if "insert" in operation:
            after += operation["insert"]
        elif "retain" in operation:
            after += before[at : at + operation["retain"]]
            at += operation["retain"]
        else:
            at += operation["delete"]
    return after + before[at:]


def holds(sent):
    """What one writer's commands on a document leave of its words: those that stand, those that may, and whether it is deleted (None: it
    may be)."""
    standing, may, last, is_deleted = set(), set(), None, False
    for command in list(sent):
        kind, word = command.message["do"], command.word
        if command.code is not None:
            continue
        if kind == "delete":
            may, standing = (may | standing, set()) if command.is_open else (set(), set())
            is_deleted = None if command.is_open else True
        elif kind == "undo":  # of the last change, which may be an undo itself
            if command.is_open:
                may.add(last)
                standing.discard(last)
            else:
                standing ^= {last}
        else:
            is_deleted = (None if is_deleted else is_deleted) if command.is_open else False
            (may if command.is_open else standing).add(word)
            last = word
    return standing - {None}, may - {None}, is_deleted


def agrees(found, writers):
    """Compares the documents that a store holds with what the writers were answered. Returns how many acknowledged commands that were."""
    words, may_be, acknowledged = {}, {}, 0
    for writer in writers:
        for doc, sent in list(writer.commands.items()):
            standing, may, is_deleted = holds(sent)
            newest = max((command.rev for command in list(sent) if command.rev), default=0)
            acknowledged += sum(command.rev is not None for command in list(sent))
            if not newest and doc not in found:
                continue
            revision, held = found[doc]
            assert revision >= newest, f"{doc} is held at {revision}, and {newest} was acknowledged"
            if is_deleted is not None and doc.startswith("own"):
                assert (held is None) == is_deleted, f"{doc}: deleted {is_deleted}, and it holds {held}"
            if held is not None:
                lost = standing - set(held)
                assert not lost, f"{doc}: {lost} of {writer.source} are lost"
            words.setdefault(doc, set()).update(standing)
            may_be.setdefault(doc, set()).update(standing | may)
    for doc, (_, held) in found.items():
        if held is not None:
            assert len(held) == len(set(held)), f"{doc} holds a word twice"
            assert set(held) <= may_be[doc], f"{doc} holds {set(held) - may_be[doc]}, which nobody sent, or was taken back"
    return acknowledged


def snapshot(writer):
    """What a writer was answered by now. A reply that it takes in meanwhile may be missing, and a command that it sends."""
    return SimpleNamespace(source=writer.source, commands={doc: [copy.copy(command) for command in list(sent)] for doc, sent in list(writer.commands.items())})


def agrees_with(found, before, after):
    """What was acknowledged before the stop is there. What may be there besides is known once the writers have gone on."""
    for early, late in zip(before, after):
        for doc, sent in early.commands.items():
            known = {id_of(command) for command in sent if command.rev is not None}
            for command in late.commands[doc]:
                if id_of(command) not in known:
                    command.rev, command.code = None, None  # on its way, or later
            late.commands[doc] = [command for command in late.commands[doc] if command.code is None]
        for doc in late.commands:
            if doc not in early.commands:
                for command in late.commands[doc]:
                    command.rev, command.code = None, None
    return agrees(found, after)


def id_of(command):
    return command.message["n"], command.message["do"], command.word


def dumped(path, *options):
    """The documents that a store holds: name to revision, and to its words, or None where it is deleted."""
    done = subprocess.run([richd, "dump", path, *options], capture_output=True, text=True, timeout=PATIENCE)
    assert (done.returncode, done.stderr) == (0, ""), done.stderr
    return parsed(done.stdout)


def parsed(lines):
    """The documents that `richd dump` has printed, likewise."""
    found = {}
    for line in lines.splitlines():
        name, revision, _, content = line.split(" ", 3)
        words = None if content == "deleted" else [word for word in text(json.loads(content)["ops"]).split(";") if word]
        found[name] = int(revision), words
    return found


def tool(*words, status=0):
    """What a command of the Python client prints, also on standard error where it has to fail."""
    variables = {**os.environ, "PYTHONPATH": CLIENT}
    done = subprocess.run([sys.executable, "-m", "richd", *words], env=variables, capture_output=True, text=True, timeout=10 * PATIENCE)
    assert done.returncode == status, (words, done.stdout[-500:], done.stderr[-500:])
    return done.stdout if status == 0 else done.stdout + done.stderr


class Archived(NamedTuple):
    """What an archive has: the commands that were answered, how many of these lie in a gap, and the numbers of its rows."""

    answered: int
    passed: int
    revisions: int
    gaps: int
    files: int
    aside: int


def archived(store, database, writers):
    """Archives the rest of a store that nobody serves, and compares the archive with it and with what the writers were answered."""
    tool("archive", store, database)
    assert tool("verify", database, store).startswith("ok ")
    theirs = subprocess.run([richd, "dump", store], check=True, capture_output=True, text=True).stdout
    for our, their in itertools.zip_longest(tool("dump", store).splitlines(), theirs.splitlines()):
        assert our == their, f"the dumps differ: {our} and {their}"
    assert tool("check", store) == subprocess.run([richd, "check", store], check=True, capture_output=True, text=True).stdout
    held = Database(database)
    numbers = {name: doc for doc, name in held.all("SELECT doc, name FROM documents")}
    revisions = {(doc, source, number): rev for doc, source, number, rev in held.all("SELECT doc, source, number, rev FROM revisions")}
    count, files, aside = (held.one(f"SELECT count(*) FROM {table}")[0] for table in ("revisions", "files", "aside"))
    gaps = held.all("SELECT doc, first, last FROM gaps")
    held.close()
    answered, passed, missing = 0, 0, []
    for writer in writers:
        for doc, sent in list(writer.commands.items()):
            for command in [command for command in list(sent) if command.rev is not None]:
                answered += 1
                rev = revisions.get((numbers.get(doc), writer.source, command.message["n"]))
                if rev is None and any(gap[0] == numbers.get(doc) and gap[1] <= command.rev <= gap[2] for gap in gaps):
                    passed += 1
                elif rev != command.rev:
                    missing.append((doc, writer.source, command.message["n"], command.rev, rev))
    assert not missing, f"{len(missing)} of {answered} aren't archived under their revision: {missing[:3]}"
    assert len(revisions) == count, f"{count - len(revisions)} are archived twice"
    return Archived(answered, passed, count, len(gaps), files, aside)


def format_store(path, docs):
    options = ["--docs", str(docs), "--cell", CELL, "--slots", "4", "--slot", "65536"]
    subprocess.run([richd, "format", path, *options], check=True, timeout=PATIENCE)


def free_port():
    with socket.create_server(("127.0.0.1", 0)) as listener:
        return listener.getsockname()[1]


def percentile(waits, part):
    return sorted(waits)[min(len(waits) - 1, int(len(waits) * part))] if waits else 0.0
