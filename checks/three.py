"""Three sessions at once over TCP, played to their end though one request of the program is refused: no_memory.py and faults.py play it.
And how many sessions find a place at once where a thread is refused."""
import json
import os
import re
import select
import socket
import subprocess
import threading
import time

from refusing import FAULT, NO_MEMORY, PATIENCE, STORE_FAILED, S, Disagreement, agree, content_of, refusals_of
from scripts import dumped, undisturbed

SESSIONS, EDITS, SHARED = 3, 6, "all"
PLACES = 64
FEWER = rb"(?:richd: (\d+) of 64 sessions\n)?"
GREETING = b'{"ok":"hello"}\n'


class Server:
    """A `richd serve --listen`, which is started again where it has ended or its store has failed."""

    def __init__(self, refusal, options):
        self.refusal, self.options = refusal, options
        self.lock, self.process, self.address, self.starts = threading.Lock(), None, None, 0
        self.before = b""  # what the store held before the last start

    def shows(self, what):
        agree(self.refusal.met() and self.refusal.is_seen(), f"{what} where nothing was refused")

    def serves(self, starts):
        """The address of a server, and how many starts it had. It is started again if the one of that many starts can't go on."""
        with self.lock:
            if self.process is not None and self.process.poll() is not None:
                self.check_ended()
            elif self.process is not None and starts == self.starts:
                self.stop()
            while self.process is None:
                self.start()
            return self.address, self.starts

    def start(self):
        agree(self.starts < 5, "the server can't be started")
        self.starts, self.address, self.before = self.starts + 1, None, content_of(self.refusal.store)
        self.process = self.refusal.start(
            ["serve", self.refusal.store, "--listen", "127.0.0.1:0", *self.options], stdin=subprocess.DEVNULL, stdout=subprocess.PIPE
        )
        words = self.process.stdout.readline().split()
        if len(words) == 2 and words[0] == b"listening":
            host, port = words[1].decode().rsplit(":", 1)
            self.address = host, int(port)
        else:
            self.check_ended()

    def check_ended(self):
        """The server has ended by itself, and says why."""
        try:
            _, errors = self.process.communicate(timeout=PATIENCE)
        except subprocess.TimeoutExpired:
            self.process.kill()
            self.process.communicate()
            raise Disagreement("a server that ends goes on") from None
        status, errors, self.process = self.process.returncode, refusals_of(errors), None
        if self.address is None:
            wanted = self.refusal.ends_of_start()
        else:
            wanted = [FAULT, STORE_FAILED] if self.refusal.is_of_the_file() else [NO_MEMORY]
        agree(status == 1 and errors in wanted, f"the server ended with status {status}, {errors[:200]!r}")
        if self.address is None or self.refusal.kind == "thread":
            agree(content_of(self.refusal.store) == self.before, "a start that was refused changed the file")
        self.shows("an end")

    def has_closed(self, starts):
        """A connection to the server of so many starts was closed behind its hello, which only a server does that ends."""
        with self.lock:
            try:
                if self.process is not None and starts == self.starts:
                    self.process.wait(1)
            except subprocess.TimeoutExpired:
                raise Disagreement("a session was closed, and the server goes on") from None

    def cause(self):
        """What a server has written whose store fails: both lines, which its writer may be slow to write."""
        errors, end = b"", time.monotonic() + PATIENCE
        if self.refusal.is_of_the_file() and self.refusal.is_seen() and self.refusal.begins[-1] < self.refusal.at <= self.refusal.count():
            while errors.count(b"\n") < 2 and select.select([self.process.stderr], [], [], max(0, end - time.monotonic()))[0]:
                piece = os.read(self.process.stderr.fileno(), 4096)
                if not piece:
                    break
                errors += piece
        return errors

    def stop(self):
        """Ends the server. How many sessions it had threads for: with fewer than it has places for it has said so. Where its store has
        failed it has said that too, once."""
        if self.process is None:
            return PLACES
        errors = self.cause()
        self.process.terminate()
        errors += self.process.communicate()[1]
        self.process = None
        found = re.fullmatch(FEWER + b"(%s)?" % FAULT, refusals_of(errors))
        agree(found and (errors == b"" or self.refusal.met() and self.refusal.is_seen()), f"the server says {errors[:300]!r}")
        agree(not found[2] or self.refusal.is_of_the_file(), f"the server says {errors[:300]!r}")
        return int(found[1] or PLACES)


class Client(threading.Thread):
    """A source that puts words at the beginning of a document of its own and of one that all share, and the first one follows that."""

    def __init__(self, number, server, there):
        super().__init__()
        self.number, self.server, self.there = number, server, there
        self.source, self.own = f"s{number}", f"own{number}"
        self.next, self.base = {}, {}
        self.words, self.told, self.follows = [], 1, False
        self.starts, self.socket, self.failed, self.wrong = 0, None, False, None

    def run(self):
        try:
            self.create(self.own)
            if self.number == 0:
                self.create(SHARED)
                self.there.set()
            agree(self.there.wait(6 * PATIENCE), "the shared document isn't made")
            self.next[SHARED], self.base[SHARED] = self.next.get(SHARED, 1), 1
            if self.number == 0:
                self.follows = True
                self.connect(False)
            for number in range(EDITS):
                self.edit_both(f"{self.source}.{number};")
            if self.number == 0:
                self.see_news()
        except Exception as error:
            self.wrong = error
            self.there.set()
        finally:
            if self.socket:
                self.socket.close()

    def create(self, doc):
        self.settle([{"do": "create", "doc": doc, "n": 1, "ops": [{"insert": "begin;"}]}])
        self.next[doc], self.base[doc] = 2, 1

    def edit_both(self, word):
        docs = (self.own, SHARED)
        messages = [{"do": "edit", "doc": doc, "n": self.next[doc], "base": self.base[doc], "ops": [{"insert": word}]} for doc in docs]
        for doc, reply in zip(docs, self.settle(messages)):
            self.next[doc] += 1
            self.base[doc] = reply["rev"]
        self.words.append(word)

    def see_news(self):
        """The news of all revisions come, once each and in order."""
        newest = 1 + SESSIONS * EDITS
        for _ in range(100):
            if self.told == newest:
                return
            self.base[SHARED] = self.settle([{"do": "fetch", "doc": SHARED}])[0]["rev"]
            time.sleep(0.1)
        raise Disagreement(f"news up to {self.told} of {newest}")

    def connect(self, failed):
        """Begins a session, with a server that is started again where it has ended, or where its store has failed."""
        for _ in range(60):
            if self.socket:
                self.socket.close()
            address, self.starts = self.server.serves(self.starts if failed else None)
            failed = False
            try:
                self.socket = socket.create_connection(address, PATIENCE)
                self.socket.setsockopt(socket.IPPROTO_TCP, socket.TCP_NODELAY, 1)
                self.input = self.socket.makefile("rb")
                if self.greets() and (not self.follows or self.subscribes()):
                    return
            except TimeoutError:
                raise Disagreement(f"no reply within {PATIENCE} s to hello") from None
            except ConnectionError:
                pass
            time.sleep(0.05)  # as where all places are taken; or the server is about to end
        raise Disagreement("no session in sixty tries")

    def greets(self):
        """Whether the session begins. A hello that finds no memory is said again."""
        return any(self.is_answered({"do": "hello", "source": self.source}, {"ok": "hello"}) for _ in range(2))

    def subscribes(self):
        """Whether the session follows the shared document. One whose subscription finds no memory is given up, since it may follow."""
        told = self.told
        reply = self.ask([{"do": "subscribe", "doc": SHARED, "rev": told}])[0]
        if reply.get("code") == 13 and self.starts > 1:
            # a server that was started again holds a past from its newest milestone on: the news go on from what a fetch shows
            shown = self.ask([{"do": "fetch", "doc": SHARED}])[0]
            if "rev" not in shown:
                return False
            self.told = told = shown["rev"]
            reply = self.ask([{"do": "subscribe", "doc": SHARED, "rev": told}])[0]
        return self.is_good(reply, {"doc": SHARED, "ok": "subscribed", "rev": told})

    def is_answered(self, message, wanted):
        """Whether a message gets the reply that is wanted, and not a refusal of what it needs."""
        return self.is_good(self.ask([message])[0], wanted)

    def is_good(self, reply, wanted):
        """Whether a reply is the one that is wanted. Any other has to be a refusal of what the message needs."""
        if reply == wanted:
            return True
        agree(reply.get("code") == (21 if self.server.refusal.is_of_the_file() else 22), f"{reply} and not {wanted}")
        self.server.shows(reply)
        return False

    def ask(self, messages):
        self.socket.sendall(b"".join(json.dumps(message).encode() + b"\n" for message in messages))
        replies = []
        while len(replies) < len(messages):
            line = self.input.readline()
            if not line.endswith(b"\n"):
                raise ConnectionError
            reply = json.loads(line)
            if "news" in reply:
                agree(reply["doc"] == SHARED and reply["news"] == self.told + 1, f"news {reply['news']} behind {self.told}")
                self.told += 1
            else:
                agree("ended" not in reply, f"{reply}")
                replies.append(reply)
        return replies

    def settle(self, messages):
        """The replies to messages, each of which is asked until it has an answer that isn't of the refusal."""
        settled = [None] * len(messages)
        for tries in range(8):
            try:
                if self.socket is None or self.failed:
                    self.connect(self.failed)
                    self.failed = False
                due = [place for place, reply in enumerate(settled) if reply is None]
                for place, reply in zip(due, self.ask([messages[place] for place in due])):
                    settled[place] = self.take(messages[place], reply, tries)
            except TimeoutError:
                raise Disagreement(f"no reply within {PATIENCE} s to {messages[0]['do']}") from None
            except ConnectionError:
                self.socket.close()
                self.socket = None
                self.server.has_closed(self.starts)
            if None not in settled:
                return settled
        raise Disagreement(f"{messages} in eight tries: {settled}")

    def take(self, message, reply, tries):
        """A reply that settles a message, or none where it is asked again."""
        code = reply.get("code")
        if code is None:
            agree(reply["ok"] != "again" or tries > 0, f"{reply}, and it was sent once")
            return reply
        if code == 22 and self.server.refusal.kind == "memory":
            self.server.shows(reply)
        elif code == 21 and self.server.refusal.is_of_the_file():
            self.server.shows(reply)
            self.failed = True
        elif code == 13 and message["do"] == "edit" and self.starts > 1:
            # a server that was started again may not hold the base any more: the word is put in front of what a fetch shows
            message["base"] = self.settle([{"do": "fetch", "doc": message["doc"]}])[0]["rev"]
        else:
            raise Disagreement(f"{message['do']}: {reply}")
        return None


def play_three(refusal, options=()):
    """Plays the three sessions, and looks at what the store holds then."""
    undisturbed("format", refusal.store, "--docs", "4", "--slots", "2")
    server, there = Server(refusal, list(options)), threading.Event()
    clients = [Client(number, server, there) for number in range(SESSIONS)]
    for client in clients:
        client.start()
    for client in clients:
        client.join()
    try:
        for client in clients:
            if client.wrong:
                raise client.wrong
    finally:
        if server.process is not None and server.process.poll() is None:
            server.stop()
    words = sorted(word for client in clients for word in client.words)
    for pick in ("newer", "older"):
        held = dumped(refusal.store, pick)
        agree(set(held) == {SHARED, *(client.own for client in clients)}, f"{pick} holds {sorted(held)}")
        for client in clients:
            wanted = (1 + EDITS, [{"insert": "".join(reversed(client.words)) + "begin;"}])
            agree(held[client.own] == wanted, f"{pick} holds {held[client.own]} for {client.own}")
        rev, ops = held[SHARED]
        found = sorted(word + ";" for word in ops[0]["insert"].split(";") if word not in ("", "begin"))
        agree(rev == 1 + SESSIONS * EDITS and found == words, f"{pick} holds {rev}, {ops} for all")


def is_greeted(connection):
    """Whether a connection has a place. One that has none is closed without a byte."""
    try:
        connection.sendall(b'{"do":"hello","source":"s"}\n')
        got = connection.recv(len(GREETING))
    except ConnectionError:
        return False
    except TimeoutError:
        raise Disagreement(f"no reply within {PATIENCE} s to hello") from None
    agree(got in (GREETING, b""), f"hello: {got}")
    return got == GREETING


def play_places(refusal):
    """Counts the places of a server of which a thread is refused. The first thread is the one that writes: without it the program ends.
    Those that compose milestones begin beside those of the sessions, so each later one may be a session's or not."""
    undisturbed("format", refusal.store, *S)
    server = Server(refusal, [])
    if refusal.at == 1:
        server.start()
        if server.process is not None:
            server.check_ended()
        agree(refusal.met(), "it ended, and no thread was refused")
    address, _ = server.serves(None)
    connections = [socket.create_connection(address, PATIENCE) for _ in range(PLACES + 1)]
    try:
        places = sum(is_greeted(connection) for connection in connections)
    finally:
        for connection in connections:
            connection.close()
    least = PLACES - (refusal.at > 1 and refusal.met())
    agree(least <= places <= PLACES, f"{places} sessions find a place, and not {least} or {PLACES}")
    told = server.stop()
    agree(told == places, f"{places} sessions find a place, and it says {told}")
