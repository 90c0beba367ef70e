#!/usr/bin/env python3
"""Checks what richd gives its operator: an end where the store has failed, the end of idle connections, lines on standard error, room on the disk, and
deltas on lines.

usage: checks/operating.py

- `serve --exit-on-failure` ends within a second of a failure, by `error 21 StoreFailed` and status 1, and idle peers with it; without it reads go on.
- `serve --until-closed` goes on while its standard input is open, whatever comes there, and ends where that ends: with status 0, its sessions closed, the
  file closed, and in it all that was answered. Where its store has failed by then the status is 1.
- `serve --idle SECONDS` closes a connection that said no hello, or sent no line and follows nothing, after that time and within a second of it, and
  its place is free. One that follows a document, or sends a line in time, stays.
- `serve --log --stats 1` writes lines of one form: each number of a line of counters is the one that clients saw. Without `--log` nothing is written.
- Standard error that is full, or was closed, stops nobody: commands are answered as fast, and the program ends as fast.
- `format --reserve` takes all the room of the file at once, or is refused and leaves no file. What `format`, `copy` and `migrate` make is its owner's alone.
- `delta COMMAND --stdin` prints what the same words print, up to the longest word that a command line can have; other lines are refused with status 2.
- Options that make no sense together, and words out of range, are refused with status 2.

Run ./demo first, which builds crates/richd/out/richd, or name another program in RICHD. It needs a C compiler, `cc`; a full disk, for which a small file
system is mounted, is tried by the superuser alone. The stores lie in a temporary folder (TMPDIR).
"""
import json
import os
import re
import select
import socket
import stat
import subprocess
import sys
import tempfile
import time

from first_format import in_first_format
from refusing import FAULT, PATIENCE, STORE_FAILED, S, Disagreement, Refusal, Skipped, agree, content_of, library_in, play_each, richd, undisturbed

LINE = re.compile(r"(\d+\.\d{3}) (\w+)((?: [a-z_0-9]+ \S+)*)")
PLACES = 64


class Peer:
    """A connection, which has said hello where it has a source."""

    def __init__(self, served, source=None):
        self.connection = socket.create_connection(served.address, PATIENCE)
        self.lines = self.connection.makefile("rb")
        if source is not None:
            self.greeting = self.ask({"do": "hello", "source": source})
            agree(self.greeting == {"ok": "hello"}, f"hello gets {self.greeting}")

    def send(self, line):
        self.connection.sendall(line)

    def ask(self, message):
        self.send(json.dumps(message).encode() + b"\n")
        line = self.lines.readline()
        agree(line.endswith(b"\n"), f"{message} gets {line}")
        return json.loads(line)

    def is_closed(self, within=0.0):
        """Whether the server closes it within so many seconds. What comes before is dropped."""
        until = time.monotonic() + within
        while select.select([self.connection], [], [], max(0, until - time.monotonic()))[0]:
            try:
                if not self.connection.recv(1 << 16):
                    return True
            except ConnectionError:
                return True
        return False

    def close(self):
        self.connection.close()


class Served:
    """A server with these options. Its standard error is read as it comes, or is the given stream."""

    def __init__(self, path, *options, errors=subprocess.PIPE, refusal=None, given=subprocess.DEVNULL, **how):
        words = ["serve", path, "--listen", "127.0.0.1:0", *options]
        if refusal is not None:
            self.process = refusal.start(words, stdout=subprocess.PIPE, stdin=given)
        else:
            self.process = subprocess.Popen([richd, *words], stdout=subprocess.PIPE, stderr=errors, stdin=given, bufsize=0, **how)
        line = self.process.stdout.readline()
        agree(line.startswith(b"listening "), f"it prints {line}, status {self.process.poll()}")
        self.address = ("127.0.0.1", int(line.rsplit(b":", 1)[1]))
        self.said = b""

    def hear(self, seconds=0.0):
        """What was said on standard error until so many seconds from now, all of it since the start."""
        until = time.monotonic() + seconds
        while select.select([self.process.stderr], [], [], max(0, until - time.monotonic()))[0]:
            piece = os.read(self.process.stderr.fileno(), 1 << 16)
            if not piece:
                break
            self.said += piece
        return self.said

    def events(self, seconds=0.0):
        """The lines that were logged, each as its event and its names and values."""
        found = []
        for line in self.hear(seconds).decode().splitlines():
            matched = LINE.fullmatch(line)
            agree(matched, f"it logs {line!r}")
            words = matched[3].split()
            agree(abs(float(matched[1]) - time.time()) < 60, f"its time is {matched[1]}")
            found.append((matched[2], dict(zip(words[::2], words[1::2]))))
        return found

    def ended(self, within):
        try:
            self.process.wait(within)
        except subprocess.TimeoutExpired:
            raise Disagreement(f"it doesn't end within {within} s") from None
        return self.process.returncode

    def __enter__(self):
        return self

    def __exit__(self, *_cause):
        self.process.kill()
        self.process.wait()
        self.process.stdout.close()
        if self.process.stderr is not None:
            self.process.stderr.close()


def fresh(*options):
    """A new store."""
    path = os.path.join(tempfile.mkdtemp(dir=folder), "store")
    undisturbed("format", path, *options)
    return path


def taken(peer, doc, n, text="x"):
    """Whether a creation is taken; else its refusal."""
    return peer.ask({"do": "create", "doc": doc, "n": n, "ops": [{"insert": text}]})


def edits(peer, most):
    """So many edits of 2,000 letters each, or those up to the first that is refused, and the last reply."""
    reply, n = taken(peer, "d", 1), 1
    while reply.get("ok") == "taken" and n <= most:
        ops = [{"insert": "x" * 2000}, {"delete": 2000 if n > 1 else 1}]
        reply = peer.ask({"do": "edit", "doc": "d", "n": n + 1, "base": n, "ops": ops})
        n += 1
    return n, reply


def failing(kind="write"):
    """A store whose first write, or sync, after the opening fails, and the run that has it so."""
    place = tempfile.mkdtemp(dir=folder)
    opening = Refusal(library, place, kind, 0)
    undisturbed("format", opening.store)
    opening.run(["dump", opening.store])
    return Refusal(library, place, kind, opening.count() + 1)


def exit_on_failure():
    """It ends, and says why, while peers are idle, follow, or don't read."""
    for kind in ("write", "sync"):
        refusal = failing(kind)
        with Served(refusal.store, "--exit-on-failure", refusal=refusal) as served:
            silent, idle, writing = Peer(served), Peer(served, "idle"), Peer(served, "a")
            began = time.monotonic()
            writing.send(b'{"do":"create","doc":"d","n":1,"ops":[{"insert":"x"}]}\n')
            agree(served.ended(1.5) == 1, "its status isn't 1")
            took = time.monotonic() - began
            agree(took < 1, f"it takes {took:.1f} s to end")
            agree(all(peer.is_closed(1) for peer in (silent, idle, writing)), "a connection is left open")
            said = served.hear(0.2)
            agree(said.startswith(FAULT + b"richd: ") and said.endswith(STORE_FAILED) and said.count(b"\n") == 3, f"it says {said}")
        again = Refusal(library, os.path.dirname(refusal.store), kind, 0)
        with Served(again.store, "--exit-on-failure", refusal=again) as served:
            agree(taken(Peer(served, "a"), "e", 1).get("ok") == "taken", "it doesn't go on after a start")


def goes_on_failed():
    """Without the option it answers reads, and refuses commands."""
    refusal = failing()
    with Served(refusal.store, refusal=refusal) as served:
        peer = Peer(served, "a")
        agree(taken(peer, "d", 1).get("code") == 21, "a command is taken")
        time.sleep(1.2)
        agree(served.process.poll() is None, "it has ended")
        agree(peer.ask({"do": "fetch", "doc": "d"}).get("code") in (6, 21), "a read isn't answered")
        agree(served.hear().count(b"\n") == 2, f"it says {served.said}")


def until_closed():
    """The end of standard input ends a server well; a server whose store has failed by then it ends by that."""
    path = fresh()
    reader, writer = os.pipe()
    with Served(path, "--until-closed", given=reader) as served:
        os.close(reader)
        silent, peer = Peer(served), Peer(served, "a")
        os.write(writer, b"nobody reads this\n" * 1000)
        agree(taken(peer, "d", 1).get("ok") == "taken", "a creation isn't taken")
        time.sleep(0.5)
        agree(served.process.poll() is None, "it ends before its input does")
        agree(taken(peer, "e", 1).get("ok") == "taken", "a second creation isn't taken")
        os.close(writer)
        agree(served.ended(PATIENCE) == 0, f"its status is {served.process.returncode}")
        agree(silent.is_closed(1) and peer.is_closed(1), "a connection is left open")
        agree(served.hear(0.2) == b"", f"it says {served.said}")
    names = [line.split()[0] for line in undisturbed("dump", path).decode().splitlines()]
    agree(names == ["d", "e"], f"the store has {names}")
    with Served(path, "--until-closed") as served:
        agree(served.ended(PATIENCE) == 0, "it doesn't end where its input has ended before")
    refusal = failing()
    reader, writer = os.pipe()
    with Served(refusal.store, "--until-closed", refusal=refusal, given=reader) as served:
        os.close(reader)
        agree(taken(Peer(served, "a"), "d", 1).get("code") == 21, "a command is taken")
        os.close(writer)
        agree(served.ended(PATIENCE) == 1, f"its status is {served.process.returncode}")
        agree(served.hear(0.2).endswith(STORE_FAILED), f"it says {served.said}")


def idle():
    """Who is closed, and when, and who isn't."""
    with Served(fresh(), "--idle", "2") as served:
        began = time.monotonic()
        follower, talker, quiet, half = Peer(served, "f"), Peer(served, "t"), Peer(served, "q"), Peer(served, "h")
        silent = [Peer(served) for _ in range(PLACES - 4)]
        agree(taken(talker, "d", 1)["rev"] == 1, "a creation is refused")
        agree(follower.ask({"do": "subscribe", "doc": "d", "rev": 1}).get("ok") == "subscribed", "a subscription is refused")
        agree(Peer(served).is_closed(1), "there are more places than 64")
        while time.monotonic() - began < 4.5:
            talker.ask({"do": "unsubscribe", "doc": "x"})
            if not half.is_closed():
                half.send(b" ")
            if time.monotonic() - began < 1.5:
                agree(not any(peer.is_closed() for peer in (quiet, half, *silent)), "somebody is closed too early")
            time.sleep(0.5)
        agree(quiet.is_closed(0.5) and all(peer.is_closed(0.5) for peer in silent), "somebody who is silent is left")
        agree(half.is_closed(0.5), "somebody who sends no whole line is left")
        agree(not follower.is_closed() and not talker.is_closed(), "somebody is closed who isn't idle")
        agree(talker.ask({"do": "edit", "doc": "d", "n": 2, "base": 1, "ops": [{"insert": "y"}]}).get("rev") == 2, "an edit is refused")
        agree(json.loads(follower.lines.readline()) == {"doc": "d", "news": 2, "ops": [{"insert": "y"}]}, "the news doesn't come")
        late = [Peer(served, f"l{number}") for number in range(PLACES - 2)]
        agree(len(late) == PLACES - 2, "the places aren't free")
        agree(served.hear() == b"", f"it says {served.said}")


def never_idle():
    for options in ([], ["--idle", "0"]):
        with Served(fresh(), *options) as served:
            silent, quiet = Peer(served), Peer(served, "q")
            time.sleep(2.5)
            agree(not silent.is_closed() and not quiet.is_closed(), f"somebody is closed with {options}")


def log_of_numbers():
    """The line of the start, and those of counters, against what clients saw."""
    path = fresh("--docs", "3", "--slots", "3", "--slot", "4096", "--cell", "2048", "--sources", "5", "--keep", "77")
    with Served(path) as served:
        peer = Peer(served, "a")
        agree(taken(peer, "d", 1)["rev"] == 1 and taken(peer, "e", 1)["rev"] == 1, "a creation is refused")
        agree(peer.ask({"do": "edit", "doc": "d", "n": 2, "base": 1, "ops": [{"insert": "y"}]})["rev"] == 2, "an edit is refused")
        agree(served.hear(0.3) == b"", f"without --log it says {served.said}")
    with Served(path, "--log", "--stats", "1") as served:
        event, numbers = served.events(0.3)[0]
        wanted = {"slots": "3", "slot": "4096", "docs": "3", "cell": "2048", "sources": "5", "keep": "77", "documents": "2", "changes": "3", "sessions": "64"}
        agree(event == "start" and {**numbers, **wanted} == numbers, f"it begins with {event} {numbers}")
        version = subprocess.run([richd, "--version"], capture_output=True, text=True).stdout.split()[1]
        agree(numbers["version"] == version and int(numbers["milliseconds"]) < 10_000, f"it begins with {numbers}")
        peer, other = Peer(served, "a"), Peer(served, "b")
        agree(taken(peer, "f", 1)["rev"] == 1 and taken(peer, "f", 1).get("ok") == "again", "a creation")
        agree(taken(peer, "g", 1).get("code") == 20 and taken(other, "f", 1).get("code") == 7, "a refusal")
        agree(taken(other, "f", 1).get("code") == 7 and peer.ask({"do": "undo", "doc": "nothing", "n": 1}).get("code") == 6, "a refusal")
        agree(peer.ask({"do": "edit", "doc": "f", "n": 2, "base": 1, "ops": [{"insert": "y"}]})["rev"] == 2, "an edit is refused")
        time.sleep(2.2)
        events = served.events()
        stats = [numbers for event, numbers in events if event == "stats"]
        agree(2 <= len(stats) <= 4 and len(events) == 1 + len(stats), f"it logs {events}")
        wanted = {"sessions": "2", "taken": "2", "again": "1", "refused_20": "1", "refused_7": "2", "refused_6": "1", "batches": "2", "a_batch": "1.0"}
        wanted |= {"full": "0", "slow": "0", "idle": "0"}
        agree({**stats[-1], **wanted} == stats[-1], f"it counts {stats[-1]}")
        agree({name for name in stats[-1] if name.startswith("refused")} == {"refused_20", "refused_7", "refused_6"}, f"it counts {stats[-1]}")


def log_of_peers():
    """Full places, which are told of once a minute, idle connections and slow ones."""
    with Served(fresh(), "--log", "--idle", "2") as served:
        peers = [Peer(served) for _ in range(PLACES)]
        agree(Peer(served).is_closed(1) and Peer(served).is_closed(1), "there are more places than 64")
        events = served.events(0.5)
        agree([event for event, _ in events] == ["start", "full"], f"it logs {events}")
        agree(all(peer.is_closed(4) for peer in peers), "somebody who is silent is left")
        events = served.events(0.5)
        agree(sum(int(numbers["closed"]) for event, numbers in events if event == "idle") == PLACES, f"it logs {events}")
        agree(sum(event == "full" for event, _ in events) == 1, f"it logs {events}")
    with Served(fresh("--cell", "1048576"), "--log") as served:
        peer = Peer(served, "a")
        agree(taken(peer, "d", 1, "x" * 60_000)["rev"] == 1, "a creation is refused")
        peer.send(b'{"do":"fetch","doc":"d"}\n' * 400)
        events = served.events(20)
        agree([(event, numbers.get("closed")) for event, numbers in events[1:]] == [("slow", "1")], f"it logs {events}")


def log_of_failure():
    """A store that fails, and the end. The line of the failure ends with what was tried and the system's reason."""
    refusal = failing()
    with Served(refusal.store, "--log", "--exit-on-failure", refusal=refusal) as served:
        Peer(served, "a").send(b'{"do":"create","doc":"d","n":1,"ops":[{"insert":"x"}]}\n')
        agree(served.ended(1.5) == 1, "its status isn't 1")
        lines = served.hear(0.2).decode().splitlines()
        agree(len(lines) == 6 and " start " in lines[0] and lines[1] + "\n" == FAULT.decode() and lines[5] + "\n" == STORE_FAILED.decode(), f"it says {lines}")
        agree(re.fullmatch(r"richd: writing \S+/store: .+", lines[2]), f"it says {lines}")
        agree(re.fullmatch(r"\d+\.\d{3} failed refusal 34 " + re.escape(lines[2][len("richd: "):]), lines[3]), f"it says {lines}")
        agree(re.fullmatch(r"\d+\.\d{3} end refusal 21", lines[4]), f"it says {lines}")


def pace(served, source, count=200):
    """The longest wait of so many edits, and of as many connections that are turned away."""
    peer, longest = Peer(served, source), 0.0
    agree(taken(peer, source, 1)["rev"] == 1, "a creation is refused")
    for n in range(2, count):
        began = time.monotonic()
        agree(peer.ask({"do": "edit", "doc": source, "n": n, "base": n - 1, "ops": [{"insert": "y"}]}).get("rev") == n, "an edit is refused")
        longest = max(longest, time.monotonic() - began)
        time.sleep(0.01)
    return longest


def full_pipe():
    """A pipe that takes nothing until it is read."""
    reader, writer = os.pipe()
    os.set_blocking(writer, False)
    try:
        while True:
            os.write(writer, bytes(4096))
    except BlockingIOError:
        os.set_blocking(writer, True)
        return reader, writer


def blocked():
    """Standard error that takes nothing, and one that was closed at its other end, or from the start."""
    longest = {}
    for kind in ("read", "blocked", "closed", "without"):
        reader, writer = full_pipe() if kind == "blocked" else os.pipe()
        if kind == "closed":
            os.close(reader)
        how = {"preexec_fn": lambda: os.close(2)} if kind == "without" else {}
        with Served(fresh(), "--log", "--stats", "1", errors=writer, **how) as served:
            longest[kind] = pace(served, "a")
            agree(served.process.poll() is None, f"it has ended where standard error is {kind}")
        os.close(writer)
        if kind != "closed":
            os.close(reader)
    agree(all(wait < longest["read"] + 0.5 for wait in longest.values()), f"the longest waits are {longest}")


def blocked_at_the_end():
    """A program whose standard error takes nothing ends as fast, by the same status."""
    if not IS_SUPERUSER:
        raise Skipped("no file system can be mounted")
    with full_disk() as path:
        reader, writer = full_pipe()
        with Served(path, "--log", "--exit-on-failure", errors=writer) as served:
            n, reply = edits(Peer(served, "a"), 400)
            agree(reply.get("code") == 21, f"after {n} edits on a full disk comes {reply}")
            agree(served.ended(1.5) == 1, "its status isn't 1")
        os.close(writer)
        os.close(reader)


class full_disk:
    """A file system without room, and a store on it that isn't reserved."""

    def __init__(self, is_reserved=False):
        self.path, self.options = os.path.join(folder, "disk"), ["--reserve"] if is_reserved else []

    def __enter__(self):
        mount(self.path, 1 << 20)
        store = os.path.join(self.path, "store")
        undisturbed("format", store, "--slots", "2", "--slot", "65536", "--docs", "2", "--cell", "32768", *self.options)
        with open(os.path.join(self.path, "rest"), "wb") as rest:
            try:
                while True:
                    os.write(rest.fileno(), bytes(1 << 12))
            except OSError:
                pass
        return store

    def __exit__(self, *_cause):
        subprocess.run(["umount", self.path], check=True)


def mount(path, size):
    os.makedirs(path, exist_ok=True)
    mounted = subprocess.run(["mount", "-t", "tmpfs", "-o", f"size={size}", "tmpfs", path], capture_output=True, text=True)
    if mounted.returncode:
        raise Skipped(f"no file system can be mounted: {mounted.stderr.strip()}")


def reserve():
    """The room of a file, and what a full disk does to it."""
    for options, is_whole in (([], False), (["--reserve"], True)):
        path = fresh(*options)
        found = os.stat(path)
        agree(found.st_size == 35_651_648, f"it has {found.st_size} bytes")
        agree((found.st_blocks * 512 >= found.st_size) == is_whole, f"{options}: it takes {found.st_blocks * 512} bytes of the disk")
    plain, whole = fresh(*S), fresh(*S, "--reserve")
    agree(content_of(plain) == content_of(whole), "the bytes differ")
    there = os.path.join(folder, "there")
    with open(there, "wb") as file:
        file.truncate(1 << 20)
    undisturbed("format", there, *S, "--reserve")
    agree(os.stat(there).st_blocks * 512 < 1 << 20, "a file that was there is written whole")
    if not IS_SUPERUSER:
        raise Skipped("no file system can be mounted")
    path = os.path.join(folder, "disk")
    mount(path, 1 << 20)
    try:
        done = subprocess.run([richd, "format", path + "/store", "--reserve"], capture_output=True, timeout=PATIENCE)
        agree(done.returncode == 1 and re.fullmatch(re.escape(FAULT) + rb"richd: writing \S+/store: No space left on device.*\n", done.stderr), f"it says {done.stderr}")
        agree(os.listdir(path) == [], f"it leaves {os.listdir(path)}")
    finally:
        subprocess.run(["umount", path], check=True)
    for is_reserved in (True, False):
        with full_disk(is_reserved) as store, Served(store) as served:
            n, reply = edits(Peer(served, "a"), 400)
            agree(reply.get("ok") == "taken" if is_reserved else reply.get("code") == 21, f"after {n} edits on a full disk comes {reply}")


def rights():
    """Whose a file is that is made, whatever the umask."""
    def made_by(*words):
        subprocess.run([richd, *words], check=True, timeout=PATIENCE, preexec_fn=lambda: os.umask(0))
        return stat.S_IMODE(os.stat(words[2] if words[0] != "format" else words[1]).st_mode)

    path, old = os.path.join(folder, "mine"), os.path.join(folder, "old")
    rows = {"format": made_by("format", path, *S), "copy": made_by("copy", path, path + "2")}
    with open(old, "wb") as file:
        file.write(in_first_format(content_of(path)))
    rows["migrate"] = made_by("migrate", old, path + "3")
    rows["reserve"] = made_by("format", path + "4", *S, "--reserve")
    agree(set(rows.values()) == {0o600}, f"the rights are { {name: oct(mode) for name, mode in rows.items()} }")


def delta(given, *words):
    done = subprocess.run([richd, "delta", *words], input=given, capture_output=True, timeout=PATIENCE)
    return done.returncode, done.stdout, done.stderr


def deltas_on_lines():
    """The same answers as by words, and lines that can't be used."""
    abc, cut = '{"ops":[{"insert":"abc"}]}', '{"ops":[{"retain":1},{"delete":1}]}'
    rows = [["compose", abc, cut], ["transform", abc, cut], ["transform", abc, cut, "--first"], ["invert", cut, abc], ["apply", abc, cut]]
    rows += [["compose", "x", cut], ["apply", '{"ops":[{"insert":"\U0001f600"}]}', cut], ["compose", "", ""], ["compose", "-", "-"]]
    for name, first, second, *flags in rows:
        by_words = delta(b"", name, first, second, *flags)
        agree(by_words[0] in (0, 1), f"{name} {first} {second}: {by_words}")
        for end in ("\n", ""):
            agree(delta(f"{first}\n{second}{end}".encode(), name, *flags, "--stdin") == by_words, f"{name} {first} {second}")
    agree(delta(f"{abc}\n{cut}".encode(), "compose", "-", "-")[2] == b"error 1 BadLine\n", "a - is read from standard input")
    longest = '{"ops":[{"insert":"%s"}]}' % ("x" * (131_071 - len('{"ops":[{"insert":""}]}')))
    agree(delta(f"{longest}\n{longest}\n".encode(), "compose", "--stdin") == delta(b"", "compose", longest, longest), "the longest word")
    agree(delta(longest.encode() + b"\n" + abc.encode(), "compose", "--stdin")[0] == 0, "the longest word")
    for given in (b"", abc.encode(), abc.encode() + b"\n" + b"\xff\n", (abc + "\n") * 3, longest + "x\n" + abc, abc + "\n" + longest + "x", "x" * 300_000, "\n\n\n"):
        status, output, errors = delta(given if isinstance(given, bytes) else given.encode(), "compose", "--stdin")
        agree((status, output) == (2, b"") and errors.startswith(b"error: ") and b"Usage: richd delta" in errors, f"{given[:50]}: {status}, {errors}")


def words():
    """Words that can't be used, and what is told of the others."""
    store = fresh(*S)
    serve = ["serve", store]
    bad = [[*serve, "--idle", "5"], [*serve, "--exit-on-failure"], [*serve, "--until-closed"], [*serve, "--log"], [*serve, "--log", "--stats", "1"]]
    listen = [*serve, "--listen", "127.0.0.1:0"]
    bad += [[*listen, "--stats", "1"], [*listen, "--idle", "-1"], [*listen, "--idle", "86401"], [*listen, "--log", "--stats", "x"], [*listen, "--log=yes"]]
    bad += [["dump", store, "--log"], ["format", store, "--reserve", "now"], ["copy", store, store + "2", "--reserve"], ["delta", "compose", "x", "--stdin"]]
    for row in bad:
        done = subprocess.run([richd, *row], capture_output=True, timeout=PATIENCE, stdin=subprocess.DEVNULL)
        agree((done.returncode, done.stdout) == (2, b"") and done.stderr.startswith(b"error: "), f"{row}: {done}")
    helps = {"serve": ["--idle", "--exit-on-failure", "--until-closed", "--log", "--stats"], "format": ["--reserve"]}
    for name, options in [*helps.items(), ("delta compose", ["--stdin"])]:
        shown = subprocess.run([richd, *name.split(), "--help"], capture_output=True, text=True, timeout=PATIENCE).stdout
        agree(all(option in shown for option in options), f"{name} --help says {shown}")


IS_SUPERUSER = os.geteuid() == 0
ROWS = [words, deltas_on_lines, rights, reserve, exit_on_failure, goes_on_failed, until_closed, idle, never_idle]
ROWS += [log_of_numbers, log_of_peers, log_of_failure, blocked, blocked_at_the_end]
with tempfile.TemporaryDirectory() as folder:
    library = library_in(folder)
    play_each([row for row in ROWS if row.__name__ in sys.argv[1:] or len(sys.argv) < 2])
