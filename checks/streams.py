#!/usr/bin/env python3
"""Runs each command of richd with each of the standard streams closed, and with each two, and all three. And interrupts its reads.

usage: checks/streams.py

A file that a program opens gets the lowest number that is free. So a store that is opened while standard input, output or the errors' stream is
closed could get its number, and what the program prints would stand over the store. A row is a command: `format`, `dump`, `migrate`, `copy`, `delta`,
`serve` over standard input and with `--listen`. Over each subset of the three streams:

- the store holds what it holds where none is closed, byte for byte where the command only reads;
- the streams that are open get what they get then, and the status is the same;
- where standard input is closed, `serve` takes nothing for a line, though lines stand in the text of a document of the store;
- a server that runs has /dev/null under each number that was closed;
- where /dev/null can't be opened the program ends with `error 34 Fault`, its cause, and status 1, and the store is unchanged, or not made.

Then `serve` is played with a read of standard input, or of a connection, that a signal cuts short, and with more than 200,000 reads, each of
one byte: each line gets its reply.

Run ./demo first, which builds crates/richd/out/richd, or name another program in RICHD. It needs a C compiler, `cc`, and Linux's /proc. The
stores lie in a temporary folder (TMPDIR).
"""
import itertools
import json
import os
import shutil
import socket
import subprocess
import sys
import tempfile
import time

from first_format import in_first_format
from refusing import FAULT, PATIENCE, S, Disagreement, Refusal, agree, content_of, library_in, refusals_of, richd, undisturbed

SUBSETS = [closed for count in range(4) for closed in itertools.combinations(range(3), count)]
LINES = b'{"do":"hello","source":"x"}\n{"do":"create","doc":"stolen","n":1,"ops":[{"insert":"!"}]}\n'
GREETING = b'{"ok":"hello"}\n'
BAD_LINE = b'{"code":1,"error":"BadLine"}\n'
READS, LONG = 200_000, 2_000  # reads of one byte, and the bytes of a line
WIDE = ["--slots", "2", "--slot", "4096", "--docs", "4", "--cell", "4096", *S[8:]]


def lines(source, *messages):
    return b"".join(json.dumps(it).encode() + b"\n" for it in ({"do": "hello", "source": source}, *messages))


def creation(doc, text):
    return {"do": "create", "doc": doc, "n": 1, "ops": [{"insert": text}]}


def dumps(store):
    """What a store holds by each pick."""
    return [undisturbed("dump", store, "--pick", pick) for pick in ("newer", "older")]


class Run:
    """A command that runs, with some of its streams closed."""

    def __init__(self, words, closed, given, variables=None):
        def close():
            for stream in closed:
                os.close(stream)

        pipes = {"stdin": subprocess.PIPE, "stdout": subprocess.PIPE, "stderr": subprocess.PIPE}
        self.given, self.closed = b"" if 0 in closed else given, closed
        self.process = subprocess.Popen([richd, *words], env=variables, preexec_fn=close, **pipes)

    def end(self):
        """The status, the output and the refusals. The pipes of the streams that are closed give nothing."""
        try:
            output, errors = self.process.communicate(self.given, PATIENCE)
        except subprocess.TimeoutExpired:
            self.process.kill()
            self.process.communicate()
            raise Disagreement(f"it didn't end within {PATIENCE} s") from None
        return self.process.returncode, output, refusals_of(errors)

    def check_null_soon(self):
        """Waits for the threads of a server, where it reads, and looks at the streams that were closed."""
        until = time.monotonic() + PATIENCE
        while 0 not in self.closed and self.process.poll() is None and time.monotonic() < until:
            if len(os.listdir(f"/proc/{self.process.pid}/task")) > 1:
                self.check_null()
                return
            time.sleep(0.01)

    def check_null(self):
        """Each stream that was closed is the null device."""
        for stream in self.closed:
            try:
                named = os.readlink(f"/proc/{self.process.pid}/fd/{stream}")
            except FileNotFoundError:
                named = "nothing"
            agree(named == "/dev/null", f"stream {stream} is {named}")


def run(words, closed, given=b"", variables=None):
    return Run(words, closed, given, variables).end()


def ends_as(ended, closed, wanted):
    """A run ends as one does whose streams are open, so far as it is seen."""
    status, output, errors = wanted
    wanted = status, b"" if 1 in closed else output, b"" if 2 in closed else errors
    agree(ended == wanted, f"it gives {ended} and not {wanted}")


class Folder:
    """What a row plays with: a store, which is made anew for each play, and the paths of others."""

    def __init__(self, path):
        self.path = path
        self.store, self.new, self.wanted, self.old = (os.path.join(path, name) for name in ("store", "new", "wanted", "old"))
        self.made = os.path.join(path, "made")
        undisturbed("format", self.made, *WIDE)
        text = f"my only letter\n{LINES.decode()}"
        done = run(["serve", self.made], (), lines("a", creation("d", text), creation("e", "x")))
        agree(done[0] == 0 and done[1].count(b"taken") == 2, f"the store can't be made: {done}")
        with open(self.old, "wb") as file:
            file.write(in_first_format(content_of(self.made)))

    def begin(self):
        shutil.copyfile(self.made, self.store)
        for path in (self.new, self.wanted):
            if os.path.exists(path):
                os.unlink(path)

    def is_whole(self):
        agree(content_of(self.store) == content_of(self.made), f"the store's bytes have changed, and begin with {content_of(self.store)[:40]!r}")


def makes(*words):
    """A command that makes a store."""

    def play(folder, closed, variables=None):
        def over(new):
            paths = {"OLD": folder.old, "STORE": folder.store, "NEW": new}
            return [paths.get(word, word) for word in words]

        before = content_of(folder.old)
        ended = run(over(folder.new), closed, variables=variables)
        agree(content_of(folder.old) == before, "the old store's bytes have changed")
        if variables is None:
            ends_as(ended, closed, run(over(folder.wanted), ()))
            agree(content_of(folder.new) == content_of(folder.wanted), "the new store isn't what it should be")
        else:
            agree(not os.path.exists(folder.new), "a file was made")
        return ended

    return play


def reads(*words):
    """A command that only reads the store."""

    def play(folder, closed, variables=None):
        command = [folder.store if word == "STORE" else word for word in words]
        ended = run(command, closed, variables=variables)
        folder.is_whole()
        if variables is None:
            ends_as(ended, closed, run(command, ()))
        return ended

    return play


EDIT = {"do": "edit", "doc": "d", "n": 1, "base": 1, "ops": [{"insert": "Dear all, "}]}


def serve_alone(folder, closed, variables=None):
    """A session over standard input, which is closed or gives three lines."""
    given = lines("b", EDIT, {"do": "fetch", "doc": "e"})
    if variables is None:
        serving = Run(["serve", folder.store], closed, given)
        try:
            serving.check_null_soon()
        finally:
            ended = serving.end()
        shutil.copyfile(folder.made, folder.new)
        ends_as(ended, closed, run(["serve", folder.new], (), b"" if 0 in closed else given))
        agree(dumps(folder.store) == dumps(folder.new), "the store doesn't hold what it should")
    else:
        ended = run(["serve", folder.store], closed, given, variables)
    if 0 in closed or variables is not None:
        folder.is_whole()
    return ended


def free_port():
    with socket.create_server(("127.0.0.1", 0)) as listener:
        return listener.getsockname()[1]


def serve_on(folder, closed, variables=None):
    """A session over TCP."""
    port = free_port()
    words = ["serve", folder.store, "--listen", f"127.0.0.1:{port}"]
    if variables is not None:
        ended = run(words, closed, variables=variables)
        folder.is_whole()
        return ended
    serving, connection = Run(words, closed, b""), None
    try:
        until = time.monotonic() + PATIENCE
        while connection is None:
            agree(serving.process.poll() is None and time.monotonic() < until, f"it doesn't listen, status {serving.process.poll()}")
            try:
                connection = socket.create_connection(("127.0.0.1", port), PATIENCE)
            except OSError:
                time.sleep(0.02)
        replies = connection.makefile("rb")
        connection.sendall(lines("b", EDIT))
        got = [replies.readline() for _ in range(2)]
        agree(got[0] == GREETING and b'"taken"' in got[1], f"it answers {got}")
        serving.check_null()
        connection.close()
    finally:
        serving.process.terminate()
        output, errors = serving.process.communicate()
    agree(output == (b"" if 1 in closed else b"listening 127.0.0.1:%d\n" % port), f"it prints {output[:200]!r}")
    agree(errors == b"", f"it says {errors[:200]!r}")
    shutil.copyfile(folder.made, folder.new)
    run(["serve", folder.new], (), lines("b", EDIT))
    agree(dumps(folder.store) == dumps(folder.new), "the store doesn't hold what it should")


ROWS = {
    "format": makes("format", "NEW", *WIDE),
    "format of a store": reads("format", "STORE"),
    "dump": reads("dump", "STORE"),
    "dump by the older pick": reads("dump", "STORE", "--pick", "older"),
    "migrate": makes("migrate", "OLD", "NEW"),
    "copy": makes("copy", "STORE", "NEW"),
    "delta": reads("delta", "compose", '{"ops":[{"insert":"abc"}]}', '{"ops":[{"retain":1},{"delete":1}]}'),
    "serve over standard input": serve_alone,
    "serve --listen": serve_on,
}


def play_closed(row, folder, closed):
    folder.begin()
    row(folder, closed)


def play_without_device(row, folder, closed, library):
    """The null device can't be opened: the first of those that are needed, or the second, or the third."""
    for at in range(1, len(closed) + 1):
        folder.begin()
        refusal = Refusal(library, folder.path, "null", at, more="onward")
        ended = row(folder, closed, refusal.variables)
        agree(refusal.met(), "nothing tried to open the null device")
        ends_as(ended, closed, (1, b"", FAULT))


class Session:
    """A session over standard input, or over a connection, whose reads are refused."""

    def __init__(self, folder, refusal):
        folder.begin()
        words = ["serve", folder.store] + (["--listen", "127.0.0.1:0"] if refusal.kind == "peer" else [])
        self.process = refusal.start(words, stdin=subprocess.PIPE, stdout=subprocess.PIPE)
        self.connection, self.sends, self.replies = None, self.process.stdin.write, self.process.stdout
        if refusal.kind == "peer":
            port = int(self.process.stdout.readline().rsplit(b":", 1)[1])
            self.connection = socket.create_connection(("127.0.0.1", port), PATIENCE)
            self.sends, self.replies = self.connection.sendall, self.connection.makefile("rb")

    def ask(self, line):
        """The reply to a line, nothing where the session has ended."""
        try:
            self.sends(line)
            return self.replies.readline()
        except (BrokenPipeError, ConnectionError):
            return b""

    def end(self):
        if self.connection is not None:
            self.connection.close()
            self.process.terminate()
        try:
            self.process.stdin.close()
        except BrokenPipeError:
            pass
        status = self.process.wait(PATIENCE)
        agree(self.connection is not None or status == 0, f"status {status}")


def play_interrupted(folder, library, kind, at):
    """A read is cut short, and each line gets its reply all the same."""
    refusal = Refusal(library, folder.path, kind, at)
    session = Session(folder, refusal)
    try:
        for line in lines("b", EDIT, {"do": "fetch", "doc": "d"}, {"do": "undo", "doc": "d", "n": 2}).splitlines(keepends=True):
            reply = session.ask(line)
            agree(b'"code"' not in reply and reply.endswith(b"\n"), f"{line!r} gets {reply!r}")
        agree(refusal.met(), "no read was cut short")
    finally:
        session.end()


def play_many(folder, library, kind):
    """Each read gives one byte."""
    refusal = Refusal(library, folder.path, kind, 1, "short", "onward")
    session = Session(folder, refusal)
    try:
        for number in range(READS // LONG + 1):
            reply = session.ask(b" " * (LONG - 1) + b"\n")
            agree(reply == BAD_LINE, f"after some {number * LONG} reads the reply is {reply!r}")
        agree(refusal.count() > READS, f"it has made {refusal.count()} reads")
    finally:
        session.end()


played, failed = 0, 0


def play(name, call, *words):
    global played, failed
    played += 1
    try:
        call(*words)
    except Disagreement as disagreement:
        failed += 1
        print(f"FAILED  {name}: {disagreement}", flush=True)


with tempfile.TemporaryDirectory() as place:
    folder, library = Folder(place), library_in(place)
    for name, row in ROWS.items():
        before = failed
        for closed in SUBSETS:
            said = ", ".join("input output errors".split()[stream] for stream in closed) or "nothing"
            play(f"{name}, closed: {said}", play_closed, row, folder, closed)
            if closed:
                play(f"{name}, closed: {said}, and no null device", play_without_device, row, folder, closed, library)
        print(f"{'FAILED' if failed > before else 'ok':7} {name}", flush=True)
    for kind, of in (("input", "standard input"), ("peer", "a connection")):
        for at in (1, 2, 3):
            play(f"read {at} of {of} is cut short", play_interrupted, folder, library, kind, at)
        play(f"{READS} reads of {of}", play_many, folder, library, kind)
print(f"{'FAILED' if failed else 'ok'}: {played} runs with streams closed or reads cut short, {failed} failed")
sys.exit(1 if failed else 0)
