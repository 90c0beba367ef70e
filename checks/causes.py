#!/usr/bin/env python3
"""Checks what richd says of a store or an address that can't be had, and of a store that fails while it is served.

usage: checks/causes.py

A store can't be had where its folder or its file is missing, where it is a folder, where its file mayn't be read, is locked, or has no room on the
disk; an address can't be had where it is another machine's, is taken, or means none. Each command then prints `error 34 Fault` on standard error
and on a second line `richd: `, what was tried with what, and the system's reason; its status is 1. Refusals of other numbers stay one line.

A store that fails while it is served has its refusal on standard error at that moment, once, over TCP and over standard input. Each command from
then on gets StoreFailed, and a session over standard input ends with `error 21 StoreFailed`, status 1.

Each file that is there when a command opens it is locked, synced and dropped from the system's memory whole, in this order, before anything else is
done with it: strace shows that. A command whose file can't be dropped says so as above. A file that is made is synced, and its folder is, before it
is written to.

Run ./demo first, which builds crates/richd/out/richd, or name another program in RICHD. It needs a C compiler, `cc`; a full disk, for which a
small file system is mounted, and a file that mayn't be read, for which it takes the user nobody, are tried by the superuser alone, and what strace
shows where it may trace. The stores lie in a temporary folder (TMPDIR).
"""
import fcntl
import json
import os
import re
import select
import shutil
import signal
import socket
import subprocess
import tempfile
import time
from pathlib import Path

from first_format import in_first_format
from refusing import FAULT, PATIENCE, STORE_FAILED, S, Disagreement, Refusal, Skipped, agree, content_of, library_in, play_each, richd, undisturbed

MISSING, IS_FOLDER, NO_LEAVE = "no such file or directory|not found", "is a directory", "permission denied"
LOCKED, NO_ROOM = "another program has it open|would block|temporarily unavailable", "no space left"
NO_ADDRESS = "cannot assign|not available|invalid|no such host|not known|name resolution|lookup"
TAKEN = "address (already )?in use"
IS_SUPERUSER = os.geteuid() == 0


def run(*words, **how):
    return subprocess.run([program, *words], stdin=subprocess.DEVNULL, capture_output=True, timeout=PATIENCE, **how)


def is_fault(errors, what, reason):
    """Two lines: the refusal, and what was tried with what and why it failed."""
    found = errors.decode(errors="replace").split("\n")
    agree(len(found) == 3 and found[0] + "\n" == FAULT.decode() and found[2] == "", f"it says {errors!r}")
    cause = re.fullmatch(r"richd: (\w[\w ]*?) (\S+): (.+)", found[1])
    agree(cause and cause[2] == what, f"it says {found[1]!r}, of {what}")
    agree(re.search(reason, cause[3], re.I), f"its reason is {cause[3]!r}, and not {reason!r}")


def refused(words, what, reason, **how):
    done = run(*words, **how)
    agree((done.returncode, done.stdout) == (1, b""), f"status {done.returncode}, it prints {done.stdout[:200]!r}")
    is_fault(done.stderr, what, reason)


def commands(path):
    """Each command that opens a store that is there."""
    serves = [["serve", path], ["serve", path, "--listen", "127.0.0.1:0"]]
    return [["format", path], ["dump", path], ["info", path], ["check", path], *serves, ["migrate", path, fresh()], ["copy", path, fresh()]]


def fresh():
    return os.path.join(folder, "fresh")


def missing():
    """A folder, and a file, that isn't there."""
    for path in (os.path.join(folder, "nowhere/store"), os.path.join(store, "below")):
        reason = MISSING if "nowhere" in path else "not a directory"
        for words in [*commands(path), ["migrate", old, path]]:
            refused(words, path, reason)
    path = os.path.join(folder, "nothing")
    for words in commands(path)[1:]:
        refused(words, path, MISSING)
    agree(not os.path.exists(path) and not os.path.exists(fresh()), "a file was made")


def a_folder():
    for words in [*commands(folder), ["migrate", old, folder]]:
        refused(words, folder, IS_FOLDER)


def no_leave():
    """A file that may be read by its owner alone."""
    path = os.path.join(folder, "private")
    shutil.copyfile(store, path)
    os.chmod(path, 0)
    how = {"user": "nobody", "group": "nogroup", "extra_groups": []} if IS_SUPERUSER else {}
    before = content_of(path) if IS_SUPERUSER else None
    for words in [*commands(path), ["migrate", old, path]]:
        refused(words, path, NO_LEAVE, **how)
    if IS_SUPERUSER:
        closed = os.path.join(folder, "closed")
        os.mkdir(closed, 0o700)
        for words in (["format", closed + "/store"], ["dump", closed + "/store"]):
            refused(words, closed + "/store", NO_LEAVE, **how)
        agree(content_of(path) == before, "the file has changed")
        os.chmod(closed, 0o755)
        refused(["format", closed + "/store"], closed + "/store", NO_LEAVE, **how)  # the folder takes no new file
    os.unlink(path)


def locked():
    with open(store, "rb") as file:
        fcntl.flock(file, fcntl.LOCK_EX)
        for words in [*commands(store), ["migrate", old, store]]:
            refused(words, store, LOCKED)
    agree(content_of(store) == made, "the store has changed")


def addresses():
    with socket.create_server(("127.0.0.1", 0)) as other:
        taken = f"127.0.0.1:{other.getsockname()[1]}"
        for address, reason in [("192.0.2.1:7000", NO_ADDRESS), (taken, TAKEN), ("127.0.0.1:99999", ""), ("7000", ""), ("", "")]:
            words = ["serve", store, "--listen", address]
            done = run(*words)
            agree((done.returncode, done.stdout) == (1, b""), f"{address}: status {done.returncode}, it prints {done.stdout[:200]!r}")
            if address:
                is_fault(done.stderr, address, reason)
            else:
                agree(done.stderr.startswith(FAULT + b"richd: ") and done.stderr.count(b"\n") == 2, f"it says {done.stderr}")
    agree(content_of(store) == made, "the store has changed")


def one_line():
    """Refusals of other numbers, and words that can't be used."""
    empty = os.path.join(folder, "empty")
    with open(empty, "wb") as file:
        file.write(bytes(4096))
    rows = [(["format", store], b"error 31 AlreadyFormatted\n"), (["dump", empty], b"error 30 NotFormatted\n")]
    rows += [(["dump", old], b"error 38 OldFormat\n"), (["format", fresh(), "--slots", "1"], b"error 33 BadShape\n")]
    rows += [(["copy", old, fresh()], b"error 38 OldFormat\n"), (["copy", store, fresh(), "--docs", "1"], b"error 33 BadShape\n")]
    rows += [(["migrate", store, fresh()], b"error 39 NotOldFormat\n"), (["delta", "compose", "x", "y"], b"error 1 BadLine\n")]
    for words, wanted in rows:
        done = run(*words)
        agree(done.returncode == 1 and done.stdout == b"" and re.fullmatch(rb"error \d+ \w+\n", done.stderr), f"{words}: {done}")
        agree(done.stderr.split()[1] == wanted.split()[1], f"{words}: it says {done.stderr}")


def disk_of(size):
    """A file system of so many bytes."""
    path = os.path.join(folder, "disk")
    os.makedirs(path, exist_ok=True)
    mounted = subprocess.run(["mount", "-t", "tmpfs", "-o", f"size={size}", "tmpfs", path], capture_output=True, text=True)
    if mounted.returncode:
        raise Skipped(f"no file system can be mounted: {mounted.stderr.strip()}")
    return path


def full_disk():
    """`format` on a disk without room, and a store that is served on one that is full."""
    path = disk_of(8192)
    try:
        refused(["format", path + "/store"], path + "/store", NO_ROOM)
    finally:
        subprocess.run(["umount", path], check=True)
    path = disk_of(1 << 20)
    try:
        undisturbed("format", path + "/store", "--slots", "2", "--slot", "65536")
        with open(path + "/rest", "wb") as rest:
            try:
                while True:
                    os.write(rest.fileno(), bytes(1 << 12))
            except OSError:
                pass
        for is_listening in (False, True):
            fails(is_listening, path + "/store", None, NO_ROOM)
    finally:
        subprocess.run(["umount", path], check=True)


class Served:
    """A session of a server, and what it says on standard error."""

    def __init__(self, path, is_listening, refusal):
        words = ["serve", path, *(["--listen", "127.0.0.1:0"] if is_listening else [])]
        how = {"stdin": subprocess.PIPE, "stdout": subprocess.PIPE}
        if refusal:
            self.process = refusal.start(words, **how)
        else:
            self.process = subprocess.Popen([program, *words], stderr=subprocess.PIPE, bufsize=0, **how)
        self.connection, self.said = None, b""
        self.sends, self.replies = self.process.stdin.write, self.process.stdout
        if is_listening:
            self.connection = socket.create_connection(("127.0.0.1", int(self.process.stdout.readline().rsplit(b":", 1)[1])), PATIENCE)
            self.sends, self.replies = self.connection.sendall, self.connection.makefile("rb")

    def ask(self, message):
        self.sends(json.dumps(message).encode() + b"\n")
        reply = self.replies.readline()
        agree(reply.endswith(b"\n"), f"{message['do']} gets {reply}")
        return json.loads(reply)

    def hears(self, seconds):
        """What has come on standard error within so many seconds, since the last time."""
        until, came = time.monotonic() + seconds, b""
        while (left := until - time.monotonic()) > 0 and select.select([self.process.stderr], [], [], left)[0]:
            piece = os.read(self.process.stderr.fileno(), 1 << 16)
            if not piece:
                break
            came += piece
            until = min(until, time.monotonic() + 0.3)
        return came

    def end(self):
        if self.connection is not None:
            self.connection.close()
            self.process.terminate()
        self.process.stdin.close()
        self.process.wait(PATIENCE)
        rest = self.process.stderr.read()
        for stream in (self.process.stdout, self.process.stderr):
            stream.close()
        return self.process.returncode, rest


def fails(is_listening, path, refusal, reason):
    """Edits until the store fails, which is told at once, and never again."""
    served = Served(path, is_listening, refusal)
    try:
        agree(served.ask({"do": "hello", "source": f"s{is_listening}"}) == {"ok": "hello"}, "hello is refused")
        for n in range(1, 400):
            reply = served.ask({"do": "create", "doc": f"d{is_listening}{n}", "n": 1, "ops": [{"insert": "x" * 4000}]})
            if "code" in reply:
                break
        agree(reply.get("code") == 21, f"creation {n} gets {reply}")
        is_fault(served.hears(2), path, reason)
        for _ in range(3):
            reply = served.ask({"do": "create", "doc": "late", "n": 1, "ops": []})
            agree(reply.get("code") == 21, f"a later creation gets {reply}")
        again = served.hears(0.5)
        agree(again == b"", f"it says more: {again}")
    finally:
        status, rest = served.end()
    if is_listening:
        agree(rest == b"", f"at its end it says {rest}")
    else:
        agree((status, rest) == (1, STORE_FAILED), f"its end is {status}, {rest}")


def failing_store():
    """A write, or a sync, of a store that is served fails."""
    for kind, how in (("write", "none"), ("write", "half"), ("sync", "none")):
        for is_listening in (False, True):
            for later in (1, 4):
                place = tempfile.mkdtemp(dir=folder)
                opening = Refusal(library, place, kind, 0, how)
                undisturbed("format", opening.store)
                opening.run(["dump", opening.store])
                refusal = Refusal(library, place, kind, opening.count() + later, how)
                try:
                    fails(is_listening, refusal.store, refusal, "input/output error|i/o error")
                except Disagreement as disagreement:
                    raise Disagreement(f"{kind} {later} ({how}), {'over TCP' if is_listening else 'over pipes'}: {disagreement}") from None


# What is done first with a file that is there, as strace prints it. Looks at its length aside, nothing comes in between.
SETTLED = ["openat(..) = FILE", "flock(FILE, LOCK_EX|LOCK_NB) = 0", "fdatasync(FILE) = 0", "fadvise64(FILE, 0, 0, POSIX_FADV_DONTNEED) = 0"]
LOOKS = ("statx(", "newfstatat(", "fstat(", "fcntl(")


def traced(words, *options):
    """Runs a command under strace, a server until it listens: what came of it, and its calls on files and folders."""
    log = os.path.join(folder, "calls")
    command = ["strace", "-f", "-y", "-e", "trace=%desc", "-o", log, *options, program, *words]
    pipes = {"stdin": subprocess.DEVNULL, "stdout": subprocess.PIPE, "stderr": subprocess.PIPE}
    with subprocess.Popen(command, start_new_session=True, **pipes) as process:
        if "--listen" in words and process.stdout.readline():
            os.killpg(process.pid, signal.SIGTERM)
        output, errors = process.communicate(timeout=PATIENCE)
    return subprocess.CompletedProcess(words, process.returncode, output, errors), content_of(log).decode(errors="replace").splitlines()


def calls_on(path, lines):
    """Those on a file, which is called FILE in them."""
    named = re.compile(rf"\d+<{re.escape(os.path.realpath(path))}>")
    calls = (named.sub("FILE", re.sub(r"^\d+ +", "", line)) for line in lines if named.search(line))
    return [re.sub(r" +=", " =", re.sub(r"openat\(.*\)", "openat(..)", call)) for call in calls]


def may_trace():
    if shutil.which("strace") is None or subprocess.run(["strace", "-o", os.devnull, "true"], capture_output=True).returncode:
        raise Skipped("there is no strace, or it may not trace")


def there():
    """A file that is there and holds no store, as long as one."""
    path = os.path.join(folder, "there")
    with open(path, "wb") as file:
        file.write(bytes(len(made)))
    return path


def openings():
    """Each command that opens a file that is there, with all such files that it opens."""
    yield ["format", there(), *S], [there()]
    for words in (["dump"], ["dump", "--pick", "older"], ["info"], ["check"], ["serve"], ["serve", "--listen", "127.0.0.1:0"]):
        yield [words[0], store, *words[1:]], [store]
    for command, path in (("copy", store), ("migrate", old)):
        yield [command, path, fresh()], [path]
        Path(fresh()).unlink(missing_ok=True)
        yield [command, path, there()], [path, there()]


def settled():
    may_trace()
    for words, paths in openings():
        done, lines = traced(words)
        agree(done.returncode == (-signal.SIGTERM if "--listen" in words else 0), f"{words}: {done}")
        for path in paths:
            calls = calls_on(path, lines)
            first = [call for call in calls if not call.startswith(LOOKS)][: len(SETTLED)]
            agree(first == SETTLED, f"{words} begins with {first} on {path}")
            agree(sum(call.startswith("openat") for call in calls) == 1, f"{words} opens {path} once more")


def not_dropped():
    may_trace()
    for words, paths in openings():
        for number, path in enumerate(paths, 1):
            before = content_of(path)
            done, lines = traced(words, "-e", f"inject=fadvise64:error=EIO:when={number}")
            agree((done.returncode, done.stdout) == (1, b""), f"{words}: {done}")
            is_fault(done.stderr, path, "input/output error|i/o error")
            agree(content_of(path) == before, f"{words} has changed {path}")
            agree(not [call for call in calls_on(path, lines) if call.startswith(("read", "pread", "write", "pwrite"))], f"{words} goes on with {path}")
    done, _ = traced(["format", fresh(), *S], "-e", "inject=fadvise64:error=EIO")
    is_fault(done.stderr, fresh(), "input/output error|i/o error")
    agree(not os.path.exists(fresh()), "a file that can't be dropped is left")


def made_files():
    """The new file and its folder are synced before anything is written to it."""
    may_trace()
    for words in (["format", fresh(), *S], ["format", fresh(), *S, "--reserve"], ["copy", store, fresh()], ["migrate", old, fresh()]):
        done, lines = traced(words)
        agree(done.returncode == 0, f"{words}: {done}")
        of_folder = [number for number, line in enumerate(lines) if re.search(rf" fsync\(\d+<{re.escape(os.path.realpath(folder))}>\) += 0", line)]
        first = next(number for number, line in enumerate(lines) if " pwrite64(" in line and os.path.realpath(fresh()) in line)
        agree(of_folder and of_folder[0] < first, f"{words} writes before the folder is synced")
        calls = calls_on(fresh(), lines[:first])
        agree("fdatasync(FILE) = 0" in calls[calls.index(f"ftruncate(FILE, {os.path.getsize(fresh())}) = 0") :], f"{words} begins with {calls}")
        os.unlink(fresh())


ROWS = [missing, a_folder, no_leave, locked, addresses, one_line, full_disk, failing_store, settled, not_dropped, made_files]
with tempfile.TemporaryDirectory() as folder:
    os.chmod(folder, 0o755)
    program = shutil.copy(richd, os.path.join(folder, "richd"))  # where nobody can run it
    os.chmod(program, 0o755)
    library = library_in(folder)
    store, old = os.path.join(folder, "store"), os.path.join(folder, "old")
    undisturbed("format", store, *S)
    made = content_of(store)
    with open(old, "wb") as file:
        file.write(in_first_format(made))
    os.chmod(old, 0o666)
    play_each(ROWS)
