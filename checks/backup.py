#!/usr/bin/env python3
"""Copies the store of a server under load by examples/backup, ends some of these copies early, and opens each that is made.

usage: checks/backup.py [COPIES]     (default: 30 copies a file system)

Eight writers put words into documents that all share, take some back, and delete documents of their own. The store lies in the temporary folder (TMPDIR),
and on file systems of its own, xfs and btrfs, where these can be made and mounted; on those the server isn't stopped. Each copy has to open, by the
newer milestones and by the older, and to hold all that was acknowledged before it began, and nothing that nobody sent. A third of the scripts
are ended at random moments, by SIGINT, SIGTERM or SIGKILL: then the server goes on, and there is a whole copy or none. At last the
server ends, and the copy of a store that nobody serves is made. `python3 -m richd jump` makes one of it that may be put back: it holds the same
at revisions that nobody has seen, where a command of before is answered again, and a revision of before is too old.

Run ./demo first, which builds crates/richd/out/richd, or name another program in RICHD.
"""
import os
import random
import signal
import subprocess
import sys
import tempfile
import time

from loading import DELETED, PATIENCE, TOO_OLD, Place, Session, Writer, agrees, agrees_with, dumped, format_store, percentile, richd, snapshot, tool
from richd.jumping import JUMP

copies = int(sys.argv[1]) if len(sys.argv) > 1 else 30
BACKUP = os.path.join(os.path.dirname(os.path.abspath(__file__)), "../examples/backup")
WRITERS = 8
SHORT = 0.3  # seconds: within so long a script is ended early
drawn = random.Random(3)


def is_going(server):
    """Whether the server isn't stopped."""
    with open(f"/proc/{server.pid}/stat") as file:
        return file.read().rsplit(")", 1)[1].split()[0] != "T"


def goes_on(server):
    until = time.monotonic() + PATIENCE
    while not is_going(server):
        assert time.monotonic() < until, "the server is left stopped"
        time.sleep(0.01)


def backup(store, other, server, signals):
    """Makes a copy. Returns whether there is one, and how long it took."""
    began = time.monotonic()
    script = subprocess.Popen([BACKUP, store, other], stderr=subprocess.PIPE, text=True, start_new_session=True)
    if signals:
        time.sleep(drawn.uniform(0, SHORT))
        kind = drawn.choice(signals)
        if kind is signal.SIGINT:
            os.killpg(script.pid, kind)  # as a terminal sends it
        else:
            script.send_signal(kind)
    told = script.communicate(timeout=PATIENCE)[1]
    took = time.monotonic() - began
    goes_on(server)
    assert signals or script.returncode == 0, told
    if script.returncode == 0:
        assert os.path.exists(other)
    return os.path.exists(other), took


def look(other, before, writers):
    after = [snapshot(writer) for writer in writers]
    found = dumped(other)
    assert found == dumped(other, "--pick", "older"), "the picks differ"
    agrees_with(found, before, after)
    checked = subprocess.run([richd, "check", other], capture_output=True, text=True, timeout=PATIENCE)
    assert checked.returncode == 0 and checked.stdout.startswith("ok documents "), checked


def run(folder):
    """Copies in this folder. Returns how long the copies took that weren't ended early, and how many of the others were made."""
    store, other, place = os.path.join(folder, "store"), os.path.join(folder, "copy"), Place(pause=0.1)
    format_store(store, 128 + 16 * copies)
    words = [richd, "serve", store, "--listen", f"127.0.0.1:{place.port}", "--every", "64"]
    server = subprocess.Popen(words, stdout=subprocess.PIPE, text=True)
    assert server.stdout.readline().startswith("listening ")
    writers, took, ended, made = [Writer(number, place) for number in range(WRITERS)], [], 0, 0
    try:
        for writer in writers:
            writer.start()
        for number in range(copies):
            time.sleep(drawn.uniform(0.05, 0.3))
            signals = [signal.SIGINT, signal.SIGTERM, signal.SIGKILL] if number % 3 == 2 else []
            before = [snapshot(writer) for writer in writers]
            is_there, seconds = backup(store, other, server, signals)
            if signals:
                ended, made = ended + 1, made + is_there
            else:
                took.append(seconds)
            time.sleep(0.05)
            if is_there:
                look(other, before, writers)
                os.unlink(other)
            if os.path.exists(other + ".part"):
                os.unlink(other + ".part")  # of a script that SIGKILL ended
            for writer in writers:
                if writer.fault is not None:
                    raise writer.fault
                assert not writer.is_cut, "a client was cut"
        place.ends.set()
        for writer in writers:
            writer.join(PATIENCE)
            assert not writer.is_alive() and writer.fault is None, writer.fault
        server.kill()
        server.wait()
        subprocess.run([BACKUP, store, other], check=True)
        agrees(dumped(other), writers)
        put_back(other, place.port, writers)
    finally:
        server.send_signal(signal.SIGCONT)
        server.kill()
        server.wait()
        server.stdout.close()
    return took, ended, made


def put_back(other, port, writers):
    """Serves a copy whose revisions jump, and asks it what the clients of before would ask."""
    back, before = other + ".back", dumped(other)
    tool("jump", other, back)
    assert dumped(back) == {name: (revision + JUMP, words) for name, (revision, words) in before.items()}
    server = subprocess.Popen([richd, "serve", back, "--listen", f"127.0.0.1:{port}"], stdout=subprocess.PIPE, text=True)
    assert server.stdout.readline().startswith("listening ")
    try:
        for writer in writers:
            session = Session(port, writer.source)
            for doc, sent in writer.commands.items():
                known = [command for command in sent if command.rev is not None]
                if known:
                    last, newest = known[-1], before[doc][0]
                    assert session.ask(last.message) == {"doc": doc, "n": last.message["n"], "ok": "again", "rev": last.rev}
                    codes = [session.ask({"do": "subscribe", "doc": doc, "rev": rev}).get("code") for rev in (last.rev, newest, newest + 1, newest + JUMP - 1)]
                    assert codes == 4 * [TOO_OLD if before[doc][1] is not None else DELETED], codes
            session.close()
    finally:
        server.kill()
        server.wait()
        server.stdout.close()


def mounted(kind, folder):
    """A folder on a file system of this kind, None where none can be had."""
    image, path = os.path.join(folder, kind + ".image"), os.path.join(folder, kind)
    try:
        with open(image, "wb") as file:
            file.truncate(1 << 30)
        for words in ([f"mkfs.{kind}", "-q", image], ["mount", "-o", "loop", image, path]):
            os.makedirs(path, exist_ok=True)
            if subprocess.run(words, capture_output=True).returncode:
                return None
    except FileNotFoundError:
        return None
    return path


with tempfile.TemporaryDirectory() as folder:
    total = 0
    for kind in ("", "xfs", "btrfs"):
        path = mounted(kind, folder) if kind else os.path.join(folder, "plain")
        if path is None:
            print(f"skipped  {kind}: it can't be made or mounted")
            continue
        os.makedirs(path, exist_ok=True)
        try:
            took, ended, made = run(path)
        finally:
            if kind:
                subprocess.run(["umount", path], check=True)
        total += copies
        print(f"{kind or 'the temporary folder'}: {percentile(took, 0.5) * 1000:.0f} ms a copy, at most {max(took) * 1000:.0f} ms; of {ended} that were ended early "
              f"{made} were made; the server goes on", flush=True)
print(f"ok: {total} copies: each that was made opens, with all that was acknowledged before it, and the server was never left stopped")
