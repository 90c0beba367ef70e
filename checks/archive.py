#!/usr/bin/env python3
"""Archives stores while archivers, servers and machines are killed, and compares each archive with what clients were answered.

usage: checks/archive.py [KILLS] [CRASHES]     (default: 200 kills and 150 crashes a row)

Writers put words into documents that all share, take some back, and delete documents of their own, and `python3 -m richd archive --follow` keeps what the
store commits. Each row is run with SQLite, and with PostgreSQL, where its programs are and this Python has psycopg2:

- **kills**: at random moments SIGKILL ends the server, the archiver or both, and they start again. The journal is wide, or so small that it goes
  round while no archiver runs: then the archive has to say which revisions it missed.
- **crashes**: server and archiver end at once, and of what no sync has followed each write stays, is lost, or leaves other bytes (noting.c notes
  writes and syncs, and makes syncs slow, so that gates stand open unsynced for long). From what is left both start again.
- **failed syncs**: the server ends by a sync that fails (refuse.c), and starts again, over what the file then holds.
- **moves**: the store is copied to a larger one under the archiver, and while none runs; an older copy is put back, which has to be refused;
  the machine is lost, and a store is restored of the archive, whose clients go on; two archivers run at once.

At the end of each row every command that was answered has to stand in the archive once, under its revision, but for gaps that the archive
tells. `verify` has to find the archive sound, and equal to the store; what `python3 -m richd dump` prints of it has to be what `richd dump`
prints.

Run ./demo first, which builds crates/richd/out/richd, or name another program in RICHD. It needs a C compiler, `cc`. Stores and databases lie in a
temporary folder (TMPDIR).
"""
import contextlib
import glob
import importlib.util
import os
import random
import shutil
import signal
import struct
import subprocess
import sys
import tempfile
import time

from loading import CLIENT, PATIENCE, Cut, Place, Session, Writer, archived, dumped, richd, tool

HERE = os.path.dirname(os.path.abspath(__file__))
from richd.archive import JUMP
from richd.tables import ArchiveError, Database

kills = int(sys.argv[1]) if len(sys.argv) > 1 else 200
crashes = int(sys.argv[2]) if len(sys.argv) > 2 else 150
AT_ONCE = 6  # writers
WIDE = ["--slots", "16", "--slot", "1048576"]
SMALL = ["--slots", "3", "--slot", "8192"]
TOO_OLD, STORE_FAILED = 13, 21
drawn = random.Random(7)


def until(truth, what):
    """Waits until something is so, however busy the machine is."""
    limit = time.monotonic() + 2 * PATIENCE
    while not truth():
        assert time.monotonic() < limit, f"not within {2 * PATIENCE} s: {what}"
        time.sleep(0.01)


def copy(one, other):
    subprocess.run(["cp", "--sparse=always", one, other], check=True)


def put_back(one, other):
    """Makes a file what another one is, so that it stays the same file."""
    with open(one, "rb") as file, open(other, "r+b") as into:
        shutil.copyfileobj(file, into, 1 << 20)


class Typist(Writer):
    """A writer for whom a store that failed is one whose server has ended."""

    def settle(self, doc, command, reply):
        if reply.get("code") == STORE_FAILED:
            raise Cut
        super().settle(doc, command, reply)


class Row:
    """A store with its writers and its archive, in a folder of its own. Ends what it has started."""

    def __init__(self, folder, database, ring, every=(16, 64, 256), docs=1024):
        self.folder = tempfile.mkdtemp(dir=folder)
        self.store, self.database, self.every = os.path.join(self.folder, "store"), database or os.path.join(self.folder, "archive"), every
        self.place = Place(pause=0.01)
        self.writers = [Typist(number, self.place) for number in range(AT_ONCE)]
        self.server = self.archiver = None
        self.variables = {}
        subprocess.run([richd, "format", self.store, "--docs", str(docs), "--cell", "65536", *ring], check=True)

    def __enter__(self):
        return self

    def __exit__(self, kind, value, trace):
        self.place.ends.set()
        self.kill_server()
        if self.archiver is not None:
            self.archiver.kill()
            self.archiver.wait()
        if kind is None:
            shutil.rmtree(self.folder)
        else:
            said = os.path.join(self.folder, "said")
            print(f"{self.folder}: {open(said).read()[-2000:] if os.path.exists(said) else ''}")

    def serve(self, *options):
        words = [richd, "serve", self.store, "--listen", f"127.0.0.1:{self.place.port}", "--every", str(drawn.choice(self.every)), *options]
        with open(os.path.join(self.folder, "said"), "a") as said:
            self.server = subprocess.Popen(words, stdout=subprocess.PIPE, stderr=said, text=True, env={**os.environ, **self.variables})
        assert self.server.stdout.readline().startswith("listening "), "the store doesn't open"

    def kill_server(self):
        if self.server is not None:
            self.server.kill()
            self.server.wait()
            self.server.stdout.close()
        self.server = None

    def archive(self):
        words = [sys.executable, "-m", "richd", "archive", self.store, self.database, "--follow", "--pause", str(drawn.choice((5, 20, 50)))]
        with open(os.path.join(self.folder, "said"), "a") as said:
            self.archiver = subprocess.Popen(words, stdout=said, stderr=said, env={**os.environ, "PYTHONPATH": CLIENT})

    def kill_archiver(self):
        if self.archiver is not None:
            assert self.archiver.poll() is None, f"the archiver ended by itself, with status {self.archiver.returncode}"
            self.archiver.kill()
            self.archiver.wait()
        self.archiver = None

    def write(self):
        for writer in self.writers:
            writer.start()

    def begin_to_archive(self):
        """Starts an archiver, and waits until it has the turn and follows the store."""
        before = self.turn()
        self.archive()
        until(lambda: self.turn() not in (before, None), "the archiver begins")

    def turn(self):
        try:
            row = self.ask("SELECT turn, file FROM at")
        except ArchiveError:  # there is no archive yet
            return None
        return row[0][0] if row and row[0][1] else None

    def go_on(self, count):
        """Lets the writers send so many times more, and be answered."""
        def sent():
            return sum(len(writer.waits) for writer in self.writers)

        wanted = sent() + count
        until(lambda: sent() >= wanted or any(writer.fault for writer in self.writers), "the writers go on")
        for writer in self.writers:
            assert writer.fault is None, repr(writer.fault)

    def stop_writing(self):
        self.place.ends.set()
        for writer in self.writers:
            writer.join(PATIENCE)
            assert not writer.is_alive() and writer.fault is None, repr(writer.fault)

    def write_again(self):
        """The writers go on with what they know."""
        self.place.ends.clear()
        before, self.writers = self.writers, [Typist(number, self.place) for number in range(AT_ONCE)]
        for writer, known in zip(self.writers, before):
            for name in ("drawn", "commands", "base", "numbers", "words", "placed"):
                setattr(writer, name, getattr(known, name))
        self.write()

    def ask(self, question):
        database = Database(self.database)
        try:
            return database.all(question)
        finally:
            database.close()

    def compare(self):
        """Compares the archive with what was answered and with the store, which nobody serves. Returns the counts."""
        it = archived(self.store, self.database, self.writers)
        return (f"{it.answered} answered, {it.revisions} revisions archived, missing 0, twice 0, {it.passed} of the answered in {it.gaps} gaps that are told; "
                f"joined {it.files} times, {it.aside} set aside")


def killed(folder, database, ring, count):
    with Row(folder, database, ring) as row:
        done = {"server": 0, "archiver": 0, "both": 0}
        row.serve()
        row.archive()
        row.write()
        while sum(done.values()) < count:
            row.go_on(drawn.choice((1, 5, 30, 60)))
            which = drawn.choice(list(done))
            done[which] += 1
            if which != "server":
                row.kill_archiver()
            if which != "archiver":
                row.kill_server()
            if which == "archiver" and ring is SMALL and drawn.random() < 0.2:
                row.go_on(400)
            if which != "archiver":
                row.serve()
            if which != "server":
                (row.archive if drawn.random() < 0.3 else row.begin_to_archive)()
        row.stop_writing()
        row.kill_server()
        row.kill_archiver()
        told = row.compare()
        gaps = row.ask("SELECT count(*) FROM gaps WHERE why LIKE 'written over%'")[0][0]
        assert ring is SMALL or gaps == 0, f"{gaps} gaps in a journal that never went round"
    return f"{sum(done.values())} kills ({', '.join(f'{name} {number}' for name, number in done.items())}): {told}"


class Machine:
    """What of a store lasts over a stop of the machine, by the notes of noting.c."""

    def __init__(self, row, library):
        self.row, self.notes, self.synced = row, os.path.join(row.folder, "notes"), os.path.join(row.folder, "synced")
        copy(row.store, self.synced)
        row.variables = {"LD_PRELOAD": library, "NOTE_FILE": self.notes, "NOTE_STORE": row.store}
        self.pending = self.lost = self.garbled = self.gates = 0

    def calls(self):
        with open(self.notes, "rb") as file:
            noted = file.read()
        at, calls = 0, []
        while at < len(noted):
            if noted[at : at + 1] == b"S":
                calls.append(None)
                at += 1
                continue
            place, count = struct.unpack_from("<QI", noted, at + 1)
            calls.append((place, noted[at + 13 : at + 13 + count]))
            at += 13 + count
        return calls

    def stop(self):
        """Leaves the store what is synced, and of each later write all, nothing, or other bytes."""
        calls = self.calls()
        last = max((number for number, call in enumerate(calls) if call is None), default=-1)
        with open(self.synced, "r+b") as file:
            for number, call in enumerate(calls):
                if call is None:
                    continue
                place, body = call
                kept = body if number < last else self.left(body)
                file.seek(place)
                file.write(kept)
        pending = [call for call in calls[last + 1 :] if call is not None]
        with open(self.synced, "rb") as new, open(self.row.store, "r+b") as old:  # the same file, so that the archiver has no hint
            for place, body in pending:
                new.seek(place)
                old.seek(place)
                old.write(new.read(len(body)))
        os.unlink(self.notes)

    def left(self, body):
        self.pending += 1
        self.gates += body == b"\xa5"
        what = drawn.random()
        if what < 0.45:
            self.lost += 1
            return b""
        if what < 0.65:
            self.garbled += 1
            cut = drawn.randrange(len(body) + 1)
            return body[:cut] + drawn.randbytes(min(len(body) - cut, 64)) + body[cut + 64 :]
        return body


def crashed(folder, database, ring, count, library):
    with Row(folder, database, ring, every=(8, 32), docs=256) as row:
        machine = Machine(row, library)

        def serve():
            row.variables["NOTE_SYNC"] = str(drawn.choice((2_000, 20_000, 40_000)))
            row.serve()

        serve()
        row.archive()
        row.write()
        for _ in range(count):
            row.go_on(drawn.choice((3, 10, 40)))
            if drawn.random() < 0.2:
                row.kill_server()
                serve()
                time.sleep(drawn.uniform(0, 0.3))
            if drawn.random() < 0.2:
                row.kill_archiver()
                row.archive()
                time.sleep(drawn.uniform(0.2, 0.6))
            row.kill_server()
            row.kill_archiver()
            machine.stop()
            if drawn.random() < 0.3:
                row.archive()
                time.sleep(drawn.uniform(0, 0.5))
                serve()
            else:
                serve()
                time.sleep(drawn.choice((0, 0.1, 0.5)))
                (row.archive if drawn.random() < 0.3 else row.begin_to_archive)()
        row.stop_writing()
        row.kill_server()
        row.kill_archiver()
        told = row.compare()
    return (f"{count} crashes, {machine.pending} writes unsynced, {machine.lost} lost, {machine.garbled} garbled, {machine.gates} gates among them: {told}")


def failed(folder, database, count, library):
    with Row(folder, database, WIDE, docs=256) as row:
        row.serve()
        row.begin_to_archive()
        row.write()
        row.go_on(20)
        refusal = {"LD_PRELOAD": library, "REFUSE_KIND": "sync", "REFUSE_HOW": "none", "REFUSE_STORE": row.store}
        for _ in range(count):
            row.kill_server()
            counted = os.path.join(row.folder, "count")
            with open(counted, "wb") as file:
                file.write(bytes(16))
            row.variables = {**refusal, "REFUSE_COUNT": counted, "REFUSE_AT": str(drawn.randrange(3, 200))}
            row.serve("--exit-on-failure")
            until(lambda: row.server.poll() is not None, "a sync fails, and the server ends")
            row.variables = {}
            row.kill_server()
            row.serve()
            row.go_on(drawn.choice((1, 10, 40)))
        row.stop_writing()
        row.kill_server()
        row.kill_archiver()
        told = row.compare()
    return f"{count} failed: {told}"


def built(folder, name):
    """What is preloaded into the server."""
    library = os.path.join(folder, name + ".so")
    subprocess.run(["cc", "-shared", "-fPIC", "-O2", "-o", library, os.path.join(HERE, name + ".c"), "-ldl", "-lpthread"], check=True)
    return library


def moved(folder, database):
    with Row(folder, database, WIDE, docs=128) as row:
        _copied(row)
        _put_back(row)
        _restored(row)
        _two_at_once(row)
        told = row.compare()
        _pruned(row)
    return f"copied, put back, restored, two at once: {told}"


def _gaps(row):
    return row.ask("SELECT first, last, why FROM gaps")


def _copied(row):
    """A copy into a larger store, under the archiver, and while none runs."""
    row.serve()
    row.begin_to_archive()
    row.write()
    row.go_on(500)
    row.stop_writing()
    row.kill_server()
    larger = row.store + ".larger"
    subprocess.run([richd, "copy", row.store, larger, "--cell", "131072"], check=True)
    os.rename(larger, row.store)
    row.serve()
    row.write_again()
    row.go_on(300)
    row.stop_writing()
    row.kill_server()
    until(lambda: row.ask("SELECT count(*) FROM files")[0][0] == 2, "the archiver sees the other file")
    row.kill_archiver()
    tool("archive", row.store, row.database)
    subprocess.run([richd, "copy", row.store, larger, "--slots", "4"], check=True)
    os.rename(larger, row.store)
    row.compare()
    assert not _gaps(row) and not row.ask("SELECT doc FROM aside"), _gaps(row)


def _put_back(row):
    """An older copy is refused, also once it was edited; accepted, the archive is that store."""
    older, newer = row.store + ".older", row.store + ".newer"
    copy(row.store, older)
    known = [(dict(writer.base), dict(writer.numbers), {doc: list(sent) for doc, sent in writer.commands.items()}) for writer in row.writers]
    row.serve()
    row.begin_to_archive()
    row.write_again()
    row.go_on(300)
    row.stop_writing()
    row.kill_server()
    row.kill_archiver()
    row.compare()
    copy(row.store, newer)
    put_back(older, row.store)
    before = row.ask("SELECT count(*) FROM revisions")
    assert "doesn't continue" in tool("archive", row.store, row.database, status=1)
    assert row.ask("SELECT count(*) FROM revisions") == before, "a store that was refused has changed the archive"
    put_back(newer, row.store)
    row.compare()  # nothing has happened
    put_back(older, row.store)
    tool("archive", row.store, row.database, "--accept")
    assert row.ask("SELECT count(*) FROM aside")[0][0] > 0
    for writer, (base, numbers, commands) in zip(row.writers, known):
        writer.base, writer.numbers, writer.commands = base, numbers, commands
    row.compare()


def _restored(row):
    """The machine is lost, and the archive is left. A command that is archived is answered again, one of a lost base is too old, and all go on."""
    lost = {writer.source: dict(writer.numbers) for writer in row.writers}
    spare = row.store + ".spare"
    tool("restore", row.database, spare)  # another one, which nobody serves
    os.unlink(row.store)
    tool("restore", row.database, row.store)
    shown = {name: words for name, (_, words) in dumped(row.store).items()}
    assert shown == {name: words for name, (_, words) in dumped(spare).items()}
    row.serve()
    writer = row.writers[0]
    sent = next(sent for sent in writer.commands.values() if sent[-1].rev is not None and sent[-1].message["do"] == "edit")
    command, session = sent[-1], Session(row.place.port, writer.source)
    doc, number = command.message["doc"], command.message["n"]
    reply = session.ask(command.message)
    assert reply == {"doc": doc, "n": number, "ok": "again", "rev": command.rev}, reply
    later = {"do": "edit", "doc": doc, "n": number + 1, "base": command.rev, "ops": [{"insert": "x;"}]}
    assert session.ask(later).get("code") == TOO_OLD
    for rev in (command.rev, command.rev + 1, command.rev + 5):
        assert session.ask({"do": "subscribe", "doc": doc, "rev": rev}).get("code") == TOO_OLD
    page = session.ask({"do": "fetch", "doc": doc})
    assert page["rev"] > JUMP, page["rev"]
    session.close()
    row.begin_to_archive()
    until(lambda: any(why.startswith("never there") for _, _, why in _gaps(row)), "the archive follows the restored store")
    for other in row.writers:
        for name in list(other.base):
            other.base[name] = JUMP  # as a client that was told so fetches
    row.write_again()
    row.go_on(300)
    row.stop_writing()
    assert all(writer.numbers[doc] >= n for writer in row.writers for doc, n in lost[writer.source].items())
    row.kill_server()
    row.kill_archiver()
    row.compare()
    moment = row.ask("SELECT seen FROM batches WHERE batch = (SELECT max(batch) / 3 FROM batches)")[0][0]
    then = row.store + ".then"
    tool("restore", row.database, then, "--at", f"{moment!r}")
    subprocess.run([richd, "check", then], check=True, capture_output=True)
    for name, (_, words) in dumped(then).items():
        if words is None:
            tool("show", row.database, name, "--at", f"{moment!r}", status=1)
        else:
            assert [word for word in tool("show", row.database, name, "--at", f"{moment!r}").split(";") if word] == words, name


def _two_at_once(row):
    """Of two archivers the one that began first ends."""
    row.serve()
    row.begin_to_archive()
    first = row.archiver
    row.begin_to_archive()
    row.write_again()
    row.go_on(100)
    until(lambda: first.poll() is not None, "the first one ends")
    assert first.returncode == 1
    row.stop_writing()
    row.kill_server()
    row.kill_archiver()


def _pruned(row):
    """What is left after the old revisions were dropped is sound, and shows the newest."""
    before = row.ask("SELECT count(*) FROM revisions")[0][0]
    tool("prune", row.database, "--before", "0s")
    assert row.ask("SELECT count(*) FROM revisions")[0][0] < before
    assert tool("verify", row.database, row.store).startswith("ok ")


@contextlib.contextmanager
def postgres(folder):
    """Gives URLs of new databases of a PostgreSQL of its own, None where there is none."""
    programs = sorted(glob.glob("/usr/lib/postgresql/*/bin"))
    if not programs or importlib.util.find_spec("psycopg2") is None:
        yield None
        return
    data = os.path.join(folder, "postgres")
    os.mkdir(data)
    user = []
    if os.geteuid() == 0:  # it doesn't run as root
        shutil.chown(data, "postgres")
        os.chmod(folder, 0o711)
        user = ["runuser", "-u", "postgres", "--"]
    quiet = {"stdout": subprocess.DEVNULL, "stderr": subprocess.DEVNULL}
    subprocess.run([*user, f"{programs[-1]}/initdb", "-D", f"{data}/data", "-U", "archive", "-A", "trust"], check=True, cwd="/", **quiet)
    words = [f"{programs[-1]}/postgres", "-D", f"{data}/data", "-k", data, "-c", "listen_addresses="]
    server = subprocess.Popen([*user, *words], cwd="/", **quiet)
    count = 0

    def new():
        nonlocal count
        count += 1
        until(lambda: subprocess.run([*user, f"{programs[-1]}/createdb", "-h", data, "-U", "archive", f"a{count}"], cwd="/", **quiet).returncode == 0,
              "PostgreSQL starts")
        return f"postgresql://archive@/a{count}?host={data}"

    try:
        yield new
    finally:
        server.send_signal(signal.SIGTERM)
        server.wait()


def main():
    with tempfile.TemporaryDirectory() as folder, postgres(folder) as postgres_url:
        library, refusing = built(folder, "noting"), built(folder, "refuse")
        if postgres_url is None:
            print("skipped  PostgreSQL: its programs, or psycopg2 of this Python, aren't there")
        for name, new in (("SQLite", lambda: None), ("PostgreSQL", postgres_url)):
            if new is None:
                continue
            print(f"{name}, kills, a wide journal: {killed(folder, new(), WIDE, kills)}", flush=True)
            print(f"{name}, kills, a small one: {killed(folder, new(), SMALL, kills // 2)}", flush=True)
            print(f"{name}, crashes: {crashed(folder, new(), ['--slots', '8', '--slot', '65536'], crashes, library)}", flush=True)
            print(f"{name}, crashes, a small one: {crashed(folder, new(), SMALL, crashes, library)}", flush=True)
            print(f"{name}, failed syncs: {failed(folder, new(), max(1, crashes // 5), refusing)}", flush=True)
            print(f"{name}, moves: {moved(folder, new())}", flush=True)
    rows = 1 if postgres_url is None else 2
    print(f"ok: {rows * (kills + kills // 2)} kills and {2 * rows * crashes} crashes in {'SQLite' if rows == 1 else 'SQLite and PostgreSQL'}, missing 0, twice 0")


if __name__ == "__main__":
    main()
