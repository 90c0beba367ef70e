#!/usr/bin/env python3
"""Measures an archiver beside a server that takes many edits: its share of a processor, and how far behind it is.

usage: bench/archive.py [SECONDS] [RATE] [PAUSE..]     (default: 20 seconds a row, 8,000 edits a second, looks each 50 and each 200 milliseconds)

Four programs type letters into 32 documents, eight lines ahead, at the rate together, and take some out again. `python3 -m richd archive --follow` archives
them: a row with `--lag 0`, which only takes, and one that also makes rows of revisions, in SQLite. Where DATABASE names an empty database of PostgreSQL
by its URL, there is one row, of that. Beside that a probe makes an edit, waits until the archive has it, and makes the next one: how long that took after the
answer is how far behind the archive is. The share of a processor is the archiver's own time, whatever else runs on the machine; without
edits it is measured too. The last column is what of the archive's file an edit takes.

Run ./demo first, which builds crates/richd/out/richd, or name another program in RICHD. Store and archive lie in a temporary folder (TMPDIR).
"""
import json
import multiprocessing
import os
import socket
import subprocess
import sys
import tempfile
import time
from pathlib import Path

CLIENT = Path(__file__).resolve().parent.parent / "clients/python"
sys.path.insert(0, str(CLIENT))

from richd.program import Server, format_store
from richd.tables import ArchiveError, Database

seconds = float(sys.argv[1]) if len(sys.argv) > 1 else 20
rate = float(sys.argv[2]) if len(sys.argv) > 2 else 8_000
pauses = sys.argv[3:] or ["50", "200"]
PROCESSES, DOCS, AHEAD = 4, 8, 8
TICK = os.sysconf("SC_CLK_TCK")
PATIENCE = 60  # seconds that the probe waits


class Session:
    def __init__(self, address, source):
        self.connection = socket.create_connection(address)
        self.connection.setsockopt(socket.IPPROTO_TCP, socket.TCP_NODELAY, 1)
        self.lines = self.connection.makefile("rb", 1 << 16)
        self.send({"do": "hello", "source": source})
        self.lines.readline()

    def send(self, *messages):
        self.connection.sendall(b"".join(json.dumps(message, separators=(",", ":")).encode() + b"\n" for message in messages))

    def taken(self):
        reply = json.loads(self.lines.readline())
        assert reply.get("ok") == "taken", reply
        return reply["rev"]


def types(address, name, until, total):
    """Types at its part of the rate until a moment."""
    session, revs = Session(address, name), {}
    docs = [f"{name}.{number}" for number in range(DOCS)]
    for doc in docs:
        session.send({"do": "create", "doc": doc, "n": 1, "ops": [{"insert": "some words of a text " * 20}]})
        revs[doc] = session.taken()
    numbers, sent, began = dict.fromkeys(docs, 1), 0, time.time()
    while time.time() < until:
        for doc in docs:
            lines = []
            for ahead in range(AHEAD):
                numbers[doc] += 1
                ops = [{"retain": 100 + ahead}, {"insert": "x"}] if numbers[doc] % 4 else [{"retain": 100}, {"delete": 3}]
                lines.append({"do": "edit", "doc": doc, "n": numbers[doc], "base": revs[doc], "ops": ops})
            session.send(*lines)
        for doc in docs:
            for _ in range(AHEAD):
                revs[doc] = session.taken()
        sent += DOCS * AHEAD
        time.sleep(max(0, began + sent * PROCESSES / rate - time.time()))
    with total.get_lock():
        total.value += sent


def used(pid):
    """The seconds of a processor that a program has used."""
    fields = Path(f"/proc/{pid}/stat").read_text().rsplit(")", 1)[1].split()
    return (int(fields[11]) + int(fields[12])) / TICK


def probe(address, name, until):
    """How many milliseconds after its answer each of the probe's edits is in the archive."""
    session, waits, database = Session(address, "probe"), [], Database(name)
    session.send({"do": "create", "doc": "probe", "n": 1, "ops": []})
    session.taken()
    newest, number = database.one("SELECT max(batch) FROM batches")[0] or 0, 1
    database.commit()
    while time.time() < until:
        number += 1
        word = f"probe{number:08d}"
        session.send({"do": "edit", "doc": "probe", "n": number, "base": number - 1, "ops": [{"insert": word}]})
        session.taken()
        answered = time.time()
        is_there = False
        while not is_there:
            assert time.time() < answered + PATIENCE, "the archive doesn't come after"
            found = database.all("SELECT batch, body FROM waiting WHERE batch > ?", (newest,))
            rows = database.all("SELECT newest FROM documents WHERE name = 'probe' AND newest >= ?", (number,))  # it may be a row by now
            database.commit()
            newest = max([newest, *(batch for batch, _ in found)])
            is_there = bool(rows) or any(word.encode() in body for _, body in found)
            if not is_there:
                time.sleep(0.002)
        waits.append(1000 * (time.time() - answered))
        time.sleep(0.01)
    database.close()
    return sorted(waits)


def measure(folder, name, pause, lag):
    store, total = os.path.join(folder, "store"), multiprocessing.Value("Q", 0)
    format_store(store, "--cell", "1048576", "--slot", "1048576")
    with Server(store) as server:
        words = [sys.executable, "-m", "richd", "archive", store, name, "--follow", "--pause", pause, "--lag", lag, "--quiet"]
        variables = {**os.environ, "PYTHONPATH": os.pathsep.join([str(CLIENT), os.environ.get("PYTHONPATH", "")])}
        archiver = subprocess.Popen(words, env=variables)
        try:
            while not has_begun(name):
                time.sleep(0.05)
            before = used(archiver.pid)
            time.sleep(5)
            idle = (used(archiver.pid) - before) / 5
            before, began = used(archiver.pid), time.time()
            until = began + seconds
            programs = [multiprocessing.Process(target=types, args=(server.address, f"t{number}", until, total)) for number in range(PROCESSES)]
            for program in programs:
                program.start()
            waits = probe(server.address, name, until)
            for program in programs:
                program.join()
            took = time.time() - began
            share = (used(archiver.pid) - before) / took
        finally:
            archiver.terminate()
            archiver.wait()
    size = os.path.getsize(name) / total.value if os.path.exists(name) else 0
    print(f"{'PostgreSQL' if database else 'SQLite'}, a look each {pause} ms, {'takes' if lag == '0' else 'makes rows too'}: {total.value / took:,.0f} edits a second; "
          f"{100 * share:.1f}% of a processor, {100 * idle:.1f}% without edits; behind by {waits[len(waits) // 2]:.0f} ms in the middle, "
          f"{waits[int(len(waits) * 0.99)]:.0f} ms at 99%, {waits[-1]:.0f} ms at most, of {len(waits)}" + (f"; {size:.0f} bytes an edit" if size else ""), flush=True)


def has_begun(name):
    try:
        database = Database(name)
        row = database.one("SELECT file FROM at")
        database.close()
        return bool(row and row[0])
    except ArchiveError:
        return False


database = os.environ.get("DATABASE")
for pause in pauses[:1] if database else pauses:
    for lag in ("1",) if database else ("0", "1"):
        with tempfile.TemporaryDirectory() as folder:
            measure(folder, database or os.path.join(folder, "archive"), pause, lag)
