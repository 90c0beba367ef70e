#!/usr/bin/env python3
"""Connects to `richd serve --listen` in the ways that a client shouldn't, and checks that it answers as docs/PROTOCOL.md says.

usage: checks/hostile.py [NAME..]     (default: each row)

A row is one way, over one server for all rows. After each row a plain session has to create a document, edit it and fetch it, and
before the end of the script 64 sessions have to find places again. No row may take the server above the memory that it had at the
beginning by more than MOST for each place (Linux tells it). A row that fails says why, and the status is 1.

Run ./demo first, which builds crates/richd/out/richd, or name another program in RICHD. The store lies in a temporary folder (TMPDIR).
"""
import os
import signal
import socket
import sys
import tempfile
import time
from pathlib import Path

sys.path.insert(0, str(Path(__file__).resolve().parent.parent / "clients/python"))

import richd
from richd.link import TcpLink
from richd.messages import edit, fetch, since, spelled, subscribe
from richd.program import Server, format_store

PLACES = 64
PATIENCE = 30  # seconds
MOST = 2 << 20  # bytes: for a session with its line, what is read of it and a reply, and for the documents of the rows
HELLO = b'{"do":"hello","source":"s"}\n'
GREETING = b'{"ok":"hello"}\n'
BAD_LINE = b'{"code":1,"error":"BadLine"}\n'
LINE_TOO_LONG = b'{"code":23,"error":"LineTooLong"}\n'
SLOW = 16  # peers that read a long reply slowly
SLOW_MOST = 1 << 20  # bytes of memory for each of them
TOO_MANY_OPS = b'{"code":4,"error":"TooManyOps"}\n'


def connect():
    return TcpLink(*server.address, timeout=PATIENCE)


def read_up_to(link, count):
    """What comes until so many bytes have come, or the stream ends."""
    got = b""
    while len(got) < count:
        piece = link.socket.recv(count - len(got))
        if not piece:
            break
        got += piece
    return got


def is_closed(link):
    """Whether the server closes a connection on which nothing more is due."""
    try:
        return link.receive() == b""
    except ConnectionError:
        return True


def expect(link, sent, wanted):
    link.send(sent)
    got = read_up_to(link, len(wanted))
    assert got == wanted, (got, wanted)


def memory(name):
    """The bytes of memory that the server has now (VmRSS), or had at most (VmHWM)."""
    with open(f"/proc/{server.process.pid}/status") as status:
        (size,) = (line.split()[1] for line in status if line.startswith(name + ":"))
    return int(size) * 1024


def session():
    """A session for which a place was free, or none."""
    try:
        link = connect()
        link.send(HELLO)
        if read_up_to(link, len(GREETING)) == GREETING:
            return link
        link.close()
    except ConnectionError:
        pass
    return None


def session_soon():
    """A session, once there is a place."""
    for _ in range(PATIENCE * 10):
        link = session()
        if link is not None:
            return link
        time.sleep(0.1)
    raise AssertionError("no place came free")


def line_without_end():
    """70,000 bytes without a line's end: refused once, at the 65,537th byte; the next line is answered."""
    with session_soon() as stream:
        expect(stream, b"x" * 70_000, LINE_TOO_LONG)
        expect(stream, b"y" * 1_000_000 + b"\n" + b"{\n", BAD_LINE)


def longest_line():
    """A line of 65,536 bytes is a line."""
    with session_soon() as stream:
        expect(stream, b" " * 65_535 + b"{\n", BAD_LINE)


def byte_by_byte():
    """A byte at a time."""
    with connect() as stream:
        for byte in HELLO[:-1]:
            stream.send(bytes([byte]))
            time.sleep(0.005)
        expect(stream, b"\n", GREETING)


def no_text():
    """Bytes that aren't UTF-8, each value of a byte, an empty line, and a text that nests too deep."""
    with session_soon() as stream:
        expect(stream, b"\xff\xfe\xfd\n", BAD_LINE)
        expect(stream, b'{"do":"fetch","doc":"\xc3\x28"}\n', BAD_LINE)
        expect(stream, b"".join(bytes([byte]) for byte in range(256) if byte != 10) + b"\n", BAD_LINE)
        expect(stream, b"\n", BAD_LINE)
        expect(stream, b"\r\n", BAD_LINE)
        expect(stream, b"[" * 60_000 + b"\n", BAD_LINE)


def cut_lines():
    """Connections that end in the middle of a line, by a close and by a reset: nothing comes of the line."""
    line = b'{"do":"create","doc":"cut","n":1,"ops":[{"insert":"cut"}]}'
    for end in (TcpLink.close, TcpLink.reset):
        for length in range(0, len(line) + 1, 3):
            stream = session_soon()
            stream.send(line[:length])
            end(stream)
    with session_soon() as stream:
        expect(stream, b'{"do":"fetch","doc":"cut"}\n', b'{"code":6,"error":"NoDocument"}\n')


def half_open():
    """Connections that send nothing keep their places, those whose peer closes its sending half are answered and closed."""
    with connect() as silent, session_soon() as stream:
        stream.send(b"{\n" * 100)
        stream.finish()
        assert read_up_to(stream, 100 * len(BAD_LINE)) == 100 * BAD_LINE
        assert is_closed(stream)
        time.sleep(1)
        expect(silent, HELLO, GREETING)


def vanished():
    """64 peers that vanish behind a reset, some in the middle of a line: their places come free."""
    for round in range(3):
        streams = [session_soon() for _ in range(PLACES)]
        for number, stream in enumerate(streams):
            stream.send(b"{" * (number % 2))
            stream.reset()


def closed_in_mid_reply():
    """Peers that close, or vanish behind a reset, in the middle of a reply, and have sent ahead more than the system holds of replies:
    their places come free, and the edit whose reply they were reading was taken once."""
    with server.connect("middle", timeout=PATIENCE) as client:
        client.create("middle", [{"insert": "x" * 15_000}])
    asked, edits = spelled(fetch("middle")) * 300, 0
    for end in (TcpLink.close, TcpLink.reset):
        for part in (1, 20, 7_000, 40_000):
            edits += 1
            mine = spelled(edit("middle", edits, 1, [{"insert": "!"}]))
            streams = [session_soon() for _ in range(PLACES)]
            for number, stream in enumerate(streams):
                stream.send((mine if number == 0 else b"") + asked)
            for stream in streams:
                assert len(read_up_to(stream, part)) == part
                end(stream)
    with server.connect("s", timeout=PATIENCE) as client:
        assert client.edit("middle", [{"insert": "!"}], 1, number=edits) == richd.Taken(edits + 1, again=True)
        assert client.fetch("middle") == richd.Contents(edits + 1, [{"insert": "!" * edits + "x" * 15_000}])


def two_hundred():
    """200 connections at once: 64 are served, and the others closed without a byte."""
    streams = [connect() for _ in range(200)]
    for stream in streams:
        try:
            stream.send(HELLO)
        except ConnectionError:
            pass
    served = closed = 0
    for stream in streams:
        try:
            got = read_up_to(stream, len(GREETING))
        except ConnectionError:
            got = b""
        assert got in (GREETING, b""), got
        served += got == GREETING
        closed += got == b""
    assert (served, closed) == (PLACES, 200 - PLACES), (served, closed)
    for stream in streams:
        stream.close()


def never_reads():
    """A peer that sends ahead and never reads is closed 5 to 15 seconds after the server could write last, while others are answered."""
    with session_soon() as stream, session_soon() as other:
        stream.socket.settimeout(1)
        last = time.monotonic()
        try:
            while time.monotonic() < last + 30:
                try:
                    stream.socket.send(b"{\n" * 10_000)
                    last = time.monotonic()  # the server still reads, so it still writes
                except socket.timeout:
                    pass
                expect(other, b"{\n", BAD_LINE)
            raise AssertionError("it was never closed")
        except ConnectionError:
            took = time.monotonic() - last
        assert 4 < took < 20, took


def never_reads_news():
    """A peer that follows a document and never reads is closed, while who writes the document is answered."""
    text, number = "x" * 15_000, 1
    with session_soon() as stream, server.connect("loud", timeout=PATIENCE) as writer:
        assert writer.create("loud", []) == richd.Taken(1)
        expect(stream, spelled(subscribe("loud", 1)), b'{"doc":"loud","ok":"subscribed","rev":1}\n')
        stream.socket.settimeout(1)
        until = time.monotonic() + 90
        try:
            while time.monotonic() < until:
                for ops in ([{"insert": text}], [{"delete": len(text)}]):
                    number += 1
                    assert writer.edit("loud", ops, number - 1) == richd.Taken(number)
                stream.socket.send(b"\n")  # its reply isn't read either; once the server has closed this fails
                if number > 1_000:
                    time.sleep(0.1)  # by now the news that nobody reads are about as much as the system takes
            raise AssertionError("it was never closed")
        except ConnectionError:
            pass


def slow_readers():
    """16 peers that each ask for all that is held of a document's past, 12 MB, and read slowly: the server's memory grows by no more than
    SLOW_MOST for each. One of them then reads the whole reply, which has each change as it was sent."""
    text, rounds = "€" * 20_000, 200
    with server.connect("past", timeout=PATIENCE) as writer:
        assert writer.create("past", []) == richd.Taken(1)
        for number in range(1, 2 * rounds + 1):
            ops = [{"insert": text}] if number % 2 else [{"delete": len(text)}]
            assert writer.edit("past", ops, number) == richd.Taken(number + 1)
    insert, delete = b'[{"insert":"' + text.encode() + b'"}]', b'[{"delete":20000}]'
    wanted = b'{"deltas":[' + b",".join([b"[]"] + [insert, delete] * rounds) + b'],"doc":"past","ok":"since","rev":%d}\n' % (2 * rounds + 1)
    streams, before, most, part = [session_soon() for _ in range(SLOW)], memory("VmRSS"), 0, 20_000
    for stream in streams:
        stream.send(spelled(since("past", 0)))
    for read in range(30):
        for stream in streams:
            assert read_up_to(stream, part) == wanted[read * part : (read + 1) * part]
        most = max(most, memory("VmRSS") - before)
        time.sleep(0.1)
    assert most <= SLOW * SLOW_MOST, f"{most >> 10} KiB more for {SLOW} replies of {len(wanted) >> 10} KiB"
    assert read_up_to(streams[0], len(wanted) - 30 * part) == wanted[30 * part :]
    most = max(most, memory("VmRSS") - before)
    for stream in streams:
        stream.close()
    time.sleep(1)
    print(f"        {SLOW} replies of {len(wanted) >> 10} KiB: at most {most >> 10} KiB more, {(memory('VmRSS') - before) >> 10} KiB afterwards")


def dear_lines():
    """64 sessions at once whose lines take the most memory to be read: small values, as many as a line holds."""
    line = b'{"do":"create","doc":"dear","n":1,"ops":[' + b",".join([b"[]"] * 21_000) + b"]}\n"
    streams = [session_soon() for _ in range(PLACES)]
    for _ in range(3):
        for stream in streams:
            stream.send(line)
        for stream in streams:
            got = read_up_to(stream, len(TOO_MANY_OPS))
            assert got == TOO_MANY_OPS, got
    for stream in streams:
        stream.close()


def stopped_server():
    """The server is stopped by a signal and goes on: what waits, what is in the middle of a line and what follows is served on."""
    with session_soon() as silent, session_soon() as half, session_soon() as follower, server.connect("writer", timeout=PATIENCE) as writer:
        assert writer.create("stopped", []) == richd.Taken(1)
        expect(follower, spelled(subscribe("stopped", 1)), b'{"doc":"stopped","ok":"subscribed","rev":1}\n')
        half.send(b"{")
        for number in range(1, 6):
            time.sleep(0.15)  # by now each session waits in a read
            server.process.send_signal(signal.SIGSTOP)
            time.sleep(0.05)
            server.process.send_signal(signal.SIGCONT)
            assert writer.edit("stopped", [{"insert": "x"}], number) == richd.Taken(number + 1)
            news = b'{"doc":"stopped","news":%d,"ops":[{"insert":"x"}]}\n' % (number + 1)
            got = read_up_to(follower, len(news))
            assert got == news, (got, news)
        expect(silent, b"{\n", BAD_LINE)
        expect(half, b"\n", BAD_LINE)


def news_in_time():
    """Who sends nothing is told of each edit within a second."""
    with session_soon() as follower, server.connect("writer", timeout=PATIENCE) as writer:
        assert writer.create("news", []) == richd.Taken(1)
        expect(follower, spelled(subscribe("news", 1)), b'{"doc":"news","ok":"subscribed","rev":1}\n')
        for number in range(1, 8):
            time.sleep(0.13 * number)
            begin = time.monotonic()
            assert writer.edit("news", [{"insert": "x"}], number) == richd.Taken(number + 1)
            news = b'{"doc":"news","news":%d,"ops":[{"insert":"x"}]}\n' % (number + 1)
            got, took = read_up_to(follower, len(news)), time.monotonic() - begin
            assert got == news, (got, news)
            assert took < 1, f"news {number + 1} took {took:.2f} s"


rows = [
    line_without_end,
    longest_line,
    byte_by_byte,
    no_text,
    cut_lines,
    half_open,
    vanished,
    closed_in_mid_reply,
    two_hundred,
    never_reads,
    never_reads_news,
    dear_lines,
    slow_readers,
    stopped_server,
    news_in_time,
]


def use(number):
    """A plain session, which has to be served as if nothing had been, once there is a place."""
    doc = f"plain{number}"
    with server.connect("plain", timeout=PATIENCE) as client:
        assert client.create(doc, [{"insert": "a"}]) == richd.Taken(1)
        assert client.edit(doc, [{"insert": "b"}], 1) == richd.Taken(2)
        assert client.fetch(doc) == richd.Contents(2, [{"insert": "ba"}])


chosen = [row for row in rows if len(sys.argv) == 1 or row.__name__ in sys.argv[1:]]
failed = 0
with tempfile.TemporaryDirectory() as folder:
    format_store(os.path.join(folder, "store"))
    server = Server(os.path.join(folder, "store"))
    first = memory("VmRSS")
    for number, row in enumerate(chosen):
        begin = time.monotonic()
        try:
            row()
            use(number)
            took, more = time.monotonic() - begin, memory("VmHWM") - first
            assert more <= PLACES * MOST, f"{more >> 10} KiB more than at the beginning"
            print(f"ok      {row.__name__}, {took:.1f} s; so far at most {more >> 10} KiB more than at the beginning", flush=True)
        except (AssertionError, OSError, ValueError, richd.Refused) as error:
            failed += 1
            print(f"FAILED  {row.__name__}: {error!r}", flush=True)
    places = [session_soon() for _ in range(PLACES)]
    if server.process.poll() is not None:
        failed += 1
        print("FAILED  the server ended")
    server.kill()
print(f"{'FAILED' if failed else 'ok'}: {len(chosen)} rows, {failed} failed; at the end {len(places)} sessions have a place")
sys.exit(1 if failed or not chosen else 0)
