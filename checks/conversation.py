#!/usr/bin/env python3
"""Holds the conversation of docs/PROTOCOL.md with the Python client, and checks that the page shows just the lines that are sent and come.

usage: checks/conversation.py

The lines that begin with `ann >`, `ann <`, `bob >` or `bob <` are cut out of the page. What is sent has to be the same JSON, what comes
the same bytes, in the same order. A connection that is cut before its reply is read is played by one that reads no more.

Run ./demo first, which builds crates/richd/out/richd, or name another program in RICHD. The store lies in a temporary folder (TMPDIR).
"""
import json
import os
import re
import sys
import tempfile
import time
from pathlib import Path

REPOSITORY = Path(__file__).resolve().parent.parent
sys.path.insert(0, str(REPOSITORY / "clients/python"))

import richd
from richd.delta import compose
from richd.link import TcpLink
from richd.program import Server, format_store

PATIENCE = 30  # seconds
DOC = "demo"
BOLD = [{"retain": 6}, {"retain": 5, "attributes": {"bold": True}}]
MARK = [{"retain": 15}, {"insert": "!"}]


class Wire(TcpLink):
    """A connection that stops reading, and is cut, when it is told to."""

    is_deaf = False

    def receive(self):
        data = super().receive()
        return b"" if self.is_deaf else data


class Editor:
    """Somebody who edits, and counts his commands himself, so that the client asks for no number."""

    def __init__(self, source):
        self.source, self.number = source, 0

    def __enter__(self):
        self.client = richd.connect(link=self.opened, source=self.source, timeout=PATIENCE, trace=self.trace)
        return self

    def __exit__(self, *cause):
        self.client.close()

    def next(self):
        self.number += 1
        return self.number

    def opened(self):
        self.wire = Wire(*server.address)
        return self.wire

    def trace(self, way, line):
        held.append((self.source, way, line))


def converse():
    """What the page tells."""
    ann, bob = Editor("ann"), Editor("bob")
    with ann:
        ann.client.create(DOC, [{"insert": "Hello world"}], number=ann.next())
        ann.client.since(DOC, 0)
    with bob:
        bob.client.fetch(DOC)
        bob.client.edit(DOC, [{"insert": "Oh. "}], base=1, number=bob.next())
    with ann:
        ann.client.edit(DOC, BOLD, base=1, number=ann.next())
        ann.client.since(DOC, 1)

        # The reply is lost.
        ann.wire.is_deaf = True
        lost = ann.client.ahead.edit(DOC, MARK, base=3, number=ann.next())
        assert lost.result(PATIENCE) == richd.Taken(4, again=True)

        changes = ann.client.follow(DOC, 3)
        marked = changes.next(PATIENCE)
        ann.client.undo(DOC, number=ann.next())
        unmarked = changes.next(PATIENCE)
        changes.close()
        while not held[-1][2].startswith('{"doc":"demo","ok":"unsubscribed"'):
            time.sleep(0.01)
    with bob:
        caught_up = bob.client.since(DOC, 1)

    # Both come to the same document.
    documents = []
    for deltas in (caught_up.deltas, [*caught_up.deltas[:2], marked.ops, unmarked.ops]):
        document = [{"insert": "Hello world"}]
        for ops in deltas:
            document = compose(document, ops)
        documents.append(document)
    assert documents[0] == documents[1] == [{"insert": "Oh. Hello "}, {"insert": "world", "attributes": {"bold": True}}], documents


def shown():
    """The lines of the page, up to those that tell how it would have been otherwise."""
    page = (REPOSITORY / "docs/PROTOCOL.md").read_text()
    page = page[page.index("## A conversation") :]
    lines = re.findall(r"^    (ann|bob) ([<>]) (.*)$", page, re.MULTILINE)
    otherwise = ('{"code":13,"error":"TooOld"}' in line for _, _, line in lines)
    end = next((place - 1 for place, is_too_old in enumerate(otherwise) if is_too_old), len(lines))
    return lines[:end]


def same(line, other):
    """Whether a line that was sent or came is that of the page."""
    (one, way, text), (another, other_way, other_text) = line, other
    if (one, way) != (another, other_way):
        return False
    return text == other_text if way == "<" else json.loads(text) == json.loads(other_text)


held = []
with tempfile.TemporaryDirectory() as folder:
    format_store(os.path.join(folder, "store"))
    with Server(os.path.join(folder, "store")) as server:
        converse()
wanted = shown()
for place in range(max(len(held), len(wanted))):
    line, other = (lines[place] if place < len(lines) else ("", "", "nothing") for lines in (held, wanted))
    if not (place < len(held) and place < len(wanted) and same(line, other)):
        print(f"FAILED: line {place + 1} is {' '.join(line)}, and the page has {' '.join(other)}")
        sys.exit(1)
print(f"ok: the conversation of docs/PROTOCOL.md was held, {len(held)} lines")
