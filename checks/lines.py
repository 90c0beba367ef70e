#!/usr/bin/env python3
"""Sends lines that are messages, or nearly, to one session of richd in pieces of drawn sizes, and checks what it replies.

usage: checks/lines.py [LINES] [SEED]     (default: 1,000,000 lines)

A line is drawn as a message with a member changed, dropped, doubled or of another kind; with numbers and names at their edges; operations
that are none; values that nest 126 to 129 levels; bytes that aren't UTF-8; texts that break off; 65,535 to 65,537 bytes. Each whole line
has to get one reply, in order: an `ok`, or a refusal that docs/PROTOCOL.md knows. Which of BadLine, BadMessage, BadName, TooManyOps, BadOps
and LineTooLong it is, or none of them, is computed here by docs/ACCEPTANCE.md, except where that leaves it open. News come of what is
followed alone, each revision once and in order. 70,000 bytes without an end give one LineTooLong. And once the first 100,000 lines (of
fewer than 400,000 the first quarter) are answered, the server's memory (Linux tells it) grows by at most 16 MiB.

Run ./demo first, which builds crates/richd/out/richd, or name another program in RICHD. The store lies in a temporary folder (TMPDIR).
"""
import collections
import json
import os
import queue
import random
import re
import subprocess
import sys
import tempfile
import threading
import time

from refusing import richd

PATIENCE = 30  # seconds
LONGEST = 65_536
MOST = 16 << 20  # bytes of memory
ROUND = 200  # lines that are sent ahead

NAMES = {
    1: "BadLine", 2: "BadMessage", 3: "BadOps", 4: "TooManyOps", 5: "NoHello", 6: "NoDocument", 7: "Exists", 8: "BadName", 9: "Gap",
    10: "OldNumber", 11: "TooManySources", 12: "Future", 13: "TooOld", 14: "PastEnd", 15: "CutsPair", 16: "TooHeavy", 17: "TooWide",
    18: "RevisionsSpent", 19: "NothingToUndo", 20: "TooManyDocuments", 23: "LineTooLong", 40: "Deleted",
}  # fmt: skip
OF_LINES = {1, 2, 3, 4, 5, 8, 23}  # refusals that a line gets by its form; the others are those of commands and reads


# What a line is, by docs/ACCEPTANCE.md.


class Open(Exception):
    """The documents leave it open."""


MEMBERS = {
    "hello": {"source"},
    "create": {"doc", "n", "ops"},
    "edit": {"doc", "n", "base", "ops"},
    "undo": {"doc", "n"},
    "delete": {"doc", "n"},
    "fetch": {"doc"},
    "since": {"doc", "rev"},
    "subscribe": {"doc", "rev"},
    "unsubscribe": {"doc"},
}
NAME = re.compile(r"[A-Za-z0-9._-]{1,64}")
MOST_NUMBER = (1 << 53) - 1


class Number(str):
    """A number as it is written, with a fraction or an exponent."""


def pairs(members):
    if len({name for name, _ in members}) < len(members):
        raise Open  # what a repeated member means is left open
    return dict(members)


def refuse_constant(word):
    raise ValueError(word)


def number(word):
    if abs(float(word)) == float("inf"):
        raise Open  # a reader of JSON may bound its numbers
    return Number(word)


def whole(value, least, most):
    """Whether a value is a whole number in a range."""
    if isinstance(value, Number):
        return False
    return type(value) is int and least <= value <= most


def depth_of(text):
    """How many levels a text nests, which may be no JSON."""
    deepest = level = 0
    for piece in re.finditer(r'"(?:\\.|[^"\\])*"?|[\[{]|[\]}]', text):
        if piece[0] in "[{":
            level += 1
            deepest = max(deepest, level)
        elif piece[0] in "]}":
            level -= 1
    return deepest


def is_value(value, may_be_null):
    if value is None:
        return may_be_null
    return isinstance(value, str) and not isinstance(value, Number) or type(value) is bool or whole(value, -MOST_NUMBER, MOST_NUMBER)


def is_named(members, may_be_null):
    return all(1 <= len(name.encode()) <= 64 and is_value(value, may_be_null) for name, value in members.items())


def is_operation(operation):
    if not isinstance(operation, dict):
        return False
    kinds = {"insert", "retain", "delete"} & set(operation)
    if len(kinds) != 1 or set(operation) - kinds - {"attributes"}:
        return False
    (kind,) = kinds
    value = operation[kind]
    if "attributes" in operation:
        attributes = operation["attributes"]
        if kind == "delete" or not isinstance(attributes, dict) or not is_named(attributes, kind == "retain"):
            return False
    if kind != "insert":
        return whole(value, 0, 0xFFFF_FFFF)
    if isinstance(value, dict):
        return len(value) == 1 and is_named(value, False)
    return isinstance(value, str) and not isinstance(value, Number)


def refusal_of(line):
    """The refusal that a line gets by its form after a hello, 0 for none, or None where that is left open."""
    if len(line) > LONGEST:
        return 23
    try:
        text = line.decode()
    except UnicodeDecodeError:
        return 1
    if depth_of(text) > 127:
        return 1
    if re.search(r"\\u[dD][89a-fA-F]|(?<![\d.eE+-])-0(?![\d.eE])", text):
        return None  # halves of a pair as escapes, and -0
    try:
        message = json.loads(text, object_pairs_hook=pairs, parse_constant=refuse_constant, parse_float=number)
    except Open:
        return None
    except (ValueError, RecursionError):
        return 1
    if not isinstance(message, dict):
        return 2
    do = message.pop("do", None)
    if not isinstance(do, str) or isinstance(do, Number) or do not in MEMBERS or do == "hello":
        return 2
    if do == "fetch" and "rev" in message:
        members = {"doc", "rev"}
    else:
        members = MEMBERS[do]
    if set(message) != members:
        return 2
    for name, value in message.items():
        if name == "doc":
            is_kind = isinstance(value, str) and not isinstance(value, Number)
        elif name == "ops":
            is_kind = isinstance(value, list)
        else:
            is_kind = whole(value, 1 if name == "n" else 0, MOST_NUMBER)
        if not is_kind:
            return 2
    if not NAME.fullmatch(message["doc"]):
        return 8
    ops = message.get("ops", [])
    if len(ops) > 1_024:
        return 4
    return 0 if all(is_operation(operation) for operation in ops) else 3


# How lines are drawn. A message is a list of members, each a name and a value as they are written.

DOCS = ["d0", "d1", "d2", "d3"]
NUMBERS = [
    "-1", "0", "1", "2", "3", "1.0", "1e0", "0.5", "-0", "01", "+1", ".5", "1.", "0x1", "NaN", "Infinity", "1e400", "4294967295",
    "4294967296", "9007199254740990", "9007199254740991", "9007199254740992", "9223372036854775807", "9223372036854775808",
    "18446744073709551615", "18446744073709551616", "1" + "0" * 40,
]  # fmt: skip
OTHERS = [
    "null", "true", "false", '""', '"1"', "[]", "{}", "[1]", '{"a":1}', '"\\u0000"', "nul", "tru", "'a'", '"a', "[1,]", '{"a":1,}', "[,]",
]  # fmt: skip
TEXTS = [
    "", "d0", "d4", "no", "a b", "é", "a/b", "😀", "a" * 64, "a" * 65, "x" * 32, "..", "-", "\\u0064\\u0030",
    "\\ud83d\\ude00", "\\ud800",
]  # fmt: skip
OPERATIONS = [
    '{"insert":""}', '{"insert":"x"}', '{"insert":"a😀b"}', '{"insert":"\\ud83d"}', '{"insert":{"image":"a.png"}}', '{"insert":{}}',
    '{"insert":{"a":1,"b":2}}', '{"insert":{"a":null}}', '{"insert":{"a":{}}}', '{"insert":{"":1}}', '{"insert":1}', '{"insert":null}',
    '{"insert":["x"]}', '{"retain":0}', '{"retain":1}', '{"retain":2}', '{"retain":4294967295}', '{"retain":4294967296}', '{"retain":-1}',
    '{"retain":1.0}', '{"retain":"1"}', '{"retain":1e0}', '{"delete":0}', '{"delete":1}', '{"delete":3}', '{"delete":4294967295}',
    '{"delete":4294967296}', '{"delete":1,"attributes":{}}', '{"delete":true}', '{"insert":"x","delete":1}', '{"insert":"x","retain":1}',
    '{}', '[]', 'null', '1', '"x"', '{"attributes":{"b":true}}', '{"insert":"x","attributes":{"b":true}}',
    '{"insert":"x","attributes":{"b":null}}', '{"retain":1,"attributes":{"b":null}}', '{"retain":1,"attributes":{"b":9007199254740991}}',
    '{"retain":1,"attributes":{"b":9007199254740992}}', '{"retain":1,"attributes":{"b":-9007199254740991}}',
    '{"retain":1,"attributes":{"b":0.5}}', '{"retain":1,"attributes":{"b":[]}}', '{"retain":1,"attributes":[]}',
    '{"retain":1,"attributes":null}', '{"retain":1,"attributes":{"":1}}', '{"retain":1,"attributes":{"%s":1}}' % ("n" * 64),
    '{"retain":1,"attributes":{"%s":1}}' % ("n" * 65),
    '{"insert":"x","insert":"y"}', '{"insert":"x","other":1}', '{"Insert":"x"}',
]  # fmt: skip
BYTES = [
    b"\xff", b"\x80", b"\xc3", b"\xc0\xaf", b"\xed\xa0\x80", b"\xf4\x90\x80\x80", b"\xf0\x9f\x98", b"\x00", b"\x0b", b"\r", b"\xef\xbb\xbf",
]  # fmt: skip


class Lines:
    """Draws lines, by what the replies have told of the documents."""

    def __init__(self, seed):
        self.random = random.Random(seed)
        self.rev, self.last, self.length = collections.Counter(), collections.Counter(), collections.Counter()
        self.deleted = set()

    def pick(self, items):
        return items[int(self.random.random() * len(items))]

    def chance(self, one_in):
        return self.random.random() * one_in < 1

    def number_near(self, number):
        return str(max(0, number + self.pick((0, 0, 0, 0, 0, 0, 0, 0, -1, 1, -2, -20, 2))))

    def good_ops(self, doc):
        """Operations that stand on the document, mostly; with what makes it smaller once it is long."""
        length = self.length[doc]
        ops = []
        if length > 300:
            ops.append('{"delete":%d}' % (length - 100))
        elif self.chance(2) and length:
            ops.append('{"retain":%d%s}' % (1 + int(self.random.random() * length), self.pick(("", ',"attributes":{"b":true}'))))
        ops.append(self.pick(('{"insert":"word "}', '{"insert":"x","attributes":{"i":%d}}' % self.pick((1, 2, 3)), '{"delete":1}')))
        return ops

    def ops(self, doc):
        ops = self.good_ops(doc)
        if self.chance(3):
            ops.insert(self.pick((0, len(ops))), self.pick(OPERATIONS))
        if self.chance(100):
            ops = [self.pick(OPERATIONS[:4])] * self.pick((1_023, 1_024, 1_025))
        return "[" + ",".join(ops) + "]"

    def message(self):
        doc = self.pick(DOCS) if not self.chance(12) else self.pick(("d4", "no", "d0" * 20))
        usual = "create" if doc in self.deleted else "edit"
        kinds = ("create", usual, "edit", "edit", "edit", "undo", "fetch", "fetch", "since", "subscribe", "unsubscribe", "hello")
        do = "delete" if self.chance(100) else self.pick(kinds)
        rev = self.number_near(self.rev[doc])
        members = [("do", f'"{do}"')]
        if do == "hello":
            return [*members, ("source", '"s"')]
        members.append(("doc", f'"{doc}"'))
        if do in ("create", "edit", "undo", "delete"):
            is_first = do == "create" and doc not in self.deleted
            members.append(("n", "1" if is_first else self.number_near(self.last[doc] + 1)))
        if do in ("create", "edit"):
            members.append(("ops", self.ops(doc)))
        if do == "edit":
            members.append(("base", rev))
        if do in ("since", "subscribe") or do == "fetch" and self.chance(2):
            members.append(("rev", rev))
        return members

    def nested(self):
        levels = self.pick((126, 127, 128, 129))
        kinds = [self.pick(("[]", '{"a":}')) for _ in range(levels)] if self.chance(2) else ["[]"] * levels
        return "".join(kind[:-1] for kind in kinds) + ("" if kinds[-1] == "[]" else "1") + "".join(kind[-1] for kind in reversed(kinds))

    def changed(self, members):
        """A message with something changed."""
        members = list(members)
        place = int(self.random.random() * len(members))
        name, value = members[place]
        way = self.pick(("number", "other", "text", "drop", "double", "add", "rename", "nest", "ops", "do"))
        if way == "number":
            members[place] = name, self.pick(NUMBERS)
        elif way == "other":
            members[place] = name, self.pick(OTHERS)
        elif way == "text":
            members[place] = name, f'"{self.pick(TEXTS)}"'
        elif way == "drop":
            del members[place]
        elif way == "double":
            members.insert(self.pick((0, place, len(members))), self.pick(((name, value), (name, self.pick(NUMBERS)))))
        elif way == "add":
            members.append(self.pick((("rev", "1"), ("base", "1"), ("source", '"s"'), ("extra", "null"), ("", "1"), ("ops", "[]"))))
        elif way == "rename":
            members[place] = self.pick((name.upper(), name + " ", "\\u00%02x" % ord(name[0]) + name[1:], name[:-1], "")), value
        elif way == "nest":
            members[place] = name, self.nested()
        elif way == "ops":
            members[place] = "ops", "[" + ",".join(self.pick(OPERATIONS) for _ in range(self.pick((1, 2, 5)))) + "]"
        else:
            members[0] = "do", '"%s"' % self.pick(("drop", "Fetch", "fetch ", "delete", "remove", "list", "migrate", "", "fetch\\u0000"))
        return members

    def line(self):
        members = self.message()
        if not self.chance(3):
            members = self.changed(members)
        if self.chance(4):
            self.random.shuffle(members)
        blank = self.pick((" ", "\t", "  ", "\r", "\f", "\u00a0")) if self.chance(20) else ""
        line = "{" + ",".join(f'{blank}"{name}"{blank}:{value}' for name, value in members) + blank + "}"
        if self.chance(200):
            line = self.pick(("", " ", "\r", "[]", "{}", "null", "1", '"x"', line + line, line + "x", "[" + line + "]", self.nested()))
        line = line.encode()
        if self.chance(40):
            line = line[: int(self.random.random() * len(line))]
        if self.chance(40):
            place = int(self.random.random() * (len(line) + 1))
            line = line[:place] + self.pick(BYTES) + line[place + self.pick((0, 1)) :]
        if self.chance(1_500):
            length = self.pick((65_535, 65_536, 65_537, 65_538, 70_000, 200_000))
            more = length - len(line)
            line = self.pick((line + b" " * more, b" " * more + line, line[:-1] + b"x" * more + line[-1:]))
        if self.chance(20):
            line += b"\r"
        return line.replace(b"\n", b"")

    def pieces(self, data):
        """The same bytes in pieces of drawn sizes."""
        most = self.pick((1, 7, 100, 1_000, 4_096, 65_536, 65_536, 1_000_000))
        if most < 100 and len(data) > 50_000:
            most = 1_000
        place = 0
        while place < len(data):
            length = 1 + int(self.random.random() * most)
            yield data[place : place + length]
            place += length

    def learn(self, line, reply):
        """Takes over what a reply tells of a document."""
        doc = reply.get("doc")
        if reply.get("ok") in ("taken", "again"):
            if reply["ok"] == "taken" and b'"delete"' in line and b'"ops"' not in line:
                self.deleted.add(doc)
                self.length[doc] = 0
            elif reply["ok"] == "taken":
                self.deleted.discard(doc)
            self.rev[doc] = max(self.rev[doc], reply["rev"])
            self.last[doc] = max(self.last[doc], reply["n"])
        elif reply.get("ok") == "doc":
            self.rev[doc] = max(self.rev[doc], reply["rev"])
            inserts = [it["insert"] for it in reply["ops"]]
            self.length[doc] = sum(len(it.encode("utf-16-le")) // 2 if isinstance(it, str) else 1 for it in inserts)


class Server:
    """One session over pipes. What it writes is read by a thread of its own."""

    def __init__(self, store):
        streams = {"stdin": subprocess.PIPE, "stdout": subprocess.PIPE, "stderr": subprocess.PIPE}
        self.process = subprocess.Popen([richd, "serve", store], **streams, bufsize=0)
        self.lines = queue.Queue()
        threading.Thread(target=self.read, daemon=True).start()

    def read(self):
        rest = b""
        while True:
            piece = os.read(self.process.stdout.fileno(), 1 << 20)
            if not piece:
                break
            *lines, rest = (rest + piece).split(b"\n")
            for line in lines:
                self.lines.put(line)
        self.lines.put(rest if rest else None)

    def send(self, piece):
        rest = memoryview(piece)
        while rest:
            rest = rest[self.process.stdin.write(rest) :]

    def memory(self):
        with open(f"/proc/{self.process.pid}/status") as status:
            (size,) = (line.split()[1] for line in status if line.startswith("VmRSS:"))
        return int(size) * 1024


class Check:
    def __init__(self, server):
        self.server, self.disagreements, self.news = server, 0, 0
        self.codes = collections.Counter()
        self.next = {}  # of each document that is followed, the revision that is told next

    def disagree(self, what, line=b""):
        self.disagreements += 1
        shown = line if len(line) < 2_000 else line[:300] + b".." + line[-300:]
        print(f"DISAGREES  {what}: {shown!r}", flush=True)
        if self.disagreements >= 20:
            sys.exit("more than these aren't looked for")

    def reply(self, line):
        """The next reply, which is that to a line. News before it are looked at."""
        while True:
            try:
                got = self.server.lines.get(timeout=PATIENCE)
            except queue.Empty:
                self.disagree(f"no reply within {PATIENCE} s", line)
                sys.exit(1)
            if got is None:
                self.disagree(f"the output ends: {self.server.process.wait()}, {self.server.process.stderr.read()[:200]!r}", line)
                sys.exit(1)
            try:
                reply = json.loads(got)
            except ValueError:
                reply = None
            if not isinstance(reply, dict):
                self.disagree(f"a reply that is no object, {got[:200]!r}", line)
                continue
            if "news" in reply or "ended" in reply:
                self.take_news(reply)
                continue
            code = reply.get("code")
            if code is not None and got != b'{"code":%d,"error":"%s"}' % (code, NAMES.get(code, "").encode()):
                self.disagree(f"a refusal that isn't known, {got[:200]!r}", line)
            elif code is None and "ok" not in reply:
                self.disagree(f"a reply that is neither, {got[:200]!r}", line)
            if reply.get("ok") == "subscribed":
                self.next[reply["doc"]] = reply["rev"] + 1
            elif reply.get("ok") == "unsubscribed":
                self.next.pop(reply["doc"], None)
            return reply

    def take_news(self, news):
        self.news += 1
        if news["doc"] not in self.next:
            self.disagree(f"news of what isn't followed, {str(news)[:200]}")
        elif "ended" in news:
            del self.next[news["doc"]]
        else:
            if news["news"] != self.next[news["doc"]]:
                self.disagree(f"news {news['news']} where {self.next[news['doc']]} is due")
            self.next[news["doc"]] = news["news"] + 1

    def look_at(self, line, reply):
        code = reply.get("code", 0)
        self.codes[code] += 1
        wanted = refusal_of(line)
        if wanted is not None and (wanted != code if wanted else code in OF_LINES):
            self.disagree(f"{reply if code else 'ok'} where {wanted} is due", line)


def main():
    count = int(sys.argv[1]) if len(sys.argv) > 1 else 1_000_000
    seed = sys.argv[2] if len(sys.argv) > 2 else str(random.randrange(1 << 32))
    began = time.monotonic()
    with tempfile.TemporaryDirectory() as folder:
        store = os.path.join(folder, "store")
        subprocess.run([richd, "format", store, "--docs", "4", "--keep", "16"], check=True)
        server, drawn = Server(store), Lines(seed)
        check = Check(server)
        server.send(b'{"do":"hello","source":"s"}\n')
        if check.reply(b"hello") != {"ok": "hello"}:
            check.disagree("no hello")
        sent, first, most = 0, None, 0
        while sent < count:
            lines = [drawn.line() for _ in range(min(ROUND, count - sent))]
            for piece in drawn.pieces(b"".join(line + b"\n" for line in lines)):
                server.send(piece)
            for line in lines:
                reply = check.reply(line)
                check.look_at(line, reply)
                drawn.learn(line, reply)
            sent += len(lines)
            if sent >= min(100_000, count // 4):
                now = server.memory()
                first = now if first is None else first
                if now > most:
                    most = now
                    if most - first > MOST:
                        check.disagree(f"{(most - first) >> 10} KiB more than after the first lines, after {sent}")
                        break
        server.send(b"x" * 70_000)
        if check.reply(b"70,000 bytes").get("code") != 23:
            check.disagree("70,000 bytes without an end give no LineTooLong")
        server.send(b"\n\n")
        if check.reply(b"").get("code") != 1:
            check.disagree("an empty line behind a line that is too long")
        server.process.stdin.close()
        status, errors = server.process.wait(PATIENCE), server.process.stderr.read()
        if (status, errors) != (0, b""):
            check.disagree(f"it ended with status {status}, {errors[:200]!r}")
        while (rest := server.lines.get(timeout=PATIENCE)) is not None:
            if b'"news":' not in rest and b'"ended":' not in rest:
                check.disagree(f"a reply too many, {rest[:200]!r}")
    by_answer = ", ".join(f"{NAMES.get(code, 'ok')} {number}" for code, number in sorted(check.codes.items()))
    print(f"by answer: {by_answer}; news {check.news}")
    print(
        f"{sent} lines (seed {seed}), {check.disagreements} disagreements, memory {(most - first) >> 10} KiB more than after the first, "
        f"{time.monotonic() - began:.0f} s"
    )
    sys.exit(1 if check.disagreements else 0)


if __name__ == "__main__":
    main()
