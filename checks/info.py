#!/usr/bin/env python3
"""Fills stores by random commands, and compares what `richd info` and `richd check` say with what they should hold.

usage: checks/info.py [STORES]     (default: 12)

Each store has random numbers and takes the commands of a few sessions: creations, edits and deletions, also such as are refused. What `info`
and `info --documents` print is reckoned here, by the commands that were answered `taken` and by docs/ACCEPTANCE.md's weight; each revision and
floor is the one that `dump` prints. `check` has to find the store sound, with the changes that `dump` shows. None of the four changes the file. Then
bytes of the file are changed at random: `check` says `ok`, or is refused as `dump` is by one of its picks, or as `Damaged`.

Run ./demo first, which builds crates/richd/out/richd, or name another program in RICHD. The stores lie in a temporary folder (TMPDIR).
"""
import json
import os
import random
import subprocess
import sys
import tempfile

HERE = os.path.dirname(os.path.abspath(__file__))
richd = os.environ.get("RICHD") or os.path.join(HERE, "../crates/richd/out/richd")
PATIENCE = 60  # seconds of one run
NAMES = ("format", "slots", "slot", "docs", "cell", "sources", "keep", "documents", "deleted", "documents_left", "slots_open", "newest_segment",
         "journal_bytes")
stores = int(sys.argv[1]) if len(sys.argv) > 1 else 12
drawn = random.Random(20)
damaged = lines_seen = 0


def run(*words, given=""):
    done = subprocess.run([richd, *words], input=given, capture_output=True, text=True, timeout=PATIENCE)
    return done.returncode, done.stdout, done.stderr


def well(*words, given=""):
    status, output, errors = run(*words, given=given)
    assert (status, errors) == (0, ""), f"{words}: {status}, {errors}"
    return output


def draw_shape():
    cell = drawn.choice((256, 1024, 4096))
    return {"slots": drawn.randint(2, 6), "slot": drawn.choice((256, 512, 4096)), "docs": drawn.randint(1, 5), "cell": cell,
            "sources": drawn.randint(1, 4), "keep": drawn.choice((1, 8, 64))}


class Held:
    """What a document holds, by the commands that were taken."""

    def __init__(self):
        self.units, self.revision, self.is_live, self.numbers = 0, 0, True, {}

    def weight(self):
        return 12 * self.units + sum(56 + 8 * min(n, 16) for n in self.numbers.values())


def draw_message(docs, held, source, last):
    """A message of a source, which may be refused, and what it does where it is taken."""
    doc = f"d{drawn.randrange(docs + 1)}"
    there = held.get(doc)
    n = last.get((source, doc), 0) + 1
    text = "x" * drawn.randint(1, 9)
    if there is None or not there.is_live:
        return doc, {"do": "create", "doc": doc, "n": n, "ops": [{"insert": text}]}, len(text)
    if drawn.random() < 0.1:
        return doc, {"do": "delete", "doc": doc, "n": n}, 0
    if there.units and drawn.random() < 0.3:
        return doc, {"do": "edit", "doc": doc, "n": n, "base": there.revision, "ops": [{"delete": 1}]}, there.units - 1
    return doc, {"do": "edit", "doc": doc, "n": n, "base": there.revision, "ops": [{"insert": text}]}, there.units + len(text)


def serve(path, docs, held, last, source, options):
    """One session of some twenty commands, each of which stands on the reply before it."""
    server = subprocess.Popen([richd, "serve", path, *options], stdin=subprocess.PIPE, stdout=subprocess.PIPE, text=True)

    def ask(message):
        server.stdin.write(json.dumps(message) + "\n")
        server.stdin.flush()
        return json.loads(server.stdout.readline())

    assert ask({"do": "hello", "source": source}) == {"ok": "hello"}
    for _ in range(20):
        doc, message, units = draw_message(docs, held, source, last)
        reply = ask(message)
        if reply.get("ok") == "taken":
            there = held.setdefault(doc, Held())
            there.units, there.revision, there.is_live = units, reply["rev"], message["do"] != "delete"
            there.numbers[source] = last[source, doc] = message["n"]
    server.stdin.close()
    assert server.wait(PATIENCE) == 0


def look(path, shape, held):
    """Compares what the commands print with what is held, and returns the changes that are held."""
    global lines_seen
    dumped = [line.split(" ", 3) for line in well("dump", path).splitlines()]
    floors = {name: (int(revision), int(floor)) for name, revision, floor, _ in dumped}
    facts = [line.split(" ") for line in well("info", path).splitlines()]
    told = {name: int(value) for name, value in facts}
    assert tuple(name for name, _ in facts) == NAMES, facts
    wanted = {"format": 2, **shape, "documents": len(held), "deleted": sum(not it.is_live for it in held.values()),
              "documents_left": shape["docs"] - len(held)}
    assert {name: told[name] for name in wanted} == wanted, (told, wanted)
    assert 0 <= told["slots_open"] <= shape["slots"] and (told["slots_open"] > 0) == (told["newest_segment"] > 0), told
    assert (told["slots_open"] > 0) == bool(held) and told["newest_segment"] >= told["slots_open"], told
    # of the newest slot its head and its records, of each other open one all
    others = max(told["slots_open"] - 1, 0) * shape["slot"]
    assert (told["journal_bytes"] > others + 9 if held else told["journal_bytes"] == 0), told
    assert told["journal_bytes"] <= others + shape["slot"], told
    each = ""
    for name, (revision, floor) in floors.items():
        it = held[name]
        assert revision == it.revision, (name, revision)
        weight, sources = it.weight(), len(it.numbers)
        mark = "live" if it.is_live else "deleted"
        each += f"{name} {revision} {floor} {mark} {weight} {shape['cell'] - 128 - weight} {sources} {shape['sources'] - sources}\n"
    assert well("info", path, "--documents") == each, each
    changes = sum(revision - floor for revision, floor in floors.values())
    assert well("check", path) == f"ok documents {len(held)} changes {changes}\n", "check"
    lines_seen += len(facts) + len(held)


def damage(path, before):
    """Changes a byte of the file, and looks at what check says of it."""
    global damaged
    changed = bytearray(before)
    at = drawn.randrange(len(changed))
    changed[at] = drawn.choice((0, 0xA5, 0xFF, changed[at] ^ 1))
    with open(path, "wb") as file:
        file.write(changed)
    picks = [run("dump", path, "--pick", pick) for pick in ("newer", "older")]
    status, output, errors = run("check", path)
    if status == 0:
        assert output.startswith("ok documents ") and not errors and all(pick[0] == 0 for pick in picks), (at, output)
    else:
        refused = [pick[2] for pick in picks if pick[0]]
        assert (status, output) == (1, "") and errors in (refused[:1] or ["error 32 Damaged\n"]), (at, errors, refused)
        damaged += 1
    with open(path, "rb") as file:
        assert file.read() == bytes(changed), "a command has changed the file"


with tempfile.TemporaryDirectory() as folder:
    for number in range(stores):
        path, shape, held, last = os.path.join(folder, f"store{number}"), draw_shape(), {}, {}
        well("format", path, *(word for name, value in shape.items() for word in (f"--{name}", str(value))))
        for source in ("a", "b", "c", "a"):
            pick = drawn.choice(("newer", "older"))
            serve(path, shape["docs"], held, last, source, ["--every", "8", "--pick", pick])
            with open(path, "rb") as file:
                before = file.read()
            look(path, shape, held)
            with open(path, "rb") as file:
                assert file.read() == before, "a command has changed the file"
        for _ in range(20):
            damage(path, before)
print(f"{stores} stores, {lines_seen} lines as they should be; of {20 * stores} files with a changed byte {damaged} refused by check")
