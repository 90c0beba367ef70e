#!/usr/bin/env python3
"""Lets writers and followers use a server that is killed by SIGKILL every few seconds, and compares what was acknowledged with what it holds.

usage: checks/soak.py [MINUTES] [WRITERS]     (default: 15 minutes, 12 writers)

Each writer is a source of its own. It puts words into documents that all share, one at a time and eight ahead of their replies, takes its last
change back in others, and creates, edits and deletes one of its own. Four followers subscribe to the newest documents: the news of each has to come
revision by revision, and they fold it. After each kill `dump`, by the newer milestones and by the older, has to show each word that was acknowledged
and not taken back, no word twice, and no other but those that were on their way; where a follower holds the same revision it holds the same text;
each word of a revision that came as news stands in the news of this revision; and no two commands were answered the same revision. Then the server
starts again at the same port, in turn as it is, with `--pick older`, and with `--exit-on-failure --idle --log --stats`, of which each line has to have its
form. Clients connect again by themselves, and send what had no reply once more.

Run ./demo first, which builds crates/richd/out/richd, or name another program in RICHD. The store lies in a temporary folder (TMPDIR).
"""
import os
import random
import re
import subprocess
import sys
import tempfile
import time

from loading import Follower, Place, Writer, agrees, dumped, format_store, percentile, richd

minutes = float(sys.argv[1]) if len(sys.argv) > 1 else 15
count = int(sys.argv[2]) if len(sys.argv) > 2 else 12
KINDS = [[], ["--pick", "older"], ["--exit-on-failure", "--idle", "30", "--log", "--stats", "1"]]
LINE = re.compile(r"\d+\.\d{3} (?:start version|stats|waited|full|slow|idle)( \S+)+\n")
DEADLINE = 60  # seconds for all to notice a kill


def serve(number):
    """Starts the server, and returns it once it listens. What it says on standard error goes to a file."""
    said = open(os.path.join(folder, "said"), "w+")
    words = [richd, "serve", store, "--listen", f"127.0.0.1:{place.port}", "--every", "64", *KINDS[number % len(KINDS)]]
    server = subprocess.Popen(words, stdout=subprocess.PIPE, stderr=said, text=True)
    assert server.stdout.readline() == f"listening 127.0.0.1:{place.port}\n", f"it ends with {server.wait()}"
    return server, said


def kill(server, said):
    """Ends the server, waits until everybody has noticed, and returns how many lines it has logged."""
    server.kill()
    server.wait()
    server.stdout.close()
    until = time.monotonic() + DEADLINE
    while not all(it.is_cut for it in everybody):
        assert time.monotonic() < until, "somebody doesn't notice the end of the server"
        time.sleep(0.01)
    for it in everybody:
        if it.fault is not None:
            raise it.fault
    said.seek(0)
    lines = said.readlines()
    said.close()
    for line in lines:
        assert LINE.fullmatch(line), f"it logs {line!r}"
    return len(lines)


def look():
    """Compares what the store holds with what everybody was told. Returns the acknowledged commands, and the texts that could be compared."""
    found = dumped(store)
    assert found == dumped(store, "--pick", "older"), "the picks differ"
    acknowledged, equal = agrees(found, writers), 0
    for follower in followers:
        for doc, (revision, text) in follower.texts.items():
            if doc in found and found[doc][0] == revision and found[doc][1] is not None:
                assert found[doc][1] == [word for word in text.split(";") if word], f"{doc} isn't what its news make"
                equal += 1
    return acknowledged, equal


def look_at_news():
    """Looks for each acknowledged word in the news of its revision, and for two commands of one revision. Returns how many were found."""
    seen, told = set(), 0
    for writer in writers:
        for doc, sent in list(writer.commands.items()):
            for command in [command for command in list(sent) if command.rev is not None]:
                assert (doc, command.rev) not in seen, f"{doc} has revision {command.rev} twice"
                seen.add((doc, command.rev))
                for follower in followers:
                    inserted = follower.inserted.get((doc, command.rev))
                    if inserted is not None and command.word:
                        assert command.word in inserted, f"{doc} {command.rev}: {command.word} isn't in its news"
                        told += 1
    return told


with tempfile.TemporaryDirectory() as folder:
    store, place = os.path.join(folder, "store"), Place(pause=0.05)
    format_store(store, 128 + int(256 * minutes))
    writers = [Writer(number, place) for number in range(count)]
    followers = [Follower(number, place) for number in range(4)]
    everybody = [*writers, *followers]
    kills = compared = logged = 0
    drawn, began = random.Random(1), time.monotonic()
    server, said = serve(0)
    try:
        for it in everybody:
            it.start()
        while time.monotonic() - began < 60 * minutes:
            time.sleep(min(drawn.uniform(2, 12), 15 * minutes))
            logged += kill(server, said)
            kills += 1
            acknowledged, equal = look()
            compared += equal
            server, said = serve(kills)
        place.ends.set()
        for it in everybody:
            it.join(DEADLINE)
            assert not it.is_alive() and it.fault is None, it.fault
        logged += kill(server, said)
        acknowledged, equal = look()
        told = look_at_news()
    finally:
        server.kill()
        server.wait()
    size = os.stat(store).st_blocks * 512

waits = [wait for writer in writers for wait in writer.waits]
refused = sum(sum(writer.refused.values()) for writer in writers)
kinds = {kind: sum(c.message["do"] == kind for writer in writers for sent in writer.commands.values() for c in sent) for kind in ("undo", "delete")}
print(f"{time.monotonic() - began:.0f} s, {kills} kills; {kinds['undo']} undos, {kinds['delete']} deletions, {refused} refused, mostly TooOld after a start; "
      f"{sum(writer.sent_again for writer in writers)} sent again")
print(f"waits for a reply: half {percentile(waits, 0.5) * 1000:.1f} ms, 99% {percentile(waits, 0.99) * 1000:.1f} ms, all {max(waits) * 1000:.0f} ms; "
      f"{size / 1e6:.1f} MB of the disk; {logged} lines logged")
print(f"{sum(follower.news for follower in followers)} news in order, {told} words in the news of their revision, {compared + equal} texts equal to their news")
print(f"ok: {acknowledged} acknowledged commands of {count} writers, {kills} kills, 0 lost")
