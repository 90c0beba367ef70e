#!/usr/bin/env python3
"""Refuses each request of richd for memory, and each for a thread, one in each run, and checks what it answers and what the store holds then.

usage: checks/no_memory.py [MOST] [RUNS]     (default: each request of each row is refused; as many runs at once as there are processors)

A row is what is run: `format`, `dump`, `migrate`, `copy`, `delta`, the scripts of scripts.py over standard input, three sessions at once over TCP. The first,
second, .. request for memory is refused, and then the first, second, .. for a thread, until a run doesn't come so far; with MOST, so many of
them, evenly spread. What then has to come: an answer is the undisturbed run's or NoMemory (22), and after that the same line is asked again;
a program that ends says `error 22 NoMemory`, its status is 1, and the store is as a stop leaves it, after a refused start unchanged; no
answer takes ten seconds. `error 34 Fault` may stand in its place where the file was being opened, and nothing of it had been read. Once the
row is through, the store holds by either pick what the undisturbed run leaves, with the sources' numbers.

Where the thread that writes is refused, which is the first one, the program has to end so, and the store to be unchanged, with `--listen`
too. Where another one is refused, a session over standard input has to go on, and `--listen` has to serve one session fewer and to say so, or
as many where it is one that composes milestones.

Run ./demo first, which builds crates/richd/out/richd, or name another program in RICHD. It needs a C compiler, `cc`. The stores lie in a
temporary folder (TMPDIR).
"""
import functools

from playing import ROWS, SESSIONS, check, run_as_wanted
from three import play_places

DELTAS = [
    ["compose", '{"ops":[{"insert":"abc"},{"insert":"d","attributes":{"bold":true}}]}', '{"ops":[{"retain":1},{"delete":1}]}'],
    ["transform", '{"ops":[{"insert":"a"}]}', '{"ops":[{"insert":"b"},{"retain":5},{"insert":"c"}]}', "--first"],
    ["invert", '{"ops":[{"retain":6,"attributes":{"bold":true}},{"insert":"!"},{"delete":5}]}', '{"ops":[{"insert":"Hello\\nWorld"}]}'],
    ["apply", '{"ops":[{"insert":"a\U0001f600b"}]}', '{"ops":[{"retain":1},{"delete":2}]}'],
    ["apply", '{"ops":[{"insert":"a\U0001f600b"}]}', '{"ops":[{"retain":2},{"insert":"x"}]}'],  # CutsPair
    ["compose", "x", "y"],  # BadLine
]
WORDS = [
    *((f"delta {words[0]}", functools.partial(run_as_wanted, words=["delta", *words])) for words in DELTAS),
    ("help", functools.partial(run_as_wanted, words=["--help"])),
    ("words that mean nothing", functools.partial(run_as_wanted, words=["serve", "--every", "0"])),
]
PLACES = [("the places of a server", play_places)]
MEMORY, THREAD = [("memory", "none")], [("thread", "none")]

if __name__ == "__main__":
    check("requests for memory or a thread refused", ([*WORDS, *ROWS], MEMORY), ([*PLACES, *SESSIONS], THREAD))
