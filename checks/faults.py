#!/usr/bin/env python3
"""Lets each read, write and sync of the store's file fail, one in each run, and checks what richd answers and what the store holds then.

usage: checks/faults.py [MOST] [RUNS]     (default: each call of each row fails; as many runs at once as there are processors)

A row is what is run: `format`, `dump`, `migrate`, `copy`, the scripts of scripts.py over standard input, three sessions at once over TCP. The first,
second, .. call of a kind fails, until a run doesn't come so far; with MOST, so many of them, evenly spread. A write that fails has
written nothing, half of it, or all. What then has to come: a program that opens the store ends with `error 34 Fault`, status 1, and has
written nothing; a command is answered by StoreFailed (21), as is each later one, `error 34 Fault` is told once, the session ends with
`error 21 StoreFailed`, and the store holds what was acknowledged, with the command that met the fault or without it. Behind `error 34 Fault`
a line says what was tried, and why it failed. Then the program is started again, and the command is sent again. Once the row is through, the
store holds by either pick what the undisturbed run leaves, with the sources' numbers. A read or a write that does a part of its work, or is
interrupted, has to be gone on with, and shows nowhere.

Run ./demo first, which builds crates/richd/out/richd, or name another program in RICHD. It needs a C compiler, `cc`. The stores lie in a
temporary folder (TMPDIR).
"""
from playing import ROWS, check

KINDS = [
    ("write", "none"),
    ("write", "half"),
    ("write", "all"),
    ("sync", "none"),
    ("read", "none"),
    ("write", "short"),
    ("write", "interrupted"),
    ("read", "short"),
    ("read", "interrupted"),
]

if __name__ == "__main__":
    check("calls that failed", (ROWS, KINDS))
