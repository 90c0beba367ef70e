#!/usr/bin/env python3
"""Writes at random through the gateway, with the JavaScript client, over all that may come between.

usage: checks/gateway.py [MINUTES]     (default: 3)

1. A hundred browsers write in twenty documents, a third of the time: the store is killed with -9 every four seconds, the gateway every nine, and a
   browser's connection is cut every 0.4 seconds. At the end all documents hold what `richd dump` has, and each character that was put in is
   there once.
2. The same with three names for six browsers of a document, which are lent on within seconds, a sixth of the time: what was in doubt is told,
   and is there once or not at all.
3. That with a file of leases that can't grow now and then, and a line of it cut short; and that with the leases in etcd, which is killed every
   two seconds. A sixth of the time each.
4. Two thousand bare sessions follow twenty documents, two hundred type, and three ask and read nothing: each that reads gets each revision once
   and in order, and the gateway's memory is bounded.

Each part prints a line with its counts. It wants Debian's nodejs and node-ws, for etcd etcd-server, and the program that ./demo builds, or another that RICHD names.
"""
import pathlib
import subprocess
import sys

TESTS = pathlib.Path(__file__).resolve().parent.parent / "gateway/tests"

if __name__ == "__main__":
    seconds = 60 * float(sys.argv[1] if len(sys.argv) > 1 else "3")
    lending = ["36", "6", "lend"]
    parts = [("fuzz.js", 1 / 3, []), *(("fuzz.js", 1 / 6, [*lending, *more]) for more in ([], ["full"], ["etcd"])), ("many.js", 1 / 6, [])]
    failed = [subprocess.run(["node", str(TESTS / part), str(max(5, round(share * seconds))), *words]).returncode for part, share, words in parts]
    sys.exit(1 if any(failed) else 0)
