#!/usr/bin/env python3
"""Runs three stores, etcd, two gateways and HAProxy before them, with many browsers as programs, and kills a store and a gateway meanwhile.

usage: checks/cluster.py [SECONDS] [SESSIONS] [TYPERS] [PLACES]     (default: 60 seconds, 2000 sessions, a tenth of them type, 60 seconds)

Those that type have the JavaScript client, two of them in a document, and type every 0.4 seconds (PERIOD names other milliseconds); the
others follow a document. In this order:

- nothing happens;
- stores and gateways are killed by SIGKILL in turns, each shortly after all have typed at once, and started again; pages are loaded anew
  while an edit of theirs is on its way;
- a fourth store is added: the gateways' settings are written anew, they get SIGHUP, and new documents have to go there;
- browsers follow a document that changes by much, ask for all of it again and again, and read nothing: a gateway's memory is bounded;
- for PLACES seconds all 64 places of a store are taken by connections that say nothing: browsers have to wait, and nobody is refused.

At the end all browsers of a document show what its store's `richd dump` prints. Half of the documents take only insertions, each of another
letter: each acknowledged one stands there once. Each document is in one store, which is the one that etcd names. Each part of the run is
printed with its edits, how long a reply took and until others saw the edit, and with what the programs used of processors and memory.

It wants Debian's nodejs, node-ws, etcd-server and haproxy, and the program that ./demo builds, or another that RICHD names.
"""
import pathlib
import subprocess
import sys

CLUSTER = pathlib.Path(__file__).resolve().parent.parent / "gateway/tests/cluster/cluster.js"

if __name__ == "__main__":
    sys.exit(subprocess.run(["node", str(CLUSTER), *sys.argv[1:]]).returncode)
