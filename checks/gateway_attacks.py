#!/usr/bin/env python3
"""Attacks a gateway as its users can, each time beside others that type.

usage: checks/gateway_attacks.py [SECONDS] [BROWSERS] [NAME..]     (default: 10 seconds for each, 200 browsers, all attacks)

Each attack has a store and a gateway of its own, and browsers of as many users that type in twenty documents: for SECONDS alone, then beside the
attack, and then beside one harmless user, who sends as many bytes (900 KB a second at most) as edits in a document of his own. A line says how long
their replies took each time, and what the gateway took of a processor; what the attack's p99 is of the other two; how many were cut off or refused, how many acknowledged edits are lost
or there twice, whether the processes are the same, and the gateway's greatest memory up to the end of the attack. It fails where a browser was cut,
an edit is lost or twice, a process has ended, or the attack got what it wanted: all names, leases that aren't kept, keys that stay in etcd, news
without the right, pages from elsewhere. How long replies take depends on the machine, and isn't judged.

G1 changes that are wide, G2 names, G3 a full disk, G4 refused creations, G5 pings, pieces, long lines, older revisions, carets and connections,
G6 rights, G7 garbage from a store, G8 pages from elsewhere. NAME is the beginning of one of them, as G5.

GATEWAY names another gateway's program.js, as that of another version. It wants Debian's nodejs, node-ws and etcd-server, for G3 `unshare -rm`,
and the program that ./demo builds, or another that RICHD names.
"""
import pathlib
import subprocess
import sys

ATTACKS = pathlib.Path(__file__).resolve().parent.parent / "gateway/tests/attacks.js"

if __name__ == "__main__":
    sys.exit(subprocess.run(["node", str(ATTACKS), *sys.argv[1:]]).returncode)
