#!/usr/bin/env python3
"""Lets three JavaScript clients write at once, each with an editor that is bound to its document, over all that may come between.

usage: checks/clients.py [--gateway] [SECONDS] [SEED]     (default: 300 seconds)

The server is killed and started again, connections are cut, or lose what the server says; documents are deleted, what was done is undone,
pages are loaded anew before all is saved, characters are composed meanwhile. Rounds of some ten seconds, each on a store of its own, end with
all three editors, their documents and `richd dump` alike, and each character there once. The last line has the counts. The editor is the stub
of Quill of the client's own tests. With --gateway they write through a gateway, which is killed, too.

It wants Debian's nodejs, with --gateway node-ws too, and the program that ./demo builds, or another that RICHD names.
"""
import pathlib
import subprocess
import sys

FUZZ = pathlib.Path(__file__).resolve().parent.parent / "clients/js/tests/fuzz.js"

if __name__ == "__main__":
    words = sys.argv[1:] or ["300"]
    sys.exit(subprocess.run(["node", str(FUZZ), *words]).returncode)
