#!/usr/bin/env python3
"""Runs the examples of README.md in Python and in JavaScript, each against a server of its own.

usage: checks/readme.py

An example is what stands between ```python or ```js and ``` (also ```javascript). It is run at the top of the repository; Python finds
clients/python, and a JavaScript module imports "./clients/js/richd.js". The port 7000 is replaced by that of the server, which is over a
new store. It has to end with status 0. Where a block ```text follows next, it has to print that.

Run ./demo first, which builds crates/richd/out/richd, or name another program in RICHD. The stores lie in a temporary folder (TMPDIR).
"""
import os
import re
import subprocess
import sys
import tempfile
from pathlib import Path

REPOSITORY = Path(__file__).resolve().parent.parent
sys.path.insert(0, str(REPOSITORY / "clients/python"))

from richd.program import Server, format_store

PATIENCE = 60  # seconds
PORT = "7000"
RUN = {"python": [sys.executable, "-"], "js": ["node", "--input-type=module"]}


def blocks():
    """The fenced blocks of README.md in order: language and content."""
    fences = re.findall(r"^```(\w*)\n(.*?)^```$", (REPOSITORY / "README.md").read_text(), re.MULTILINE | re.DOTALL)
    return [("js" if language in ("js", "javascript", "mjs") else language, content) for language, content in fences]


def played(language, content):
    """What an example prints, and its status."""
    with tempfile.TemporaryDirectory() as folder:
        store = os.path.join(folder, "store")
        format_store(store)
        with Server(store) as server:
            run = subprocess.run(
                RUN[language],
                input=content.replace(PORT, str(server.address[1])),
                cwd=REPOSITORY,
                env={**os.environ, "PYTHONPATH": str(REPOSITORY / "clients/python")},
                capture_output=True,
                text=True,
                timeout=PATIENCE,
            )
    return run.stdout, run.stderr, run.returncode


failed, count = 0, {language: 0 for language in RUN}
everything = blocks()
for place, (language, content) in enumerate(everything):
    if language not in RUN:
        continue
    count[language] += 1
    name = f"example {count[language]} in {language}, {len(content.splitlines())} lines"
    following = everything[place + 1] if place + 1 < len(everything) else ("", "")
    printed, errors, status = played(language, content)
    if status != 0:
        print(f"FAILED  {name}: status {status}\n{errors}")
    elif following[0] == "text" and printed.strip() != following[1].strip():
        print(f"FAILED  {name}: it printed\n{printed}")
    else:
        print(f"ok      {name}")
        continue
    failed += 1
for language, number in count.items():
    if not number:
        failed += 1
        print(f"FAILED  there is no example in {language}")
print(f"{'FAILED' if failed else 'ok'}: {sum(count.values())} examples of README.md, {failed} faults")
sys.exit(1 if failed else 0)
