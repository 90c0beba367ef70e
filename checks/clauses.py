#!/usr/bin/env python3
"""Compares the contracts of two commits. `rt ci` doesn't run it.

usage: checks/clauses.py BEFORE [AFTER]     in any folder; AFTER is what stands in crates/ where it isn't given

A line is printed for each function whose clauses have other names than before: those that went, with -, and those that came, with +. Then the
lines of each crate are counted, and the last lines count, for both: functions, clauses, contracts over ten clauses with their lines, and lines of
src/, specs/ and proofs/. Crates of tests are left out.
"""
import collections
import io
import pathlib
import re
import subprocess
import sys
import tarfile
import tempfile

import sources

CLAUSE = re.compile(r"^ *(requires|ensures) (\w+)? ?\{", re.M)


def is_test(crate):
    return crate.startswith("test_")


# A folder crates/: the functions by crate, type and name, each with the names of its clauses; and the counts.
def contracts_of(crates):
    clauses, counts = collections.defaultdict(list), collections.Counter()
    for path in sorted(crates.glob("*/src/**/*.rt")) + sorted(crates.glob("*/specs/**/*.antt")) + sorted(crates.glob("*/proofs/**/*.antt")):
        crate, kind = path.relative_to(crates).parts[:2]
        if is_test(crate):
            continue
        lines = len(path.read_text().splitlines())
        counts[f"lines of {kind}"] += lines
        counts[crate, kind] += lines
        for it in sources.functions_of(path) if path.suffix == ".rt" else ():
            names = [f"{kind} {name or '(unnamed)'}" for kind, name in CLAUSE.findall(it.head)]
            clauses[crate, it.owner or "", it.name] += names
            counts["functions"] += 1
            counts["clauses"] += len(names)
            counts["contracts over ten clauses"] += len(names) > 10
            counts["their lines"] += len(it.head.splitlines()) * (len(names) > 10)
    return clauses, counts


def contracts_at(commit):
    tar = subprocess.run(["git", "archive", commit, "crates"], cwd=sources.CRATES.parent, check=True, capture_output=True).stdout
    with tempfile.TemporaryDirectory() as folder:
        tarfile.open(fileobj=io.BytesIO(tar)).extractall(folder, filter="data")
        return contracts_of(pathlib.Path(folder) / "crates")


def main():
    if not 2 <= len(sys.argv) <= 3:
        sys.exit(__doc__)
    before, counted = contracts_at(sys.argv[1])
    after, counts = contracts_at(sys.argv[2]) if len(sys.argv) == 3 else contracts_of(sources.CRATES)
    for key in sorted(before.keys() | after.keys()):
        went, came = (collections.Counter(a.get(key, [])) - collections.Counter(b.get(key, [])) for a, b in ((before, after), (after, before)))
        if went or came:
            crate, owner, name = key
            print(f"{crate}: {owner}{'::' * bool(owner)}{name}", *(f"-{it}" for it in went.elements()), *(f"+{it}" for it in came.elements()), sep="  ")
    for crate in sorted({it[0] for it in counted.keys() | counts.keys() if isinstance(it, tuple)}):
        print(f"{crate}:", ", ".join(f"{kind} {counted[crate, kind]:,} to {counts[crate, kind]:,}" for kind in ("src", "specs", "proofs")))
    for what in counts:
        if isinstance(what, str):
            print(f"{what}: {counted[what]:,} before, {counts[what]:,} now")


main()
