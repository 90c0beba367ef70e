#!/usr/bin/env python3
"""Writes the table of what the gate costs into docs/CONTRIBUTING.md, from a timed run of `rt ci`. It isn't part of the gate.

usage: checks/costs.py FILE "WHEN AND ON WHAT"

FILE has a line for each crate: its name, and the processor minutes of its proof, of its tests and of its must-fail edits. Other lines are
passed over, and a line `sum` too, since the sums are made here. The second word is put above the table. The counts of edits are those that
stand in crates/. What was between the two markers of the page is replaced.
"""
import pathlib
import re
import sys

TOP = pathlib.Path(__file__).resolve().parent.parent
PAGE = TOP / "docs/CONTRIBUTING.md"
BEGIN, END = "<!-- costs: written by checks/costs.py -->\n", "<!-- end of costs -->\n"


def rows_of(text):
    for line in text.splitlines():
        row = re.fullmatch(r"(\w+)((?: +\d+\.\d+){3,4})", line.strip())
        if row and row[1] != "sum":
            yield row[1], [float(it) for it in row[2].split()[:3]]


def cell(minutes):
    return f"{minutes:.1f}" if minutes >= 0.05 else ""


def table(rows):
    lines = ["| Crate | Proof | Tests | Edits |", "|---|---|---|---|"]
    for name, (proof, tests, edits) in sorted(rows, key=lambda row: -sum(row[1])):
        count = len(list((TOP / "crates" / name / "must-fail").glob("*.edit")))
        lines.append(f"| {name} | {cell(proof)} | {cell(tests)} | {cell(edits)}{f' ({count})' if count else ''} |")
    sums = [sum(row[1][at] for row in rows) for at in range(3)]
    every = len(list(TOP.glob("crates/*/must-fail/*.edit")))
    lines.append(f"| **all: {sum(sums):.0f}** | {cell(sums[0])} | {cell(sums[1])} | {cell(sums[2])} ({every}) |")
    return "\n".join(lines) + "\n"


def main(file, about):
    rows = list(rows_of(pathlib.Path(file).read_text()))
    if not rows:
        sys.exit(f"{file} has no line of a crate with three numbers")
    page = PAGE.read_text()
    if page.count(BEGIN) != 1 or page.count(END) != 1:
        sys.exit(f"{PAGE} doesn't have its two markers once each")
    before, rest = page.split(BEGIN)
    PAGE.write_text(f"{before}{BEGIN}{about}\n\n{table(rows)}{END}{rest.split(END)[1]}")


if __name__ == "__main__":
    if len(sys.argv) != 3:
        sys.exit(__doc__)
    main(*sys.argv[1:])
