#!/usr/bin/env python3
"""Writes docs/CONTRACTS.md, the list of all contracts, from the sources of crates/. `rt ci` doesn't run it.

usage: checks/contracts.py [--check]     in any folder; with --check it writes nothing, and its status is 1 where the page isn't up to date

The page has a table for each library that isn't one of tests. Its rows are the public functions, methods of traits and types that promise
something, and the functions whose bodies an edit of must-fail/ changes. The first line of a function has the first sentence of its comment, and
the clauses that have none of their own. Each other line has the comment of some clauses, which goes for all up to the next blank line or
comment. What a caller has to show (`requires`) isn't listed.
"""
import collections
import pathlib
import re
import sys

from sources import CRATES, comment_above, functions_of, is_shown

PAGE = CRATES.parent / "docs/CONTRACTS.md"
HEAD = """# Contracts

Each public function that promises something, with its clauses, what stands above them in the source, and the edits that guard it: wrong bodies
that the gate must refuse, files `crates/CRATE/must-fail/EDIT.edit`. docs/PROMISES.md says what all of it comes to. A clause itself stands in the
function's file, in the words of `specs/` (docs/MODEL.md); one that has no name is marked (unnamed). A type is listed where each of its values keeps
something. *Inside* is a function that other crates can't call, and that an edit changes. `checks/contracts.py` writes this page.
"""

UNNAMED = "(unnamed)"
CLAUSE = re.compile(r"(requires|ensures) (?:(\w+) )?\{")
FACT = re.compile(r"ghost (\w+): \{")
INVARIANT = re.compile(r"ghost invariant = \{")


# The first sentence of a comment.
def first_sentence(comment):
    text = " ".join(comment.split("\n\n")[0].split())
    return re.split(r"(?<=[^.][.])\s+(?=[A-Z`])", text)[0]


# What a function ensures, in groups: the sentence above them, and their names.
def groups_of(lines):
    groups, is_open = [], False
    for at, line in enumerate(lines):
        found = CLAUSE.match(line.strip())
        if found:
            if not is_open:
                groups.append((first_sentence(comment_above(lines, at)), []))
                is_open = True
            if found[1] == "ensures":
                groups[-1][1].append(found[2] or "")
        elif not line.strip() or line.strip().startswith("//"):
            is_open = False
    return [(above, names) for above, names in groups if names]


# Each type of a file that keeps something: its name, its place, its comment and the names of what it keeps.
def types_of(path):
    lines = path.read_text().splitlines()
    kept = collections.defaultdict(list)
    places = {}
    for at, line in enumerate(lines):
        if it := re.match(r"pub struct (\w+)", line):
            places[it[1]] = (at, comment_above(lines, at))
            facts = lines[at:next((end for end in range(at, len(lines)) if lines[end].startswith("}") or lines[end].endswith(";")), at) + 1]
            kept[it[1]] += [fact[1] for line in facts if (fact := FACT.match(line.strip()))]
        if it := re.match(r"impl.*\bModel for (\w+)", line):
            block = lines[at:lines.index("}", at)]
            kept[it[1]] += ["invariant" for line in block if INVARIANT.match(line.strip())]
    return [(name, *places[name], kept[name]) for name in places if kept[name]]


# A row for each function and type of a crate, in the order of their files: whether it is shown, its name, its file, its groups and its edits.
def rows_of(crate):
    edits = collections.defaultdict(list)
    for edit in sorted(crate.glob("must-fail/*.edit")):
        words = dict(line.split(": ", 1) for line in reversed(edit.read_text().splitlines()) if ": " in line)
        path = crate / words["file"]
        at = path.read_text().partition(words["old"])[0].count("\n")
        edits[path].append((at, edit.stem))
    for path in sorted(crate.rglob("src/**/*.rt")):
        if "out" in path.parts:
            continue
        rows = []
        for name, at, comment, kept in types_of(path):
            if is_shown(path, name):
                rows.append((at, True, name, [(first_sentence(comment), kept)], []))
        for it in functions_of(path):
            name = f"{it.owner}::{it.name}" if it.owner else it.name
            is_trait = it.owner and re.search(rf"^pub trait {it.owner}\b", path.read_text(), re.M)
            shown = (it.head.lstrip().startswith("pub fn") or is_trait) and is_shown(path, it.owner or it.name)
            changed = [edit for at, edit in edits[path] if it.lines[0] <= at < it.lines[1]]
            edits[path] = [edit for edit in edits[path] if edit[1] not in changed]
            groups = groups_of(it.head.splitlines())
            if not changed and not (shown and groups):
                continue
            own = [name for above, names in groups if not above for name in names]
            groups = [(first_sentence(it.comment), own), *[(above, names) for above, names in groups if above]]
            rows.append((it.lines[0], shown, name, groups, changed))
        rows += [(at, False, path.name, [("", [])], [edit]) for at, edit in edits[path]]
        for _, shown, name, groups, changed in sorted(rows, key=lambda row: row[0]):
            yield shown, name, path, groups, changed


def table_of(crate, rows):
    lines, before = [], None
    for shown, name, path, groups, changed in rows:
        if path != before:
            lines.append(f"| *{path.relative_to(crate / 'src')}* | | | |")
            before = path
        for at, (above, clauses) in enumerate(groups):
            cells = [
                ("" if at else f"`{name}`" + ("" if shown else ", *inside*")),
                ", ".join(f"`{it}`" if it else UNNAMED for it in clauses),
                above.replace("|", "\\|"),
                "" if at else ", ".join(f"`{it}`" for it in changed),
            ]
            lines.append("| " + " | ".join(cells) + " |")
    return lines


# The page as it should be, and how many functions, clauses and edits it has.
def page():
    text, functions, clauses, edits = [], 0, 0, 0
    for crate in sorted(CRATES.iterdir()):
        if crate.name.startswith("test_") or not (crate / "src/lib.rt").exists():
            continue
        rows = list(rows_of(crate))
        if not rows:
            continue
        functions += len(rows)
        clauses += sum(len(names) for row in rows for _, names in row[3])
        edits += sum(len(row[4]) for row in rows)
        text += ["", f"## {crate.name}", "", "| | Clauses | What they say | Edits |", "|---|---|---|---|", *table_of(crate, rows)]
    count = f"{functions:,} functions and types, {clauses:,} clauses, {edits} edits.\n"
    return "\n".join([HEAD, count.rstrip(), *text]) + "\n", (functions, clauses, edits)


def is_up_to_date():
    return PAGE.exists() and PAGE.read_text() == page()[0]


if __name__ == "__main__":
    if "--check" in sys.argv:
        print("docs/CONTRACTS.md is up to date." if is_up_to_date() else "docs/CONTRACTS.md isn't up to date: run checks/contracts.py")
        sys.exit(0 if is_up_to_date() else 1)
    PAGE.write_text(page()[0])
    print("{:,} functions and types, {:,} clauses, {} edits".format(*page()[1]))
