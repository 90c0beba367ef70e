#!/usr/bin/env python3
"""Finds what stands in two places and doesn't agree, and names in the documents that are gone. `rt ci` doesn't run it.

usage: checks/docs.py     in any folder; it prints a line for each finding, and its status is 1 where there is one

- A caller in the head of a crate's src/lib.rt stands in a crate of tests too, where it is proved: with the same text, however its lines are
  broken, and with what the head imports.
- What README.md and the files of docs/ quote as code exists: one file has all words of a name as State::plan, and a path is that of a file.
- Each `old:` of an edit stands once in its file, as the pairs before it leave that.
- docs/CONTRACTS.md is what checks/contracts.py writes, and so names each edit beside the function that it changes.
- Where docs/PROMISES.md names clauses behind a function, as `Store::commit` (`committed`, `done`), one function or type of that name has them all.
- The files that docs/PROMISES.md says to read in an hour and in an afternoon have so many lines, and so many together.
- docs/TESTS.md has as many tests, crates of tests, rows, wrong bodies and calls of scripts as there are, and names each script of checks/.
- What stands behind the rows of test_server's `stdout` is set in, and the rest is its `stdin`.
- A link of these pages leads to a file, and to a heading of it.
- Each public function, type and trait of the crates has a comment.
- No comment of the crates' .rt and .antt files, and no page, has a phrase of PHRASES, which says what to write in its place. The lines of one
  comment are read together.
- No name of a type (struct, enum, trait; record or data in specs/) stands in two crates, those of tests aside, but those of TWICE; and each of
  these does.
- crates.txt lists each crate, behind those that it stands on.

What is quoted and is neither a name nor a path (a line of JSON, a command line, a formula) isn't looked at.
"""
import pathlib
import re
import sys

import contracts
from sources import functions_of

TOP = pathlib.Path(__file__).resolve().parent.parent
CRATES = TOP / "crates"

# quoted words that no file of the crates has: of the kit, of systems, of other programs, and the parts of a name or of bytes
ELSEWHERE = {"may_wait", "RT_JOBS", "StateDirectory", "TCP_NODELAY", "perf", "chop", "_of_fault", "a5"}

# phrases that a reader has to read twice, and what says the same at once
PHRASES = {
    "just where": "exactly where",
    "just when": "exactly when",
    "want of memory": "out of memory, as in: refused as out of memory alone",
    "finds no memory": "where memory runs out",
    "first ones": "a prefix, or the first N",
    "a first part": "a prefix",
    "as it was": "unchanged",
    "goes on": "what happens: continues, is open, keeps serving",
    "stands for": "represents, or means",
    "of which": "whose, with, or where; or a sentence of its own",
    "in a hundred": "%",
    "comes of its input": "the output is the replies to its input",
}

# names that types of two crates or more have today (docs/WORDS.md says what some of them mean). A new type gets a name of its own.
TWICE = {
    "Ahead", "Answer", "AreMarked", "AreParts", "Call", "Change", "ComesOf", "Content", "Cursor",
    "Desk", "Event", "Exchange", "Fits", "FitsNow", "Found", "Front", "HasRoom", "IsAppended", "IsFree", "IsKeptFrom", "IsNext",
    "IsPart", "IsReadAs", "IsStep", "IsWritten", "Kept", "Key", "Kind", "Log", "Moment", "Moments", "News", "Nothing",
    "Order", "Part", "Place", "Record", "Reply", "Run", "Sent", "Shown", "Shows", "Spells", "Stands", "StandsFor", "State", "Step", "Stops",
    "Ticket", "Told", "Waiting", "Written",
}

SUFFIXES = (".rt", ".antt", ".edit", ".md", ".py", ".mjs", ".txt")
findings = []


def find(path, what):
    findings.append(f"{path.relative_to(TOP)}: {what}")


def files(folder, *suffixes):
    return [it for it in sorted(folder.rglob("*")) if it.suffix in suffixes and not {"out", ".git"} & set(it.parts)]


def check_order():
    listing = TOP / "crates.txt"
    lines = [line.split("#")[0].split(":") for line in listing.read_text().splitlines() if line.split("#")[0].strip()]
    below = {head.split()[0]: libraries.split() for head, libraries in lines}
    seen = set()
    for crate, libraries in below.items():
        for library in libraries:
            if library in below and library not in seen:
                find(listing, f"{crate} stands before {library}")
        seen.add(crate)
    for folder in sorted(CRATES.iterdir()):
        if folder.name not in below:
            find(listing, f"{folder.name} isn't listed")


def check_edits():
    for edit in sorted(CRATES.glob("*/must-fail/*.edit")):
        text, old = "", ""
        for line in edit.read_text().splitlines():
            key, _, value = line.partition(": ")
            if key == "file":
                text = (edit.parent.parent / value).read_text()
            elif key == "old":
                old = value
                if text.count(old) != 1:
                    find(edit, f"this stands {text.count(old)} times: {old.strip()}")
            elif key == "new":
                text = text.replace(old, value)


def check_contracts():
    if not contracts.is_up_to_date():
        find(contracts.PAGE, "it isn't up to date: run checks/contracts.py")


# What has names of its own, beside what it belongs to: functions their clauses, types and records what they keep, files of laws their laws.
def named_parts():
    for path in files(CRATES, ".rt"):
        for it in functions_of(path):
            yield it.owner, it.name, {*re.findall(r"(?:requires|ensures) (\w+) \{", it.head)}
        for name, _, _, kept in contracts.types_of(path):
            yield None, name, {*kept}
        if path.name == "laws.rt":
            yield path.parts[-3], "laws", {it.name for it in functions_of(path)}
    for path in files(CRATES, ".antt"):
        for name, fields in re.findall(r"^ *pub record (\w+)[^\n]*\n((?:^ +pub \w+ :.*\n(?:^ {6,}.*\n)*)+)", path.read_text(), re.M):
            yield None, name, {*re.findall(r"^ +pub (\w+) :", fields, re.M)}


# What stands behind a name and begins with a capital is a definition, and no clause.
def check_clauses():
    document = TOP / "docs/PROMISES.md"
    parts = [*named_parts()]
    for quoted, behind in re.findall(r"`([\w:]+)` \(((?:`\w+`(?:, )?)+)\)", document.read_text()):
        *owner, name = quoted.split("::")
        wanted = {it for it in re.findall(r"\w+", behind) if it[0].islower()}
        is_module = owner and owner[-1][0].islower() and name != "laws"
        if not any(name == there and wanted <= has and (not owner or is_module or owner[-1] == of) for of, there, has in parts):
            find(document, f"no `{quoted}` has the clauses {', '.join(sorted(wanted))}")


# Each name that a text imports, with its whole path.
def imports_of(text):
    imports = {}
    for path, group, name in re.findall(r"^(?:ghost )?use ([\w:.]+?)(?:(?:::|\.)\{([^}]*)\}|(?<!\w)(\w+));", text, re.M):
        path = path.replace("::", ".").rstrip(".")
        for it in re.split(r",\s*", group.strip(" ,\n")) if group else [name]:
            it = it.split(" as ")[-1].strip()
            imports.setdefault(path.split(".")[-1] if it == "self" else it, set()).add(path if it == "self" else f"{path}.{it}")
    return imports


# Of the paths those that clauses import. The Prelude passes on what others define.
def ghosts(paths):
    return {it for it in paths if it[0].isupper() or it.startswith("mathlib")}


# A function in one line, with the whole path of each function that it calls.
def flat(function, imports):
    def whole(call):
        first, _, others = call[1].partition("::")
        if others and (CRATES / first).is_dir():
            return call[0]
        paths = sorted(imports.get(first, set()) - ghosts(imports.get(first, set())))
        return "::".join([*(paths[0].split(".") if paths else [first]), *([others] if others else [])]) + "("

    text = re.sub(r"\s+", " ", function)
    text = re.sub(r"\( | \)", lambda it: it[0].strip(), re.sub(r", ?\)", ")", text))
    return re.sub(r"(?<![\w.:])((?:\w+::)*\w+)\(", whole, text)


FUNCTION = re.compile(r"(?:^///[^\n]*\n)*^(?:pub )?fn .*?^\}$", re.M | re.S)


def check_callers():
    proved = {}
    for path in [it for crate in CRATES.glob("test_*") for it in files(crate, ".rt")]:
        text = path.read_text()
        imports = imports_of(text)
        proved.update({flat(it, imports): (path, imports) for it in FUNCTION.findall(text)})
    for head in sorted(CRATES.glob("*/src/lib.rt")):
        for block in re.findall(r"^//! ```text\n(.*?)^//! ```$", head.read_text(), re.M | re.S):
            shown = re.sub(r"^//! ?", "", block, flags=re.M)
            imports = imports_of(shown)
            for function in FUNCTION.findall(shown):
                name = re.search(r"fn (\w+)", function)[1]
                path, there = proved.get(flat(function, imports), (None, None))
                if path is None:
                    find(head, f"no crate of tests has the caller {name} as it stands there")
                    continue
                for it, paths in imports.items():
                    paths, others = ghosts(paths), ghosts(there.get(it, paths))
                    if paths and not paths & others and not any("Prelude" in path for path in paths | others):
                        find(head, f"{path.relative_to(TOP)} has {name} with another {it}")


def check_quoted():
    sources = files(CRATES, ".rt", ".antt", ".edit")
    words = ELSEWHERE | {it.stem for it in sources} | {it.name for it in [*CRATES.iterdir(), *TOP.iterdir()]}
    together = [words]
    for path in [*sources, *files(TOP / "bench", ".py"), *files(TOP / "examples", ".py", ".mjs"), *files(TOP / "gateway", ".js")]:
        together.append({*re.findall(r"\w+", path.read_text()), *path.with_suffix("").parts})
        words = words | together[-1]
    paths = [it.relative_to(TOP).as_posix() for it in TOP.rglob("*") if not {"out", ".git"} & set(it.parts)]
    for document in [TOP / "README.md", *files(TOP / "docs", ".md")]:
        prose = re.sub(r"^    .*$", "", document.read_text(), flags=re.M)
        for quoted in sorted(set(re.findall(r"`([^`\n]+)`", prose))):
            edit = re.sub(r"^(\w+)/(\w+)$", r"crates/\1/must-fail/\2.edit", quoted)
            is_path = re.fullmatch(r"(\./)?[\w.-]+(/[\w.-]+)*/?", quoted) and ("/" in quoted or quoted.endswith(SUFFIXES))
            if is_path and not re.search(r"\b[A-Z]+\b|/out/", quoted.replace("README", "")):
                path = quoted.removeprefix("./").rstrip("/")
                if not any(it == edit or it == path or it.endswith("/" + path) for it in paths):
                    find(document, f"there is no file `{quoted}`")
            elif not is_path and re.fullmatch(r"[A-Za-z_]\w*((::|\.)[A-Za-z_]\w*)*", quoted):
                parts = set(re.findall(r"\w+", quoted))
                if not parts <= words or "::" in quoted and not any(parts <= it for it in together):
                    find(document, f"there is no `{quoted}`")


# A file without its crate stands in the folder, or in the crate, of the file before it. The paragraph above a table says how many lines it has
# together: in tens, or in hundreds where they are more than a thousand.
def check_lengths():
    document = TOP / "docs/PROMISES.md"
    for above, table in re.findall(r"^(.+)\n\n\| File under crates/ .*\n\|---.*\n((?:\|.*\n)+)", document.read_text(), re.M):
        together = 0
        for names, counts in re.findall(r"^\| (\w+/[\w/., ]+) \| ([\d, ]+) \|", table, re.M):
            folder = CRATES
            for name, count in zip(names.split(", "), counts.split(", "), strict=True):
                path = next((it for it in (CRATES / name, folder / name, folder.parent / name) if it.is_file()), None)
                if path is None:
                    find(document, f"there is no file {name}")
                    continue
                folder = path.parent
                lines = len(path.read_text().splitlines())
                together += lines
                if lines != int(count):
                    find(document, f"{path.relative_to(CRATES)} has {lines} lines, and not {count}")
        if f"{round(together, -2 if together > 1000 else -1):,} lines" not in above:
            find(document, f"the files to read have {together:,} lines: {above[:40]}..")


# What docs/TESTS.md counts of the gate.
def check_counts():
    document = TOP / "docs/TESTS.md"
    tests = [sum(it.read_text().count("#[test]") for it in files(crate, ".rt")) for crate in CRATES.glob("test_*")]
    rows = [line for line in (CRATES / "test_rows/stdin").read_text().splitlines() if line and not line.startswith("#")]
    runs = re.findall(r"^(?:richd|store|sessions|address)\b", (CRATES / "test_server/stdin").read_text(), re.M)
    calls = [int(it) for it in re.findall(r"^    calls: (\d+),", (CRATES / "test_hostile/src/scripts.rt").read_text(), re.M)]
    crates, edits = sum(it > 0 for it in tests), len([*CRATES.glob("*/must-fail/*.edit")])
    count = f"{sum(tests)} tests in {crates} crates, {len(rows)} rows of deltas, {len(runs)} runs by rows, {edits} wrong bodies"
    for wanted in (count, f"scripts of {sum(calls)} calls"):
        if wanted not in document.read_text():
            find(document, f"this should stand there: {wanted}")
    for script in sorted((TOP / "checks").glob("*.py")):
        if f"usage: checks/{script.name}" in script.read_text() and script.name not in document.read_text():
            find(script, "docs/TESTS.md doesn't name it")


# The last column of the table of what the gate costs: how many edits there are.
def check_costs():
    document = TOP / "docs/CONTRIBUTING.md"
    table = re.search(r"^<!-- costs: .*^<!-- end of costs -->", document.read_text(), re.M | re.S)[0]
    for crate, column in re.findall(r"^\| ([a-z_0-9]+|\*\*all: \d+\*\*) \|.*\|([^|]*) \|$", table, re.M):
        edits = len([*CRATES.glob(f"{'*' if crate.startswith('*') else crate}/must-fail/*.edit")])
        if not re.fullmatch(rf"[\d. ]*\({edits}\)" if edits else r"[\d. ]*", column):
            find(document, f"{crate} has {edits} edits, and not{column}")


# A row of runs stands in both files.
def check_rows():
    folder = CRATES / "test_server"
    rows = [line for line in (folder / "stdout").read_text().splitlines() if not line.startswith("  ")]
    if rows != (folder / "stdin").read_text().splitlines():
        find(folder / "stdin", "it hasn't the rows of stdout")


def check_comments():
    for path in sorted(CRATES.glob("*/src/**/*.rt")):
        lines = path.read_text().splitlines()
        for place, line in enumerate(lines):
            told = re.match(r"\s*pub (?:fn|struct|enum|trait) (\w+)", line)
            above = place - 1
            while told and above >= 0 and lines[above].lstrip().startswith("#["):
                above -= 1
            if told and not lines[above].lstrip().startswith("///"):
                find(path, f"{told[1]} has no comment")


# A text with its lines, where all but comments is blank. The lines of one comment stand in a row.
def only_comments(path):
    parts = {
        ".rt": r'(?<!\w)b?r(#*)"[\s\S]*?"\1|"(?:\\[\s\S]|[^"\\])*"|\'(?:\\[^\']+|[^\\\'\n])\'|//[/!]?(?P<comment>[^\n]*)',
        ".antt": r'"(?:\\.|[^"\\\n])*"|(?<!\S)--(?P<comment>[^\n]*)',
    }[path.suffix]
    text, end, kept = path.read_text(), 0, ""
    for it in re.finditer(parts, text):
        kept += re.sub(r"[^\n]*\S[^\n]*", "\0", text[end:it.start()])
        kept += it["comment"] if it["comment"] is not None else re.sub(r"[^\n]+", "\0", it[0])
        end = it.end()
    return kept


def check_phrases():
    pages = [it for it in [TOP / "README.md", *files(TOP / "docs", ".md")] if it != contracts.PAGE]
    for path in [*files(CRATES, ".rt", ".antt"), *pages]:
        text = path.read_text() if path.suffix == ".md" else only_comments(path)
        for phrase, better in PHRASES.items():
            for it in re.finditer(rf"\b{phrase}\b".replace(" ", r"\s+"), text, re.I):
                find(path, f"line {text.count(chr(10), 0, it.start()) + 1} has `{phrase}`; say: {better}")


def check_names():
    crates = {}
    for folder, kinds, suffix in (("src", "struct|enum|trait", ".rt"), ("specs", "record|data", ".antt")):
        for crate in sorted(it for it in CRATES.iterdir() if not it.name.startswith("test_")):
            for path in files(crate / folder, suffix):
                for name in re.findall(rf"^ *(?:pub(?:\(\w+\))? )?(?:{kinds}) (\w+)", path.read_text(), re.M):
                    crates.setdefault(name, []).append(crate.name)
    twice = {name: sorted({*those}) for name, those in crates.items() if len({*those}) > 1}
    for name in sorted(twice.keys() - TWICE):
        find(CRATES, f"{name} is a type of {', '.join(twice[name])}: give the new one another name")
    for name in sorted(TWICE - twice.keys()):
        find(CRATES, f"{name} is a type of one crate at most: take it off TWICE in checks/docs.py")


# A link within the repository leads to a file, and to a heading of it.
def check_links():
    for document in [TOP / "README.md", *files(TOP / "docs", ".md")]:
        for path, anchor in re.findall(r"\]\((?!\w+:)([^)#]*)(?:#([^)]*))?\)", document.read_text()):
            target = document.parent / path if path else document
            if not target.exists():
                find(document, f"there is no file {path}")
            elif anchor:
                headings = re.findall(r"^#+ (.*)$", target.read_text(), re.M)
                if anchor not in {re.sub(r"[^\w -]", "", it.lower()).replace(" ", "-") for it in headings}:
                    find(document, f"{path} has no heading #{anchor}")


check_order()
check_edits()
check_contracts()
check_clauses()
check_callers()
check_quoted()
check_lengths()
check_counts()
check_costs()
check_rows()
check_comments()
check_phrases()
check_names()
check_links()
print("\n".join(findings) or "All of it agrees.")
sys.exit(1 if findings else 0)
