"""The commands that keep an archive and answer from it."""

from __future__ import annotations

import argparse
import datetime
import difflib
import json
import re
import sys
import time
from typing import Any, Dict

from . import archive
from .archiver import Archiver
from .archive import Gap, Revision, When
from .delta import Delta, text
from .difference import difference
from .folding import Unknown
from .progress import Progress, printed, silent
from .served import StoreFile
from .tables import Database

AGO = {"s": 1, "m": 60, "h": 3_600, "d": 86_400}
TIME = "2026-12-01T09:30:00 in local time, 90d, 12h, 30m or 10s for so long ago, or seconds since 1970 with a point"


def add(commands: Any) -> None:
    """Adds them to the parser of `python3 -m richd`."""
    keep = commands.add_parser("archive", help="keeps every revision of a store, which may be served, in a database")
    keep.set_defaults(action=_archive)
    keep.add_argument("store", metavar="STORE")
    history = commands.add_parser("history", help="who changed a document, when and how, newest first")
    history.set_defaults(action=_history)
    show = commands.add_parser("show", help="prints a document's text as it was")
    show.set_defaults(action=_show)
    diff = commands.add_parser("diff", help="what changed in a document from one revision or time to another")
    diff.set_defaults(action=_diff)
    restore = commands.add_parser("restore", help="makes a store that clients continue, of what is archived")
    restore.set_defaults(action=_restore)
    verify = commands.add_parser("verify", help="folds all that is archived, and compares the ends with a store; status 1 where they differ")
    verify.set_defaults(action=_verify)
    prune = commands.add_parser("prune", help="drops revisions of before a time; what was there from then on can still be shown")
    prune.set_defaults(action=_prune)

    for command in (keep, history, show, diff, restore, verify, prune):
        command.add_argument("database", metavar="DATABASE", help="the path of an SQLite file, or a URL of PostgreSQL (postgresql://..)")
        command.set_defaults(about="database")
        command.add_argument("--quiet", action="store_true", help="prints no progress, and nothing of what goes well but what is asked for")
    for command in (history, show, diff):
        command.add_argument("doc", metavar="DOC")
    keep.add_argument("--follow", action="store_true", help="continues with what comes, until it is ended")
    pause = "from one look at the file to the next; %(default)s without it"
    keep.add_argument("--pause", type=float, default=50, metavar="MILLISECONDS", help=pause)
    lag = "until what was taken is made rows of revisions; 0: by whoever asks; %(default)s without it"
    keep.add_argument("--lag", type=float, default=1, metavar="SECONDS", help=lag)
    keep.add_argument("--accept", action="store_true", help="sets aside what a store doesn't have that isn't a continuation")
    history.add_argument("--at", type=when, metavar="WHEN", help=f"up to this revision or time: {TIME}")
    history.add_argument("--limit", type=int, default=20, metavar="N", help="so many revisions; %(default)s without it")
    history.add_argument("--json", action="store_true", help="a line of JSON for each")
    history.add_argument("--brief", action="store_true", help="without what changed")
    show.add_argument("--at", type=when, metavar="WHEN", help=f"the revision or time, without it the newest: {TIME}")
    diff.add_argument("first", type=when, metavar="A")
    diff.add_argument("second", type=when, metavar="B", help=f"two revisions or times: {TIME}")
    show.add_argument("--json", action="store_true", help="a line of JSON: doc, rev, and ops, null where it is deleted")
    for command in (show, diff):
        command.add_argument("--ops", action="store_true", help="as JSON, with attributes and embeds")
    restore.add_argument("store", metavar="STORE", help="the file to make, which may not be there")
    restore.add_argument("--at", type=moment, metavar="TIME", help=f"each document as it was then, without it the newest: {TIME}")
    restore.add_argument("--cell", type=int, metavar="BYTES", help="as that of `richd format`; without it the store's that was archived last")
    verify.add_argument("store", metavar="STORE", nargs="?", help="it may be served, where all that it has is archived")
    prune.add_argument("--before", type=moment, required=True, metavar="TIME", help=TIME)


def when(word: str) -> When:
    """A revision, or a moment in seconds since 1970."""
    if word.isdigit():
        return int(word)
    ago = re.fullmatch(r"(\d+)([smhd])", word)
    if ago:
        return time.time() - int(ago[1]) * AGO[ago[2]]
    try:
        return float(word) if re.fullmatch(r"\d+\.\d*", word) else datetime.datetime.fromisoformat(word).timestamp()
    except ValueError:
        raise argparse.ArgumentTypeError(f"{word!r} is no revision, and no time") from None


def moment(word: str) -> float:
    """A moment in seconds since 1970."""
    if word.isdigit():
        raise argparse.ArgumentTypeError(f"{word!r} is no time")
    return float(when(word))


def _progress(options: argparse.Namespace) -> Progress:
    return silent if options.quiet else printed()


def _tell(options: argparse.Namespace, line: str) -> None:
    if not options.quiet:
        print(line, flush=True)


def _archive(options: argparse.Namespace) -> int:
    def say(line: str) -> None:
        if not options.quiet:
            print(line, file=sys.stderr, flush=True)

    StoreFile(options.store).close()  # before a database is made
    archiver = Archiver(options.store, Database(options.database, make=True), options.accept, say, _progress(options))
    archiver.run(options.follow, options.pause / 1000, options.lag)
    counts = archiver.counts
    _tell(options, f"batches {counts.batches} snapshots {counts.snapshots} joins {counts.joins} aside {counts.aside}")
    return 0


def _history(options: argparse.Namespace) -> int:
    database = archive.opened(options.database, _progress(options))
    try:
        for line in archive.history(database, options.doc, options.limit, options.at):
            print(_spelled(_as_json(options.doc, line, options.brief)) if options.json else _as_text(line, options.brief))
    except Unknown as reason:
        return _missing(options, reason)
    return 0


def _spelled(value: Any) -> str:
    return json.dumps(value, ensure_ascii=False, separators=(",", ":"))


def _missing(options: argparse.Namespace, reason: Unknown) -> int:
    """Tells a program that what it asked for isn't held."""
    if not options.json:
        raise reason
    print(_spelled({"doc": options.doc, "missing": str(reason)}))
    return 1


def _as_json(doc: str, line: Any, is_brief: bool) -> Dict[str, Any]:
    if isinstance(line, Gap):
        return {"doc": doc, "first": line.first, "last": line.last, "missing": line.why, "time": line.time}
    told: Dict[str, Any] = {"doc": doc, "rev": line.rev, "kind": line.kind, "source": line.source, "n": line.n, "time": line.time}
    return {**told, "after": line.after, **({} if is_brief else {"ops": json.loads(line.delta)})}


def _as_text(line: Any, is_brief: bool) -> str:
    if isinstance(line, Gap):
        return f"{line.first}..{line.last} missing: {line.why} (noted {_shown(line.time)})"
    assert isinstance(line, Revision)
    return f"{line.rev} {_shown(line.time)} {line.source} {line.n} {line.kind}" + ("" if is_brief else f" {line.delta}")


def _shown(seconds: float) -> str:
    return datetime.datetime.fromtimestamp(seconds).isoformat(timespec="milliseconds")


def _show(options: argparse.Namespace) -> int:
    database = archive.opened(options.database, _progress(options))
    if options.json:
        try:
            rev, content = archive.contents(database, options.doc, options.at)
        except Unknown as reason:
            return _missing(options, reason)
        print(_spelled({"doc": options.doc, "rev": rev, "ops": content}))
        return 0
    ops = _live(database, options.doc, options.at)
    sys.stdout.write(json.dumps(ops, ensure_ascii=False) + "\n" if options.ops else text(ops))
    return 0


def _live(database: Database, doc: str, at: Any) -> Delta:
    rev, ops = archive.contents(database, doc, at)
    if ops is None:
        raise Unknown(f"{doc} is deleted at revision {rev}")
    return ops


def _diff(options: argparse.Namespace) -> int:
    database = archive.opened(options.database, _progress(options))
    contents = [archive.contents(database, options.doc, at) for at in (options.first, options.second)]
    (one, first), (other, second) = [(rev, ops or []) for rev, ops in contents]
    if options.ops:
        print(json.dumps(difference(first, second), ensure_ascii=False))
        return 0
    before, now = text(first).splitlines(), text(second).splitlines()
    for line in difflib.unified_diff(before, now, f"{options.doc} {one}", f"{options.doc} {other}", lineterm=""):
        print(line)
    return 0


def _restore(options: argparse.Namespace) -> int:
    progress = _progress(options)
    database = archive.opened(options.database, progress)
    count, seen = archive.restore(database, options.store, options.at, options.cell, progress)
    _tell(options, f"{count} documents, as they were at {_shown(seen)}")
    return 0


def _verify(options: argparse.Namespace) -> int:
    progress = _progress(options)
    found = archive.verify(archive.opened(options.database, progress), options.store, progress)
    for fault in found.faults:
        print(fault)
    told = f"documents {found.documents} revisions {found.revisions} snapshots {found.snapshots}"
    if not found.faults:
        _tell(options, f"ok {told}")
    else:
        print(f"faults {len(found.faults)} {told}")
    return 1 if found.faults else 0


def _prune(options: argparse.Namespace) -> int:
    count = archive.prune(archive.opened(options.database, _progress(options)), options.before)
    _tell(options, f"revisions {count}")
    return 0
