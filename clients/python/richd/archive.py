"""What an archive is asked for, and stores that are made of it."""

from __future__ import annotations

import time
from typing import Any, Dict, Iterator, List, NamedTuple, Optional, Tuple, Union

from .archiver import Forked
from .delta import Delta
from .folding import EMPTY, State, Unknown, after, have_same_windows, newest_at, state_at, state_of, unfold
from .inspection import states_in
from .jumping import JUMP
from .progress import Progress, silent
from .served import StoreFile
from .spelling import CREATED, CREATED_AGAIN, DELETED, Cell, NewStore, Shape, StoreError, cell_bytes, cell_of
from .tables import ArchiveError, Database, Row

KINDS = {CREATED: "create", CREATED_AGAIN: "create", DELETED: "delete"}  # else "edit", an undo too

When = Union[int, float]  # a revision, or a moment in seconds since 1970


class Revision(NamedTuple):
    """A revision as the history has it. It was committed between the moments `after` (None: not known) and `time`."""

    rev: int
    kind: str
    source: str
    n: int
    after: Optional[float]
    time: float
    delta: str  # JSON


class Gap(NamedTuple):
    """Revisions that aren't held, and why."""

    first: int
    last: int
    time: float
    why: str


def opened(name: str, progress: Progress = silent) -> Database:
    """An archive in which all that was taken can be asked for."""
    database = Database(name)
    unfold(database, progress=progress)
    return database


def document(database: Database, name: str) -> Tuple[int, int]:
    """The number and the newest revision of a document."""
    found = database.one("SELECT doc, newest FROM documents WHERE name = ?", (name,))
    if not found:
        raise Unknown(f"there is no document {name}")
    return found[0], found[1]


def batch_at(database: Database, moment: float) -> int:
    """The last batch that was seen at a moment or before it, 0 where there was none. Times rise with the batches, so halving finds it."""
    low, high = 0, int(database.one("SELECT max(batch) FROM batches")[0] or 0)
    while low < high:
        middle = (low + high + 1) // 2
        if database.one("SELECT seen FROM batches WHERE batch <= ? ORDER BY batch DESC LIMIT 1", (middle,))[0] <= moment:
            low = middle
        else:
            high = middle - 1
    return low


def revision_at(database: Database, name: str, when: Optional[When]) -> Tuple[int, int]:
    """A document's number, and the revision that is meant: the newest one without `when`."""
    doc, newest = document(database, name)
    if when is None:
        return doc, newest
    if isinstance(when, int):
        return doc, when
    rev = newest_at(database, doc, batch_at(database, when))
    if rev is None:
        raise Unknown(f"{name} wasn't there then, or wasn't archived yet")
    return doc, rev


def contents(database: Database, name: str, when: Optional[When] = None) -> Tuple[int, Optional[Delta]]:
    """A document at a revision or a moment: its revision, and its operations, None where it is deleted."""
    doc, rev = revision_at(database, name, when)
    state = state_at(database, doc, rev)
    return rev, state.ops if state.is_live else None


def history(database: Database, name: str, limit: int, when: Optional[When] = None) -> Iterator[Union[Revision, Gap]]:
    """Who changed a document, when, and how: the newest `limit` revisions, newest first, and the gaps among them."""
    doc, top = revision_at(database, name, when)
    asked = (
        "SELECT r.rev, r.kind, r.source, r.number, b.after, b.seen, r.delta FROM revisions r JOIN batches b ON b.batch = r.batch "
        "WHERE r.doc = ? AND r.rev <= ? ORDER BY r.rev DESC LIMIT ?"
    )
    rows = [Revision(row[0], KINDS.get(row[1], "edit"), *row[2:]) for row in database.all(asked, (doc, top, limit))]
    lowest = rows[-1].rev if len(rows) == limit else 0
    asked = "SELECT first, last, noted, why FROM gaps WHERE doc = ? AND first <= ? AND last >= ?"
    lines: List[Union[Revision, Gap]] = [*rows, *(Gap(*row) for row in database.all(asked, (doc, top, lowest)))]
    yield from sorted(lines, key=lambda line: -(line.last if isinstance(line, Gap) else line.rev))


def prune(database: Database, moment: float) -> int:
    """Drops the revisions before the newest snapshot of before a moment, so that what was there from then on can still be shown. Returns
    how many."""
    batch, now, count = batch_at(database, moment), time.time(), 0
    for (doc,) in database.all("SELECT doc FROM documents"):
        newest = newest_at(database, doc, batch) or 0
        low = database.one("SELECT max(rev) FROM snapshots WHERE doc = ? AND rev <= ?", (doc, newest))[0]
        first = database.one("SELECT min(rev) FROM revisions WHERE doc = ?", (doc,))[0]
        if low is None or first is None or first > low:
            continue
        count += database.run("DELETE FROM revisions WHERE doc = ? AND rev <= ?", (doc, low))
        database.run("DELETE FROM snapshots WHERE doc = ? AND rev < ?", (doc, low))
        last = database.one("SELECT max(last) FROM gaps WHERE doc = ? AND first <= ?", (doc, low))[0] or 0
        database.run("DELETE FROM gaps WHERE doc = ? AND first <= ?", (doc, low))
        database.put("gaps", [(doc, 1, max(low, last), now, "pruned")])
    database.put("notes", [(now, f"{count} revisions were pruned")])
    database.commit()
    return count


# restoring


def restore(
    database: Database, path: str, moment: Optional[float] = None, cell: Optional[int] = None, progress: Progress = silent
) -> Tuple[int, float]:
    """Makes a store of each document as it was at a moment, the newest that is known without one. Returns how many documents it has, and when
    what it shows was seen.

    Each document stands at a revision JUMP above the newest one that is archived, with the newest numbers of its sources: so who holds a
    revision that was lost, or is taken back, is told that it is too old, and a command that is archived is answered again. A document
    that was made after the moment is there, and deleted.
    """
    batch = batch_at(database, moment) if moment is not None else int(database.one("SELECT max(batch) FROM batches")[0] or 0)
    within = database.one("SELECT joined FROM files WHERE first <= ? AND ? < last", (batch, batch))
    if within:
        raise Unknown("what was there then isn't known: the archive was joined to the store at that moment")
    found = database.one("SELECT slots, slot, docs, cell, sources, keep FROM files ORDER BY file DESC LIMIT 1")
    if not found:
        raise Unknown("it holds nothing")
    shape = Shape(*found)
    shape = shape._replace(cell=cell or shape.cell)
    listed = database.all("SELECT doc, name, newest FROM documents ORDER BY doc")
    jumps: List[Row] = []
    with NewStore(path, shape) as store:
        for doc, name, newest in listed:
            made = _jumped(database, doc, name, newest, batch)
            store.put(made[0])
            jumps.append((doc, made[0].rev, made[1], newest, time.time(), cell_bytes(made[0])))
            progress("documents restored", len(jumps), len(listed))
    seen = database.one("SELECT seen FROM batches WHERE batch = ?", (batch,))
    database.put("restores", jumps)
    database.put("notes", [(time.time(), f"{len(jumps)} documents as of batch {batch} were restored to {path}")])
    database.commit()
    return len(jumps), float(seen[0]) if seen else 0.0


def _jumped(database: Database, doc: int, name: str, newest: int, batch: int) -> Tuple[Cell, int]:
    """A document with the content of once a batch was taken, at a revision that nobody has seen; and the revision that it shows."""
    rev = newest_at(database, doc, batch)
    try:
        then = state_at(database, doc, rev) if rev else EMPTY
        now = state_at(database, doc, newest)
    except Unknown as reason:
        raise Unknown(f"{name}: {reason}") from None
    highest = database.one("SELECT max(rev) FROM restores WHERE doc = ?", (doc,))[0] or 0
    return Cell(doc, name, max(newest, highest) + JUMP, then.is_live, then.ops if then.is_live else [], now.sources), rev or 0


# verifying


class Verified(NamedTuple):
    """What came of a comparison."""

    documents: int
    revisions: int
    snapshots: int  # that the fold was compared with
    faults: List[str]


class _Folded(NamedTuple):
    """A document folded over all that is held: its end, None where that isn't known, and how much was looked at."""

    state: Optional[State]
    revisions: int
    snapshots: int


def verify(database: Database, store: Optional[str] = None, progress: Progress = silent) -> Verified:
    """Folds each document over all that is held, and compares that with each snapshot, which the server has folded, and with a store, which
    may be served. Each revision has to be held, or to be in a gap."""
    faults: List[str] = []
    ends: Dict[int, Tuple[str, int, Optional[State]]] = {}
    revisions = snapshots = 0
    listed = database.all("SELECT doc, name, newest FROM documents ORDER BY doc")
    for doc, name, newest in listed:
        try:
            folded = _folded(database, doc, name, newest)
        except StoreError as fault:
            faults.append(f"{name}: {fault}")
            ends[doc] = (name, newest, None)
            continue
        ends[doc] = (name, newest, folded.state)
        revisions, snapshots = revisions + folded.revisions, snapshots + folded.snapshots
        progress("documents verified", len(ends), len(listed))
    if store is not None:
        faults += _beside(store, ends)
    return Verified(len(ends), revisions, snapshots, faults)


def _folded(database: Database, doc: int, name: str, newest: int) -> _Folded:
    gaps: List[Tuple[int, int]] = database.all("SELECT first, last FROM gaps WHERE doc = ? ORDER BY first", (doc,))
    bodies = database.all("SELECT rev, body FROM snapshots WHERE doc = ?", (doc,))
    rows = database.all("SELECT rev, kind, source, number, delta FROM revisions WHERE doc = ? ORDER BY rev", (doc,))
    steps: List[Tuple[int, int, Any]] = [(row[0], 0, row) for row in rows] + [(rev, 1, body) for rev, body in bodies]
    state: Optional[State] = EMPTY
    held = compared = 0
    for rev, which, what in sorted(steps, key=lambda step: step[:2]):
        if which == 0:
            behind = _behind_gaps(held, gaps)
            if rev not in (held + 1, behind + 1):
                raise ArchiveError(f"revisions {held + 1} to {rev - 1} are missing, and no gap says so")
            held = rev
            if state is not None:
                state = after(state, *what) if state.rev == rev - 1 else None
            continue
        cell = cell_of(what)
        if (cell.doc, cell.name, cell.rev) != (doc, name, rev):
            raise ArchiveError(f"the snapshot at {rev} is of {cell.name} at {cell.rev}")
        if state is not None and state.rev == rev:
            compared += 1
            if (state.is_live, state.ops) != (cell.is_live, cell.ops):
                raise ArchiveError(f"the fold isn't the snapshot at {rev}")
            if not have_same_windows(state.sources, cell.sources):
                raise ArchiveError(f"the sources aren't those of the snapshot at {rev}")
        else:
            state = state_of(cell)
    if _behind_gaps(held, gaps) != newest and held != newest:
        raise ArchiveError(f"it ends at revision {held}, not {newest}")
    return _Folded(state if state is not None and state.rev == newest else None, len(rows), compared)


def _behind_gaps(rev: int, gaps: List[Tuple[int, int]]) -> int:
    """The last revision of the gaps that follow a revision at once."""
    for first, last in gaps:
        if first <= rev + 1 <= last:
            rev = last
    return rev


def _beside(path: str, ends: Dict[int, Tuple[str, int, Optional[State]]]) -> List[str]:
    """How a store differs from what the archive says."""
    file = StoreFile(path)
    try:
        found = states_in(file)
    finally:
        file.close()
    faults = list(found.faults)
    for doc, (name, state) in found.documents.items():
        held = ends.get(doc)
        if held is None or held[0] != name:
            faults.append(f"{name} is in the store, not in the archive")
        elif held[2] is None or held[2].rev != state.rev:
            faults.append(f"{name} is at revision {state.rev} in the store, at {held[1]} in the archive")
        elif (held[2].is_live, held[2].ops) != (state.is_live, state.ops) or not have_same_windows(held[2].sources, state.sources):
            faults.append(f"{name} at revision {state.rev} isn't the same in the store")
    faults += [f"{name} is in the archive, not in the store" for doc, (name, _, _) in ends.items() if doc not in found.documents]
    return faults


__all__ = ["JUMP", "Forked", "Gap", "Revision", "Verified", "contents", "history", "opened", "prune", "restore", "verify"]
