"""What an archive holds of a document, folded: its content at a revision, and rows of revisions made of batches."""

from __future__ import annotations

import json
from typing import Any, Dict, List, NamedTuple, Optional, Tuple

from .delta import Delta, compose
from .progress import Progress, silent
from .spelling import CREATED, CREATED_AGAIN, DELETED, WINDOW, Cell, Damaged, Window, cell_of, entries
from .tables import ArchiveError, Database

ROUND = 2_000  # batches that are made rows in one transaction


class Unknown(ArchiveError):
    """The archive doesn't hold what was asked for."""


class State(NamedTuple):
    """A document at a revision, with its sources."""

    rev: int
    is_live: bool
    ops: Delta
    sources: Dict[str, Window]


EMPTY = State(0, False, [], {})


def state_of(cell: Cell) -> State:
    return State(cell.rev, cell.is_live, cell.ops, cell.sources)


def after(state: State, rev: int, kind: int, source: str, number: int, delta: str) -> State:
    """The state after one more revision. Raises Damaged where it doesn't continue the state, by the rules of docs/FORMATS.md."""
    if rev != state.rev + 1:
        raise Damaged(f"revision {rev} follows {state.rev}")
    if (kind == CREATED) != (state.rev == 0) or (kind != CREATED and (kind == CREATED_AGAIN) == state.is_live):
        raise Damaged(f"revision {rev} is of kind {kind}")
    ops: Delta = [] if kind == DELETED else json.loads(delta)
    if kind not in (CREATED, CREATED_AGAIN, DELETED):
        ops = compose(state.ops, ops)
    if any("insert" not in operation for operation in ops):
        raise Damaged(f"revision {rev} reaches past the end")
    last, revisions = state.sources.get(source, (0, []))
    if number != last + 1:
        raise Damaged(f"revision {rev}: number {number} of {source} follows {last}")
    return State(rev, kind != DELETED, ops, {**state.sources, source: (number, (revisions + [rev])[-WINDOW:])})


def lasts(sources: Dict[str, Window]) -> Dict[str, int]:
    """The last number of each source."""
    return {source: last for source, (last, _) in sources.items()}


def have_same_windows(one: Dict[str, Window], other: Dict[str, Window]) -> bool:
    """Whether sources agree, in their last numbers and in the revisions that both hold: of a store that `migrate` or `copy` has made
    less is held."""
    if lasts(one) != lasts(other):
        return False
    return all(held[-len(other[source][1]) :] == other[source][1][-len(held) :] for source, (_, held) in one.items())


def state_at(database: Database, doc: int, rev: int) -> State:
    """A document at a revision: the newest snapshot up to it, and the revisions after that. Raises Unknown where one isn't held."""
    found = database.one("SELECT rev, body FROM snapshots WHERE doc = ? AND rev <= ? ORDER BY rev DESC LIMIT 1", (doc, rev))
    state = state_of(cell_of(found[1])) if found else EMPTY
    asked = "SELECT rev, kind, source, number, delta FROM revisions WHERE doc = ? AND rev > ? AND rev <= ? ORDER BY rev"
    rows = database.all(asked, (doc, state.rev, rev))
    if len(rows) != rev - state.rev:
        later = database.one("SELECT min(rev) FROM snapshots WHERE doc = ? AND rev > ?", (doc, rev))[0]
        raise Unknown(f"revision {rev} isn't held" + (f"; the next one that can be shown is {later}" if later else ""))
    for row in rows:
        state = after(state, *row)
    return state


def newest_at(database: Database, doc: int, batch: int) -> Optional[int]:
    """The newest revision of a document once a batch was taken, None where it wasn't there or isn't known."""
    found = [0]
    for table in ("revisions", "snapshots"):
        row = database.one(f"SELECT rev FROM {table} WHERE doc = ? AND batch <= ? ORDER BY rev DESC LIMIT 1", (doc, batch))
        found += row or ()
    return max(found) or None


def unfold(database: Database, most: int = 0, progress: Progress = silent) -> int:
    """Makes revisions of batches that are held as bytes, of so many at most (0: of all), and returns of how many. Each revision has to be its
    document's next one; where one isn't, the bytes stay, and Damaged is raised."""
    done = 0
    waiting = None if progress is silent else database.one("SELECT count(*) FROM waiting")[0]
    while True:
        database.run("UPDATE at SET one = 1")  # whoever does this, or takes batches, does it alone
        found = database.all("SELECT batch, body FROM waiting ORDER BY batch LIMIT ?", (most or ROUND,))
        if found:
            _unfold(database, found)
        database.commit()
        done += len(found)
        if waiting:
            progress("batches made revisions", done, waiting)
        if most or not found:
            return done


def _unfold(database: Database, found: List[Tuple[Any, ...]]) -> None:
    newest: Dict[int, int] = dict(database.all("SELECT doc, newest FROM documents"))
    raised: Dict[int, int] = {}
    rows: List[Tuple[Any, ...]] = []
    for batch, body in found:
        made, created = entries(body)
        for doc, name in created.items():
            database.put("documents", [(doc, name, 0)])
            newest[doc] = 0
        for doc, rev, kind, source, number, delta in made:
            before = raised[doc] if doc in raised else newest.get(doc, 0)
            if rev != before + 1:
                database.rollback()
                raise Damaged(f"batch {batch}: revision {rev} of document {doc} follows {before}")
            raised[doc] = rev
            rows.append((doc, rev, kind, source, number, delta, batch))
    rows.sort()
    database.put("revisions", rows)
    for doc, rev in raised.items():
        database.run("UPDATE documents SET newest = ? WHERE doc = ?", (rev, doc))
    database.run("DELETE FROM waiting WHERE batch <= ?", (found[-1][0],))
