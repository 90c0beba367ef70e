"""A copy of a store that may be put back under clients who have seen more than it holds."""

from __future__ import annotations

from .inspection import states_in
from .progress import Progress, silent
from .served import StoreFile
from .spelling import MOST_REVISIONS, Cell, Damaged, NewStore, StoreError

JUMP = 1_000_000  # revisions from the newest that is known of a document to the first of a store that is put back


def jump(file: StoreFile, path: str, by: int = JUMP, progress: Progress = silent) -> int:
    """Makes a store at a path where no file is, with each document as the file holds it, `by` revisions above its own. Returns how many.

    The sources keep their numbers, and the revisions of their last ones: what the file holds is answered again. Who has a revision of
    before, whether the file holds it or not, is told that it is too old, as long as fewer than `by` revisions are lost.
    """
    found = states_in(file, progress)
    if found.faults:
        raise Damaged(found.faults[0])
    with NewStore(path, file.shape) as store:
        for doc, (name, state) in found.documents.items():
            if state.rev + by > MOST_REVISIONS:
                raise StoreError(f"{name} is at revision {state.rev}, which leaves no room to jump by {by}")
            store.put(Cell(doc, name, state.rev + by, state.is_live, state.ops, state.sources))
            progress("documents written", doc + 1, len(found.documents))
    return len(found.documents)
