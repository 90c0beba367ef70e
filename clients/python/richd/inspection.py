"""What a store holds, read from its file while a server may write it: the lines of `richd info`, `check` and `dump`."""

from __future__ import annotations

import json
from typing import Dict, Iterator, List, NamedTuple, Tuple

from .folding import EMPTY, State, after, state_of
from .progress import Progress, silent
from .served import StoreFile
from .spelling import CREATED_AGAIN, DELETED, HEAD, Damaged, cell_of, entries, weight


class Held(NamedTuple):
    """The documents of a store at one moment, by their numbers, and how their two milestones differ."""

    documents: Dict[int, Tuple[str, State]]
    floors: Dict[int, int]  # the lowest revision that a start would hold of each
    faults: List[str]
    changes: int  # that a start would hold


def states_in(file: StoreFile, progress: Progress = silent) -> Held:
    """Each document by its newest cell and the records above it; where the older cell gives another one, a fault says so. Raises Damaged where
    a rule of docs/FORMATS.md is broken."""
    whole = file.whole(progress)
    made: Dict[int, List[Tuple[int, int, str, int, str]]] = {}
    names: Dict[int, str] = {}
    for record in whole.records:
        told, created = entries(record.body)
        names.update(created)
        for doc, rev, kind, source, number, delta in told:
            made.setdefault(doc, []).append((rev, kind, source, number, delta))
    documents, floors, faults = {}, {}, []
    docs = sorted(set(made) | set(whole.cells))
    if docs != list(range(len(docs))):
        raise Damaged("documents are missing")
    for doc in docs:
        cells = sorted((cell_of(body) for body in whole.cells.get(doc, [])), key=lambda cell: cell.rev)
        names.update({doc: cell.name for cell in cells})
        ways = []
        for state in [state_of(cell) for cell in cells] or [EMPTY]:
            floors[doc] = state.rev
            for row in made.get(doc, []):
                if row[0] > state.rev:
                    state = after(state, *row)
                    if row[1] in (DELETED, CREATED_AGAIN):
                        floors[doc] = state.rev  # of what a deletion ended nothing is held
            ways.append(state)
        if any(way != ways[-1] for way in ways):
            faults.append(f"{names[doc]} isn't the same by both of its milestones")
        documents[doc] = (names[doc], ways[-1])
        floors[doc] = max(floors[doc], ways[-1].rev - file.shape.keep)
    if len(set(names.values())) != len(names):
        faults.append("two documents have one name")
    return Held(documents, floors, faults, sum(state.rev - floors[doc] for doc, (_, state) in documents.items()))


def info(file: StoreFile, progress: Progress = silent) -> List[str]:
    """The lines of `richd info`."""
    found = states_in(file, progress)
    listed, _ = file.slots()
    shape = file.shape
    used = 0
    if listed:
        number, slot = listed[-1]
        records = file.records(slot, number, 0)
        end = records[-1].place + 5 + len(records[-1].body) if records else 0
        used = (len(listed) - 1) * shape.slot + HEAD + end
    count = len(found.documents)
    facts = {
        "format": 2,
        **shape._asdict(),
        "documents": count,
        "deleted": sum(not state.is_live for _, state in found.documents.values()),
        "documents_left": shape.docs - count,
        "slots_open": len(listed),
        "newest_segment": listed[-1][0] if listed else 0,
        "journal_bytes": used,
    }
    return [f"{name} {value}" for name, value in facts.items()]


def info_documents(file: StoreFile, progress: Progress = silent) -> Iterator[str]:
    """The lines of `richd info --documents`."""
    found, shape = states_in(file, progress), file.shape
    for doc, (name, state) in found.documents.items():
        heavy, many = weight(state.ops, state.sources), len(state.sources)
        kind = "live" if state.is_live else "deleted"
        yield f"{name} {state.rev} {found.floors[doc]} {kind} {heavy} {shape.cell - 128 - heavy} {many} {shape.sources - many}"


def check(file: StoreFile, progress: Progress = silent) -> str:
    """The line of `richd check`. Raises Damaged where both milestones of a document don't give the same."""
    found = states_in(file, progress)
    if found.faults:
        raise Damaged(found.faults[0])
    return f"ok documents {len(found.documents)} changes {found.changes}"


def dump(file: StoreFile, progress: Progress = silent) -> Iterator[str]:
    """The lines of `richd dump`."""
    found = states_in(file, progress)
    for doc, (name, state) in found.documents.items():
        content = json.dumps({"ops": state.ops}, ensure_ascii=False, separators=(",", ":"), sort_keys=True) if state.is_live else "deleted"
        yield f"{name} {state.rev} {found.floors[doc]} {content}"
