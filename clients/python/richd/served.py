"""The file of a store, read without its lock while a server may write it.

docs/FORMATS.md, "Reading a file that is served", says what makes this sound. In short: what stands behind an open gate stays while it is
open, so a gate is read first, and what is behind it by a later call. A slot is used again under a higher number, a cell under a higher
revision: where that is the same before and after, all that was read between belongs to it.
"""

from __future__ import annotations

import os
import time
from typing import Dict, List, NamedTuple, Optional, Set, Tuple

from .progress import Progress, silent
from .spelling import HEAD, OPEN, Damaged, Shape, StoreError, entries, shape_of

PIECE = 4_096  # a record is read with so many bytes, and again where it is longer
MOST = 10_000  # so often is a cell or a slot read anew that changes meanwhile
PAUSE = 0.05  # seconds: so soon are the records read on while cells are read
NOT_FORMATTED, OLD_FORMAT = "30 NotFormatted", "38 OldFormat"


class Lapped(StoreError):
    """Records were written over before they were read, or the file isn't the one that it was."""

    def __str__(self) -> str:
        return "the journal was written over before it was read"


class Place(NamedTuple):
    """Where a record stands, or the next one will: a segment's number, and a place of its area."""

    segment: int
    place: int


class Record(NamedTuple):
    """A batch, as bytes, and where it stands."""

    segment: int
    place: int
    body: bytes


class Whole(NamedTuple):
    """What a file represents: where the next record will stand, all records that it has, and what the cells of each document hold."""

    at: Optional[Place]
    records: List[Record]
    cells: Dict[int, List[bytes]]


class StoreFile:
    """A store's file, open to be read."""

    def __init__(self, path: str):
        self.path = path
        self._file = os.open(path, os.O_RDONLY | os.O_CLOEXEC)
        try:
            is_open, head = os.pread(self._file, 1, 0) == OPEN, os.pread(self._file, 32, 1)
            if is_open and head[:8] == b"QDSTORE1":
                raise StoreError(f"error {OLD_FORMAT}")
            if not is_open or head[:8] != b"QDSTORE2" or len(head) < 32:
                raise StoreError(f"error {NOT_FORMATTED}")
            self.shape: Shape = shape_of(head)
            self._stat = os.fstat(self._file)
            if self._stat.st_size < self.shape.size():
                raise Damaged("it is shorter than its numbers say")
        except BaseException:
            os.close(self._file)
            raise
        self.known: Dict[int, int] = {}  # slots by their numbers, as they were seen last
        self._newest = 0  # the newest segment's number, likewise
        self._heads: List[Tuple[int, bool]] = []  # number and gate of each slot, likewise, up to the one that the next segment takes

    def close(self) -> None:
        os.close(self._file)

    def is_there(self) -> bool:
        """Whether the path still names this file."""
        try:
            now = os.stat(self.path)
        except OSError:
            return True  # there is nothing else to continue with
        return (now.st_dev, now.st_ino) == (self._stat.st_dev, self._stat.st_ino)

    # slots

    def slot(self, slot: int) -> Tuple[int, bool]:
        """The number that a slot has, and whether its gate is open. A closed slot keeps its segment until it is opened for another."""
        at = self.shape.slot_place(slot)
        for _ in range(MOST):
            number = os.pread(self._file, 8, at + 1)
            gate = os.pread(self._file, 1, at)
            if number == os.pread(self._file, 8, at + 1):
                return int.from_bytes(number, "little"), gate == OPEN
        raise Damaged(f"slot {slot} is never still")

    def slots(self) -> Tuple[List[Tuple[int, int]], Dict[int, int]]:
        """Number and slot of each segment, the oldest first; and the slots of closed ones by what stands there for their numbers, which
        proves nothing."""
        found: List[Tuple[int, int]] = []
        heads: List[Tuple[int, bool]] = []
        closed: Dict[int, int] = {}
        for slot in range(self.shape.slots):
            number, is_open = self.slot(slot)
            if not closed:
                heads.append((number, is_open))
            if is_open:
                found.append((number, slot))
            else:
                closed[number] = slot
        found.sort()
        self.known, self._heads = {**closed, **dict(found)}, heads
        self._newest = found[-1][0] if found else 0
        return found, closed

    def is_newest(self, segment: int) -> bool:
        """Whether a segment is the newest. The next one would have taken the lowest slot that was closed, or one below it, which then has
        another number; where a slot has changed otherwise that isn't known, and the answer is no."""
        if segment != self._newest:
            return False
        for slot, (number, is_open) in enumerate(self._heads):
            head = os.pread(self._file, HEAD, self.shape.slot_place(slot))
            if (head[:1] == OPEN) != is_open or int.from_bytes(head[1:], "little") != number:
                return False
        return True

    def records(self, slot: int, number: int, place: int, most: int = 1 << 60) -> List[Record]:
        """The records of a segment from a place of its area on, and nothing else. Raises Lapped where the slot has another segment by now.
        Of a closed slot only who knows one of its records may believe it."""
        base, size = self.shape.slot_place(slot) + HEAD, self.shape.slot - HEAD
        found: List[Record] = []
        if self.slot(slot)[0] != number:
            raise Lapped
        fault = None
        is_open = place < size and os.pread(self._file, 1, base + place) == OPEN
        while is_open and len(found) < most:
            # The gate was read before this call, which so reads what is behind it, and the next gate, as they are.
            piece = os.pread(self._file, min(PIECE, size - place - 1), base + place + 1)
            count = int.from_bytes(piece[:4], "little")
            if count == 0 or place + 6 + count > size:
                fault = Damaged(f"segment {number} has no record at {place}")
                break
            if len(piece) < 5 + count:
                piece = os.pread(self._file, 5 + count, base + place + 1)
            found.append(Record(number, place, piece[4 : 4 + count]))
            is_open = piece[4 + count : 5 + count] == OPEN
            place += 5 + count
        if self.slot(slot)[0] != number:
            raise Lapped
        if fault is not None:
            raise fault
        return found

    def tail(self, at: Optional[Place]) -> Tuple[Optional[Place], List[Record]]:
        """All records from a place on, or from the oldest open segment on; and where the next one will stand."""
        listed, closed = self.slots()
        if at is None:
            if not listed:
                return None, []
            at = Place(listed[0][0], 0)
        if not listed or listed[-1][0] < at.segment:
            raise Lapped
        passed = range(at.segment, listed[0][0])  # closed since: the caller knows a record of the first
        if any(number not in closed for number in passed):
            raise Lapped
        open_ones = [pair for pair in listed if pair[0] >= at.segment]
        wanted = [(number, closed[number]) for number in passed] + open_ones
        if [number for number, _ in wanted] != list(range(at.segment, at.segment + len(wanted))):
            raise Lapped
        found: List[Record] = []
        for number, slot in wanted:  # that the next segment is there was read first: nothing is added to this one any more
            place = at.place if number == at.segment else 0
            records = self.records(slot, number, place)
            if not records and number != wanted[-1][0] and place == 0:
                raise Lapped  # no segment is left behind empty, but by a crash
            found += records
            at = Place(number, place if not records else records[-1].place + 5 + len(records[-1].body))
        return at, found

    # cells

    def cell(self, doc: int, which: int) -> Optional[bytes]:
        """The body of a document's cell, None where its gate is closed."""
        at = self.shape.cell_place(doc, which)
        for _ in range(MOST):
            front = os.pread(self._file, 84, at + 1)  # with the longest name, the revision ends here
            if os.pread(self._file, 1, at) != OPEN:
                return None
            count = int.from_bytes(front[:4], "little")
            body = os.pread(self._file, min(count, self.shape.cell - 5), at + 5)
            if os.pread(self._file, 1, at) == OPEN and os.pread(self._file, 84, at + 1) == front:
                if len(body) != count:
                    raise Damaged(f"cell {which} of document {doc} has another length")
                return body
        raise Damaged(f"cell {which} of document {doc} is never still")

    def cells(self, doc: int) -> List[bytes]:
        """What the open cells of a document hold. One is open at each moment where it has any, though both may be found closed in turn."""
        for _ in range(3):
            found = [body for body in (self.cell(doc, 0), self.cell(doc, 1)) if body is not None]
            if found:
                return found
        return []

    def whole(self, progress: Progress = silent) -> Whole:
        """What the file represents, such that all records above a document's newest cell are there."""
        for _ in range(100):
            try:
                at, records = self.tail(None)
                cells: Dict[int, List[bytes]] = {}
                looked = time.monotonic()
                for doc in range(self.shape.docs):
                    found = self.cells(doc)
                    if found:
                        cells[doc] = found
                    if time.monotonic() - looked > PAUSE:
                        at, more = self.tail(at)
                        records += more
                        looked = time.monotonic()
                        progress("documents read", doc + 1, self.shape.docs)
                at, more = self.tail(at)
                records += more
            except Lapped:
                time.sleep(0.001)
                continue
            made: Set[int] = set()
            created: Set[int] = set()
            for record in records:
                told, names = entries(record.body)
                made.update(entry.doc for entry in told)
                created.update(names)
            if made <= created | set(cells):
                return Whole(at, records, cells)
        raise Lapped
