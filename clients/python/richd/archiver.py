"""Takes what the file of a store shows over into an archive: exactly the committed order.

A record is known to last once something that was written after it is seen, so of all that is archived a crash takes back the newest batch at
most. Who begins to archive, and each look at the file, compares what stands at that batch's place with its digest.
"""

from __future__ import annotations

import collections
import hashlib
import random
import threading
import time
from typing import Any, Callable, Deque, Dict, Iterable, List, NamedTuple, Optional, Set, Tuple

from .folding import Unknown, lasts, state_at, unfold
from .progress import Progress, silent
from .served import Lapped, Place, Record, StoreFile
from .spelling import Cell, Entry, cell_of, cell_revision, entries
from .tables import ArchiveError, Database, Row, Stolen

EVERY = 400  # revisions of a document from one snapshot to the next, at least
ROUND = 8 << 20  # bytes of records that one transaction takes
PORTION = 40  # batches that are made revisions at once, while records wait
MOST = 1 << 60  # records: all that there are
MOST_HELD = 256 << 20  # bytes of records that wait in memory for the database
CHECK = 0.5  # seconds: so often is looked whether the path still names the file
PAGE = 5_000  # rows that are asked for at once

LOST = "the store lost it in a crash before it was synced"
DOUBTED = "whether the store kept it can't be told any more"
PASSED = "written over before it was read"
EARLIER = "before the archive began"

Fault = Tuple[int, int, str]  # a document, the lowest revision that differs, and how


class Forked(ArchiveError):
    """The store isn't a continuation of what the archive holds."""


class Part(NamedTuple):
    """What one look at the file has found: it was committed after the look before had begun, and before it was seen."""

    records: List[Record]
    at: Place
    after: Optional[float]
    began: float
    seen: float
    size: int


class Counts:
    """What an archiver has done."""

    batches = snapshots = joins = aside = 0


def digest(body: bytes) -> bytes:
    return hashlib.blake2b(body, digest_size=16).digest()


class Reader(threading.Thread):
    """Reads the journal into memory, so that a database that is slow for a moment loses nothing. `last` is the newest record that is known."""

    def __init__(self, file: StoreFile, at: Optional[Place], last: Optional[Record], looked: Optional[float], pause: float):
        super().__init__(daemon=True)
        self._file, self._at, self._last, self._pause = file, at, last, pause
        self._stops = threading.Event()
        self.looked = looked
        self.read: Deque[Part] = collections.deque()
        self.held = 0
        self.news = threading.Event()
        self.is_over = self.is_replaced = False
        self.fault: Optional[Exception] = None

    def step(self) -> bool:
        """Looks at the file once. Returns whether there was something new."""
        began = time.time()
        try:
            at, records = self._found()
        except Lapped:
            self.is_over = True
            return False
        except Exception as fault:
            self.fault, self.is_over = fault, True
            return False
        if records and at is not None:
            size = sum(len(record.body) for record in records)
            self.held += size
            self._at = at
            newest = records[-1]
            self._last = newest._replace(body=digest(newest.body))
            self.read.append(Part(records, at, self.looked, began, time.time(), size))
        self.looked = began
        return bool(records)

    def _found(self) -> Tuple[Optional[Place], List[Record]]:
        """All records behind the newest one that is known, which has to stand where it stood."""
        last = self._last
        if last is None:
            return self._file.tail(self._at)
        is_newest = self._file.is_newest(last.segment)
        if last.segment not in self._file.known:
            self._file.slots()
        slot = self._file.known.get(last.segment)
        if slot is None:
            raise Lapped
        held = self._file.records(slot, last.segment, last.place, MOST if is_newest else 1)
        if not held or digest(held[0].body) != last.body:
            raise Lapped
        if not is_newest:
            return self._file.tail(self._at)
        newest = held[-1]
        return Place(newest.segment, newest.place + 5 + len(newest.body)), held[1:]

    def run(self) -> None:
        checked = 0.0
        while not self._stops.is_set() and not self.is_over:
            if self.held > MOST_HELD:
                self.news.set()
            elif self.step() or self.is_over:
                self.news.set()
            elif time.monotonic() - checked > CHECK:
                checked = time.monotonic()
                if not self._file.is_there():
                    while self.step():  # nothing is added to it any more
                        pass
                    self.is_replaced = True
                    self.news.set()
                    return
            self._stops.wait(self._pause)

    def end(self) -> None:
        self._stops.set()
        if self.is_alive():
            self.join()


class Found:
    """What a file represents, by documents."""

    def __init__(self, file: StoreFile, progress: Progress):
        self.at, self.records, bodies = file.whole(progress)
        self.entries: Dict[int, List[Tuple[Entry, int]]] = {}  # with the number of their record
        self.names: Dict[int, str] = {}
        for index, record in enumerate(self.records):
            made, created = entries(record.body)
            self.names.update(created)
            for entry in made:
                self.entries.setdefault(entry.doc, []).append((entry, index))
        self.cells: Dict[int, List[Cell]] = {}
        self.bodies: Dict[Tuple[int, int], bytes] = {}  # of cells, by document and revision
        for doc, held in bodies.items():
            self.cells[doc] = sorted((cell_of(body) for body in held), key=lambda cell: cell.rev)
            self.names[doc] = self.cells[doc][0].name
            self.bodies.update({(doc, cell_revision(body)): body for body in held})
        self.docs = sorted(set(self.entries) | set(self.cells))

    def top(self, doc: int) -> int:
        """The newest revision of a document, 0 where there is none."""
        revisions = [entry.rev for entry, _ in self.entries.get(doc, [])[-1:]] + [cell.rev for cell in self.cells.get(doc, [])]
        return max(revisions, default=0)


class Archiver:
    """Archives the store of a path. `accept` sets aside what a store doesn't have that isn't a continuation; `say` is told what happens.

    Who makes one has the turn to write from then on. Another one that runs ends by Stolen at its next write.
    """

    def __init__(
        self,
        path: str,
        database: Database,
        accept: bool = False,
        say: Callable[[str], None] = lambda text: None,
        progress: Progress = silent,
    ):
        self._path, self._database, self._accept, self._say, self._progress = path, database, accept, say, progress
        self._file = StoreFile(path)  # first: who can't read the store takes nobody's turn
        self._is_settled = False  # whether the newest batch is known to be kept
        self.counts = Counts()
        self._newest: Dict[int, int] = {}  # revisions by documents, and those of their newest snapshots
        self._shown: Dict[int, int] = {}
        self._number = self._batch = 0  # of the file and of the newest batch
        self._at: Optional[Place] = None
        self._last: Optional[Record] = None
        self._looked: Optional[float] = None
        self._turn = random.getrandbits(62)
        if not database.run("UPDATE at SET turn = ? WHERE one = 1", (self._turn,)):
            database.run("INSERT INTO at VALUES (1, 0, NULL, NULL, ?, 0)", (self._turn,))
        database.commit()
        self._load()

    def close(self) -> None:
        self._file.close()

    def run(self, follow: bool, pause: float, lag: float) -> None:
        """Archives what there is, and with `follow` what comes, looking at the file every `pause` seconds. Records are made rows of revisions
        `lag` seconds later; with 0 whoever asks the archive does that."""
        self._begin()
        if follow:
            self._follow(pause, lag)
        while self.look():
            pass
        self.unfold()

    def look(self) -> int:
        """Takes over what is new. Returns how many batches that was, or more."""
        reader = Reader(self._file, self._at, self._last, self._looked, 0)
        reader.step()
        return self._take_over(reader)

    def unfold(self, most: int = 0) -> bool:
        """Makes revisions of what was taken, of so many batches at most, and then takes over milestones of the server as snapshots, where one
        is far enough from the last. Returns whether that was all."""
        if unfold(self._database, most, silent if most else self._progress) == most and most:
            return False
        self._newest = dict(self._database.all("SELECT doc, newest FROM documents"))
        found: List[Row] = []
        for doc, rev in self._newest.items():
            if rev - self._shown.get(doc, 0) >= EVERY:
                best = max(self._file.cells(doc), key=cell_revision, default=None)
                if best is not None and self._shown.get(doc, 0) < cell_revision(best) <= rev:
                    found.append((doc, cell_revision(best), best, None))
        if found:
            self._database.put("snapshots", found)
            self._keep_place(time.time())
            self._database.commit()
            self._shown.update({doc: rev for doc, rev, _, _ in found})
            self.counts.snapshots += len(found)
        return True

    # following

    def _follow(self, pause: float, lag: float) -> None:
        reader: Optional[Reader] = None
        unfolded, waits = time.monotonic(), False
        try:
            while True:
                if reader is None:
                    reader = Reader(self._file, self._at, self._last, self._looked, pause)
                    reader.start()
                is_due = waits and lag > 0 and time.monotonic() - unfolded >= lag
                reader.news.wait(0 if is_due else min(lag or 1, 1))
                reader.news.clear()
                joins = self.counts.joins
                waits = self._take_over(reader) > 0 or waits
                if reader.is_replaced:
                    reader.end()
                    self._take_over(reader)
                    self._change_file()
                    reader = None
                elif reader.is_over or joins != self.counts.joins:
                    reader.end()
                    reader = None
                if is_due and self.unfold(PORTION):  # in portions: what is read meanwhile waits for less long
                    unfolded, waits = time.monotonic(), False
        finally:
            if reader is not None:
                reader.end()

    def _change_file(self) -> None:
        """Continues with the file that the path names now. The one before was read to its end, so the machine has not stopped."""
        self._file.close()
        self._file = StoreFile(self._path)
        self._is_settled = True
        if not self._resume():
            self._join("another file")
        self._is_settled = False

    def _take_over(self, reader: Reader) -> int:
        """Takes over what a reader has read. Where it can't go on, the file is joined anew: the reader has to be made anew then, too."""
        is_over = reader.is_over  # read first: nothing comes after it
        count = 0
        while reader.read:
            parts: List[Part] = []
            size = 0
            while reader.read and size < ROUND:
                parts.append(reader.read.popleft())
                size += parts[-1].size
            count += self._take(parts)
            reader.held -= size
        self._looked = reader.looked
        if reader.fault is not None:
            raise reader.fault
        if is_over:
            self._database.rollback()
            if not self._resume():
                self._join("the journal went round before all was read")
            return count + 1
        return count

    def _take(self, parts: List[Part]) -> int:
        """Keeps records as they are, with the place behind them, in one transaction."""
        batch = self._batch
        rows: List[Row] = []
        bodies: List[Row] = []
        for part in parts:
            for segment, place, body in part.records:
                batch += 1
                rows.append((batch, self._number, segment, place, digest(body), part.after, part.seen))
                bodies.append((batch, body))
        self._database.put("batches", rows)
        self._database.put("waiting", bodies)
        self._at = parts[-1].at
        self._keep_place(parts[-1].began)
        self._database.commit()
        self._batch = batch
        self._last = Record(rows[-1][2], rows[-1][3], rows[-1][4])
        self.counts.batches += len(rows)
        return len(rows)

    # beginning

    def _load(self) -> None:
        """Reads how far the archive is."""
        database = self._database
        unfold(database, progress=self._progress)
        self._newest = dict(database.all("SELECT doc, newest FROM documents"))
        self._shown = dict(database.all("SELECT doc, max(rev) FROM snapshots GROUP BY doc"))
        self._number, segment, place, looked = database.one("SELECT file, segment, place, looked FROM at WHERE one = 1")
        self._looked = looked or None
        self._at = None if segment is None else Place(segment, place)
        self._batch = database.one("SELECT max(batch) FROM batches")[0] or 0
        asked = "SELECT segment, place, digest FROM batches WHERE batch = ? AND file = ? AND segment > 0"
        row = database.one(asked, (self._batch, self._number))
        self._last = Record(*row) if row else None

    def _note(self, what: str) -> None:
        self._say(what)
        self._database.put("notes", [(time.time(), what)])

    def _keep_place(self, looked: float) -> None:
        """Keeps how far the archive is, if this archiver has the turn."""
        kept = "UPDATE at SET file = ?, segment = ?, place = ?, looked = ? WHERE one = 1 AND turn = ?"
        segment, place = self._at or (None, None)
        if self._database.run(kept, (self._number, segment, place, looked, self._turn)) != 1:
            self._database.rollback()
            raise Stolen

    def _begin(self) -> None:
        if not self._number:
            self._join("the archive begins")
        elif not self._resume():
            self._join("what was archived last isn't in the file")

    def _resume(self) -> bool:
        """Continues at the place where the archive ends, if the file has there what it had."""
        asked = "SELECT slots, slot, docs, cell, sources, keep FROM files WHERE file = ?"
        shape = self._database.one(asked, (self._number,))
        if shape is None or tuple(shape) != tuple(self._file.shape) or self._last is None:
            return False
        try:
            return self._resume_at(self._last.segment)
        except Lapped:
            return False

    def _resume_at(self, segment: int) -> bool:
        """Of all that was seen with an open gate the newest record alone may be missing: a crash has taken it before its sync, and nobody was
        told that it was taken. Then it is set aside."""
        listed, slots = self._file.slots()  # a closed slot proves itself by the records that are known of it
        slots.update(listed)
        for tried in (segment, segment - 1):  # the newest record may have been the first of its segment
            if tried not in slots:
                return False
            held = self._file.records(slots[tried], tried, 0)
            known = self._known_of(tried)
            same = 0
            while same < min(len(held), len(known)) and (held[same].place, digest(held[same].body)) == known[same]:
                same += 1
            if same == len(known) and same:
                if tried != segment:
                    self._set_aside_last(Place(segment, 0))
                return True
            if tried != segment or same < len(known) - 1:
                return False
            if same:
                self._set_aside_last(Place(segment, known[same][0]))
                return True
        return False

    def _known_of(self, segment: int) -> List[Tuple[int, bytes]]:
        """Place and digest of each archived batch of a segment, the newest or the one before it."""
        found: List[Tuple[int, bytes]] = []
        top = self._batch
        asked = "SELECT segment, place, digest, batch FROM batches WHERE file = ? AND batch <= ? ORDER BY batch DESC LIMIT ?"
        while True:
            rows = self._database.all(asked, (self._number, top, PAGE))
            found += [(place, known) for number, place, known, _ in rows if number == segment]
            if len(rows) < PAGE or rows[-1][0] < segment:
                return found[::-1]
            top = rows[-1][3] - 1

    def _set_aside_last(self, at: Place) -> None:
        self._aside_batch(LOST)
        self._at = at
        self._keep_place(time.time())
        self._database.commit()
        self._load()

    # setting aside

    def _aside_batch(self, why: str) -> None:
        """Sets the newest batch aside."""
        unfold(self._database)
        count = self._set_aside("r.batch = ?", (self._batch,), why)
        self._database.run("DELETE FROM batches WHERE batch = ?", (self._batch,))
        self._note(f"batch {self._batch} ({count} revisions) is set aside: {why}")
        self.counts.aside += 1

    def _set_aside(self, which: str, values: Tuple[int, ...], why: str) -> int:
        """Sets revisions aside, with the snapshots that stand on them."""
        database, now = self._database, time.time()
        asked = "SELECT r.doc, r.rev, r.kind, r.source, r.number, r.delta, b.seen FROM revisions r JOIN batches b ON b.batch = r.batch"
        rows = database.all(f"{asked} WHERE {which}", values)
        database.put("aside", [(*row, now, why) for row in rows])
        lowest: Dict[int, int] = {}
        for row in rows:
            lowest[row[0]] = min(row[1], lowest.get(row[0], row[1]))
        for doc, rev in lowest.items():
            self._cut(doc, rev)
        return len(rows)

    def _cut(self, doc: int, rev: int) -> None:
        """Leaves of a document what is below a revision."""
        for table in ("snapshots", "revisions"):
            self._database.run(f"DELETE FROM {table} WHERE doc = ? AND rev >= ?", (doc, rev))
        if rev == 1:
            self._database.run("DELETE FROM documents WHERE doc = ?", (doc,))
            self._newest.pop(doc, None)
        else:
            self._database.run("UPDATE documents SET newest = ? WHERE doc = ?", (rev - 1, doc))
            self._newest[doc] = rev - 1

    # joining a file by what it holds

    def _join(self, why: str) -> None:
        """Takes both cells of each document, and all records. What the archive had of a document has to agree with that; what lies between is
        noted as a gap."""
        self.counts.joins += 1
        self._database.rollback()
        self._load()
        began = time.time()
        found, now = Found(self._file, self._progress), time.time()
        self._adopt(found, now)
        self._settle(found)
        base, file = self._batch + 1, self._number + 1
        self._database.put("files", [(file, self._path, *self._file.shape, now, why, base, base + len(found.records))])
        rows: List[Row] = [(base, file, 0, 0, b"", self._looked, now)]
        for index, (segment, place, body) in enumerate(found.records, base + 1):
            rows.append((index, file, segment, place, digest(body), self._looked, now))
        self._database.put("batches", rows)
        revisions = gaps = 0
        for doc in found.docs:
            more, missing = self._join_document(found, doc, base, now)
            revisions, gaps = revisions + more, gaps + missing
        told = f"{len(found.cells)} documents in cells, {len(found.records)} batches, {revisions} revisions, {gaps} gaps"
        self._note(f"file {file}: {why}; {told}")
        self._number, self._at = file, found.at
        self._keep_place(began)
        self._database.commit()
        self._load()

    def _join_document(self, found: Found, doc: int, base: int, now: float) -> Tuple[int, bool]:
        """Takes what is new of a document. Returns how many revisions that is, and whether there is a gap before them."""
        database, have = self._database, self._newest.get(doc, 0)
        new = [(entry, index) for entry, index in found.entries.get(doc, []) if entry.rev > have]
        top = max(found.top(doc), have)
        first = new[0][0].rev if new else top + 1
        if first > have + 1:
            database.put("gaps", [(doc, have + 1, first - 1, now, PASSED if have else EARLIER)])
        if doc in self._newest:
            database.run("UPDATE documents SET newest = ? WHERE doc = ?", (top, doc))
        else:
            database.put("documents", [(doc, found.names[doc], top)])
        self._newest[doc] = top
        database.put("revisions", [(*entry, base + 1 + index) for entry, index in new])
        held = {rev for rev, in database.all("SELECT rev FROM snapshots WHERE doc = ?", (doc,))}
        for cell in found.cells.get(doc, []):
            if cell.rev not in held and (cell.rev > have or cell.rev > self._shown.get(doc, 0)):
                held.add(cell.rev)
                taken_with = None if cell.rev >= first else base  # a revision that is held says when it was seen
                database.put("snapshots", [(doc, cell.rev, found.bodies[doc, cell.rev], taken_with)])
                self._shown[doc] = max(cell.rev, self._shown.get(doc, 0))
        return len(new), first > have + 1

    def _adopt(self, found: Found, now: float) -> None:
        """Where this is a store that `restore` has made of all that the archive has: continues above the revision that it began with."""
        asked = "SELECT doc, rev, shows, had, body FROM restores ORDER BY doc, rev DESC"
        for doc, rev, shows, had, body in self._database.all(asked):
            if self._newest.get(doc) == had and found.top(doc) >= rev:
                why = f"never there: a store was restored, which begins at {rev} with what {shows} shows"
                self._database.put("gaps", [(doc, had + 1, rev, now, why)])
                self._database.put("snapshots", [(doc, rev, body, self._batch + 1)])
                self._database.run("UPDATE documents SET newest = ? WHERE doc = ?", (rev, doc))
                self._newest[doc] = self._shown[doc] = rev

    def _settle(self, found: Found) -> None:
        """Sets aside what the file tells otherwise. Raises Forked where that is more than the newest batch, unless it is accepted."""
        faults = list(self._faults(found))
        asked = "SELECT doc, rev FROM revisions WHERE batch = ?"
        newest: Set[Tuple[int, int]] = {(doc, rev) for doc, rev in self._database.all(asked, (self._batch,))}
        if faults and all((doc, rev) in newest for doc, rev, _ in faults):
            self._aside_batch(DOUBTED)
            faults = list(self._faults(found))
        if not faults:
            return
        told = "; ".join(f"document {doc} from revision {rev} on: {what}" for doc, rev, what in faults[:5])
        if not self._accept:
            self._database.rollback()
            raise Forked(f"this store doesn't continue what is archived ({told}). --accept sets these revisions aside")
        for doc, rev, what in faults:
            self._set_aside("r.doc = ? AND r.rev >= ?", (doc, rev), what)
            self._cut(doc, rev)
            self._database.run("DELETE FROM gaps WHERE doc = ? AND first >= ?", (doc, rev))
            self._database.run("UPDATE gaps SET last = ? WHERE doc = ? AND last >= ?", (rev - 1, doc, rev))
        self._note(f"accepted: {told}")

    def _faults(self, found: Found) -> Iterable[Fault]:
        """Where the file tells otherwise than the archive."""
        asked = "SELECT doc, min(rev) FROM revisions WHERE batch = ? GROUP BY doc"
        # of the newest batch: the store may have lost it
        loose: Dict[int, int] = {} if self._is_settled else dict(self._database.all(asked, (self._batch,)))
        for doc, have in list(self._newest.items()):
            fault = self._fault_of(found, doc, have, loose.get(doc))
            if fault is not None:
                yield (doc, *fault)

    def _fault_of(self, found: Found, doc: int, have: int, loose: Optional[int]) -> Optional[Tuple[int, str]]:
        top, is_proved = found.top(doc), False
        both = [entry for entry, _ in found.entries.get(doc, []) if entry.rev <= have]
        if both:
            asked = "SELECT doc, rev, kind, source, number, delta FROM revisions WHERE doc = ? AND rev >= ? AND rev <= ?"
            known = {row[1]: tuple(row) for row in self._database.all(asked, (doc, both[0].rev, have))}
            for entry in both:
                if known.get(entry.rev, tuple(entry)) != tuple(entry):
                    return entry.rev, "it is another change"
            is_proved = have in known and both[-1].rev == have
        if top < have:
            return top + 1, f"the file ends at revision {top}, the archive at {have}"
        cells = found.cells.get(doc, [])
        for cell in reversed(cells):
            state = self._held_at(doc, cell.rev) if not is_proved and cell.rev <= have else None
            if state is not None:
                if (state.is_live, state.ops, lasts(state.sources)) != (cell.is_live, cell.ops, lasts(cell.sources)):
                    is_of_newest = loose is not None and loose <= cell.rev
                    return (loose or 1) if is_of_newest else 1, f"the text at revision {cell.rev}, or its sources, are others"
                is_proved = True
        if is_proved or top == have:
            return None
        if loose is not None:
            return loose, "the newest batch of the archive can't be confirmed"
        before = self._held_at(doc, have) if cells and cells[-1].rev >= have else None
        if before is not None:  # what was passed can't be compared, but numbers never fall
            now = lasts(cells[-1].sources)
            if any(now.get(source, 0) < number for source, number in lasts(before.sources).items()):
                return have, "a source's number is lower than it was"
        return None

    def _held_at(self, doc: int, rev: int) -> Any:
        try:
            return state_at(self._database, doc, rev)
        except Unknown:
            return None
