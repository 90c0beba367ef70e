"""The bytes of a store's file, as docs/FORMATS.md has them: read, and written anew.

Deltas are read as JSON texts, in the spelling of `richd dump`, since that is how an archive keeps them.
"""

from __future__ import annotations

import json
import os
import struct
from json.encoder import encode_basestring as quoted  # type: ignore[attr-defined]
from typing import Any, Dict, List, NamedTuple, Tuple

from .delta import Delta, Operation, length

OPEN = b"\xa5"
HEAD = 9  # bytes of a slot before its area: the gate and the segment's number
WINDOW = 16  # numbers of a source that a document remembers
MOST_REVISIONS = (1 << 53) - 1  # of a document
CREATED, EDITED, DELETED, CREATED_AGAIN = 1, 2, 3, 4

Window = Tuple[int, List[int]]  # a source's last number, and the revisions of its last numbers

_entry = struct.Struct("<BIQH").unpack_from
_u16 = struct.Struct("<H").unpack_from
_u32 = struct.Struct("<I").unpack_from
_u64 = struct.Struct("<Q").unpack_from
_i64 = struct.Struct("<q").unpack_from
_length_and_count = struct.Struct("<QI").unpack_from
_MOST_NAMES = 100_000
_new: Any = tuple.__new__  # makes an entry faster than its class does
_names: Dict[bytes, str] = {}  # sources by their bytes: the same ones come again and again


class StoreError(Exception):
    """A file that isn't a store, or that can't be read on."""


class Damaged(StoreError):
    """The bytes break a rule of docs/FORMATS.md."""


class Shape(NamedTuple):
    """The numbers that a store was formatted with."""

    slots: int
    slot: int
    docs: int
    cell: int
    sources: int
    keep: int

    def cell_place(self, doc: int, which: int) -> int:
        return 64 + (2 * doc + which) * self.cell

    def slot_place(self, slot: int) -> int:
        return 64 + 2 * self.docs * self.cell + slot * self.slot

    def size(self) -> int:
        """How long the file is, at least."""
        return self.slot_place(self.slots)


class Entry(NamedTuple):
    """What made one revision of a document. `delta` is JSON."""

    doc: int
    rev: int
    kind: int
    source: str
    number: int
    delta: str


class Cell(NamedTuple):
    """A milestone: a document at a revision."""

    doc: int
    name: str
    rev: int
    is_live: bool
    ops: Delta
    sources: Dict[str, Window]


def shape_of(head: bytes) -> Shape:
    """The numbers that stand behind the superblock's gate."""
    return Shape(*struct.unpack("<6I", head[8:32]))


def entries(body: bytes) -> Tuple[List[Entry], Dict[int, str]]:
    """The entries of a batch, and the names of the documents that it creates, by their numbers."""
    made: List[Entry] = []
    created: Dict[int, str] = {}
    try:
        at = 4
        for _ in range(_u32(body)[0]):
            kind, doc, rev, size = _entry(body, at)
            end = at + 15 + size
            spelled, number = body[at + 15 : end], _u64(body, end)[0]
            at = end + 8
            if kind == CREATED:
                created[doc], at = _text16(body, at)
            if kind == DELETED:
                delta = "[]"
            elif CREATED <= kind <= CREATED_AGAIN:
                delta, at = delta_text(body, at)
            else:
                raise Damaged(f"an entry of kind {kind}")
            made.append(_new(Entry, (doc, rev, kind, _names.get(spelled) or _source(spelled), number, delta)))
    except (struct.error, IndexError, UnicodeDecodeError) as fault:
        raise Damaged(f"a batch: {fault}") from None
    if at != len(body):
        raise Damaged("a batch of another length")
    return made, created


def _source(spelled: bytes) -> str:
    if len(_names) >= _MOST_NAMES:
        _names.clear()
    name = _names[spelled] = spelled.decode()
    return name


def delta_text(body: bytes, at: int) -> Tuple[str, int]:
    """A delta as JSON, and the place behind it."""
    count = _u32(body, at)[0]
    at += 4
    made = []
    for _ in range(count):
        kind = body[at]
        if kind == 3:
            size, attributes = _length_and_count(body, at + 1)
            at += 13
            if not attributes:  # most have none
                made.append(f'{{"retain":{size}}}')
                continue
            what = f'"retain":{size}}}'
        elif kind == 1:
            end = at + 5 + _u32(body, at + 1)[0]
            content, attributes = quoted(body[at + 5 : end].decode()), _u32(body, end)[0]
            at = end + 4
            if not attributes:
                made.append(f'{{"insert":{content}}}')
                continue
            what = f'"insert":{content}}}'
        elif kind == 4:
            what, attributes = f'"delete":{_u64(body, at + 1)[0]}}}', 0
            at += 9
        elif kind == 2:
            content, at = _embed(body, at + 1)
            what, attributes = f'"insert":{content}}}', _u32(body, at)[0]
            at += 4
        else:
            raise Damaged(f"an operation of kind {kind}")
        if attributes:
            spelled, at = _attributes(body, at, attributes)
            what = f'"attributes":{spelled},{what}'
        made.append("{" + what)
    return "[" + ",".join(made) + "]", at


def _attributes(body: bytes, at: int, count: int) -> Tuple[str, int]:
    made = []
    for _ in range(count):
        name, at = _text16(body, at)
        value, at = _value(body, at)
        made.append(f"{quoted(name)}:{value}")
    return "{" + ",".join(made) + "}", at


def _embed(body: bytes, at: int) -> Tuple[str, int]:
    name, at = _text16(body, at)
    value, at = _value(body, at)
    return f"{{{quoted(name)}:{value}}}", at


def _value(body: bytes, at: int) -> Tuple[str, int]:
    kind = body[at]
    if kind == 3:
        return str(_i64(body, at + 1)[0]), at + 9
    if kind == 4:
        return _text32(body, at + 1)
    if kind < 3:
        return ("null", "false", "true")[kind], at + 1
    raise Damaged(f"a value of kind {kind}")


def _text16(body: bytes, at: int) -> Tuple[str, int]:
    end = at + 2 + _u16(body, at)[0]
    return body[at + 2 : end].decode(), end


def _text32(body: bytes, at: int) -> Tuple[str, int]:
    """A text as JSON, and the place behind it."""
    end = at + 4 + _u32(body, at)[0]
    return quoted(body[at + 4 : end].decode()), end


def cell_revision(body: bytes) -> int:
    return int(_u64(body, 6 + _u16(body, 4)[0])[0])


def cell_of(body: bytes) -> Cell:
    """The milestone that a cell's body spells."""
    try:
        name, at = _text16(body, 4)
        rev, is_live = _u64(body, at)[0], body[at + 8]
        content, at = delta_text(body, at + 9)
        count = _u32(body, at)[0]
        at += 4
        sources = {}
        for _ in range(count):
            source, at = _text16(body, at)
            last, many = _u64(body, at)[0], body[at + 8]
            sources[source] = (last, list(struct.unpack_from(f"<{many}Q", body, at + 9)))
            at += 9 + 8 * many
        cell = Cell(_u32(body)[0], name, rev, is_live == 1, json.loads(content), sources)
    except (struct.error, IndexError, UnicodeDecodeError) as fault:
        raise Damaged(f"a cell: {fault}") from None
    if at != len(body) or is_live > 1:
        raise Damaged("a cell of another spelling")
    return cell


def cell_bytes(cell: Cell) -> bytes:
    """The body of a cell. The operations of the document are in normal form."""
    out = [struct.pack("<I", cell.doc), _spelled16(cell.name), struct.pack("<QBI", cell.rev, cell.is_live, len(cell.ops))]
    for operation in cell.ops:
        content = operation["insert"]
        if isinstance(content, str):
            out.append(b"\1" + _spelled32(content))
        else:
            ((name, value),) = content.items()
            out.append(b"\2" + _spelled16(name) + _spelled_value(value))
        attributes = _in_order(operation.get("attributes", {}))
        out.append(struct.pack("<I", len(attributes)))
        out.extend(_spelled16(name) + _spelled_value(value) for name, value in attributes)
    out.append(struct.pack("<I", len(cell.sources)))
    for name, (last, revisions) in _in_order(cell.sources):
        out.append(_spelled16(name) + struct.pack(f"<QB{len(revisions)}Q", last, len(revisions), *revisions))
    return b"".join(out)


def _in_order(named: Dict[str, Any]) -> List[Tuple[str, Any]]:
    return sorted(named.items(), key=lambda pair: pair[0].encode())


def _spelled16(text: str) -> bytes:
    spelled = text.encode()
    return struct.pack("<H", len(spelled)) + spelled


def _spelled32(text: str) -> bytes:
    spelled = text.encode()
    return struct.pack("<I", len(spelled)) + spelled


def _spelled_value(value: Any) -> bytes:
    if value is None or isinstance(value, bool):
        return b"\0" if value is None else b"\2" if value else b"\1"
    return b"\4" + _spelled32(value) if isinstance(value, str) else b"\3" + struct.pack("<q", value)


def weight(ops: Delta, sources: Dict[str, Window]) -> int:
    """What a document weighs, by docs/ACCEPTANCE.md, "Weights and limits"."""
    total = sum(56 + 8 * len(revisions) for _, revisions in sources.values())
    for operation in ops:
        each = 12 + sum(_pair(name, value) for name, value in operation.get("attributes", {}).items())
        total += each * length(operation) + _embedded(operation)
    return total


def _embedded(operation: Operation) -> int:
    content = operation["insert"]
    return 0 if isinstance(content, str) else sum(_pair(name, value) for name, value in content.items())


def _pair(name: str, value: Any) -> int:
    return 12 + len(name.encode()) + (len(value.encode()) if isinstance(value, str) else 0)


class NewStore:
    """A file that is made a store of milestones alone. It is one once `finish` has returned: the superblock's gate is opened last. Left by
    `with` it is finished, or dropped where something was raised."""

    def __init__(self, path: str, shape: Shape):
        self._path, self._shape = path, shape
        self._file = os.open(path, os.O_RDWR | os.O_CREAT | os.O_EXCL | os.O_CLOEXEC, 0o600)
        os.ftruncate(self._file, shape.size())

    def __enter__(self) -> NewStore:
        return self

    def __exit__(self, kind: object, *cause: object) -> None:
        if kind is None:
            self.finish()
        else:
            self.drop()

    def put(self, cell: Cell) -> None:
        body, shape = cell_bytes(cell), self._shape
        is_heavy = 5 + len(body) > shape.cell or weight(cell.ops, cell.sources) > shape.cell - 128
        if is_heavy or len(cell.sources) > shape.sources or cell.doc >= shape.docs:
            raise StoreError(f"{cell.name} has no room in cells of {shape.cell} bytes")
        _write(self._file, shape.cell_place(cell.doc, 0), OPEN + struct.pack("<I", len(body)) + body)

    def finish(self) -> None:
        _write(self._file, 1, b"QDSTORE2" + struct.pack("<6I", *self._shape))
        os.fsync(self._file)
        _write(self._file, 0, OPEN)
        os.fsync(self._file)
        os.close(self._file)
        folder = os.open(os.path.dirname(os.path.abspath(self._path)), os.O_RDONLY)
        try:
            os.fsync(folder)
        finally:
            os.close(folder)

    def drop(self) -> None:
        """Lets the file go that isn't finished."""
        os.close(self._file)
        os.unlink(self._path)


def _write(file: int, place: int, content: bytes) -> None:
    while content:
        written = os.pwrite(file, content, place)
        place, content = place + written, content[written:]
