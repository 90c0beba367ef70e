"""Deltas: what one change does to a text, as a list of operations.

    [{"retain": 6}, {"insert": "big ", "attributes": {"bold": True}}, {"delete": 5}]

A document is a delta of inserts alone. All lengths count UTF-16 code units, as JavaScript's texts do: a character above U+FFFF
counts two, an embed (an `insert` that is no text) one. `compose` and `transform` do what quill-delta's functions of these names do.

What they return is in normal form: neighbours that can be one operation are one, an insert stands before a delete at the same
place, no operation is empty, and no retain without attributes stands at the end. What they are given may be in any form, is taken for
its normal form, as the server takes it, and is never changed.
"""

from __future__ import annotations

import json
from typing import Any, Dict, Iterator, List, Optional, Tuple

Operation = Dict[str, Any]
Delta = List[Operation]

_ENDLESS = 1 << 60  # units: what stands after the last operation of a delta is left as it is
_PIECE = 4_000  # characters of a text that one message has room for, however it is escaped


def units(text: str) -> int:
    """The UTF-16 code units of a text."""
    return len(text) if text.isascii() else len(text.encode("utf-16-le")) // 2


def length(operation: Operation) -> int:
    """How many units an operation inserts, retains or deletes."""
    if "insert" in operation:
        content = operation["insert"]
        return units(content) if isinstance(content, str) else 1
    return int(operation["retain"] if "retain" in operation else operation["delete"])


def before(delta: Delta) -> int:
    """How many units a document must have for a delta."""
    return sum(length(operation) for operation in delta if "insert" not in operation)


def after(delta: Delta) -> int:
    """How many units a delta makes of those that it speaks of."""
    return sum(length(operation) for operation in delta if "delete" not in operation)


def text(document: Delta) -> str:
    """A document's text, without its attributes and embeds."""
    contents = (operation["insert"] for operation in document)
    return "".join(content for content in contents if isinstance(content, str))


def normal(delta: Delta) -> Delta:
    """The same change in normal form."""
    result: Delta = []
    for operation in delta:
        _push(result, operation)
    return _chopped(result)


def compose(first: Delta, second: Delta) -> Delta:
    """The one delta for `first` and then `second`. Where `first` is a document, it is the document after `second`.

    Raises ValueError where `second` parts a character of two units that `first` inserts.
    """
    ours, theirs = _Reader(first), _Reader(second)
    result: Delta = []
    while ours.has_more or theirs.has_more:
        if theirs.inserts:
            _push(result, theirs.take())
        elif ours.deletes:
            _push(result, ours.take())
        else:
            count = min(ours.left, theirs.left)
            one, other = ours.take(count), theirs.take(count)
            if "retain" in other:
                attributes = _composed(one.get("attributes"), other.get("attributes"), null_stays="retain" in one)
                _push(result, {**one, "attributes": attributes})
            elif "retain" in one:
                _push(result, other)
            # else `second` deletes what `first` inserts
    return _chopped(result)


def transform(first: Delta, second: Delta, priority: bool) -> Delta:
    """`second` as it is after `first`, where both were made on the same document.

    Where both insert at the same place, the insert of `first` stands first if it has priority. Where both set the same attribute,
    `second` leaves it then.
    """
    ours, theirs = _Reader(first), _Reader(second)
    result: Delta = []
    while ours.has_more or theirs.has_more:
        if ours.inserts and (priority or not theirs.inserts):
            _push(result, {"retain": length(ours.take())})
        elif theirs.inserts:
            _push(result, theirs.take())
        else:
            count = min(ours.left, theirs.left)
            one, other = ours.take(count), theirs.take(count)
            if "delete" in one:
                continue  # what `first` deletes, `second` can neither delete nor change
            if "delete" in other:
                _push(result, other)
            else:
                attributes = _transformed(one.get("attributes"), other.get("attributes"), priority)
                _push(result, {"retain": count, "attributes": attributes})
    return _chopped(result)


def parted(delta: Delta, most_operations: int, most_bytes: int) -> Tuple[Delta, Delta]:
    """Two deltas that do one after the other what this one does. The first has at most so many operations, and they take at most so
    many bytes in a message, unless it is a single one; the second is empty where there is no need of it."""
    pieces = [piece for operation in delta for piece in _pieces(operation)]
    count, size = 0, 0
    for piece in pieces[:most_operations]:
        size += len(json.dumps(piece, ensure_ascii=False).encode()) + 1
        if count and size > most_bytes:
            break
        count += 1
    if count == len(pieces):
        return delta, []
    first, rest = pieces[:count], pieces[count:]
    return normal(first), normal([{"retain": after(first)}, *rest])


def _pieces(operation: Operation) -> Iterator[Operation]:
    """An operation, in pieces if it inserts a long text."""
    content = operation.get("insert")
    if not isinstance(content, str) or len(content) <= _PIECE:
        yield operation
        return
    for at in range(0, len(content), _PIECE):
        yield {**operation, "insert": content[at : at + _PIECE]}


class _Reader:
    """Reads a delta, in normal form, in pieces of any length. After its last operation it is a retain without end."""

    def __init__(self, delta: Delta):
        self._operations = iter(normal(delta))
        self._next()

    def _next(self) -> None:
        """Goes on to the next operation."""
        operation = next(self._operations, None)
        self.has_more = operation is not None
        self._operation = {"retain": _ENDLESS} if operation is None else operation
        self._offset, self.left = 0, length(self._operation)
        self.inserts, self.deletes = "insert" in self._operation, "delete" in self._operation

    def take(self, count: Optional[int] = None) -> Operation:
        """The next so many units of the operation that is read, or all that is left of it."""
        operation, offset = self._operation, self._offset
        count = self.left if count is None else count
        if not self.has_more:
            return {"retain": count}
        whole = offset == 0 and count == self.left
        self._offset += count
        self.left -= count
        if not self.left:
            self._next()
        if whole:
            return operation
        if "insert" in operation:
            return {**operation, "insert": _cut(operation["insert"], offset, offset + count)}
        return {**operation, "retain" if "retain" in operation else "delete": count}


def _cut(content: str, start: int, end: int) -> str:
    """The units of a text from one place to another."""
    if units(content) == len(content):
        return content[start:end]
    try:
        return content.encode("utf-16-le")[2 * start : 2 * end].decode("utf-16-le")
    except UnicodeDecodeError:
        raise ValueError("a character of two units is parted") from None


def _push(result: Delta, operation: Operation) -> None:
    """Puts an operation at the end of a delta in normal form."""
    if not length(operation):
        return
    if not operation.get("attributes", True):
        operation = {name: value for name, value in operation.items() if name != "attributes"}
    at = len(result)
    if at and "insert" in operation and "delete" in result[-1]:
        at -= 1  # an insert stands before a delete at the same place
    joined = _joined(result[at - 1], operation) if at else None
    if joined is None:
        result.insert(at, operation)
    else:
        result[at - 1] = joined


def _joined(one: Operation, other: Operation) -> Optional[Operation]:
    """Two neighbours as one operation, if they can be."""
    if "delete" in one and "delete" in other:
        return {"delete": one["delete"] + other["delete"]}
    if not _are_same(one.get("attributes"), other.get("attributes")):
        return None
    if "retain" in one and "retain" in other:
        return {**one, "retain": one["retain"] + other["retain"]}
    if isinstance(one.get("insert"), str) and isinstance(other.get("insert"), str):
        return {**one, "insert": one["insert"] + other["insert"]}
    return None


def _chopped(result: Delta) -> Delta:
    """A delta without a retain at its end that changes nothing."""
    if result and "retain" in result[-1] and "attributes" not in result[-1]:
        result.pop()
    return result


def _are_same(one: Optional[Dict[str, Any]], other: Optional[Dict[str, Any]]) -> bool:
    """Whether attributes are the same. Python takes True for equal to 1, which are two values in JSON."""
    one, other = one or {}, other or {}
    return one == other and all(type(value) is type(other[name]) for name, value in one.items())


def _composed(one: Optional[Dict[str, Any]], other: Optional[Dict[str, Any]], null_stays: bool) -> Dict[str, Any]:
    """The attributes that `one` and then `other` set. None removes an attribute, which an insert needn't say."""
    both = {**(one or {}), **(other or {})}
    return both if null_stays else {name: value for name, value in both.items() if value is not None}


def _transformed(one: Optional[Dict[str, Any]], other: Optional[Dict[str, Any]], priority: bool) -> Dict[str, Any]:
    """The attributes that `other` still sets after `one`."""
    taken = one if one and priority else {}
    return {name: value for name, value in (other or {}).items() if name not in taken}
