"""What is an operation, and what a server takes as one: docs/PROTOCOL.md, "Operations"."""

from __future__ import annotations

import json
from typing import Any, Dict, Iterable

from .delta import Delta, Operation

MOST_BYTES = 65_536 - 256  # of an operation that can't be sent in parts: the rest of its line takes less
_MOST_LENGTH = 2**32 - 1
_MOST_NAME_BYTES = 64
_MOST_WHOLE = 2**53 - 1


def taken_over(ops: Iterable[Any]) -> Delta:
    """Operations of one's own. Raises ValueError for what a server would refuse them by, whatever the document."""
    return [_taken_over(operation) for operation in ops]


def copied(ops: Iterable[Operation]) -> Delta:
    """The same operations, so that whoever is given them can't change those that are kept."""
    return [_copy(operation) for operation in ops]


def _copy(operation: Operation) -> Operation:
    return {name: dict(value) if isinstance(value, dict) else value for name, value in operation.items()}


def _taken_over(operation: Any) -> Operation:
    """An operation without what says nothing: no attributes, and on an insert those that are None."""
    if not isinstance(operation, dict):
        raise ValueError(f"{operation!r:.100} is no operation")
    own = _copy(operation)
    attributes = own.pop("attributes", None)
    if isinstance(attributes, dict) and "insert" in own:
        attributes = {name: value for name, value in attributes.items() if value is not None}
    if not _is_change(own) or not _are_attributes(attributes, own):
        raise ValueError(f"{operation!r:.100} is no operation")
    if attributes is not None:
        own["attributes"] = attributes
    least = {**own, "insert": own["insert"][:1]} if isinstance(own.get("insert"), str) else own
    if len(json.dumps(least, ensure_ascii=False, separators=(",", ":")).encode()) > MOST_BYTES:
        raise ValueError(f"{operation!r:.100} is too long for a line")
    return own


def _is_change(own: Operation) -> bool:
    if len(own) != 1:
        return False
    ((kind, value),) = own.items()
    if kind == "insert":
        return _is_text(value) or (isinstance(value, dict) and len(value) == 1 and _are_members(value, may_be_none=False))
    return kind in ("retain", "delete") and type(value) is int and 0 <= value <= _MOST_LENGTH


def _are_attributes(attributes: Any, own: Operation) -> bool:
    if attributes is None:
        return True
    return "delete" not in own and isinstance(attributes, dict) and _are_members(attributes, may_be_none="retain" in own)


def _are_members(members: Dict[Any, Any], may_be_none: bool) -> bool:
    return all(_is_name(name) and _is_value(value, may_be_none) for name, value in members.items())


def _is_name(name: Any) -> bool:
    return _is_text(name) and 0 < len(name.encode()) <= _MOST_NAME_BYTES


def _is_value(value: Any, may_be_none: bool) -> bool:
    if value is None:
        return may_be_none
    return type(value) is bool or _is_text(value) or (type(value) is int and abs(value) <= _MOST_WHOLE)


def _is_text(value: Any) -> bool:
    """Whether it is a text without half of a character of two units."""
    try:
        return isinstance(value, str) and value.encode() is not None
    except UnicodeEncodeError:
        return False
