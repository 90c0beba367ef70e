"""Messages and replies as docs/PROTOCOL.md has them: what is sent as lines, what comes as values."""

from __future__ import annotations

import json
from typing import Any, Dict, List, NamedTuple, Optional, Set

from .delta import Delta

Message = Dict[str, Any]

NO_DOCUMENT = 6
EXISTS = 7
GAP = 9
OLD_NUMBER = 10
FUTURE = 12
TOO_OLD = 13
PAST_END = 14
STORE_FAILED = 21
NO_MEMORY = 22
DELETED = 40


class Refused(Exception):
    """The server refused a request: `code` is its number, as 13, and `name` its name, as TooOld. Where a document lost by it what was
    typed, `lost` is that, as it would have changed the contents."""

    def __init__(self, code: int, name: str):
        super().__init__(code, name)
        self.code, self.name = code, name
        self.lost: Optional[Delta] = None

    def __str__(self) -> str:
        return f"{self.code} {self.name}"


class Closed(ConnectionError):
    """The client was closed, or gave up, before the reply came. A command may have been taken or not."""


class Unexpected(Exception):
    """The server sent what the protocol doesn't have, or the source's name is used by another client too."""


class Taken(NamedTuple):
    """A create, an edit, an undo or a delete was taken, made revision `rev`, and is on the disk. `again` says that it had been taken
    before it was sent the last time, as after a cut that took the reply along."""

    rev: int
    again: bool = False


class Contents(NamedTuple):
    """A document at a revision."""

    rev: int
    ops: Delta


class Since(NamedTuple):
    """The changes of a document after a revision, in order. The last of them made revision `rev`, which is the newest."""

    rev: int
    deltas: List[Delta]


class Change(NamedTuple):
    """What made revision `rev` of the one before."""

    rev: int
    ops: Delta


def hello(source: str) -> Message:
    return {"do": "hello", "source": source}


def create(doc: str, n: int, ops: Delta) -> Message:
    return {"do": "create", "doc": doc, "n": n, "ops": ops}


def edit(doc: str, n: int, base: int, ops: Delta) -> Message:
    return {"do": "edit", "doc": doc, "n": n, "base": base, "ops": ops}


def undo(doc: str, n: int) -> Message:
    return {"do": "undo", "doc": doc, "n": n}


def delete(doc: str, n: int) -> Message:
    return {"do": "delete", "doc": doc, "n": n}


def fetch(doc: str, rev: Optional[int] = None) -> Message:
    return {"do": "fetch", "doc": doc} if rev is None else {"do": "fetch", "doc": doc, "rev": rev}


def since(doc: str, rev: int) -> Message:
    return {"do": "since", "doc": doc, "rev": rev}


def subscribe(doc: str, rev: int) -> Message:
    return {"do": "subscribe", "doc": doc, "rev": rev}


def unsubscribe(doc: str) -> Message:
    return {"do": "unsubscribe", "doc": doc}


def spelled(message: Message) -> bytes:
    """A message as a line. Raises ValueError where a text holds half of a surrogate pair, which no message can."""
    return json.dumps(message, ensure_ascii=False, separators=(",", ":")).encode() + b"\n"


def read(line: bytes) -> Message:
    """A line of the server. Raises Unexpected where it is none."""
    try:
        message = json.loads(line)
    except ValueError:
        message = None
    if not isinstance(message, dict):
        raise Unexpected(f"no line of the protocol: {line[:100]!r}")
    return message


_COMMAND = {"taken": {"n", "rev"}, "again": {"n", "rev"}}
# For each message the replies that it may have, by their member `ok`, with what else is read of them.
_REPLIES: Dict[str, Dict[str, Set[str]]] = {
    "create": _COMMAND,
    "edit": _COMMAND,
    "undo": _COMMAND,
    "delete": _COMMAND,
    "fetch": {"doc": {"rev", "ops"}},
    "since": {"since": {"rev", "deltas"}},
    "subscribe": {"subscribed": set()},
    "unsubscribe": {"unsubscribed": set()},
}


def check_reply(message: Message, reply: Message) -> None:
    """Raises Unexpected where a reply isn't one to this message."""
    needed = {"error"} if "code" in reply else _REPLIES[message["do"]].get(reply.get("ok", ""))
    is_another = any(member in reply and reply[member] != message.get(member) for member in ("doc", "n"))
    if needed is None or not needed <= set(reply) or is_another:
        raise Unexpected(f"{reply} replies to {message}")
