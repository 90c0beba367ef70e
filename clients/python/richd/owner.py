"""What the client for threads and its twin for asyncio have in common: both own a core, and do things with it by `_do`."""

from __future__ import annotations

from typing import Callable, Dict, List, NamedTuple, Optional, TypeVar, Union

from .core import Command, Core, Follower, Pauses, Request, Trace, log
from .delta import Delta
from .draft import Draft
from .kept import Kept, Path
from .messages import Change, Closed, Contents

Result = TypeVar("Result")
Told = Union[Change, Exception]  # what a follower is told

LAST_WAIT = 5.0  # seconds that `close` gives the server to answer what was sent
TIMEOUT = 30.0  # seconds that a call waits, unless another time is given


class Name(NamedTuple):
    """A source's name, with the likely next numbers of its documents, which are None where it is new, and the file that keeps them."""

    source: str
    numbers: Optional[Dict[str, int]]
    kept: Optional[Kept]

    @staticmethod
    def of(source: Optional[str], keep: Optional[Path], is_new: bool) -> Name:
        """What `connect` was given. Raises TypeError where that is no name."""
        if (source is None) == (keep is None):
            raise TypeError(
                "connect takes a source, a name that this program has in each run and no other program has, or keep, the path of a file"
                " in which it keeps a name of its own: each name takes one of a document's places for sources, for ever"
            )
        if keep is not None:
            kept = Kept(keep)
            return Name(kept.source, kept.numbers, kept)
        assert source is not None
        return Name(source, None if is_new else {}, None)


class Owner:
    """Owns a core: `_do` alone does something with it, and then sends what it has to send."""

    timeout: Optional[float]  # seconds that a call waits, or none for as long as it takes

    def __init__(self, place: str, name: Name, timeout: Optional[float], trace: Optional[Trace]):
        self.timeout = timeout
        self._place, self._kept = place, name.kept
        self._was_greeted = False  # on any connection
        self._trouble = "it doesn't answer"  # why there was no greeting yet
        self._on_connected: List[Callable[[], None]] = []
        self._on_cut: List[Callable[[], None]] = []
        self._core = Core(name.source, name.numbers, self._later, trace)

    def __repr__(self) -> str:
        state = "connected" if self._core.greeted else "not connected" if self._core.failure is None else f"ended by {self._core.failure!r}"
        return f"<{_name(self)} {self.source!r} at {self._place}, {state}>"

    @property
    def source(self) -> str:
        """The name under which the changes of this client are taken."""
        return self._core.source

    @property
    def is_connected(self) -> bool:
        """Whether there is a connection. Where there is none, what is asked for is sent once there is one."""
        return self._core.greeted

    def on_connected(self, action: Callable[[], None]) -> None:
        """Has a function called whenever a session has begun on a new connection, but for the first."""
        self._on_connected.append(action)

    def on_cut(self, action: Callable[[], None]) -> None:
        """Has a function called whenever a session has ended, unless by `close`."""
        self._on_cut.append(action)

    def _do(self, action: Callable[[], Result]) -> Result:
        raise NotImplementedError

    def _later(self, seconds: float, action: Callable[[], None]) -> None:
        raise NotImplementedError

    def _fail(self, error: Exception) -> None:
        if self._core.failure is None and not isinstance(error, Closed):
            log.error("%r ends: %r", self, error)
        self._do(lambda: self._core.fail(error))

    def _given_up(self, request: Optional[Request]) -> str:
        """Says of what was asked that there was no answer in time. What wasn't sent is dropped."""
        if request is None or self._core.take_back(request):
            state = "it wasn't sent"
        elif isinstance(request, Command):
            state = "it was sent, and may still be taken"
        else:
            state = "it was sent"
        return f"no answer in {self.timeout} seconds from {self._place}: {state}"

    def _let_go(self) -> None:
        """Lets the file go that keeps the name, with what the numbers have come to."""
        kept, self._kept = self._kept, None
        if kept is not None:
            kept.close(self._do(self._core.likely_numbers))

    def _received(self, data: bytes, pauses: Pauses) -> None:
        """Takes bytes that came. The next attempt to connect may be soon where more came than a greeting."""
        was_greeted = self._core.greeted
        if was_greeted:
            pauses.begin_anew()
        self._core.received(data)
        if self._core.greeted and not was_greeted:
            log.info("%r has a session", self)
            actions, self._was_greeted = self._on_connected, True
            for action in actions:
                action()

    def _could_not_open(self, error: OSError) -> None:
        """There is no connection: at first that is a fault, and later a server that is started anew."""
        log.info("%r can't connect: %s", self, error)
        if not self._was_greeted:
            self._fail(error)

    def _has_ended(self, had_session: bool, waits_for_place: bool, is_closing: bool) -> None:
        """A connection ended. Before the first greeting that is a fault, but where a server without a place ends it at once."""
        if had_session and not is_closing:
            log.warning("%r was cut", self)
            for action in self._on_cut:
                action()
        elif not had_session:
            self._trouble = "it closes connections without a byte, so all its places are taken, or it has no memory for a session"
            log.info("%r: %s", self, self._trouble)
        if not (self._was_greeted or waits_for_place):
            self._fail(ConnectionError("the server ended before it greeted"))


class Queued(Follower):
    """Puts what it is told into a queue of whatever kind, until somebody asks for it."""

    def __init__(self, rev: int, put: Callable[[Told], None]):
        super().__init__(rev)
        self._put = put

    def change(self, change: Change) -> None:
        self._put(change)

    def end(self, error: Exception) -> None:
        self._put(error)


class OwnedFollowing:
    """The changes of a document. It ends with the client; `close` ends it before."""

    def __init__(self, owner: Owner, doc: str, rev: int, put: Callable[[Told], None]):
        self._owner, self._doc, self._follower = owner, doc, Queued(rev, put)
        owner._do(lambda: owner._core.follow(doc, self._follower))

    def __repr__(self) -> str:
        return f"<{_name(self)} of {self._doc!r}, told of revision {self._follower.rev}>"

    def _change_of(self, told: Told) -> Change:
        """What came as a change. Where it is the end that is raised, and it stays the answer."""
        if isinstance(told, Exception):
            self._follower.end(told)
            raise told
        return told

    def close(self) -> None:
        self._owner._do(lambda: self._owner._core.unfollow(self._doc, self._follower))
        self._follower.end(Closed("it is followed no longer"))


class OwnedDocument(Draft):
    """A document that one types into, and that others change meanwhile."""

    def __init__(self, owner: Owner, doc: str, contents: Contents):
        self._owner = owner
        owner._do(lambda: Draft.__init__(self, owner._core, doc, contents))

    def __repr__(self) -> str:
        state = f"ended by {self._failure!r}" if self._failure is not None else "saved" if self.is_settled else "saving"
        return f"<{_name(self)} {self._doc!r} at revision {self.revision}, {state}>"

    def apply(self, ops: Delta) -> None:
        self._owner._do(lambda: Draft.apply(self, ops))

    def close(self) -> None:
        """Follows the document no longer. What was typed and isn't sent is dropped, so `flush` first."""
        self._owner._do(lambda: Draft.close(self))


def _name(value: object) -> str:
    """The name of a value's class, as it is imported."""
    kind = type(value)
    return f"{kind.__module__.replace('.client', '')}.{kind.__name__}"
