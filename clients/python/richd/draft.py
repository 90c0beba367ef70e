"""A document that one types into while others change it, with no input or output of its own.

What is typed shows at once. One edit of it is on its way at a time; what is typed meanwhile is composed, and sent when that is taken.
A change of others, made on what the server has, is moved past both before it shows, and both are moved past it, as the server moves
them: so all come to the same contents.

    server's contents at `revision`  ->  on its way  ->  typed meanwhile  =  contents

Where the server holds that revision no longer the document is fetched, and what isn't taken is moved past the difference.
"""

from __future__ import annotations

from collections import deque
from typing import Callable, Deque, List, Optional

from . import delta, messages
from .core import Core, Done, Follower, Pauses
from .delta import Delta
from .difference import difference
from .messages import Change, Closed, Contents, Refused, Taken
from .operations import copied, taken_over

MOST_OPERATIONS, MOST_BYTES = 1_000, 48_000  # of one edit, so that it is a message with all that stands around it
MOST_MOVES = 5  # of an edit that is refused again and again, since the server hasn't what it was made on
ELSEWHERE = (messages.FUTURE, messages.TOO_OLD, messages.PAST_END)  # the server hasn't what the edit was made on


class Draft(Follower):
    """The document, as it is followed and typed into."""

    def __init__(self, core: Core, doc: str, contents: Contents):
        super().__init__(contents.rev)
        self._core, self._doc = core, doc
        self._contents, self._revision = contents.ops, contents.rev
        self._base = contents.ops  # the contents without what isn't taken
        self._sent: Optional[Delta] = None  # the edit on its way, as it is at `_revision`
        self._is_unanswered = False
        self._taken_as: Optional[int] = None  # the revision that it made, until that is reached
        self._typed: Delta = []  # what was typed since
        self._news: Deque[Change] = deque()  # what others did, and isn't shown yet
        self._is_stale = False  # whether the document has to be fetched anew
        self._refusal: Optional[Exception] = None  # of what was typed, which is lost once the document is fetched
        self._moves = 0  # since an edit was taken
        self._fault: Optional[Exception] = None  # what the server refused an edit with, until `raise_fault` tells
        self._failure: Optional[Exception] = None  # why nothing more is sent or comes
        self._on_change: List[Callable[[Delta], None]] = []
        self._on_rebase: List[Callable[[Delta], None]] = []
        self._on_reset: List[Callable[[Delta], None]] = []
        self._on_end: List[Callable[[Exception], None]] = []
        core.follow(doc, self)

    @property
    def contents(self) -> Delta:
        """The document with all that was typed, as inserts. They are the reader's own."""
        return copied(self._contents)

    @property
    def text(self) -> str:
        """Its text, without attributes and embeds."""
        return delta.text(self._contents)

    @property
    def revision(self) -> int:
        """The newest revision that the contents have."""
        return self._revision

    @property
    def is_settled(self) -> bool:
        """Whether all that was typed is taken, or was refused."""
        if self._fault is not None or self._failure is not None:
            return True
        return not self._typed and self._sent is None and not self._is_stale

    def on_change(self, action: Callable[[Delta], None]) -> None:
        """Has a function called with what others did, once it is in the contents: what a text that shows them has to apply."""
        self._on_change.append(action)

    def on_rebase(self, action: Callable[[Delta], None]) -> None:
        """Has a function called once what was typed was moved to contents that were fetched, since the server holds those no longer on
        which it was made. It is given what was typed as it is now, behind `on_change` with what made the one of the other."""
        self._on_rebase.append(action)

    def on_reset(self, action: Callable[[Delta], None]) -> None:
        """Has a function called once what was typed was refused, and the contents were fetched anew without it. It is given what is lost,
        as it would have changed the contents that were there before."""
        self._on_reset.append(action)

    def on_end(self, action: Callable[[Exception], None]) -> None:
        """Has a function called with the cause why the document can't be followed any more, as that it was deleted."""
        self._on_end.append(action)

    def apply(self, ops: Delta) -> None:
        """Types something: changes the contents now, and the document on the server as soon as can be. Raises ValueError where it
        reaches past the end, parts a character of two units, or has something that is no operation, or too long for a line."""
        if self._failure is not None:
            raise self._failure
        ops = taken_over(ops)
        if delta.before(ops) > delta.after(self._contents):
            raise ValueError("it reaches past the end of the document")
        contents = delta.compose(self._contents, ops)
        self._typed = delta.compose(self._typed, ops)
        self._contents = contents
        self._go_on()

    def raise_fault(self) -> None:
        """Raises what went wrong: a refusal once."""
        fault, self._fault = self._fault or self._failure, None
        if fault is not None:
            raise fault

    def close(self) -> None:
        self._core.unfollow(self._doc, self)
        self._failure = self._failure or Closed("the document was closed")

    @property
    def _untaken(self) -> Delta:
        """What was typed, as it would change `_base`, or that with what was on its way."""
        return self._typed if self._taken_as is not None else delta.compose(self._sent or [], self._typed)

    # What the core tells

    def change(self, change: Change) -> None:
        self._news.append(Change(change.rev, copied(change.ops)))  # others are told the same one
        self._go_on()

    def end(self, error: Exception) -> None:
        if _is_refusal(error, *ELSEWHERE):
            self._fetch_anew()
        else:
            self._fail(error)

    def _fail(self, error: Exception) -> None:
        """Nothing more is sent or comes. What wasn't taken is handed out with the error."""
        if self._failure is not None:
            return
        self._failure = _with_lost(error, self._untaken)
        for action in self._on_end:
            action(self._failure)

    def _answered(self, taken: Optional[Taken], error: Optional[Exception]) -> None:
        """The edit that was on its way was taken or refused."""
        self._is_unanswered = False
        if self._failure is not None:
            return
        self._moves = 0 if taken is not None else self._moves + 1
        if taken is not None and taken.rev > self._revision:
            self._taken_as = taken.rev
        elif taken is not None or (_is_refusal(error, messages.TOO_OLD) and self._news and not self._is_stale):
            # Its number was somebody else's; or the base is no longer held, but the revision to which the news move the edit may be.
            self._typed, self._sent = self._untaken, None
        else:
            if not _is_refusal(error, *ELSEWHERE) or self._moves > MOST_MOVES:
                self._refusal = error
            self._is_stale = True
        if self._is_stale:
            self._fetch_anew()
        else:
            self._go_on()

    def _go_on(self) -> None:
        """Takes in what may be taken in, and sends what may be sent. News wait while it isn't known which of them is the own edit."""
        while not self._is_stale and self._failure is None:
            if self._taken_as == self._revision + 1:
                self._base = delta.compose(self._base, self._sent or []) if self._typed else self._contents
                self._revision, self._sent, self._taken_as = self._taken_as, None, None
            elif self._news and (self._sent is None or self._taken_as is not None):
                self._take_in(self._news.popleft())
            elif self._sent is None and self._typed:
                self._send()
                return
            else:
                return

    def _take_in(self, change: Change) -> None:
        """Takes in what somebody else did."""
        if change.rev <= self._revision:
            return  # the own edit, or what was fetched
        other, self._revision = change.ops, change.rev
        is_settled = self._sent is None and not self._typed
        if not is_settled:
            self._base = delta.compose(self._base, other)
        if self._sent is not None:
            self._sent, other = delta.transform(other, self._sent, True), delta.transform(self._sent, other, False)
        self._typed, other = delta.transform(other, self._typed, True), delta.transform(self._typed, other, False)
        self._contents = delta.compose(self._contents, other)
        if is_settled:
            self._base = self._contents
        for action in self._on_change:
            action(copied(other))

    def _send(self) -> None:
        self._sent, self._typed = delta.parted(self._typed, MOST_OPERATIONS, MOST_BYTES)
        self._is_unanswered = True
        self._core.edit(self._doc, self._sent, self._revision, self._answered, waits=True)

    def _fetch_anew(self) -> None:
        """The server holds no longer what the contents stand on. First comes the answer to what is on its way, which tells whether that is
        in what is fetched."""
        self._is_stale = True
        if not self._is_unanswered:
            self._core.unfollow(self._doc, self)
            self._core.fetch(self._doc, None, self._fetched)

    def _fetched(self, contents: Optional[Contents], error: Optional[Exception]) -> None:
        if self._failure is not None:
            return
        if contents is None:
            self._fail(self._refusal or error or Closed())
            return
        base, typed = self._base, self._untaken
        if self._taken_as is not None:
            base = delta.compose(base, self._sent or [])
        refusal, self._refusal = self._refusal, None
        change = difference(base, contents.ops) if refusal is None else []
        change, typed = delta.transform(typed, change, False), delta.transform(change, typed, True)
        self._base, self._revision, self.rev = contents.ops, contents.rev, contents.rev
        self._sent, self._taken_as, self._typed = None, None, typed if refusal is None else []
        self._contents = delta.compose(contents.ops, self._typed)
        self._news.clear()
        self._is_stale = False
        self._core.follow(self._doc, self)
        if refusal is not None:
            self._lose(refusal, typed)
        else:
            self._call(self._on_change, change)
            self._call(self._on_rebase, typed)
        self._go_on()

    def _lose(self, refusal: Exception, typed: Delta) -> None:
        self._fault = _with_lost(refusal, typed)
        for action in self._on_reset:
            action(typed)

    def _call(self, actions: List[Callable[[Delta], None]], ops: Delta) -> None:
        """Calls functions with what has an effect."""
        for action in actions if ops else []:
            action(copied(ops))


def _with_lost(error: Exception, lost: Delta) -> Exception:
    """A refusal with what is lost by it."""
    if not isinstance(error, Refused):
        return error
    refusal = Refused(error.code, error.name)
    refusal.lost = lost or None
    return refusal


def _is_refusal(error: Optional[Exception], *codes: int) -> bool:
    return isinstance(error, Refused) and error.code in codes


def fetch_or_create(core: Core, doc: str, ops: Optional[Delta], done: Done) -> None:
    """Asks for a document, which is made of these inserts where it isn't there or is deleted, and there are some. Another client may make
    it at the same time: then the server says so before it shows the document, which a crash may yet take back. So both are tried in
    turn."""
    pauses = Pauses()
    was_tried = False

    def fetched(contents: Optional[Contents], error: Optional[Exception]) -> None:
        if ops is None or not (_is_refusal(error, messages.NO_DOCUMENT) or _is_refusal(error, messages.DELETED)):
            done(contents, error)
        elif was_tried:
            core.later(pauses.next(), create)
        else:
            create()

    def create() -> None:
        nonlocal was_tried
        was_tried = True
        core.create(doc, ops or [], created)

    def created(taken: Optional[Taken], error: Optional[Exception]) -> None:
        if error is None or _is_refusal(error, messages.EXISTS):
            core.fetch(doc, None, fetched)
        else:
            done(None, error)

    core.fetch(doc, None, fetched)
