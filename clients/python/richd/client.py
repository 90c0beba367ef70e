"""A client for programs with threads. Its calls wait for the answer, and any number of threads may call at once."""

from __future__ import annotations

import functools
import queue
import sys
import threading
from concurrent.futures import Future
from concurrent.futures import TimeoutError as FutureTimeout
from typing import Any, Callable, List, Optional, Sequence

from .core import Core, Done, Pauses, Request, Trace
from .delta import Delta
from .draft import fetch_or_create
from .kept import Path
from .link import Link, PipeLink, TcpLink
from .messages import Change, Closed, Contents, Since, Taken
from .owner import LAST_WAIT, TIMEOUT, Name, OwnedDocument, OwnedFollowing, Owner, Result, Told


def connect(
    host: Optional[str] = None,
    port: Optional[int] = None,
    *,
    command: Optional[Sequence[str]] = None,
    link: Optional[Callable[[], Link]] = None,
    source: Optional[str] = None,
    keep: Optional[Path] = None,
    is_new: bool = False,
    timeout: Optional[float] = TIMEOUT,
    trace: Optional[Trace] = None,
) -> Client:
    """A client of the server at a host's port, or of one that this command starts (`["richd", "serve", "notes"]`), or over what a
    function opens. Leave it by `with`, or call `close`.

    `source` is the name under which its changes are taken: the same in each run of a program, and no other client may have it at the
    time. Or `keep` is the path of a file that keeps a name of its own, made up in the first run; one client has it at a time. A name takes
    one of a document's places for sources, for ever. `is_new` says that the source was never used, so that its numbers needn't be asked for.

    `timeout` is for how many seconds a call waits, this one too; with None, as long as it takes. `trace(way, line)` is told each line, with
    way `>` for one that is sent and `<` for one that comes.
    """
    openers: List[Callable[[], Link]] = []
    if host is not None and port is not None:
        openers.append(functools.partial(TcpLink, host, port))
    if command is not None:
        openers.append(functools.partial(PipeLink, command))
    if link is not None:
        openers.append(link)
    if len(openers) != 1:
        raise TypeError("connect takes a host and a port, or a command, or a link")
    place = f"{host}:{port}" if host is not None else " ".join(command) if command is not None else "a link"
    return Client(openers[0], place, Name.of(source, keep, is_new), timeout, trace)


class Client(Owner):
    """A session with a server, which begins anew on a new connection where one is cut. `connect` makes one.

    Each call raises `Refused` where the server refuses, TimeoutError where it takes longer than the client's timeout, `Closed` once
    the client is closed. After a TimeoutError a command that was sent may still be taken, and is sent again where it has to be, and one that
    wasn't is dropped; the error says which.

    A command may be given a `number`, that of `next_number`, by who writes it down before it is sent: sent again under this number, in
    another run too, it is taken once.
    """

    def __init__(self, open_link: Callable[[], Link], place: str, name: Name, timeout: Optional[float], trace: Optional[Trace]):
        self._open_link = open_link
        self._changed = threading.Condition(threading.RLock())  # its lock is for all that follows
        super().__init__(place, name, timeout, trace)
        self._link: Optional[Link] = None
        self._is_closing = False
        self.ahead = Ahead(self)
        self._thread = threading.Thread(target=self._live, name="richd", daemon=True)
        self._thread.start()
        with self._changed:
            is_there = self._changed.wait_for(lambda: self._core.greeted or self._core.failure, timeout)
            failure = self._core.failure
        if failure is not None:
            self.close()
            raise failure
        if not is_there:
            trouble = self._trouble
            self.close()
            raise TimeoutError(f"the server didn't greet in {timeout} seconds: {trouble}")

    def create(self, doc: str, ops: Delta, *, number: Optional[int] = None) -> Taken:
        """Makes a document of these inserts, at revision 1, or as the next revision where it is deleted."""
        return self._wait(self.ahead.create(doc, ops, number=number))

    def edit(self, doc: str, ops: Delta, base: int, *, number: Optional[int] = None) -> Taken:
        """Changes a document by what was made on its revision `base`. The server adapts it to what was taken since."""
        return self._wait(self.ahead.edit(doc, ops, base, number=number))

    def undo(self, doc: str, *, number: Optional[int] = None) -> Taken:
        """Takes back this source's last change of a document, past what others did since."""
        return self._wait(self.ahead.undo(doc, number=number))

    def delete(self, doc: str, *, number: Optional[int] = None) -> Taken:
        """Deletes a document. Its name stays, and `create` makes it again."""
        return self._wait(self.ahead.delete(doc, number=number))

    def next_number(self, doc: str) -> int:
        """The number of this source's next command of a document. Where it isn't known the server is asked, and nothing is written."""
        return self._wait(self.ahead.next_number(doc))

    def fetch(self, doc: str, rev: Optional[int] = None) -> Contents:
        """A document at a revision, or at the newest."""
        return self._wait(self.ahead.fetch(doc, rev))

    def since(self, doc: str, rev: int) -> Since:
        """What changed a document after a revision."""
        return self._wait(self.ahead.since(doc, rev))

    def follow(self, doc: str, rev: int) -> Following:
        """The changes of a document after a revision, as they come: `for change in client.follow(doc, rev)`. Where the document is deleted
        it raises `Refused` with code 40; where a revision isn't held any more, with 13: fetch the document then, and follow it from there."""
        return Following(self, doc, rev)

    def open(self, doc: str, create: Optional[Delta] = None) -> Document:
        """A document to type into. Where it isn't there or is deleted, and `create` has inserts, it is made of them; another client may do
        so too."""
        return Document(self, doc, self._wait(self.ahead._begin(lambda core, done: fetch_or_create(core, doc, create, done))))

    def close(self) -> None:
        """Ends the session. What was sent is still answered; what wasn't raises `Closed`."""
        with self._changed:
            self._is_closing = True
            self._changed.notify_all()
        if threading.current_thread() is self._thread:
            return
        self._thread.join(LAST_WAIT)
        with self._changed:
            link = self._link
        if link is not None:
            link.close()
        self._thread.join()

    def __enter__(self) -> Client:
        return self

    def __exit__(self, *cause: object) -> None:
        self.close()

    def _do(self, action: Callable[[], Result]) -> Result:
        """Does something with the core, and sends what it has to send then."""
        with self._changed:
            result = action()
            self._changed.notify_all()
            return result

    def _wait(self, answer: Answer[Result]) -> Result:
        try:
            return answer.result(self.timeout)
        except FutureTimeout:
            pass
        raise TimeoutError(self._do(lambda: self._given_up(answer.request)))

    def _later(self, seconds: float, action: Callable[[], None]) -> None:
        timer = threading.Timer(seconds, self._do, [action])
        timer.daemon = True
        timer.start()

    # The client's own threads: one reads, and one for each connection writes.

    def _live(self) -> None:
        try:
            self._begin_and_go_on()
        finally:
            self._let_go()

    def _begin_and_go_on(self) -> None:
        pauses = Pauses()
        while True:
            try:
                self._converse(pauses)
            except Exception as error:  # no line of the protocol, a refused hello, or a fault of a function that is told of changes
                self._fail(error)
            with self._changed:
                if self._is_closing:
                    self._fail(Closed("the client was closed"))
                if self._core.failure is not None:
                    return
                self._changed.wait_for(lambda: self._is_closing, pauses.next())

    def _converse(self, pauses: Pauses) -> None:
        """One connection, from its beginning to its end."""
        try:
            link = self._open_link()
        except OSError as error:
            return self._could_not_open(error)
        with self._changed:
            self._link = link
            self._core.connected()
        writer = threading.Thread(target=self._write, args=[link], name="richd writer", daemon=True)
        writer.start()
        try:
            self._read(link, pauses)
        except OSError:
            pass
        finally:
            with self._changed:
                had_session, self._link = self._core.greeted, None
                self._core.cut()
                self._changed.notify_all()
            link.close()
            writer.join()
        self._has_ended(had_session, link.waits_for_place, self._is_closing)

    def _read(self, link: Link, pauses: Pauses) -> None:
        while True:
            data = link.receive()
            if not data:
                return
            self._do(lambda: self._received(data, pauses))

    def _write(self, link: Link) -> None:
        while True:
            with self._changed:
                self._changed.wait_for(lambda: self._link is not link or self._core.has_to_send or self._is_closing)
                if self._link is not link:
                    return
                data = self._core.to_send()
            try:
                if not data:
                    link.finish()
                    return
                link.send(data)
            except OSError:
                link.close()  # who reads finds it closed
                return


class Answer(Future[Result]):
    """What a call that doesn't wait gives."""

    request: Optional[Request] = None  # what is answered, where it is one


class Ahead:
    """The calls of a client that don't wait. Each gives a future, so that the next can be sent before the answer comes."""

    def __init__(self, client: Client):
        self._client = client

    def create(self, doc: str, ops: Delta, *, number: Optional[int] = None) -> Answer[Taken]:
        return self._begin(lambda core, done: core.create(doc, ops, done, number))

    def edit(self, doc: str, ops: Delta, base: int, *, number: Optional[int] = None) -> Answer[Taken]:
        return self._begin(lambda core, done: core.edit(doc, ops, base, done, number))

    def undo(self, doc: str, *, number: Optional[int] = None) -> Answer[Taken]:
        return self._begin(lambda core, done: core.undo(doc, done, number))

    def delete(self, doc: str, *, number: Optional[int] = None) -> Answer[Taken]:
        return self._begin(lambda core, done: core.delete(doc, done, number))

    def next_number(self, doc: str) -> Answer[int]:
        return self._begin(lambda core, done: core.next_number(doc, done))

    def fetch(self, doc: str, rev: Optional[int] = None) -> Answer[Contents]:
        return self._begin(lambda core, done: core.fetch(doc, rev, done))

    def since(self, doc: str, rev: int) -> Answer[Since]:
        return self._begin(lambda core, done: core.since(doc, rev, done))

    def _begin(self, ask: Callable[[Core, Done], Optional[Request]]) -> Answer[Any]:
        answer: Answer[Any] = Answer()

        def done(value: Any, error: Optional[Exception]) -> None:
            if not answer.set_running_or_notify_cancel():
                return  # nobody waits any more
            if error is not None:
                answer.set_exception(error)
            else:
                answer.set_result(value)

        answer.request = self._client._do(lambda: ask(self._client._core, done))
        return answer


class Following(OwnedFollowing):
    """The changes of a document, as an iterator that waits for the next one. It ends with the client; `close` ends it before."""

    def __init__(self, client: Client, doc: str, rev: int):
        self._queue: queue.Queue[Told] = queue.Queue()
        super().__init__(client, doc, rev, self._queue.put)

    def next(self, timeout: Optional[float] = None) -> Change:
        """The next change. Raises TimeoutError where none comes in so many seconds."""
        try:
            return self._change_of(self._queue.get(timeout=timeout))
        except queue.Empty:
            raise TimeoutError(f"no change in {timeout} seconds") from None

    def __iter__(self) -> Following:
        return self

    def __next__(self) -> Change:
        try:
            return self.next()
        except Closed:
            raise StopIteration from None

    def __enter__(self) -> Following:
        return self

    def __exit__(self, *cause: object) -> None:
        self.close()

    def __del__(self) -> None:
        if not sys.is_finalizing():  # at the program's end the client's threads may stand still
            self.close()  # as where a loop was left by `break`


class Document(OwnedDocument):
    """A document that one types into, and that others change meanwhile. `Client.open` makes one.

    The functions that it is given are called in a thread of the client, and may not wait for its calls.
    """

    _owner: Client

    def flush(self, timeout: Optional[float] = None) -> None:
        """Waits until all that was typed is taken. Raises what the server refused it with."""
        timeout = self._owner.timeout if timeout is None else timeout
        with self._owner._changed:
            if not self._owner._changed.wait_for(lambda: self.is_settled, timeout):
                raise TimeoutError(f"not all was taken in {timeout} seconds")
            self.raise_fault()

    def __enter__(self) -> Document:
        return self

    def __exit__(self, *cause: object) -> None:
        self.close()
