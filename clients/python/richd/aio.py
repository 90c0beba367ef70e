"""The client for programs with asyncio: the same calls as coroutines, over the same core.

    async with await richd.aio.connect("127.0.0.1", 7000, source="ann") as client:
        async for change in client.follow("letter", 1):
            ...

Any number of tasks may call at once. What a cancelled task has asked for stays on its way.
"""

from __future__ import annotations

import asyncio
from typing import Any, Awaitable, Callable, List, Optional, Sequence, Tuple

from .core import Done, Pauses, Request, Trace
from .delta import Delta
from .draft import fetch_or_create
from .kept import Path
from .link import prepare
from .messages import Change, Closed, Contents, Since, Taken
from .owner import LAST_WAIT, TIMEOUT, Name, OwnedDocument, OwnedFollowing, Owner, Result, Told

PIECE = 65_536  # bytes that are taken at a time

Streams = Tuple[asyncio.StreamReader, asyncio.StreamWriter, Callable[[], Awaitable[None]]]  # to read, to write, and to end both


async def connect(
    host: Optional[str] = None,
    port: Optional[int] = None,
    *,
    command: Optional[Sequence[str]] = None,
    source: Optional[str] = None,
    keep: Optional[Path] = None,
    is_new: bool = False,
    timeout: Optional[float] = TIMEOUT,
    trace: Optional[Trace] = None,
) -> Client:
    """A client of the server at a host's port, or of one that this command starts. All is as with `richd.connect`."""
    if (command is None) == (host is None or port is None):
        raise TypeError("connect takes a host and a port, or a command")

    async def opened() -> Streams:
        return await (_over_tcp(host, port) if command is None else _over_pipes(command))

    place = f"{host}:{port}" if command is None else " ".join(command)
    client = Client(opened, command is None, place, Name.of(source, keep, is_new), timeout, trace)
    await client._begin()
    return client


async def _over_tcp(host: Any, port: Any) -> Streams:
    reader, writer = await asyncio.open_connection(host, port)
    prepare(writer.get_extra_info("socket"))

    async def end() -> None:
        writer.close()

    return reader, writer, end


async def _over_pipes(command: Sequence[str]) -> Streams:
    process = await asyncio.create_subprocess_exec(*command, stdin=asyncio.subprocess.PIPE, stdout=asyncio.subprocess.PIPE)
    reader, writer = process.stdout, process.stdin
    assert reader is not None and writer is not None
    streams = reader, writer

    async def end() -> None:
        streams[1].close()
        try:
            await asyncio.wait_for(process.wait(), LAST_WAIT)
        except asyncio.TimeoutError:
            process.kill()
            await process.wait()

    return (*streams, end)


class Client(Owner):
    """A session with a server, which begins anew on a new connection where one is cut. `connect` makes one.

    Each call raises `Refused` where the server refuses, TimeoutError where it takes longer than the client's timeout, `Closed` once
    the client is closed. After a TimeoutError a command that was sent may still be taken, and is sent again where it has to be, and one that
    wasn't is dropped; the error says which.

    A command may be given a `number`, that of `next_number`, by who writes it down before it is sent: sent again under this number, in
    another run too, it is taken once.
    """

    def __init__(
        self,
        opened: Callable[[], Awaitable[Streams]],
        waits_for_place: bool,
        place: str,
        name: Name,
        timeout: Optional[float],
        trace: Optional[Trace],
    ):
        super().__init__(place, name, timeout, trace)
        self._opened, self._waits_for_place = opened, waits_for_place
        self._writer: Optional[asyncio.StreamWriter] = None
        self._closing = asyncio.Event()
        self._changed: List[asyncio.Future[None]] = []  # of those who wait until something has come
        self._task = asyncio.get_running_loop().create_task(self._live())

    async def create(self, doc: str, ops: Delta, *, number: Optional[int] = None) -> Taken:
        """Makes a document of these inserts, at revision 1, or as the next revision where it is deleted."""
        taken: Taken = await self._answer(lambda done: self._core.create(doc, ops, done, number))
        return taken

    async def edit(self, doc: str, ops: Delta, base: int, *, number: Optional[int] = None) -> Taken:
        """Changes a document by what was made on its revision `base`. The server adapts it to what was taken since."""
        taken: Taken = await self._answer(lambda done: self._core.edit(doc, ops, base, done, number))
        return taken

    async def undo(self, doc: str, *, number: Optional[int] = None) -> Taken:
        """Takes back this source's last change of a document, past what others did since."""
        taken: Taken = await self._answer(lambda done: self._core.undo(doc, done, number))
        return taken

    async def delete(self, doc: str, *, number: Optional[int] = None) -> Taken:
        """Deletes a document. Its name stays, and `create` makes it again."""
        taken: Taken = await self._answer(lambda done: self._core.delete(doc, done, number))
        return taken

    async def next_number(self, doc: str) -> int:
        """The number of this source's next command of a document. Where it isn't known the server is asked, and nothing is written."""
        number: int = await self._answer(lambda done: self._core.next_number(doc, done))
        return number

    async def fetch(self, doc: str, rev: Optional[int] = None) -> Contents:
        """A document at a revision, or at the newest."""
        contents: Contents = await self._answer(lambda done: self._core.fetch(doc, rev, done))
        return contents

    async def since(self, doc: str, rev: int) -> Since:
        """What changed a document after a revision."""
        since: Since = await self._answer(lambda done: self._core.since(doc, rev, done))
        return since

    def follow(self, doc: str, rev: int) -> Following:
        """The changes of a document after a revision, as they come: `async for change in client.follow(doc, rev)`. Where the document is
        deleted it raises `Refused` with code 40; where a revision isn't held any more, with 13: fetch the document then, and follow it from
        there."""
        return Following(self, doc, rev)

    async def open(self, doc: str, create: Optional[Delta] = None) -> Document:
        """A document to type into. Where it isn't there or is deleted, and `create` has inserts, it is made of them; another client may do
        so too."""
        return Document(self, doc, await self._answer(lambda done: fetch_or_create(self._core, doc, create, done)))

    async def close(self) -> None:
        """Ends the session. What was sent is still answered; what wasn't raises `Closed`."""
        self._closing.set()
        if self._writer is not None:
            self._writer.write_eof()
        done, _ = await asyncio.wait([self._task], timeout=LAST_WAIT)
        if not done:
            self._task.cancel()
            await asyncio.wait([self._task])
        self._fail(Closed("the client was closed"))

    async def __aenter__(self) -> Client:
        return self

    async def __aexit__(self, *cause: object) -> None:
        await self.close()

    def _do(self, action: Callable[[], Result]) -> Result:
        """Does something with the core, and sends what it has to send then."""
        result = action()
        if self._writer is not None and not self._closing.is_set() and self._core.has_to_send:
            self._writer.write(self._core.to_send())
        waiting, self._changed = self._changed, []
        for future in waiting:
            if not future.done():
                future.set_result(None)
        return result

    async def _answer(self, ask: Callable[[Done], Optional[Request]]) -> Any:
        future = asyncio.get_running_loop().create_future()

        def done(value: Any, error: Optional[Exception]) -> None:
            if future.done():
                return  # nobody waits any more
            if error is not None:
                future.set_exception(error)
            else:
                future.set_result(value)

        request = self._do(lambda: ask(done))
        try:
            return await asyncio.wait_for(future, self.timeout)
        except asyncio.TimeoutError:
            pass
        raise TimeoutError(self._do(lambda: self._given_up(request)))

    async def _until(self, holds: Callable[[], Any]) -> None:
        """Waits until something holds."""
        while not holds():
            future = asyncio.get_running_loop().create_future()
            self._changed.append(future)
            await future

    def _later(self, seconds: float, action: Callable[[], None]) -> None:
        asyncio.get_running_loop().call_later(seconds, self._do, action)

    async def _begin(self) -> None:
        """Waits until the server greets for the first time."""
        failure: Optional[Exception] = None
        try:
            await asyncio.wait_for(self._until(lambda: self._was_greeted or self._core.failure), self.timeout)
            failure = self._core.failure
        except asyncio.TimeoutError:
            failure = TimeoutError(f"the server didn't greet in {self.timeout} seconds: {self._trouble}")
        except asyncio.CancelledError:
            await self.close()
            raise
        if failure is not None:
            await self.close()
            raise failure

    # The client's own task

    async def _live(self) -> None:
        try:
            await self._begin_and_go_on()
        finally:
            self._fail(Closed("the client was ended"))  # as where its loop ends before it was closed
            self._let_go()

    async def _begin_and_go_on(self) -> None:
        pauses = Pauses()
        while self._core.failure is None:
            try:
                await self._converse(pauses)
            except Exception as error:  # no line of the protocol, a refused hello, or a fault of a function that is told of changes
                self._fail(error)
            if self._closing.is_set():
                self._fail(Closed("the client was closed"))
            elif self._core.failure is None:
                try:
                    await asyncio.wait_for(self._closing.wait(), pauses.next())
                except asyncio.TimeoutError:
                    pass

    async def _converse(self, pauses: Pauses) -> None:
        """One connection, from its beginning to its end."""
        try:
            reader, writer, end = await self._opened()
        except OSError as error:
            return self._could_not_open(error)
        self._writer = writer
        self._do(self._core.connected)
        try:
            await self._read(reader, pauses)
        except OSError:
            pass
        finally:
            had_session, self._writer = self._core.greeted, None
            self._do(self._core.cut)
            await end()
        self._has_ended(had_session, self._waits_for_place, self._closing.is_set())

    async def _read(self, reader: asyncio.StreamReader, pauses: Pauses) -> None:
        while True:
            data = await reader.read(PIECE)
            if not data:
                return
            self._do(lambda: self._received(data, pauses))


async def _in_time(answer: Awaitable[Result], seconds: Optional[float], what: str) -> Result:
    try:
        return await asyncio.wait_for(answer, seconds)
    except asyncio.TimeoutError:
        raise TimeoutError(f"{what} in {seconds} seconds") from None


class Following(OwnedFollowing):
    """The changes of a document, as an iterator that waits for the next one. It ends with the client; `close` ends it before."""

    _owner: Client

    def __init__(self, client: Client, doc: str, rev: int):
        self._queue: asyncio.Queue[Told] = asyncio.Queue()
        super().__init__(client, doc, rev, self._queue.put_nowait)

    async def next(self, timeout: Optional[float] = None) -> Change:
        """The next change. Raises TimeoutError where none comes in so many seconds."""
        return self._change_of(await _in_time(self._queue.get(), timeout, "no change"))

    def __aiter__(self) -> Following:
        return self

    async def __anext__(self) -> Change:
        try:
            return await self.next()
        except Closed:
            raise StopAsyncIteration from None

    def __del__(self) -> None:
        if not self._owner._closing.is_set():
            self.close()  # as where a loop was left by `break`


class Document(OwnedDocument):
    """A document that one types into, and that others change meanwhile. `Client.open` makes one."""

    _owner: Client

    async def flush(self, timeout: Optional[float] = None) -> None:
        """Waits until all that was typed is taken. Raises what the server refused it with."""
        timeout = self._owner.timeout if timeout is None else timeout
        await _in_time(self._owner._until(lambda: self.is_settled), timeout, "not all was taken")
        self.raise_fault()
