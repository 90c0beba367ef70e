"""What a client of richd sends and what it makes of what comes, with no input or output of its own.

`Core` is given the bytes that come, and hands out those that are to be sent. `client.py` puts threads around it, `aio.py` a task of
asyncio. Any number of requests may be on their way; of one document at most 16 commands, since a server answers so many of a source's
last numbers as taken before. What has no answer when the connection is cut is sent again on the next one, a command with the number
that it had, and the commands of a document in the order of their numbers.

The next number of a document is known where the source is new; else the server is asked for it. The first command under such a number
goes alone: where its answer shows that a late command of an earlier run has used the number, it wasn't taken, and gets a new one.

A request is given a function that is called with its answer: `done(value, None)`, or `done(None, error)`.
"""

from __future__ import annotations

import functools
import logging
from collections import deque
from typing import Any, Callable, Deque, Dict, List, Optional

from . import messages
from .delta import Delta
from .messages import Change, Contents, Message, Refused, Since, Taken, Unexpected
from .numbers import UNREACHED, Search, probe

Done = Callable[[Any, Optional[Exception]], None]
Trace = Callable[[str, str], None]

FIRST_PAUSE, LONGEST_PAUSE = 0.1, 5.0  # seconds
MOST_COMMANDS = 16  # of one document that are on their way
MOST_SEARCHES = 3  # for the number of one command

log = logging.getLogger("richd")
log.addHandler(logging.NullHandler())  # it is the program's to say where it goes


class Pauses:
    """How long to wait before the next attempt: twice as long each time, up to 5 seconds."""

    def __init__(self) -> None:
        self.begin_anew()

    def begin_anew(self) -> None:
        self._next = FIRST_PAUSE

    def next(self) -> float:
        pause, self._next = self._next, min(2 * self._next, LONGEST_PAUSE)
        return pause


class Request:
    """A message on its way, and what is to be done with the reply."""

    def __init__(self, message: Message, done: Done):
        messages.spelled(message)  # raises where it can't be
        self.message, self.done = message, done
        self.sent = 0  # how often
        self.as_sent = message  # the last time: a command that is on its way may get another number
        self.pauses = Pauses()

    def answer(self, reply: Message) -> Any:
        """The value that a reply stands for."""
        kind = reply.get("ok")
        if kind == "doc":
            return Contents(reply["rev"], reply["ops"])
        if kind == "since":
            return Since(reply["rev"], reply["deltas"])
        return None


class Command(Request):
    """A create, an edit, an undo or a delete. It gets its number when it is sent first, unless its owner gave it one, under which it may
    have been sent by an earlier run. One that `waits` is not answered StoreFailed: it is on its way until the server tells whether it was
    taken."""

    def __init__(self, message: Message, done: Done, waits: bool = False):
        super().__init__(message, done)
        self.waits = waits
        self.is_numbered = message["n"] != 0  # by its owner
        self.place = 0  # among the commands of its document, as they were asked for
        self.searches = 0  # for its number, after one that somebody else had used
        # Since it was sent, one before it wasn't taken: then it is answered Gap, NoDocument or Exists, and is sent again.
        self.is_behind = False


class Commands:
    """The commands of one document: those that are on their way, in the order of their numbers, and those that wait for them."""

    def __init__(self, doc: str, is_new: bool, likely: Optional[int] = None):
        self.doc = doc
        self.next = 1 if is_new else None  # the number of the command that is sent next for the first time, where it is known
        self.is_sure = is_new  # that nobody else has used it, as that of a new source, or behind one that was taken
        self.likely = likely  # where it isn't known
        self.search: Optional[Search] = None
        self.askers: List[Done] = []  # who want to know the next number
        self.count = 0  # of all commands
        self.current: List[Command] = []
        self.waiting: Deque[Command] = deque()

    @property
    def number(self) -> Optional[int]:
        """That of the first command on its way that was sent under a new one, or else of the next one."""
        if self.current and not self.current[0].is_numbered:
            return int(self.current[0].message["n"])
        return self.next or self.likely

    @property
    def may_send(self) -> bool:
        """Whether the first command that waits may go."""
        command = self.waiting[0]
        if any(other.is_numbered != command.is_numbered for other in self.current):
            return False  # where one is refused the numbers of its owner don't move up
        if command.is_numbered:
            return len(self.current) < MOST_COMMANDS
        if self.next is None:
            return False
        # The oldest may be answered only after the others, as where there was no memory for its reply.
        oldest: int = self.current[0].message["n"] if self.current else self.next
        return self.next - oldest < (MOST_COMMANDS if self.is_sure else 1)

    def add(self, command: Command) -> None:
        command.place, self.count = self.count, self.count + 1
        self.waiting.append(command)

    def put_back(self, command: Command) -> None:
        """Has a command wait again that was on its way and wasn't taken: it gets another number."""
        self.current.remove(command)
        self.waiting.insert(sum(other.place < command.place for other in self.waiting), command)
        command.sent, command.is_behind = 0, False

    def behind(self, command: Command) -> List[Command]:
        """Those that are on their way after a command."""
        return self.current[self.current.index(command) + 1 :]

    def drop(self, command: Command) -> None:
        """A command isn't taken: its number goes to that behind it."""
        others = self.behind(command)
        self.current.remove(command)
        if command.is_numbered:
            return
        for other in others:
            other.message["n"] -= 1
        if self.next is not None:
            self.next -= 1

    def took(self, command: Command, again: bool) -> None:
        """A command was taken, now or before."""
        self.current.remove(command)
        number = command.message["n"]
        if not command.is_numbered:
            self.is_sure = self.next is not None
        elif not again:
            self.next, self.is_sure = number + 1, True
        elif self.next is None or self.next <= number:
            self.next, self.is_sure, self.likely = None, False, number + 1  # there may be more of that earlier run


class Follower:
    """Is told each revision of a document after `rev`, once and in order, and then nothing more or the cause why not."""

    def __init__(self, rev: int):
        self.rev = rev

    def change(self, change: Change) -> None:
        raise NotImplementedError

    def end(self, error: Exception) -> None:
        raise NotImplementedError


class Core:
    """The state of a client over all its connections. `later(seconds, action)` is to call `action` after that time."""

    def __init__(
        self,
        source: str,
        likely: Optional[Dict[str, int]],
        later: Callable[[float, Callable[[], None]], None],
        trace: Optional[Trace] = None,
    ):
        """`likely` has the next numbers of some documents as an earlier run left them, and is None where the source is new."""
        self.source = source
        self.greeted = False  # whether the server has replied to hello on this connection
        self.failure: Optional[Exception] = None  # why nothing is sent any more
        self.later, self._trace = later, trace
        self._is_new = likely is None
        self._commands = {doc: Commands(doc, False, number) for doc, number in (likely or {}).items()}
        self._requests: Deque[Request] = deque()  # those on their way, in the order in which they were sent
        self._postponed: List[Request] = []  # those that found the server without memory, or its store failed
        self._followers: Dict[str, List[Follower]] = {}
        self._ending: List[Follower] = []  # whose subscription ended, and who aren't told yet why
        self._out: List[bytes] = []
        self._in: List[bytes] = []  # of a line that hasn't ended

    # What the owner asks for

    def create(self, doc: str, ops: Delta, done: Done, number: Optional[int] = None) -> Request:
        return self._command(Command(messages.create(doc, _given(number), ops), done))

    def edit(self, doc: str, ops: Delta, base: int, done: Done, number: Optional[int] = None, waits: bool = False) -> Request:
        return self._command(Command(messages.edit(doc, _given(number), base, ops), done, waits))

    def undo(self, doc: str, done: Done, number: Optional[int] = None) -> Request:
        return self._command(Command(messages.undo(doc, _given(number)), done))

    def delete(self, doc: str, done: Done, number: Optional[int] = None) -> Request:
        return self._command(Command(messages.delete(doc, _given(number)), done))

    def fetch(self, doc: str, rev: Optional[int], done: Done) -> Request:
        return self._ask(Request(messages.fetch(doc, rev), done))

    def since(self, doc: str, rev: int, done: Done) -> Request:
        return self._ask(Request(messages.since(doc, rev), done))

    def next_number(self, doc: str, done: Done) -> Optional[Request]:
        """Tells the number of the next command of a document that isn't sent yet. Where it isn't known the server is asked."""
        commands = self._commands_of(doc)
        if self.failure is not None:
            done(None, self.failure)
        elif commands.is_sure:
            done(commands.next, None)
        else:
            commands.askers.append(done)
            self._go_on(commands)
        return None

    def take_back(self, request: Request) -> bool:
        """Drops what wasn't sent yet, and gives whether it was so. What was sent may have been taken."""
        is_unsent = request in self._requests and not request.sent
        if is_unsent:
            self._requests.remove(request)
        if isinstance(request, Command):
            commands = self._commands_of(request.message["doc"])
            if is_unsent:
                commands.drop(request)
            elif request in commands.waiting:
                commands.waiting.remove(request)
                is_unsent = True
        return is_unsent

    def follow(self, doc: str, follower: Follower) -> None:
        """Tells a follower what comes after its revision. All followers of a document share one subscription."""
        if self.failure is not None:
            follower.end(self.failure)
            return
        others = self._followers.setdefault(doc, [])
        behind = all(follower.rev < other.rev for other in others)
        others.append(follower)
        if behind and self.greeted:
            self._subscribe(doc)

    def unfollow(self, doc: str, follower: Follower) -> None:
        others = self._followers.get(doc, [])
        if follower in self._ending:
            self._ending.remove(follower)
        if follower not in others:
            return  # it was told its end
        others.remove(follower)
        if not others:
            del self._followers[doc]
            if self.greeted:
                self._send(Request(messages.unsubscribe(doc), _nobody))

    def likely_numbers(self) -> Dict[str, int]:
        """For each document the likely number of its next command. With commands on their way it is the number of the first of them."""
        likely = ((doc, commands.number) for doc, commands in self._commands.items())
        return {doc: number for doc, number in likely if number is not None}

    # The life of a connection

    def connected(self) -> None:
        """A connection was made. It begins with hello; what was on its way follows once that is answered."""
        self.greeted = False
        self._in, self._out = [], []
        self._write(messages.hello(self.source))

    def cut(self) -> None:
        """The connection is gone."""
        self.greeted = False
        self._out = []

    def fail(self, error: Exception) -> None:
        """Nothing more is sent: each request and each follower is told why."""
        if self.failure is not None:
            return
        self.failure = error
        waiting = [*self._requests, *self._postponed]
        askers = []
        for commands in self._commands.values():
            waiting += [*commands.current, *commands.waiting]
            askers += commands.askers
            commands.current, commands.waiting, commands.askers, commands.search = [], deque(), [], None
        followers = [follower for others in [*self._followers.values(), self._ending] for follower in others]
        self._requests, self._postponed, self._followers, self._ending = deque(), [], {}, []
        for done in [*(request.done for request in dict.fromkeys(waiting)), *askers]:
            done(None, error)
        for follower in followers:
            follower.end(error)

    @property
    def has_to_send(self) -> bool:
        return bool(self._out)

    def to_send(self) -> bytes:
        """The bytes that are to be sent next."""
        out, self._out = b"".join(self._out), []
        return out

    def received(self, data: bytes) -> None:
        """Takes bytes that came. Raises Unexpected, or what hello was refused with; ConnectionError where it may be tried again."""
        *lines, rest = data.split(b"\n")
        if lines:
            lines[0], self._in = b"".join([*self._in, lines[0]]), []
        self._in.append(rest)
        for line in lines:
            self._line(line)

    # Sending

    def _write(self, message: Message) -> None:
        line = messages.spelled(message)
        if self._trace is not None:
            self._trace(">", line[:-1].decode())
        self._out.append(line)

    def _send(self, request: Request) -> None:
        request.as_sent = dict(request.message)
        self._write(request.as_sent)
        request.sent += 1
        self._requests.append(request)

    def _ask(self, request: Request) -> Request:
        """Sends a request, or keeps it until there is a connection."""
        if self.failure is not None:
            request.done(None, self.failure)
        elif self.greeted:
            self._send(request)
        else:
            self._requests.append(request)
        return request

    def _commands_of(self, doc: str) -> Commands:
        return self._commands.setdefault(doc, Commands(doc, self._is_new))

    def _command(self, command: Command) -> Command:
        commands = self._commands_of(command.message["doc"])
        if self.failure is not None:
            command.done(None, self.failure)
        else:
            commands.add(command)
            for kept in list(commands.current):
                self._resume(kept)
            self._go_on(commands)
        return command

    def _go_on(self, commands: Commands) -> None:
        """Sends commands again that were answered Gap, each behind those before it, and then those that wait, as many as may be. Where
        the next number isn't known it is looked for."""
        for command in commands.current:
            if command in self._postponed:
                if not command.is_behind:
                    return  # it is sent again later, and what is behind it then
                self._resume(command)
            elif command.is_behind:
                return  # its answer comes first
        if commands.search is not None:
            return  # it goes on once the number is found
        while commands.waiting and commands.may_send:
            command = commands.waiting.popleft()
            if not command.is_numbered and commands.next is not None:
                command.message["n"] = commands.next
                commands.next += 1
            commands.current.append(command)
            self._ask(command)
        if commands.askers and not (commands.is_sure or commands.current):
            commands.next = None  # what an earlier run left says too little
        if commands.next is None and not commands.current and (commands.waiting or commands.askers):
            commands.search = Search(commands.likely)
            self._probe(commands, commands.search)

    def _probe(self, commands: Commands, search: Search) -> None:
        for number in list(search.probes):
            self._ask(Request(probe(commands.doc, number), functools.partial(self._probed, commands, search, number)))

    def _probed(self, commands: Commands, search: Search, number: int, value: Any, error: Optional[Exception]) -> None:
        """One of the probes was answered."""
        if commands.search is not search:
            return  # the search has ended
        if isinstance(error, Refused) and error.code == messages.STORE_FAILED:
            commands.search = None  # it begins anew with the next connection or command
            self._store_failed(commands, error)
        elif search.tell(number, error):
            if search.found is None:
                self._probe(commands, search)
            else:
                commands.search, commands.next, commands.is_sure, commands.likely = None, search.found, False, None
                self._tell_number(commands)
                self._go_on(commands)

    def _tell_number(self, commands: Commands) -> None:
        askers, commands.askers = commands.askers, []
        for done in askers:
            done(commands.next, None)

    def _resume(self, request: Request) -> None:
        """Sends a postponed request again."""
        if request in self._postponed:
            self._postponed.remove(request)
            if isinstance(request, Command):
                request.is_behind = False
            self._ask(request)

    def _resume_later(self, request: Request) -> None:
        """The same, and what has waited for it."""
        self._resume(request)
        if isinstance(request, Command):
            self._go_on(self._commands[request.message["doc"]])

    def _subscribe(self, doc: str) -> None:
        rev = min(follower.rev for follower in self._followers[doc])

        def answered(value: Any, error: Optional[Exception]) -> None:
            if error is not None:
                self._end_following(doc, error)

        self._send(Request(messages.subscribe(doc, rev), answered))

    # Receiving

    def _line(self, line: bytes) -> None:
        if self._trace is not None:
            self._trace("<", line.decode())
        message = messages.read(line)
        if "news" in message:
            self._news(message["doc"], Change(message["news"], message["ops"]))
        elif "ended" in message:
            self._ended(message["doc"], Refused(message["ended"], "TooOld"))
        elif not self.greeted:
            self._greet(message)
        elif not self._requests:
            raise Unexpected(f"a reply to nothing: {line[:100]!r}")
        else:
            messages.check_reply(self._requests[0].as_sent, message)
            self._reply(self._requests.popleft(), message)

    def _greet(self, reply: Message) -> None:
        """Hello was answered. What was on its way on the last connection is sent again, and what was followed is followed on."""
        if reply.get("code") == messages.NO_MEMORY:
            raise ConnectionError("the server has no memory for a session")
        if "code" in reply:
            raise Refused(reply["code"], reply["error"])
        self.greeted = True
        requests = [*self._requests, *self._postponed]
        self._requests, self._postponed = deque(), []
        in_order = {doc: iter(commands.current) for doc, commands in self._commands.items()}
        for request in requests:
            if isinstance(request, Command):
                command = next(in_order[request.message["doc"]])
                command.is_behind = False
                self._send(command)
            elif request.message["do"] not in ("subscribe", "unsubscribe"):
                self._send(request)
        for commands in self._commands.values():
            self._go_on(commands)
        for doc in list(self._followers):
            self._subscribe(doc)

    def _reply(self, request: Request, reply: Message) -> None:
        error = Refused(reply["code"], reply["error"]) if "code" in reply else None
        if error is not None and error.code == messages.NO_MEMORY:
            if isinstance(request, Command):
                request.is_behind = False
                self._leave_behind(self._commands[request.message["doc"]].behind(request))
            self._postponed.append(request)
            self.later(request.pauses.next(), lambda: self._resume_later(request))
        elif isinstance(request, Command):
            self._settle(request, reply, error)
        elif error is not None:
            request.done(None, error)
        else:
            request.done(request.answer(reply), None)

    def _settle(self, command: Command, reply: Message, error: Optional[Refused]) -> None:
        """A command was answered: a next one of its document may follow. The number of one that is refused goes to that behind it."""
        commands = self._commands[command.message["doc"]]
        code, is_again = (None, reply["ok"] == "again") if error is None else (error.code, False)
        if error is not None and code == messages.STORE_FAILED:
            self._keep(commands, command, error)
            return
        if code in (messages.GAP, messages.NO_DOCUMENT, messages.EXISTS) and command.is_behind:
            command.sent = 0
            self._postponed.append(command)
            self._go_on(commands)
            return
        if not command.is_numbered and (code == messages.GAP or (command.sent == 1 and (is_again or code == messages.OLD_NUMBER))):
            self._misnumbered(commands, command, error)
            return
        if error is None:
            commands.took(command, is_again)
        else:
            others = commands.behind(command)
            commands.drop(command)
            if not command.is_numbered:
                self._leave_behind(others)
        if commands.is_sure:
            self._tell_number(commands)
        self._go_on(commands)
        if error is not None:
            command.done(None, error)
        else:
            command.done(Taken(reply["rev"], is_again), None)

    def _misnumbered(self, commands: Commands, command: Command, error: Optional[Refused]) -> None:
        """A command's number was used by somebody else, or is beyond the next one: so it wasn't taken. It gets another number, unless that
        shows that somebody else uses the name at this time, which is told."""
        is_used = error is None or error.code == messages.OLD_NUMBER
        is_shared = is_used and commands.is_sure
        number, doc = command.message["n"], commands.doc
        command.searches += 1
        commands.next, commands.is_sure = None, False
        commands.put_back(command)
        text = f"number {number} of {doc!r} was taken before: the name {self.source!r} is used by another client too"
        if is_shared:
            log.warning(text)
        if not command.waits and (is_shared or command.searches > MOST_SEARCHES):
            commands.waiting.remove(command)
            self._go_on(commands)
            command.done(None, Unexpected(text) if is_used else error)
        else:
            self._go_on(commands)

    def _leave_behind(self, others: List[Command]) -> None:
        """A command wasn't taken: these were sent after it."""
        for other in others:
            other.is_behind = other.is_behind or other not in self._postponed

    def _keep(self, commands: Commands, command: Command, error: Refused) -> None:
        """The store failed, so a command may have been taken or not. It is kept, and sent again on the next connection, or when the
        next command of its document is asked for."""
        command.is_behind = False
        self._leave_behind(commands.behind(command))
        self._postponed.append(command)
        done, command.done = command.done, command.done if command.waits else _nobody
        if not command.waits:
            done(None, error)
        self._store_failed(commands, error)

    def _store_failed(self, commands: Commands, error: Refused) -> None:
        """Tells it to those who wait. What wasn't sent yet can't have been taken."""
        told = [one.done for one in commands.waiting if not one.waits] + commands.askers
        commands.waiting, commands.askers = deque(one for one in commands.waiting if one.waits), []
        for done in told:
            done(None, error)

    def _news(self, doc: str, change: Change) -> None:
        for follower in list(self._followers.get(doc, [])):
            if follower.rev + 1 == change.rev:
                follower.rev = change.rev
                follower.change(change)

    def _ended(self, doc: str, error: Refused) -> None:
        """A subscription ended, since a revision is no longer held, or since the document was deleted: which of the two is asked for, by
        a read of a revision that no document has. Meanwhile nobody is told anything."""
        others = self._followers.pop(doc, [])
        self._ending += others

        def answered(value: Any, refusal: Optional[Exception]) -> None:
            is_gone = isinstance(refusal, Refused) and refusal.code in (messages.DELETED, messages.NO_DOCUMENT)
            left = [follower for follower in others if follower in self._ending]
            self._ending = [follower for follower in self._ending if follower not in left]
            self._end(doc, left, refusal if refusal is not None and is_gone else error)

        self._ask(Request(messages.since(doc, UNREACHED), answered))

    def _end_following(self, doc: str, error: Exception) -> None:
        """A subscription was refused."""
        self._end(doc, self._followers.pop(doc, []), error)

    def _end(self, doc: str, followers: List[Follower], error: Exception) -> None:
        """Tells followers why there is no more. Where a revision is no longer held, those who have a newer one follow on."""
        oldest = min((follower.rev for follower in followers), default=0)
        is_too_old = isinstance(error, Refused) and error.code == messages.TOO_OLD
        ended = [follower for follower in followers if follower.rev == oldest or not is_too_old]
        rest = [follower for follower in followers if follower not in ended]
        if rest:
            self._followers[doc] = [*self._followers.get(doc, []), *rest]
            if self.greeted:
                self._subscribe(doc)
        for follower in ended:
            follower.end(error)


def _nobody(value: Any, error: Optional[Exception]) -> None:
    """For a reply that nobody waits for."""


def _given(number: Optional[int]) -> int:
    """A number that the owner gives to a command, or 0 where he gives none."""
    if number is not None and not 1 <= number < 2**53:
        raise ValueError(f"{number} is no number of a command")
    return number or 0
