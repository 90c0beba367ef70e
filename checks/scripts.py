"""What sessions send to `richd serve`, as data, and how a script is played to its end though one request of the program is refused.

no_memory.py and faults.py play these. A script's end is stated here, by docs/ACCEPTANCE.md and docs/FORMATS.md; the replies on the way are
compared with those of a run of which nothing is refused.
"""
import json
import os
import selectors
import subprocess
import time

from refusing import FAULT, NO_MEMORY, PATIENCE, STORE_FAILED, S, Disagreement, Refusal, agree, content_of, refusals_of, undisturbed

FAILED = FAULT + STORE_FAILED  # what is told when a call of the store's file fails, and at the end of the session
WINDOW = 16  # how many of a source's last numbers are sent again after a start: those that the store answers by `again`


class Script:
    """Sessions over standard input, one after the other: each a source with its messages. `ends` has what each document is at the end."""

    def __init__(self, name, shape, options, sessions, ends):
        self.name, self.shape, self.options, self.sessions, self.ends = name, shape, options, sessions, ends
        self.wanted = None  # the undisturbed play: what came of each message, and the documents after each command
        self.left = None  # the path of the store that the undisturbed play leaves

    @property
    def has_deletions(self):
        return any(message["do"] == "delete" for _, messages in self.sessions for message in messages)


def create(doc, *ops):
    return {"do": "create", "doc": doc, "n": 1, "ops": list(ops)}


def edit(doc, n, base, *ops):
    return {"do": "edit", "doc": doc, "n": n, "base": base, "ops": list(ops)}


def undo(doc, n):
    return {"do": "undo", "doc": doc, "n": n}


def deletion(doc, n):
    return {"do": "delete", "doc": doc, "n": n}


COMMANDS = ("create", "edit", "undo", "delete")


def fetch(doc, *rev):
    return {"do": "fetch", "doc": doc, **({"rev": rev[0]} if rev else {})}


def since(doc, rev):
    return {"do": "since", "doc": doc, "rev": rev}


def subscribe(doc, rev):
    return {"do": "subscribe", "doc": doc, "rev": rev}


def unsubscribe(doc):
    return {"do": "unsubscribe", "doc": doc}


def insert(text, **attributes):
    return {"insert": text, **({"attributes": attributes} if attributes else {})}


def retain(length, **attributes):
    return {"retain": length, **({"attributes": attributes} if attributes else {})}


def delete(length):
    return {"delete": length}


ROOMY = [*S[:6], "--cell", "512", *S[8:]]  # for sources with many numbers: a window of 16 weighs 184

LONG = "Durable rich text. " * 1_000
WIDE = {f"attribute{letter}": None for letter in "abcdefghijklmno"}  # 15 removals of ten bytes each: an entry of 236 bytes of 237
FIVE = {f"attribute{letter}": None for letter in "abcde"}

# In turn a letter is put behind the first one and taken away, in two documents. Each entry has 50 or 51 bytes: a slot holds four of them.
TURNS = [
    message
    for n in range(2, 14)
    for message in (
        edit("d", n, n - 1, retain(1), insert("x") if n % 2 == 0 else delete(1)),
        *([edit("e", n, n - 1, retain(1), insert("y") if n % 2 == 0 else delete(1))] if n < 9 else []),
    )
]

SCRIPTS = [
    Script(
        "a session in a small store",
        S,
        [],
        [
            (
                "a",
                [
                    create("d", insert("Hi")),
                    edit("d", 2, 1, retain(2), insert("!", bold=True)),
                    fetch("d"),
                    subscribe("d", 0),
                    undo("d", 3),
                    fetch("d", 1),
                    since("d", 1),
                    edit("d", 4, 2, retain(1), insert("e")),
                    since("d", 1),  # TooOld
                    edit("d", 4, 2, retain(1), insert("e")),  # again
                    edit("d", 6, 4),  # Gap
                    undo("d", 3),  # again
                    create("e", insert("\U0001f600")),
                    create("f"),  # TooManyDocuments
                    undo("e", 2),
                    fetch("e"),
                    unsubscribe("d"),
                ],
            ),
            ("b", [fetch("d"), edit("d", 1, 4, delete(1)), undo("d", 1), fetch("g")]),  # TooHeavy, NothingToUndo, NoDocument
        ],
        {"d": (4, [insert("Hei")]), "e": (2, [])},
    ),
    Script(
        "a document that is deleted and created again",
        ROOMY,
        [],
        [
            (
                "a",
                [
                    create("d", insert("Hi")),
                    edit("d", 2, 1, retain(2), insert("!")),
                    deletion("d", 3),
                    fetch("d"),  # Deleted
                    deletion("d", 4),  # Deleted
                    create("d", insert("?")),  # again
                    {**create("d", insert("n")), "n": 4},
                    edit("d", 5, 2, insert("q")),  # TooOld
                    edit("d", 5, 4, retain(1), insert("o")),
                    create("e"),
                    deletion("e", 2),
                ],
            ),
            ("b", [fetch("d"), fetch("e"), edit("d", 1, 5, insert("("))]),  # Deleted
        ],
        {"d": (6, [insert("(no")]), "e": (2, None)},
    ),
    Script(
        "sessions in a store of the default shape",
        [],
        [],
        [
            ("ann", [create("demo", insert("Hello world")), since("demo", 0)]),
            ("bob", [fetch("demo"), edit("demo", 1, 1, insert("Oh. "))]),
            (
                "ann",
                [
                    edit("demo", 2, 1, retain(6), retain(5, bold=True)),
                    since("demo", 1),
                    edit("demo", 3, 3, retain(15), insert("!")),
                    edit("demo", 3, 3, retain(15), insert("!")),
                    subscribe("demo", 3),
                    undo("demo", 4),
                    create("long", insert(LONG)),
                    edit("long", 2, 1, retain(len(LONG)), insert("\n", list="bullet", indent=2)),
                    edit("long", 3, 2, delete(len(LONG) - 19), retain(7, italic=True), retain(13)),
                ],
            ),
            (
                "bob",
                [
                    since("demo", 1),
                    fetch("demo", 2),
                    fetch("demo", 0),
                    subscribe("long", 1),
                    edit("demo", 2, 5, {"insert": {"image": "a.png"}, "attributes": {"width": 100}}),
                    edit("demo", 3, 9, delete(1)),  # Future
                    edit("demo", 3, 6, retain(99), insert("?")),  # PastEnd
                    fetch("demo"),
                ],
            ),
        ],
        {
            "demo": (
                6,
                [{"insert": {"image": "a.png"}, "attributes": {"width": 100}}, insert("Oh. Hello "), insert("world", bold=True)],
            ),
            "long": (3, [insert("Durable", italic=True), insert(" rich text. "), insert("\n", list="bullet", indent=2)]),
        },
    ),
    Script(
        "a journal that is full again and again",
        ROOMY,
        [],
        [
            ("a", [create("d", insert("z")), create("e", insert("w")), subscribe("d", 1), *TURNS]),
            ("a", [*(edit("d", n, n - 1, retain(1, **WIDE)) for n in range(14, 18)), subscribe("d", 16), fetch("d"), fetch("e")]),
        ],
        {"d": (17, [insert("z")]), "e": (8, [insert("wy")])},
    ),
    Script(
        "milestones two revisions apart",
        [*ROOMY[:2], "--slot", "4096", *ROOMY[4:]],
        ["--every", "2"],
        [("a", [create("d", insert("z")), create("e", insert("w")), subscribe("d", 1), *TURNS]), ("b", [since("d", 12), fetch("d", 13)])],
        {"d": (13, [insert("z")]), "e": (8, [insert("wy")])},
    ),
    Script(
        "a milestone after each revision",
        ROOMY,
        ["--every", "1"],
        [
            (
                "a",
                [
                    create("d", insert("z")),
                    edit("d", 2, 1, retain(1), insert("x")),
                    edit("d", 3, 2, delete(1)),
                    edit("d", 4, 3, retain(1, **FIVE)),  # opens the second slot
                    edit("d", 5, 4, insert("q")),
                    fetch("d"),
                ],
            ),
            ("a", [fetch("d"), edit("d", 6, 5, retain(2), insert("!"))]),
        ],
        {"d": (6, [insert("qx!")])},
    ),
]


class Ended(Exception):
    """The program has ended, or ends the session."""


class Session:
    """A `richd serve` over pipes, and what was told of the documents that its session follows."""

    def __init__(self, refusal, options, source):
        self.source = source
        self.process = refusal.start(["serve", refusal.store, *options], stdin=subprocess.PIPE, stdout=subprocess.PIPE)
        self.came, self.selector = b"", selectors.DefaultSelector()
        self.selector.register(self.process.stdout, selectors.EVENT_READ)
        self.next = {}  # of each document that is followed, the revisions that may be told next
        self.told = {}  # (document, revision): the operations

    def ask(self, message):
        """The reply to a message."""
        if message["do"] == "subscribe":
            self.next[message["doc"]] = {*self.next.get(message["doc"], ()), message["rev"] + 1}
        try:
            self.process.stdin.write(json.dumps(message).encode() + b"\n")
        except BrokenPipeError:
            raise Ended from None
        until = time.monotonic() + PATIENCE
        while True:
            line, found, rest = self.came.partition(b"\n")
            if found:
                self.came = rest
                reply = json.loads(line)
                if "news" in reply or "ended" in reply:
                    self.take_news(reply)
                    continue
                self.take(message, reply)
                return reply
            if not self.selector.select(until - time.monotonic()):
                raise Disagreement(f"no reply within {PATIENCE} s to {message['do']}")
            piece = os.read(self.process.stdout.fileno(), 1 << 20)
            if not piece:
                agree(not self.came, f"the output ends within a line: {self.came[:100]!r}")
                raise Ended
            self.came += piece

    def take(self, message, reply):
        if reply.get("ok") == "subscribed":
            self.next[message["doc"]] = {message["rev"] + 1}
        elif reply.get("ok") == "unsubscribed":
            self.next.pop(message["doc"], None)

    def take_news(self, news):
        may_be = self.next.get(news["doc"], ())
        if "ended" in news:
            agree(may_be and news["ended"] == 13, f"news of what isn't followed: {news}")
            del self.next[news["doc"]]
            return
        agree(news["news"] in may_be, f"news {news['news']} of {news['doc']} where {may_be} was due")
        self.next[news["doc"]] = {news["news"] + 1}
        self.told[news["doc"], news["news"]] = news["ops"]

    def end(self):
        """Ends the input: the status and the errors."""
        self.process.stdin.close()
        try:
            status = self.process.wait(PATIENCE)
        except subprocess.TimeoutExpired:
            raise Disagreement(f"`serve` didn't end within {PATIENCE} s after its input") from None
        return status, refusals_of(self.process.stderr.read())

    def close(self):
        self.process.kill()
        self.process.wait()
        self.selector.close()
        for stream in (self.process.stdin, self.process.stdout, self.process.stderr):
            try:
                stream.close()
            except OSError:
                pass


def dumped(store, pick):
    """What `dump` prints of a store: of each document its revision and its operations, None where it is deleted."""
    documents = {}
    for line in undisturbed("dump", store, "--pick", pick).decode().splitlines():
        name, rev, floor, content = line.split(" ", 3)
        agree(0 <= int(floor) <= int(rev), f"a floor of {floor} at revision {rev}")
        documents[name] = int(rev), None if content == "deleted" else json.loads(content)["ops"]
    return documents


class Play:
    """A run of a script, though one request is refused: what is refused is asked again, and a program that ends is started again."""

    def __init__(self, script, refusal):
        self.script, self.refusal = script, refusal
        self.session = None
        self.source = None
        self.replies = []  # what came of each message at last
        self.told = {}
        self.states = [{}]  # of an undisturbed run: the documents after so many commands that were taken
        self.taken = 0  # how many commands were taken, as was acknowledged
        self.last = {}  # of each source and document, the commands that were taken last, with their revisions
        self.restarts = 0
        self.seen = False  # whether the refusal has shown in a reply or an end

    def all(self):
        undisturbed("format", self.refusal.store, *self.script.shape)
        try:
            for source, messages in self.script.sessions:
                self.source = source
                self.begin()
                for message in messages:
                    self.settle(message)
                self.catch_up()
                self.close()
        finally:
            if self.session:
                self.session.close()
        self.check_end()

    def begin(self):
        """Starts the program until it serves."""
        follows = self.session.next if self.session and self.source == self.session.source else {}
        for _ in range(3):
            before = content_of(self.refusal.store)
            if self.session:
                self.told.update(self.session.told)
                self.session.close()
            self.session = Session(self.refusal, self.script.options, self.source)
            try:
                reply = self.ask_till_done({"do": "hello", "source": self.source})
                agree(reply == {"ok": "hello"}, f"hello: {reply}")
                for doc, nexts in follows.items():
                    self.ask_till_done({"do": "subscribe", "doc": doc, "rev": min(nexts) - 1})
                return
            except Ended:
                self.check_stop(before)
        raise Disagreement("the program can't be started")

    def shows(self, what):
        """A refusal shows only where a request was refused, and one request that finds no memory shows once."""
        agree(self.refusal.met() and self.refusal.is_seen(), f"{what} where nothing was refused")
        agree(self.refusal.is_of_the_file() or not self.seen, f"{what}, and one request was refused, which has shown before")
        self.seen = True

    def ask_till_done(self, message):
        """The reply to a message, which is asked again after NoMemory."""
        for _ in range(3):
            reply = self.session.ask(message)
            if reply.get("code") != 22:
                return reply
            agree(self.refusal.kind == "memory", f"{message['do']}: {reply}")
            self.shows(reply)
        raise Disagreement(f"NoMemory three times for {message['do']}")

    def settle(self, message):
        """Asks a message until it has an answer that isn't of the refusal, and compares that."""
        number, tries = len(self.replies), 0
        while True:
            tries += 1
            agree(tries <= 4, f"{message['do']} got no answer in four tries")
            try:
                reply = self.session.ask(message)
            except Ended:
                self.check_stop(None, message)
                self.begin_again()
                continue
            code = reply.get("code")
            if code == 22 and self.refusal.kind == "memory":
                self.shows(reply)
                continue
            if code == 21 and self.refusal.is_of_the_file():
                self.shows(reply)
                self.check_failed(message)
                self.begin_again()
                continue
            break
        self.compare(number, message, reply, tries > 1)

    def compare(self, number, message, reply, asked_again):
        """Compares an answer with that of the undisturbed run."""
        is_taken = reply.get("ok") in ("taken", "again")
        if self.script.wanted is not None:
            wanted = self.script.wanted.replies[number]
            may_be = [wanted]
            if asked_again and wanted.get("ok") == "taken":
                may_be.append({**wanted, "ok": "again"})
            if self.restarts and message["do"] in ("fetch", "since") and "rev" in message:
                may_be.append({"code": 13, "error": "TooOld"})  # the past is held from the newest milestone on
            agree(reply in may_be, f"message {number}, {message['do']}: {reply} and not {wanted}")
            reply = wanted
        self.replies.append(reply)
        if is_taken and reply["ok"] == "taken":
            self.taken += 1
            mine = self.last.setdefault((self.source, message["doc"]), [])
            mine[:] = [*mine, (message, reply["rev"])][-WINDOW:]
            if self.script.wanted is None:
                docs = {doc for _, doc in self.last}
                replies = {doc: self.session.ask(fetch(doc)) for doc in sorted(docs)}
                self.states.append({doc: self.held(doc, it) for doc, it in replies.items()})

    def held(self, doc, reply):
        """What a fetch shows of a document: its revision and its operations, None where it is deleted."""
        if reply.get("code") != 40:
            return reply["rev"], reply["ops"]
        return max(rev for (_, other), mine in self.last.items() if other == doc for _, rev in mine), None

    def begin_again(self):
        """Starts the program again. It knows the source's last commands that were acknowledged."""
        self.restarts += 1
        self.begin()
        for (source, doc), mine in self.last.items():
            if source == self.source:
                for message, rev in mine:
                    reply = self.ask_till_done(message)
                    wanted = {"doc": doc, "n": message["n"], "ok": "again", "rev": rev}
                    # the command whose reply is missing may have been taken: then this one is no longer in the window
                    dropped = 7 if message["do"] == "create" else 10
                    agree(reply == wanted or reply.get("code") == dropped, f"sent again: {reply} and not {wanted}")

    def documents(self, pending):
        """What the store may hold now: what was acknowledged, or that and the command that is pending."""
        wanted = self.script.wanted or self
        is_command = pending is not None and pending["do"] in COMMANDS
        return wanted.states[self.taken : self.taken + (2 if is_command else 1)]

    def check_held(self, pending):
        """Looks at the store, as a stop leaves it."""
        for pick in ("newer", "older"):
            held = dumped(self.refusal.store, pick)
            agree(held in self.documents(pending), f"after {self.taken} commands {pick} holds {json.dumps(held)[:300]}")

    def check_stop(self, before, pending=None):
        """The program has ended by itself: it says why, and the file is as a stop leaves it."""
        status, errors = self.session.end()
        agree(self.refusal.kind != "thread" or self.refusal.is_of_the_writer(), "a program ended for a thread that may be missing")
        if before is not None:
            wanted = self.refusal.ends_of_start()
            agree(content_of(self.refusal.store) == before, "a start that was refused changed the file")
        else:
            wanted = [FAILED] if self.refusal.is_of_the_file() else [NO_MEMORY]
            agree(self.refusal.kind != "thread", "a refused thread ended a session that had begun")
        agree(status == 1 and errors in wanted, f"the program ended with status {status}, {errors[:200]!r}")
        self.shows("an end")
        self.check_held(pending)

    def check_failed(self, message):
        """After StoreFailed each command gets it, reads get it or an answer, and the session's end says so."""
        command = message if message["do"] in COMMANDS else undo("nothing", 1)
        for _ in range(2):
            reply = self.session.ask(command)
            agree(reply.get("code") == 21, f"a command after StoreFailed: {reply}")
        for doc in self.documents(None)[0]:
            reply = self.session.ask(fetch(doc))
            held = [state.get(doc) for state in self.documents(message)]
            is_held = any(it is not None and it[1] is None for it in held) if reply.get("code") == 40 else None
            agree(reply.get("code") == 21 or is_held or self.held(doc, reply) in held, f"a fetch after StoreFailed: {reply}")
        ended = self.session.end()
        agree(ended == (1, FAILED), f"after StoreFailed the session ended with {ended}")
        self.check_held(message)

    def catch_up(self):
        """All news of what is followed come with the next lines."""
        for doc, nexts in list(self.session.next.items()):
            for _ in range(4):
                reply = self.ask_till_done(fetch(doc))
                if reply.get("code") == 21 and self.refusal.is_of_the_file():
                    self.shows(reply)
                    break  # the store has failed behind the last command
                newest = reply["rev"]
                if self.session.next.get(doc) == {newest + 1} or doc not in self.session.next:
                    break
            else:
                raise Disagreement(f"news of {doc} up to {newest} don't come: {nexts} is next")
        self.told.update(self.session.told)

    def close(self):
        """Ends the session as it should end."""
        status, errors = self.session.end()
        if (status, errors) != (0, b""):
            wanted = NO_MEMORY if self.refusal.kind == "memory" else FAILED
            agree((status, errors) == (1, wanted), f"a session ended with status {status}, {errors[:200]!r}")
            self.shows("an end")
        self.check_held(None)

    def check_end(self):
        """The store holds what the script says, by both picks, with the sources' numbers."""
        for pick in ("newer", "older"):
            held = dumped(self.refusal.store, pick)
            agree(held == self.script.ends, f"at the end {pick} holds {json.dumps(held)[:300]}")
        for (source, doc), mine in self.last.items():
            lines = [{"do": "hello", "source": source}, *(message for message, _ in mine), undo(doc, mine[-1][0]["n"] + 2)]
            wanted = [{"ok": "hello"}, *({"doc": doc, "n": it["n"], "ok": "again", "rev": rev} for it, rev in mine)]
            wanted.append({"code": 9, "error": "Gap"})
            for _ in range(2):  # once more where the refusal ends the program
                self.session = Session(self.refusal, self.script.options, source)
                try:
                    replies = [self.ask_till_done(line) for line in lines]
                    agree(replies == wanted, f"at the end {source} is answered {replies}")
                    self.close()
                    break
                except Ended:
                    self.check_stop(content_of(self.refusal.store))
                finally:
                    self.session.close()
        if self.script.wanted is not None:
            for key, ops in self.told.items():
                agree(self.script.wanted.told.get(key, ops) == ops, f"news of {key}: {ops}")
        if self.refusal.met() and self.refusal.is_seen() and (self.refusal.is_of_the_file() or self.refusal.is_of_the_writer()):
            agree(self.seen, f"{self.refusal.kind} was refused, and nobody was told of it")


def learn(folder):
    """Plays each script undisturbed. The stores that they leave are in the folder."""
    for number, script in enumerate(SCRIPTS):
        place = os.path.join(folder, str(number))
        os.mkdir(place)
        undisturbed_play = Play(script, Refusal("", place, "memory", 0))
        undisturbed_play.all()
        script.wanted, script.left = undisturbed_play, undisturbed_play.refusal.store


def play(refusal, script):
    Play(script, refusal).all()
