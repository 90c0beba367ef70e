"""The client and its twin for asyncio, against the program."""

import asyncio
import os
import random
import signal
import tempfile
import threading
import time
import unittest

import richd
import richd.aio
from richd import delta
from richd.link import TcpLink
from richd.program import Server, format_store
from tests.program import richd_or_skip

SECONDS = 120  # that anything may take


class CutLink(TcpLink):
    """A connection that `cut` ends, as a cable does that is pulled."""

    def __init__(self, host, port, links):
        super().__init__(host, port)
        links.append(self)

    cut = TcpLink.close


class DeafLink(TcpLink):
    """A connection that is cut once a line with an edit was sent, after the server had time to take it: its reply is never read."""

    is_armed = False

    def send(self, data):
        super().send(data)
        if DeafLink.is_armed and b'"edit"' in data:
            DeafLink.is_armed = False
            self.is_deaf = True

    is_deaf = False

    def receive(self):
        data = super().receive()
        if self.is_deaf:
            raise ConnectionResetError
        return data


class Served(unittest.TestCase):
    """Has a server over a store of its own."""

    def setUp(self):
        richd_or_skip(self)
        folder = tempfile.TemporaryDirectory()
        self.addCleanup(folder.cleanup)
        self.store = os.path.join(folder.name, "store")
        format_store(self.store, "--docs", "4", "--slots", "2")  # small, so that it is opened soon
        self.server = Server(self.store)
        self.addCleanup(lambda: self.server.kill())

    def connect(self, source="ann", **more):
        client = self.server.connect(source, **{"timeout": SECONDS, **more})
        self.addCleanup(client.close)
        return client


class Calls(Served):
    def test_what_each_call_gives(self):
        ann = self.connect("ann")
        self.assertEqual(ann.create("d", [{"insert": "Hello "}, {"insert": "world"}]), richd.Taken(1))
        self.assertEqual(ann.edit("d", [{"retain": 6}, {"retain": 5, "attributes": {"bold": True}}], base=1), richd.Taken(2))
        bold = [{"insert": "Hello "}, {"insert": "world", "attributes": {"bold": True}}]
        self.assertEqual(ann.fetch("d"), richd.Contents(2, bold))
        self.assertEqual(ann.fetch("d", 1), richd.Contents(1, [{"insert": "Hello world"}]))
        self.assertEqual(ann.undo("d"), richd.Taken(3))
        changed = [[{"retain": 6}, {"retain": 5, "attributes": {"bold": value}}] for value in (True, None)]
        self.assertEqual(ann.since("d", 1), richd.Since(3, changed))
        self.assertEqual(ann.next_number("d"), 4)

    def test_a_document_is_deleted_and_created_again(self):
        ann, bob = self.connect("ann"), self.connect("bob")
        ann.create("d", [{"insert": "a"}])
        document, changes, ends = bob.open("d"), bob.follow("d", 1), []
        document.on_end(ends.append)
        self.assertEqual(ann.delete("d"), richd.Taken(2))
        with self.assertRaises(richd.Refused) as caught:
            changes.next(SECONDS)
        self.assertEqual(caught.exception.name, "Deleted")
        wait_until(lambda: ends)
        self.assertEqual(ends[0].name, "Deleted")
        for call in (ann.fetch, ann.undo, bob.delete):
            with self.assertRaises(richd.Refused) as caught:
                call("d")
            self.assertEqual(caught.exception.name, "Deleted")
        with self.assertRaises(richd.Refused) as caught:
            document.apply([{"insert": "b"}])
            document.flush()
        self.assertEqual(caught.exception.name, "Deleted")
        self.assertEqual(bob.open("d", create=[{"insert": "n"}]).text, "n")
        self.assertEqual(ann.fetch("d"), richd.Contents(3, [{"insert": "n"}]))
        with self.assertRaises(richd.Refused) as caught:
            ann.edit("d", [{"insert": "late"}], base=1)
        self.assertEqual(caught.exception.name, "TooOld")

    def test_a_refusal(self):
        with self.assertRaises(richd.Refused) as caught:
            self.connect().fetch("nothing")
        self.assertEqual((caught.exception.code, caught.exception.name), (6, "NoDocument"))

    def test_a_late_edit_is_moved(self):
        ann, bob = self.connect("ann"), self.connect("bob")
        ann.create("d", [{"insert": "Dear all, good night"}])
        ann.edit("d", [{"retain": 15}, {"insert": "morning"}, {"delete": 5}], base=1)
        bob.edit("d", [{"retain": 20}, {"insert": "!"}], base=1)
        self.assertEqual(delta.text(bob.fetch("d").ops), "Dear all, good morning!")

    def test_requests_overlap_and_replies_are_not_swapped(self):
        ann, bob = self.connect("ann"), self.connect("bob")
        for doc in ("d", "e"):
            ann.create(doc, [{"insert": doc}])
        with ann.follow("d", 1) as changes:
            answers = []
            for number in range(50):
                bob.ahead.edit("d", [{"insert": "x"}], base=1)
                answers += [(doc, ann.ahead.fetch(doc)) for doc in ("d", "e")]
            for doc, answer in answers:
                self.assertTrue(delta.text(answer.result(SECONDS).ops).endswith(doc))
            self.assertEqual([changes.next(SECONDS).rev for _ in range(50)], list(range(2, 52)))

    def test_many_threads_use_one_client(self):
        ann = self.connect("ann")
        ann.create("d", [])
        revisions = []

        def type_letters():
            for _ in range(20):
                revisions.append(ann.edit("d", [{"insert": "x"}], base=1).rev)

        threads = [threading.Thread(target=type_letters) for _ in range(8)]
        for thread in threads:
            thread.start()
        for thread in threads:
            thread.join()
        self.assertEqual(sorted(revisions), list(range(2, 162)))

    def test_following_ends_with_the_loop_and_with_the_client(self):
        ann = self.connect("ann")
        ann.create("d", [])
        for number in range(3):
            ann.edit("d", [{"insert": str(number)}], base=1)
        seen = []
        for change in ann.follow("d", 1):
            seen.append(change.rev)
            if change.rev == 4:
                break
        self.assertEqual(seen, [2, 3, 4])
        self.assertEqual(ann._core._followers, {})
        changes = ann.follow("d", 2)
        threading.Timer(0.5, ann.close).start()
        self.assertEqual([change.rev for change in changes], [3, 4])
        self.assertEqual(list(changes), [])
        self.assertEqual(list(ann.follow("d", 2)), [])

    def test_following_ends_with_the_fault_that_ends_the_client(self):
        ann, bob = self.connect("ann"), self.connect("bob")
        ann.create("d", [])
        ann.open("d").on_change(lambda ops: 1 // 0)
        changes = ann.follow("d", 2)
        bob.edit("d", [{"insert": "a"}], base=1)
        with self.assertRaises(ZeroDivisionError):
            for _ in changes:
                pass

    def test_what_a_client_and_its_documents_are_shown_as(self):
        ann = self.connect("ann")
        place = "{}:{}".format(*self.server.address)
        self.assertEqual(repr(ann), f"<richd.Client 'ann' at {place}, connected>")
        document = ann.open("d", create=[{"insert": "a"}])
        self.assertEqual(repr(document), "<richd.Document 'd' at revision 1, saved>")
        self.assertEqual(repr(ann.follow("d", 1)), "<richd.Following of 'd', told of revision 1>")
        document.close()
        ann.close()
        self.assertEqual(repr(document), "<richd.Document 'd' at revision 1, ended by Closed('the document was closed')>")
        self.assertEqual(repr(ann), f"<richd.Client 'ann' at {place}, ended by Closed('the client was closed')>")

    def test_over_pipes(self):
        self.server.kill()
        with richd.connect(command=[richd_or_skip(self), "serve", self.store], source="ann", timeout=SECONDS) as ann:
            ann.create("d", [{"insert": "x"}])
            self.assertEqual(ann.fetch("d").ops, [{"insert": "x"}])
        self.server = Server(self.store)
        self.assertEqual(self.connect("bob").fetch("d").ops, [{"insert": "x"}])


class Faults(Served):
    def test_nobody_listens(self):
        self.server.kill()
        with self.assertRaises(ConnectionRefusedError):
            self.connect()

    def test_a_program_that_ends_at_once(self):
        with self.assertRaises(ConnectionError):
            richd.connect(command=["false"], source="ann", timeout=SECONDS)

    def test_without_a_name_it_doesnt_connect(self):
        for more in ({}, {"source": "ann", "keep": self.store + ".name"}):
            with self.assertRaisesRegex(TypeError, "a source, .* or keep"):
                richd.connect(*self.server.address, **more)
            with self.assertRaisesRegex(TypeError, "a source, .* or keep"):
                asyncio.run(richd.aio.connect(*self.server.address, **more))

    def test_a_name_that_is_none(self):
        with self.assertRaises(richd.Refused) as caught:
            self.connect("a b")
        self.assertEqual(caught.exception.name, "BadName")

    def test_after_the_end(self):
        ann = self.connect()
        ann.close()
        with self.assertRaises(richd.Closed):
            ann.fetch("d")

    def test_the_server_ends_and_another_begins(self):
        ann = self.connect("ann")
        ann.create("d", [])
        follower = ann.follow("d", 1)
        ann.edit("d", [{"insert": "a"}], base=1)
        events = []
        ann.on_cut(lambda: events.append("cut"))
        ann.on_connected(lambda: events.append("connected"))
        port = self.server.address[1]
        with self.assertLogs("richd", "INFO") as logged:
            self.server.kill()
            answer = ann.ahead.edit("d", [{"insert": "b"}], base=2)
            time.sleep(0.3)
            self.assertFalse(answer.done())
            self.server = Server(self.store, port=port)
            self.assertEqual(answer.result(SECONDS), richd.Taken(3))
        self.assertEqual([follower.next(SECONDS).rev for _ in range(2)], [2, 3])
        self.assertEqual(events, ["cut", "connected"])
        told = [record.getMessage() for record in logged.records]
        self.assertTrue(told[0].endswith("was cut") and told[-1].endswith("has a session"), told)

    def test_a_call_that_takes_too_long_says_whether_it_was_sent(self):
        ann = self.connect("ann", timeout=0.5)
        ann.create("d", [])
        os.kill(self.server.process.pid, signal.SIGSTOP)
        with self.assertRaisesRegex(TimeoutError, "it was sent, and may still be taken"):
            ann.edit("d", [{"insert": "a"}], base=1)
        port = self.server.address[1]
        self.server.kill()
        wait_until(lambda: not ann.is_connected)
        with self.assertRaisesRegex(TimeoutError, "it wasn't sent"):
            ann.edit("d", [{"insert": "b"}], base=1)
        self.server = Server(self.store, port=port)
        wait_until(lambda: ann.is_connected)
        self.assertEqual(ann.fetch("d").ops, [{"insert": "a"}])  # it was sent again

    def test_a_server_without_a_place(self):
        clients = [self.connect(f"s{number}") for number in range(64)]
        with self.assertRaisesRegex(TimeoutError, "all its places are taken"):
            self.connect("late", timeout=0.5)
        clients[0].close()
        self.assertTrue(self.connect("late").is_connected)

    def test_a_reply_that_is_lost(self):
        ann = self.connect("ann")
        ann.create("d", [])
        bob = richd.connect(link=lambda: DeafLink(*self.server.address), source="bob", timeout=SECONDS)
        with bob:
            bob.next_number("d")
            DeafLink.is_armed = True
            self.assertEqual(bob.edit("d", [{"insert": "a"}], base=1), richd.Taken(2, again=True))
        self.assertEqual(ann.fetch("d").ops, [{"insert": "a"}])

    def test_a_source_that_was_used_before(self):
        for number in range(1, 20):
            with self.connect("ann") as ann:
                self.assertEqual(ann.next_number("d"), number)
                taken = ann.edit("d", [{"insert": "a"}], base=1) if number > 1 else ann.create("d", [])
                self.assertEqual(taken, richd.Taken(number))
        self.assertEqual(self.connect("bob").fetch("d"), richd.Contents(19, [{"insert": "a" * 18}]))  # so asking changed nothing

    def test_a_source_that_is_said_to_be_new_and_was_used(self):
        self.connect("ann", is_new=True).create("d", [])
        ann = self.connect("ann", is_new=True)
        with self.assertRaises(richd.Unexpected):
            ann.edit("d", [{"insert": "a"}], base=1)
        self.assertEqual(ann.edit("d", [{"insert": "a"}], base=1), richd.Taken(2))

    def test_a_command_that_is_sent_again_in_another_run(self):
        with self.connect("ann") as ann:
            ann.create("d", [])
            number = ann.next_number("d")
            self.assertEqual(ann.edit("d", [{"insert": "a"}], base=1, number=number), richd.Taken(2))
        with self.connect("ann") as ann:
            self.assertEqual(ann.edit("d", [{"insert": "a"}], base=1, number=number), richd.Taken(2, again=True))
            self.assertEqual(ann.edit("d", [{"insert": "b"}], base=2), richd.Taken(3))

    def test_two_clients_of_one_name_are_told_or_get_numbers_of_their_own(self):
        one, two, taken = self.connect("ann"), self.connect("ann"), 0
        one.create("d", [])
        for client in (one, two) * 10:
            try:
                self.assertFalse(client.edit("d", [{"insert": "a"}], base=1).again)
                taken += 1
            except richd.Unexpected:
                pass
        self.assertEqual(delta.text(one.fetch("d").ops), "a" * taken)
        self.assertGreater(taken, 2)


class Keeping(Served):
    """A name that is kept in a file."""

    def setUp(self):
        super().setUp()
        self.file = self.store + ".name"

    def begin(self, **more):
        client = richd.connect(*self.server.address, keep=self.file, timeout=SECONDS, **more)
        self.addCleanup(client.close)
        return client

    def test_each_run_has_the_name_and_goes_on_with_its_numbers(self):
        names = set()
        for number in range(1, 5):
            lines = []
            with self.begin(trace=lambda way, line: lines.append(line)) as client:
                names.add(client.source)
                taken = client.edit("d", [{"insert": "a"}], base=1) if number > 1 else client.create("d", [])
                self.assertEqual(taken, richd.Taken(number))
                self.assertLessEqual(len(lines), 6 if number > 1 else 4)  # hello, the command, and whether its number is right
        self.assertEqual(len(names), 1)

    def test_a_run_that_ended_before_it_wrote_its_numbers(self):
        with self.begin() as client:
            client.create("d", [])
        with open(self.file, "rb") as file:
            content = file.read()
        with self.begin() as client:
            for _ in range(20):
                client.edit("d", [{"insert": "a"}], base=1)
        for left in (content, content[:-9], content.partition(b"\n")[0] + b"\n"):
            with open(self.file, "wb") as file:
                file.write(left)
            with self.begin() as client:
                for _ in range(3):
                    self.assertFalse(client.edit("d", [{"insert": "b"}], base=1).again)
        self.assertEqual(delta.text(self.connect("bob").fetch("d").ops).count("b"), 9)

    def test_it_belongs_to_one_client_at_a_time(self):
        first = self.begin()
        with self.assertRaisesRegex(BlockingIOError, "another client uses this name"):
            self.begin()
        first.close()
        self.begin().close()
        self.assertEqual(os.stat(self.file).st_mode & 0o777, 0o600)

    def test_another_file_is_left_alone(self):
        with open(self.file, "w") as file:
            file.write("a letter\n")
        with self.assertRaisesRegex(ValueError, "keeps no source's name"):
            self.begin()
        with open(self.file) as file:
            self.assertEqual(file.read(), "a letter\n")

    def test_with_asyncio(self):
        async def run(number):
            async with await richd.aio.connect(*self.server.address, keep=self.file, timeout=SECONDS) as client:
                self.assertEqual(await client.next_number("d"), number)
                return await (client.create("d", []) if number == 1 else client.undo("d"))

        self.assertEqual([asyncio.run(run(number)) for number in (1, 2)], [richd.Taken(1), richd.Taken(2)])


class Typing(Served):
    def test_two_type_at_once_while_connections_are_cut(self):
        links = []
        self.connect("first").create("d", [{"insert": "begin"}])
        clients = [
            richd.connect(link=lambda: CutLink(*self.server.address, links), source=source, timeout=SECONDS)
            for source in ("ann", "bob")
        ]
        for client in clients:
            self.addCleanup(client.close)
        documents = [client.open("d") for client in clients]
        shown = [list(document.contents) for document in documents]
        for place, document in enumerate(documents):

            def show(ops, place=place):
                shown[place] = delta.compose(shown[place], ops)

            document.on_change(show)
        draw = random.Random(41)
        for step in range(400):
            place = step % 2
            document = documents[place]
            with clients[place]._changed:  # nothing comes while the place is chosen
                ops = typed(draw, delta.after(document.contents))
                shown[place] = delta.compose(shown[place], ops)
                document.apply(ops)
            if step % 57 == 56:
                links[-1 - draw.randrange(2)].cut()
            time.sleep(0.001)
        for document in documents:
            document.flush(SECONDS)
        wanted = self.connect("last").fetch("d")
        for place, document in enumerate(documents):
            wait_until(lambda: document.revision == wanted.rev)
            self.assertEqual(document.contents, wanted.ops)
            self.assertEqual(shown[place], wanted.ops)
        self.assertGreater(len(links), 3)

    def test_what_was_typed_on_a_revision_that_is_no_longer_held_is_moved(self):
        self.server.kill()
        self.server = Server(self.store, "--every", "1")
        may_connect, links = threading.Event(), []
        may_connect.set()

        def linked():
            may_connect.wait(SECONDS)
            return CutLink(*self.server.address, links)

        bob = self.connect("bob")
        bob.create("d", [{"insert": "one two\nthree\n"}])
        ann = richd.connect(link=linked, source="ann", timeout=SECONDS)
        self.addCleanup(ann.close)
        document, changes, moved = ann.open("d"), [], []
        document.on_change(changes.append)
        document.on_rebase(moved.append)
        may_connect.clear()
        links[-1].cut()
        wait_until(lambda: not ann.is_connected)
        typed = [{"retain": 4, "attributes": {"bold": True}}, {"insert": "and "}]
        document.apply(typed)
        for number in range(20):
            bob.edit("d", [{"insert": f"{number}\n"}], base=1)
        port = self.server.address[1]
        self.server.kill()
        self.server = Server(self.store, port=port)
        with self.assertRaises(richd.Refused) as caught:
            bob.since("d", 1)
        self.assertEqual(caught.exception.name, "TooOld")
        may_connect.set()
        document.flush()
        lines = "".join(f"{number}\n" for number in range(20))
        self.assertEqual((document.text, len(moved)), (f"{lines}one and two\nthree\n", 1))
        wanted = [{"insert": lines}, {"attributes": {"bold": True}, "insert": "one "}, {"insert": "and two\nthree\n"}]
        self.assertEqual(bob.fetch("d").ops, wanted)
        self.assertEqual(document.contents, wanted)
        self.assertEqual(changes, [[{"insert": lines}]])

    def test_a_text_that_is_longer_than_a_line(self):
        ann = self.connect("ann")
        ann.create("d", [])
        document = ann.open("d")
        text = "0123456789" * 2_000
        document.apply([{"insert": text}])
        document.flush()
        self.assertEqual(ann.fetch("d").ops, [{"insert": text}])

    def test_a_fault_of_who_is_told_ends_the_client(self):
        ann, bob = self.connect("ann"), self.connect("bob")
        ann.create("d", [])
        ann.open("d").on_change(lambda ops: 1 // 0)
        bob.edit("d", [{"insert": "a"}], base=1)
        wait_until(lambda: not ann.is_connected)
        with self.assertRaises(ZeroDivisionError):
            ann.fetch("d")

    def test_a_refused_edit_is_told(self):
        ann = self.connect("ann")
        ann.create("d", [{"insert": "a"}])
        document, lost = ann.open("d"), []
        document.on_reset(lost.append)
        document.apply([{"insert": "x" * 30_000}])  # weighs more than a cell holds
        with self.assertRaises(richd.Refused) as caught:
            document.flush()
        self.assertEqual(caught.exception.name, "TooHeavy")
        document.flush()
        self.assertEqual((document.text, len(lost)), ("a", 1))


class Twin(Served):
    """The client for asyncio."""

    def run_with(self, action, count=1):
        async def run():
            host, port = self.server.address
            clients = [await richd.aio.connect(host, port, source=f"s{number}", timeout=SECONDS) for number in range(count)]
            try:
                await asyncio.wait_for(action(*clients), SECONDS)
            finally:
                for client in clients:
                    await client.close()

        asyncio.run(run())

    def test_what_each_call_gives(self):
        async def action(ann):
            self.assertEqual(await ann.create("d", [{"insert": "a"}]), richd.Taken(1))
            self.assertEqual(await ann.edit("d", [{"insert": "b"}], base=1), richd.Taken(2))
            self.assertEqual(await ann.undo("d"), richd.Taken(3))
            self.assertEqual(await ann.fetch("d", 2), richd.Contents(2, [{"insert": "ba"}]))
            self.assertEqual(await ann.since("d", 1), richd.Since(3, [[{"insert": "b"}], [{"delete": 1}]]))
            seen = []
            async for change in ann.follow("d", 1):
                seen.append(change.rev)
                if change.rev == 3:
                    break
            self.assertEqual(seen, [2, 3])
            with self.assertRaises(richd.Refused):
                await ann.fetch("nothing")

        self.run_with(action)

    def test_requests_overlap(self):
        async def action(ann, bob):
            await ann.create("d", [])
            edits = [bob.edit("d", [{"insert": "x"}], base=1) for _ in range(50)]
            revisions = [taken.rev for taken in await asyncio.gather(*edits)]
            self.assertEqual(revisions, list(range(2, 52)))

        self.run_with(action, 2)

    def test_the_server_ends_and_another_begins(self):
        async def action(ann):
            await ann.create("d", [])
            following = ann.follow("d", 1)
            port = self.server.address[1]
            self.server.kill()
            answer = asyncio.ensure_future(ann.edit("d", [{"insert": "b"}], base=1))
            await asyncio.sleep(0.3)
            self.assertFalse(answer.done())
            self.server = Server(self.store, port=port)
            self.assertEqual(await answer, richd.Taken(2))
            self.assertEqual((await following.next(SECONDS)).rev, 2)

        self.run_with(action)

    def test_two_type_at_once(self):
        async def action(ann, bob):
            await ann.create("d", [{"insert": "begin"}])
            documents = [await ann.open("d"), await bob.open("d")]
            draw = random.Random(41)
            for step in range(200):
                document = documents[step % 2]
                document.apply(typed(draw, delta.after(document.contents)))
                await asyncio.sleep(0.001)
            for document in documents:
                await document.flush()
            wanted = await ann.fetch("d")
            for document in documents:
                while document.revision < wanted.rev:
                    await asyncio.sleep(0.01)
                self.assertEqual(document.contents, wanted.ops)

        self.run_with(action, 2)

    def test_over_pipes(self):
        self.server.kill()

        async def run():
            client = await richd.aio.connect(command=[richd_or_skip(self), "serve", self.store], source="ann", timeout=SECONDS)
            async with client:
                await client.create("d", [{"insert": "x"}])
                return await client.fetch("d")

        self.assertEqual(asyncio.run(run()), richd.Contents(1, [{"insert": "x"}]))

    def test_following_ends_as_its_client_does(self):
        async def action(ann, bob):
            await ann.create("d", [])
            changes = ann.follow("d", 1)
            await bob.edit("d", [{"insert": "a"}], base=1)
            asyncio.get_running_loop().call_later(0.3, lambda: asyncio.ensure_future(ann.close()))
            self.assertEqual([change.rev async for change in changes], [2])
            self.assertEqual([change.rev async for change in ann.follow("d", 1)], [])
            (await bob.open("d")).on_change(lambda ops: 1 // 0)
            other = await richd.aio.connect(*self.server.address, source="other", timeout=SECONDS)
            async with other:
                changes = bob.follow("d", 3)
                await other.edit("d", [{"insert": "b"}], base=2)
                with self.assertRaises(ZeroDivisionError):
                    async for _ in changes:
                        pass

        self.run_with(action, 2)

    def test_following_ends_where_the_document_is_deleted(self):
        async def action(ann, bob):
            await ann.create("d", [])
            changes = bob.follow("d", 1)
            await ann.delete("d")
            with self.assertRaises(richd.Refused) as caught:
                await changes.next(SECONDS)
            self.assertEqual(caught.exception.name, "Deleted")

        self.run_with(action, 2)

    def test_a_client_whose_task_is_cancelled_tells_who_waits(self):
        async def action(ann):
            await ann.create("d", [])
            changes = ann.follow("d", 1)
            ann._task.cancel()
            self.assertEqual([change async for change in changes], [])

        self.run_with(action)

    def test_after_the_end(self):
        async def action(ann):
            await ann.close()
            with self.assertRaises(richd.Closed):
                await ann.fetch("d")

        self.run_with(action)


def typed(draw, length):
    """What somebody types into a text of so many units."""
    at = draw.randrange(length + 1)
    kind = draw.random()
    if kind < 0.6 or at == length:
        change = {"insert": draw.choice("abc \n")}
    elif kind < 0.8:
        change = {"delete": min(length - at, draw.randrange(1, 4))}
    else:
        change = {"retain": min(length - at, draw.randrange(1, 6)), "attributes": {draw.choice(["bold", "italic"]): draw.choice([True, None])}}
    return ([{"retain": at}] if at else []) + [change]


def wait_until(holds):
    until = time.monotonic() + SECONDS
    while not holds():
        if time.monotonic() > until:
            raise TimeoutError
        time.sleep(0.01)


if __name__ == "__main__":
    unittest.main()
