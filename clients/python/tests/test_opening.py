"""A document that is opened, and made where it isn't there, by a server in the test's hands."""

import asyncio
import threading
import unittest

import richd
import richd.aio
from tests.standin import StandIn

SECONDS = 60  # that anything may take
MINE, THEIRS = [{"insert": "mine"}], [{"insert": "theirs"}]
NO_DOCUMENT, EXISTS = {"code": 6, "error": "NoDocument"}, {"code": 7, "error": "Exists"}
DELETED = {"code": 40, "error": "Deleted"}


class Documents:
    """Documents of a server. One that another client has just made is there, but is shown only after so many fetches."""

    def __init__(self, hidden=0, made=None, missing=NO_DOCUMENT):
        self.hidden, self.ops, self.missing = hidden, made, missing
        self.lock = threading.Lock()

    def __call__(self, message):
        with self.lock:
            return [self.reply(message)]

    def reply(self, message):
        doc = message["doc"]
        if message["do"] == "create":
            if self.ops is not None:
                return EXISTS
            self.ops = message["ops"]
            return {"doc": doc, "n": 1, "ok": "taken", "rev": 1}
        if message["do"] == "fetch":
            if self.ops is None or self.hidden > 0:
                self.hidden -= 1
                return self.missing
            return {"doc": doc, "ok": "doc", "ops": self.ops, "rev": 1}
        if message["do"] == "subscribe":
            return {"doc": doc, "ok": "subscribed", "rev": message["rev"]}
        return {"doc": doc, "ok": "unsubscribed"}


class Opening(unittest.TestCase):
    def serve(self, answer):
        server = StandIn(answer)
        self.addCleanup(server.close)
        return server

    def opened(self, answer, create=None):
        """What the document holds that is opened, by the client for threads and by its twin, and what was asked for that."""
        for action in (self.by_threads, self.by_asyncio):
            server = self.serve(answer())
            contents = action(server.address, create)
            asked = [message["do"] for message in server.messages]
            yield contents, asked[: asked.index("subscribe")]

    def by_threads(self, address, create):
        with richd.connect(*address, source="ann", is_new=True, timeout=SECONDS) as client:
            with client.open("d", create=create) as document:
                client.fetch("d")  # the subscription was sent before
                return document.contents

    def by_asyncio(self, address, create):
        async def run():
            async with await richd.aio.connect(*address, source="ann", is_new=True, timeout=SECONDS) as client:
                document = await client.open("d", create=create)
                await client.fetch("d")
                return document.contents

        return asyncio.run(run())

    def test_it_is_made_where_it_isnt_there(self):
        for contents, asked in self.opened(Documents, MINE):
            self.assertEqual((contents, asked), (MINE, ["fetch", "create", "fetch"]))

    def test_it_is_made_where_it_is_deleted(self):
        for contents, asked in self.opened(lambda: Documents(missing=DELETED), MINE):
            self.assertEqual((contents, asked), (MINE, ["fetch", "create", "fetch"]))

    def test_one_that_another_has_just_made_again_is_waited_for(self):
        for contents, asked in self.opened(lambda: Documents(hidden=3, made=THEIRS, missing=DELETED), MINE):
            self.assertEqual((contents, asked), (THEIRS, ["fetch", *["create", "fetch"] * 3]))

    def test_one_that_is_there_isnt_made(self):
        for contents, asked in self.opened(lambda: Documents(made=THEIRS), MINE):
            self.assertEqual((contents, asked), (THEIRS, ["fetch"]))

    def test_one_that_another_has_just_made_is_waited_for(self):
        for contents, asked in self.opened(lambda: Documents(hidden=3, made=THEIRS), MINE):
            self.assertEqual((contents, asked), (THEIRS, ["fetch", *["create", "fetch"] * 3]))

    def test_without_inserts_it_isnt_made(self):
        for action in (self.by_threads, self.by_asyncio):
            server = self.serve(Documents())
            with self.assertRaises(richd.Refused) as caught:
                action(server.address, None)
            self.assertEqual((caught.exception.name, [message["do"] for message in server.messages]), ("NoDocument", ["fetch"]))

    def test_what_it_is_refused_with_is_told(self):
        full = {"code": 20, "error": "TooManyDocuments"}
        for action in (self.by_threads, self.by_asyncio):
            server = self.serve(lambda message: [NO_DOCUMENT if message["do"] == "fetch" else full])
            with self.assertRaises(richd.Refused) as caught:
                action(server.address, MINE)
            self.assertEqual(caught.exception.code, 20)


if __name__ == "__main__":
    unittest.main()
