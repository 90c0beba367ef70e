"""What an operator does by hand, against the program and against a server in the test's hands."""

import contextlib
import importlib.util
import io
import json
import os
import socket
import subprocess
import sys
import unittest
from unittest import mock

import richd
from richd.__main__ import health, main, written
from tests.standin import StandIn
from tests.test_client import SECONDS, Served

FOLDER = os.path.dirname(os.path.dirname(os.path.abspath(__file__)))


class Health(unittest.TestCase):
    def of(self, reply):
        server = StandIn(lambda message: [reply])
        self.addCleanup(server.close)
        state = health(server.address, SECONDS)
        self.assertEqual([message["do"] for message in server.messages], ["undo"])
        return state

    def test_what_each_answer_tells(self):
        self.assertEqual(self.of({"code": 6, "error": "NoDocument"}), "healthy")
        self.assertEqual(self.of({"code": 19, "error": "NothingToUndo"}), "healthy")
        self.assertRegex(self.of({"code": 21, "error": "StoreFailed"}), "^failed: ")
        self.assertRegex(self.of({"code": 22, "error": "NoMemory"}), "^short of memory")
        self.assertRegex(self.of({"some": "thing"}), "^no richd")

    def test_one_that_closes_without_a_byte_is_full(self):
        with socket.create_server(("127.0.0.1", 0)) as listener:
            listener.settimeout(SECONDS)
            with mock.patch("richd.link.TcpLink.send", lambda link, data: listener.accept()[0].close()):
                self.assertRegex(health(listener.getsockname(), SECONDS), "^full: ")

    def test_one_that_takes_no_edit_in_time_hangs(self):
        answers = {"hello": {"ok": "hello"}, "undo": {"code": 6, "error": "NoDocument"}, "fetch": {"ok": "doc", "doc": ".health", "rev": 1, "ops": []}}
        server = StandIn(lambda message: [answers[message["do"]]] if message["do"] in answers else [])
        self.addCleanup(server.close)
        self.assertEqual(health(server.address, SECONDS), "healthy")
        self.assertRegex(written(server.address, 0.3), "^hangs: ")
        self.assertEqual(server.messages[-1]["do"], "edit")

    def test_nobody_listens_or_answers(self):
        with socket.create_server(("127.0.0.1", 0)) as listener:
            address = listener.getsockname()
            self.assertRegex(health(address, 0.2), "^unreachable: .*timed out")
        self.assertRegex(health(address, SECONDS), "^unreachable: .*refused")

    def test_what_is_no_address(self):
        for word in ("127.0.0.1", "127.0.0.1:", ":7000", "127.0.0.1:x", "127.0.0.1:65536"):
            with contextlib.redirect_stderr(io.StringIO()), self.assertRaises(SystemExit) as ended:
                main(["health", word])
            self.assertEqual(ended.exception.code, 2)


class Commands(Served):
    def run_main(self, word, *words, content=""):
        """The status, and what is printed on both streams."""
        out, errors = io.StringIO(), io.StringIO()
        address = "{}:{}".format(*self.server.address)
        with contextlib.redirect_stdout(out), contextlib.redirect_stderr(errors), mock.patch("sys.stdin", io.StringIO(content)):
            status = main([word, address, *words, "--timeout", str(SECONDS)])
        return status, out.getvalue(), errors.getvalue()

    def test_health_writes_nothing(self):
        with open(self.store, "rb") as file:
            before = file.read()
        self.assertEqual(self.run_main("health"), (0, "healthy\n", ""))
        with open(self.store, "rb") as file:
            self.assertEqual(file.read(), before)

    def test_health_by_an_edit(self):
        for revision in (1, 2, 3):
            self.assertEqual(self.run_main("health", "--write"), (0, "healthy\n", ""))
            self.assertEqual(self.connect(f"s{revision}").fetch(".health"), richd.Contents(revision, []))
        for number in range(3):
            self.connect("ann").create(f"d{number}", [])
        self.connect("ann").delete(".health")
        self.assertEqual(self.run_main("health", "--write")[1], "healthy\n")
        self.assertEqual(self.connect("bob").fetch(".health").rev, 5)

    def test_one_that_has_no_place_for_the_edit(self):
        for number in range(4):
            self.connect("ann").create(f"d{number}", [])
        self.assertEqual(self.run_main("health", "--write"), (1, "refuses an edit: 20 TooManyDocuments\n", ""))

    def test_a_full_server(self):
        clients = [self.connect(f"s{number}") for number in range(64)]
        status, out, _ = self.run_main("health")
        self.assertEqual((status, out[:5]), (1, "full:"))

    def test_a_document_is_made_changed_and_printed(self):
        name = "--keep", self.store + ".name"
        self.assertEqual(self.run_main("put", "d", *name, content="Hello world\n"), (0, "revision 2\n", ""))
        self.connect("ann").edit("d", [{"retain": 6}, {"retain": 5, "attributes": {"bold": True}}], base=2)
        self.assertEqual(self.run_main("put", "d", *name, content="Hello, world\n"), (0, "revision 4\n", ""))
        self.assertEqual(self.run_main("cat", "d"), (0, "Hello, world\n", ""))
        ops = [{"insert": "Hello, "}, {"attributes": {"bold": True}, "insert": "world"}, {"insert": "\n"}]
        self.assertEqual(self.run_main("cat", "d", "--ops"), (0, json.dumps(ops) + "\n", ""))
        self.assertEqual(self.run_main("cat", "d", "--rev", "2"), (0, "Hello world\n", ""))
        plain = [{"insert": "x" * 12_000}]
        self.assertEqual(self.run_main("put", "d", *name, "--ops", content=json.dumps(plain)), (0, "revision 5\n", ""))
        self.assertEqual(self.connect("bob").fetch("d").ops, plain)

    def test_a_document_is_imported_and_exported(self):
        name = "--keep", self.store + ".name"
        self.assertEqual(self.run_main("import", "d", "--as", "text", *name, content="One\r\ntwo"), (0, "revision 2\n", ""))
        self.assertEqual(self.connect("bob").fetch("d").ops, [{"insert": "One\ntwo\n"}])
        ops = [{"retain": 3}, {"retain": 1, "attributes": {"header": 1}}, {"retain": 3, "attributes": {"bold": True}}]
        self.connect("ann").edit("d", ops, base=2)
        self.assertEqual(self.run_main("export", "d", "--as", "html"), (0, "<h1>One</h1>\n<p><strong>two</strong></p>\n", ""))
        self.assertEqual(self.run_main("export", "d", "--as", "text"), (0, "One\ntwo\n", ""))
        archived = self.store + ".archive"
        with contextlib.redirect_stdout(io.StringIO()), contextlib.redirect_stderr(io.StringIO()):
            self.assertEqual(main(["archive", self.store, archived, "--quiet"]), 0)
        for place in (self.store, archived):
            out = io.StringIO()
            with contextlib.redirect_stdout(out):
                self.assertEqual(main(["export", place, "d", "--as", "markdown"]), 0)
            self.assertEqual(out.getvalue(), "# One\n\n**two**\n")
            errors = io.StringIO()
            with contextlib.redirect_stderr(errors):
                self.assertEqual(main(["export", place, "nothing", "--as", "html"]), 1)
            self.assertIn("nothing", errors.getvalue())

    def test_markdown_is_imported_by_the_least_edit(self):
        if importlib.util.find_spec("markdown_it") is None:
            self.skipTest("there is no markdown-it-py, Debian's python3-markdown-it")
        name = "--source", "me"
        self.assertEqual(self.run_main("import", "d", "--as", "markdown", *name, content="# One\n\n- two\n")[0], 0)
        self.assertEqual(self.run_main("import", "d", "--as", "markdown", *name, content="# One\n\n- two **and** more\n")[0], 0)
        changes = [change.ops for _, change in zip(range(3), self.connect("bob").follow("d", 0))]
        self.assertEqual(changes[2], [{"retain": 7}, {"insert": " "}, {"insert": "and", "attributes": {"bold": True}}, {"insert": " more"}])

    def test_what_is_refused(self):
        address = "{}:{}".format(*self.server.address)
        self.assertEqual(self.run_main("cat", "nothing"), (1, "", f"{address}: 6 NoDocument\n"))
        status, _, errors = self.run_main("put", "d", "--source", "me", content="x" * 30_000)
        self.assertEqual((status, errors), (1, f"{address}: 16 TooHeavy\n"))
        status, _, errors = self.run_main("put", "d", "--source", "me", "--ops", content="{}")
        self.assertEqual((status, errors), (1, f"{address}: standard input has no list of inserts\n"))

    def test_changes_are_printed_as_they_come(self):
        ann = self.connect("ann")
        ann.create("d", [{"insert": "a"}])
        address = "{}:{}".format(*self.server.address)
        command = [sys.executable, "-m", "richd", "follow", address, "d", "--rev", "0"]
        pipes = {"stdout": subprocess.PIPE, "stderr": subprocess.PIPE}
        with subprocess.Popen(command, cwd=FOLDER, text=True, **pipes) as process:
            self.assertEqual(json.loads(process.stdout.readline()), {"rev": 1, "ops": [{"insert": "a"}]})
            ann.edit("d", [{"delete": 1}], base=1)
            self.assertEqual(json.loads(process.stdout.readline()), {"rev": 2, "ops": [{"delete": 1}]})
            ann.delete("d")
            rest, errors = process.communicate(timeout=SECONDS)
            self.assertEqual((process.returncode, rest, errors), (1, "", f"{address}: 40 Deleted\n"))


if __name__ == "__main__":
    unittest.main()
