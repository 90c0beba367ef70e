"""Archives of a store of the program, and what is asked of them; and a served store looked at."""

import contextlib
import io
import json
import os
import shutil
import sqlite3
import subprocess
import time
import unittest

import richd
from richd.__main__ import main
from richd.archive import JUMP
from richd.archive_commands import moment, when
from richd.folding import EMPTY, after
from richd.program import dump, find
from richd.spelling import Damaged
from tests.test_client import Served


def run(*words):
    """The status, and what is printed on both streams."""
    out, errors = io.StringIO(), io.StringIO()
    with contextlib.redirect_stdout(out), contextlib.redirect_stderr(errors):
        status = main(list(words))
    return status, out.getvalue(), errors.getvalue()


class Archived(Served):
    """A server with a document of four revisions, and its archive."""

    def setUp(self):
        super().setUp()
        self.archive, self.other = self.store + ".archive", self.store + ".other"
        self.ann, bob = self.connect("ann"), self.connect("bob")
        self.ann.create("d", [{"insert": "Hello world\n"}])
        bob.edit("d", [{"retain": 6}, {"delete": 5}, {"insert": "there"}], base=1)
        self.ann.edit("d", [{"retain": 5, "attributes": {"bold": True}}], base=2)
        self.ann.create("gone", [{"insert": "x"}])
        self.ann.delete("gone")
        self.well("archive", self.store, self.archive)

    def well(self, *words):
        status, out, errors = run(*words, "--quiet")
        self.assertEqual((status, errors), (0, ""))
        return out

    def refused(self, *words):
        status, out, errors = run(*words, "--quiet")
        self.assertEqual((status, out, errors.count("\n")), (1, "", 1), errors)
        return errors

    def program(self, *words):
        return subprocess.run([find(), *words], check=True, capture_output=True, text=True).stdout


class Asked(Archived):
    def test_its_history(self):
        lines = [json.loads(line) for line in self.well("history", self.archive, "d", "--json").splitlines()]
        told = [{name: line[name] for name in ("doc", "rev", "kind", "source", "n", "ops")} for line in lines]
        bold = {"doc": "d", "rev": 3, "kind": "edit", "source": "ann", "n": 2, "ops": [{"attributes": {"bold": True}, "retain": 5}]}
        there = {"doc": "d", "rev": 2, "kind": "edit", "source": "bob", "n": 1, "ops": [{"retain": 6}, {"insert": "there"}, {"delete": 5}]}
        first = {"doc": "d", "rev": 1, "kind": "create", "source": "ann", "n": 1, "ops": [{"insert": "Hello world\n"}]}
        self.assertEqual(told, [bold, there, first])
        self.assertTrue(all(line["time"] <= time.time() for line in lines))
        text = self.well("history", self.archive, "gone").splitlines()
        self.assertRegex(text[0], r"^2 \d{4}-\d\d-\d\dT[\d:.]+ ann 2 delete \[\]$")
        self.assertEqual(len(self.well("history", self.archive, "d", "--limit", "1").splitlines()), 1)
        self.assertRegex(self.well("history", self.archive, "gone", "--brief").splitlines()[0], "ann 2 delete$")
        self.assertNotIn("ops", json.loads(self.well("history", self.archive, "d", "--brief", "--json", "--limit", "1")))
        self.assertEqual(json.loads(self.well("history", self.archive, "d", "--at", "1", "--json"))["rev"], 1)

    def test_a_document_as_it_was(self):
        self.assertEqual(self.well("show", self.archive, "d"), "Hello there\n")
        self.assertEqual(self.well("show", self.archive, "d", "--at", "1"), "Hello world\n")
        ops = [{"insert": "Hello", "attributes": {"bold": True}}, {"insert": " there\n"}]
        self.assertEqual(json.loads(self.well("show", self.archive, "d", "--ops")), ops)
        self.assertEqual(json.loads(self.well("show", self.archive, "d", "--json", "--at", "3")), {"doc": "d", "rev": 3, "ops": ops})
        self.assertEqual(json.loads(self.well("show", self.archive, "gone", "--json")), {"doc": "gone", "rev": 2, "ops": None})
        self.assertEqual(run("show", self.archive, "d", "--json", "--at", "9"), (1, '{"doc":"d","missing":"revision 9 isn\'t held"}\n', ""))
        self.assertEqual(run("history", "--json", "--", self.archive, "-x"), (1, '{"doc":"-x","missing":"there is no document -x"}\n', ""))
        self.assertIn("gone is deleted at revision 2", self.refused("show", self.archive, "gone"))
        self.assertIn("revision 9 isn't held", self.refused("show", self.archive, "d", "--at", "9"))
        self.assertIn("wasn't there then", self.refused("show", self.archive, "d", "--at", "1.5"))
        self.assertIn("there is no document x", self.refused("show", self.archive, "x"))

    def test_what_changed(self):
        told = self.well("diff", self.archive, "d", "1", "3").splitlines()
        self.assertEqual(told, ["--- d 1", "+++ d 3", "@@ -1 +1 @@", "-Hello world", "+Hello there"])
        self.assertEqual(json.loads(self.well("diff", self.archive, "d", "2", "3", "--ops")), [{"retain": 5, "attributes": {"bold": True}}])

    def test_a_moment(self):
        lines = [json.loads(line) for line in self.well("history", self.archive, "d", "--json").splitlines()]
        time.sleep(0.002)
        self.ann.edit("d", [{"insert": "Now: "}], base=3)
        self.well("archive", self.store, self.archive)
        self.assertEqual(self.well("show", self.archive, "d", "--at", repr(lines[0]["time"])), "Hello there\n")
        self.assertEqual(self.well("show", self.archive, "d", "--at", "0s"), "Now: Hello there\n")

    def test_words_for_moments(self):
        self.assertEqual([when("7"), when("7.5")], [7, 7.5])
        self.assertAlmostEqual(moment("2d"), time.time() - 172_800, delta=600)
        self.assertEqual(moment("1970-01-02T00:00:00+00:00"), 86_400)
        for words in (["show", "x", "d", "--at", "soon"], ["prune", "x", "--before", "7"]):
            with contextlib.redirect_stderr(io.StringIO()), self.assertRaises(SystemExit) as ended:
                main(words)
            self.assertEqual(ended.exception.code, 2)

    def test_what_is_no_archive_or_store(self):
        self.assertIn("there is no such file", self.refused("history", self.other, "d"))
        with open(self.archive + ".empty", "w"):
            self.assertIn("there is no archive in it", self.refused("history", self.archive + ".empty", "d"))
        self.assertIn("30 NotFormatted", self.refused("info", "/dev/null"))
        self.assertRegex(self.refused("archive", self.other, self.other + ".archive"), "No such file")
        self.assertFalse(os.path.exists(self.other + ".archive"))
        self.assertIn("file is not a database", self.refused("history", self.store, "d"))

    def test_an_archive_is_its_owners_alone(self):
        self.assertEqual(os.stat(self.archive).st_mode & 0o777, 0o600)


class Kept(Archived):
    def test_a_restored_store(self):
        self.well("restore", self.archive, self.other)
        self.assertEqual(self.program("check", self.other), "ok documents 2 changes 0\n")
        before = {line.split(" ", 3)[0]: line.split(" ", 3)[3] for line in dump_of(self.server, self.store)}
        lines = [line.split(" ", 3) for line in dump(self.other).splitlines()]
        self.assertEqual({name: content for name, _, _, content in lines}, before)
        self.assertEqual([int(rev) for _, rev, _, _ in lines], [JUMP + 3, JUMP + 2])
        self.assertIn("File exists", self.refused("restore", self.archive, self.other))
        server = richd.program.Server(self.other)
        self.addCleanup(server.kill)
        with server.connect("ann") as ann:
            self.assertEqual(ann.edit("d", [], 2, number=2), richd.Taken(3, again=True))
            for rev in (3, 4, 100):  # also revisions that the archive doesn't have
                with self.assertRaises(richd.Refused) as refused:
                    next(iter(ann.follow("d", rev)))
                self.assertEqual(refused.exception.name, "TooOld")
            self.assertEqual(ann.edit("d", [{"insert": "On: "}], base=ann.fetch("d").rev).rev, JUMP + 4)
        server.kill()
        self.well("archive", self.other, self.archive)
        self.assertEqual(self.well("verify", self.archive, self.other), "")
        self.assertEqual(self.well("show", self.archive, "d"), "On: Hello there\n")
        gap = self.well("history", self.archive, "d").splitlines()[1]
        self.assertRegex(gap, rf"^4\.\.{JUMP + 3} missing: never there: a store was restored")

    def test_each_restored_store_has_revisions_of_its_own(self):
        self.well("restore", self.archive, self.other)
        self.well("restore", self.archive, self.other + "2")
        first, second = ({line.split(" ")[1] for line in dump(path).splitlines()} for path in (self.other, self.other + "2"))
        self.assertFalse(first & second)
        self.well("archive", self.other + "2", self.archive)
        self.assertEqual(self.well("verify", self.archive, self.other + "2"), "")

    def test_what_has_no_room_leaves_no_file(self):
        self.assertIn("has no room in cells of 256 bytes", self.refused("restore", self.archive, self.other, "--cell", "256"))
        self.assertFalse(os.path.exists(self.other))

    def test_another_store_is_refused(self):
        richd.program.format_store(self.other)
        before = self.well("history", self.archive, "d")
        self.assertIn("doesn't continue what is archived", self.refused("archive", self.other, self.archive))
        self.assertEqual(self.well("history", self.archive, "d"), before)

    def test_a_pruned_archive(self):
        for number in range(5):
            self.ann.edit("d", [{"insert": str(number)}], base=3 + number)
        self.server.kill()
        subprocess.run([find(), "copy", self.store, self.other], check=True)  # a milestone of each document, at its newest revision
        self.well("archive", self.store, self.archive)
        self.well("archive", self.other, self.archive)
        status, out, _ = run("prune", self.archive, "--before", "0s")
        self.assertEqual((status, out), (0, "revisions 10\n"))
        self.assertEqual(self.well("verify", self.archive, self.other), "")
        self.assertEqual(self.well("show", self.archive, "d"), "43210Hello there\n")
        self.assertRegex(self.well("history", self.archive, "d"), r"^1\.\.8 missing: pruned")

    def test_faults_that_verify_finds(self):
        self.assertEqual(run("verify", self.archive, self.store)[:2], (0, "ok documents 2 revisions 5 snapshots 0\n"))
        self.ann.edit("d", [{"insert": "later"}], base=3)
        status, out, _ = run("verify", self.archive, self.store)
        self.assertEqual((status, out.splitlines()[0]), (1, "d is at revision 4 in the store, at 3 in the archive"))
        with contextlib.closing(sqlite3.connect(self.archive)) as database, database:
            database.execute("DELETE FROM revisions WHERE rev = 2 AND doc = 0")
        status, out, _ = run("verify", self.archive)
        self.assertEqual((status, out.splitlines()[0]), (1, "d: revisions 2 to 2 are missing, and no gap says so"))


class PutBack(Archived):
    """A copy of the store is put back, after edits that it lacks: revisions 4 and 5 of d, commands 3 and 4 of ann."""

    def setUp(self):
        super().setUp()
        self.server.kill()
        shutil.copyfile(self.store, self.other)
        server = richd.program.Server(self.store)
        self.addCleanup(server.kill)
        with server.connect("ann") as ann:
            for base in (3, 4):
                ann.edit("d", [{"insert": "Lost: "}], base)
        self.well("archive", self.store, self.archive)
        server.kill()
        self.back = self.other + ".back"

    def test_nobody_is_misled(self):
        self.assertEqual(run("jump", self.other, self.back), (0, "documents 2\n", ""))
        self.assertEqual(self.program("check", self.back), "ok documents 2 changes 0\n")
        before, now = ([line.split(" ", 3) for line in dump(path).splitlines()] for path in (self.other, self.back))
        self.assertEqual([[name, int(rev) + JUMP, content] for name, rev, _, content in before], [[name, int(rev), content] for name, rev, _, content in now])
        server = richd.program.Server(self.back)
        self.addCleanup(server.kill)
        with server.connect("ann", is_new=True) as ann:
            self.assertEqual(ann.edit("d", [], 2, number=2), richd.Taken(3, again=True))  # the copy has it
            self.assertEqual(self.code(ann.edit, "d", [], base=5, number=5), "Gap")  # after those that are lost
            self.assertEqual(self.code(ann.edit, "d", [], base=4, number=3), "TooOld")
            for rev in (0, 3, 4, 5, 6):  # 4 and 5 are lost, and 6 never was
                self.assertEqual(self.code(next, iter(ann.follow("d", rev))), "TooOld")
            self.assertEqual(self.code(ann.edit, "gone", [], base=1, number=3), "Deleted")
            self.assertEqual(ann.edit("d", [{"insert": "On: "}], base=ann.fetch("d").rev, number=3).rev, JUMP + 4)

    def test_an_archive_goes_on_once_it_is_told_to(self):
        self.well("jump", self.other, self.back, "--by", "5000")
        self.assertIn("doesn't continue what is archived", self.refused("archive", self.back, self.archive))
        self.well("archive", self.back, self.archive, "--accept")
        self.assertEqual(self.well("verify", self.archive, self.back), "")
        self.assertRegex(self.well("history", self.archive, "d"), r"^4\.\.5003 missing: ")

    def test_what_cant_be_made_leaves_no_file(self):
        self.assertIn("File exists", self.refused("jump", self.store, self.other))
        self.assertIn("no room to jump", self.refused("jump", self.store, self.back, "--by", str((1 << 53) - 4)))
        self.assertIn("30 NotFormatted", self.refused("jump", "/dev/null", self.back))
        self.assertFalse(os.path.exists(self.back))
        for word in ("0", "-1", "many", str(1 << 53)):
            with contextlib.redirect_stderr(io.StringIO()), self.assertRaises(SystemExit) as ended:
                main(["jump", self.store, self.back, "--by", word])
            self.assertEqual(ended.exception.code, 2)

    def code(self, call, *words, **more):
        with self.assertRaises(richd.Refused) as refused:
            call(*words, **more)
        return refused.exception.name


def dump_of(server, store):
    server.kill()
    return dump(store).splitlines()


class Looked(Archived):
    def test_a_served_store_is_told_as_the_program_tells_it(self):
        served = [self.well(*words, self.store) for words in (["info"], ["info", "--documents"], ["check"], ["dump"])]
        self.server.kill()
        own = [self.program(*words, self.store) for words in (["info"], ["info", "--documents"], ["check"], ["dump"])]
        self.assertEqual(served, own)


class Folded(unittest.TestCase):
    def test_what_continues_nothing(self):
        first = after(EMPTY, 1, 1, "a", 1, '[{"insert":"x"}]')
        rows = [(3, 2, "a", 2, "[]"), (2, 1, "a", 2, "[]"), (2, 4, "a", 2, "[]"), (2, 2, "a", 3, "[]"), (2, 2, "b", 2, "[]")]
        for row in [*rows, (2, 2, "a", 2, '[{"retain":2,"attributes":{"b":true}}]')]:
            with self.assertRaises(Damaged):
                after(first, *row)
        for row in ((2, 1, "a", 1, "[]"), (1, 2, "a", 1, "[]"), (1, 4, "a", 1, "[]")):
            with self.assertRaises(Damaged):
                after(EMPTY, *row)


if __name__ == "__main__":
    unittest.main()
