"""The bytes of docs/FORMATS.md, "Vectors", and what isn't spelled so."""

import os
import subprocess
import tempfile
import unittest

from richd.spelling import Cell, Damaged, Entry, NewStore, Shape, StoreError, cell_bytes, cell_of, delta_text, entries, shape_of, weight
from tests.program import richd_or_skip

SMALL = Shape(2, 256, 2, 256, 4, 2)
HEAD = bytes.fromhex("5144 5354 4f52 4532 02000000 00010000 02000000 00010000 04000000 02000000")
BATCH_1 = bytes.fromhex("01000000 01 00000000 0100000000000000 0100 61 0100000000000000 0100 64 01000000 01 01000000 7a 00000000")
BATCH_2 = bytes.fromhex(
    "01000000 02 00000000 0200000000000000 0100 61 0200000000000000 02000000 03 0100000000000000 00000000 01 01000000 78 00000000"
)
DELETION = bytes.fromhex("03 00000000 0300000000000000 0100 61 0300000000000000")
MILESTONE = bytes.fromhex(
    "00000000 0100 64 0100000000000000 01 01000000 01 01000000 7a 00000000 01000000 0100 61 0100000000000000 01 0100000000000000"
)
Z = Cell(0, "d", 1, True, [{"insert": "z"}], {"a": (1, [1])})


class Vectors(unittest.TestCase):
    def test_the_places_of_the_small_shape(self):
        self.assertEqual(shape_of(HEAD), SMALL)
        self.assertEqual([SMALL.cell_place(doc, which) for doc in (0, 1) for which in (0, 1)], [64, 320, 576, 832])
        self.assertEqual([SMALL.slot_place(0), SMALL.slot_place(1), SMALL.size()], [1_088, 1_344, 1_600])

    def test_batches(self):
        self.assertEqual(entries(BATCH_1), ([Entry(0, 1, 1, "a", 1, '[{"insert":"z"}]')], {0: "d"}))
        self.assertEqual(entries(BATCH_2), ([Entry(0, 2, 2, "a", 2, '[{"retain":1},{"insert":"x"}]')], {}))
        self.assertEqual(entries(b"\x01\0\0\0" + DELETION), ([Entry(0, 3, 3, "a", 3, "[]")], {}))
        both = b"\x02\0\0\0" + BATCH_2[4:] + DELETION
        self.assertEqual([entry.rev for entry in entries(both)[0]], [2, 3])

    def test_what_is_no_batch(self):
        for body in (BATCH_1[:-1], BATCH_1 + b"\0", b"\x02" + BATCH_1[1:], b"", BATCH_1[:4] + b"\x05" + BATCH_1[5:], BATCH_1.replace(b"z", b"\xff")):
            with self.assertRaises(Damaged):
                entries(body)

    def test_a_milestone_both_ways(self):
        self.assertEqual(cell_of(MILESTONE), Z)
        self.assertEqual(cell_bytes(Z), MILESTONE)
        for body in (MILESTONE[:-1], MILESTONE + b"\0", b""):
            with self.assertRaises(Damaged):
                cell_of(body)

    def test_all_kinds_of_operations(self):
        # by hand: an insert of "é" with b: true and n: null's absence, an embed {"image":"a"}, a retain of 2 with a: null and i: -1, a delete of 3
        delta = bytes.fromhex(
            "04000000 01 02000000 c3a9 01000000 0100 62 02 02 0500 696d616765 04 01000000 61 00000000"
            "03 0200000000000000 02000000 0100 61 00 0100 69 03 ffffffffffffffff 04 0300000000000000"
        )
        told = '[{"attributes":{"b":true},"insert":"é"},{"insert":{"image":"a"}},{"attributes":{"a":null,"i":-1},"retain":2},{"delete":3}]'
        self.assertEqual(delta_text(delta, 0), (told, len(delta)))

    def test_a_rich_document_both_ways(self):
        ops = [{"insert": "é", "attributes": {"z": "\n", "b": False, "é": 3}}, {"insert": {"image": "a"}, "attributes": {"n": -1}}, {"insert": '"'}]
        cell = Cell(3, "x", 20, True, ops, {"b": (17, list(range(4, 20))), "a": (1, [1])})
        self.assertEqual(cell_of(cell_bytes(cell)), cell)
        gone = Cell(3, "x", 20, False, [], {"b": (1, [20])})
        self.assertEqual(cell_of(cell_bytes(gone)), gone)

    def test_weights_by_hand(self):
        self.assertEqual(weight(Z.ops, Z.sources), 12 + 64)
        # one unit of 12, with an attribute of 12 + 4 + 3 bytes; an embed of 12, whose value weighs 12 + 5 + 1
        self.assertEqual(weight([{"insert": "x", "attributes": {"font": "abc"}}, {"insert": {"image": "a"}}], {}), 12 + 19 + 12 + 18)
        self.assertEqual(weight([{"insert": "😀"}], {}), 24)


class Made(unittest.TestCase):
    def setUp(self):
        folder = tempfile.TemporaryDirectory()
        self.addCleanup(folder.cleanup)
        self.path = os.path.join(folder.name, "store")

    def test_its_bytes(self):
        store = NewStore(self.path, SMALL)
        store.put(Z)
        with open(self.path, "rb") as file:
            self.assertEqual(file.read(1), b"\0")  # until it is finished there is no store
        store.finish()
        with open(self.path, "rb") as file:
            content = file.read()
        wanted = bytearray(1_600)
        wanted[:33] = b"\xa5" + HEAD
        wanted[64 : 64 + 5 + len(MILESTONE)] = bytes.fromhex("a5 36000000") + MILESTONE
        self.assertEqual(content, bytes(wanted))
        self.assertEqual(os.stat(self.path).st_mode & 0o777, 0o600)

    def test_the_program_opens_it(self):
        program = richd_or_skip(self)
        store = NewStore(self.path, SMALL)
        store.put(Z._replace(rev=1_000_001))
        store.finish()
        told = subprocess.run([program, "dump", self.path], capture_output=True, text=True, check=True).stdout
        self.assertEqual(told, 'd 1000001 1000001 {"ops":[{"insert":"z"}]}\n')
        checked = subprocess.run([program, "check", self.path], capture_output=True, text=True, check=True).stdout
        self.assertEqual(checked, "ok documents 1 changes 0\n")

    def test_what_has_no_room(self):
        for cell in (Z._replace(ops=[{"insert": "x" * 20}]), Z._replace(sources={name: (1, [1]) for name in "abcde"}), Z._replace(doc=2)):
            store = NewStore(self.path, SMALL)
            with self.assertRaises(StoreError):
                store.put(cell)
            store.drop()
            self.assertFalse(os.path.exists(self.path))

    def test_a_file_that_is_there_is_left(self):
        with open(self.path, "w") as file:
            file.write("mine")
        with self.assertRaises(FileExistsError):
            NewStore(self.path, SMALL)
        with open(self.path) as file:
            self.assertEqual(file.read(), "mine")


if __name__ == "__main__":
    unittest.main()
