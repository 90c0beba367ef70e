"""Reading a file that is written meanwhile: between any two bytes that are read the writer may have gone on, by any of its bytes."""

import os
import random
import struct
import tempfile
import unittest
from unittest import mock

from richd.archiver import Reader
from richd.served import StoreFile
from richd.spelling import NewStore, Shape, StoreError

SHAPE = Shape(3, 256, 1, 256, 4, 2)
OPEN, CLOSED = 0xA5, 0


class Device:
    """A file as its bytes, and what its writer does to it, byte by byte. A read may meet the bytes in any order, and the writer between any two."""

    def __init__(self, test, drawn):
        self.drawn = drawn
        with tempfile.TemporaryDirectory() as folder:
            path = os.path.join(folder, "store")
            NewStore(path, SHAPE).finish()
            with open(path, "rb") as file:
                self.bytes = bytearray(file.read())
            self.file = StoreFile(path)
        test.addCleanup(self.file.close)
        # bytes that were there before `format`: gates of records and lengths may be open by chance
        for place in range(64, len(self.bytes)):
            self.bytes[place] = drawn.choice((OPEN, 0, 1, 2, 3))
        for place in (SHAPE.cell_place(0, 0), SHAPE.cell_place(0, 1), *(SHAPE.slot_place(slot) for slot in range(SHAPE.slots))):
            self.bytes[place] = CLOSED
        self.ends = False

    def write(self, place, content):
        """One write of the writer: its bytes in any order."""
        order = list(range(len(content)))
        self.drawn.shuffle(order)
        for index in order:
            yield
            self.bytes[place + index] = content[index]
        yield

    def go_on(self, count):
        """Lets the writer write so many bytes."""
        for _ in range(count):
            self.ends = self.ends or next(self.writer, self) is self

    def pread(self, writer, pace):
        """A pread for which the writer goes on meanwhile."""
        self.writer = writer

        def read(file, count, place):
            found = bytearray(min(count, max(0, len(self.bytes) - place)))
            order = list(range(len(found)))
            self.drawn.shuffle(order)
            for index in order:
                while not self.ends and self.drawn.random() < pace:
                    self.go_on(1)
                found[index] = self.bytes[place + index]
            return bytes(found)

        return read


class Cells(unittest.TestCase):
    def test_what_is_read_was_written_together(self):
        taken = closed = 0
        for seed in range(40):
            drawn = random.Random(seed)
            device = Device(self, drawn)
            held = set()

            def writes():
                """Milestones of rising revisions, in one cell and the other."""
                for rev in range(1, 40):
                    place, body = SHAPE.cell_place(0, rev % 2), spelled(rev)
                    yield from device.write(place, [CLOSED])
                    yield from device.write(place + 1, struct.pack("<I", len(body)) + body)
                    held.add(body)
                    yield from device.write(place, [OPEN])

            def spelled(rev):
                filler = bytes(drawn.choice((OPEN, 0, rev)) for _ in range(drawn.randrange(90)))
                return struct.pack("<IH", 0, 1) + b"d" + struct.pack("<Q", rev) + filler

            with mock.patch("richd.served.os.pread", device.pread(writes(), drawn.choice((0.02, 0.1, 0.5)))):
                while not device.ends:
                    body = device.file.cell(0, drawn.randrange(2))
                    closed += body is None
                    if body is not None:
                        self.assertIn(body, held)
                        taken += 1
        self.assertGreater(min(taken, closed), 200)


class Journal(unittest.TestCase):
    def test_what_is_read_is_the_committed_order(self):
        """Each archiver's reader gives the records in their order, none missing and none twice, until it finds that it was lapped."""
        read = lapped = 0
        for seed in range(60):
            drawn = random.Random(seed)
            device = Device(self, drawn)
            committed = []
            writer = self.writes(device, committed)
            for _ in range(40):  # the first records
                next(writer)
            with mock.patch("richd.served.os.pread", device.pread(writer, drawn.choice((0.02, 0.1, 0.5)))):
                found = self.follow(device)
            if found is None:
                continue
            records, is_over = found
            first = committed.index(records[0]) if records else 0
            self.assertEqual(records, committed[first : first + len(records)])
            read += len(records)
            lapped += is_over
        self.assertGreater(read, 1_000)
        self.assertGreater(lapped, 10)

    def follow(self, device):
        """What a reader reads from the oldest record that it finds on, and whether it was lapped; None where it came to none."""
        reader = Reader(device.file, None, None, None, 0)
        while not reader.is_over and not device.ends:
            reader.step()
            if device.drawn.random() < 0.02:
                device.go_on(device.drawn.randrange(4_000))  # the reader stands still
        if reader.fault is not None:
            raise reader.fault
        records = [record.body for part in reader.read for record in part.records]
        return (records, reader.is_over) if records else None

    def writes(self, device, committed):
        """Appends records, opens slots and retires the oldest one, as a server does."""
        drawn, opened, number = device.drawn, [], 0
        place = end = 0
        for count in range(1, 150):
            body = struct.pack("<I", count) + bytes(drawn.choice((OPEN, 0, 1)) for _ in range(drawn.randrange(40)))
            if place + 6 + len(body) > end:
                while len(opened) == SHAPE.slots or (len(opened) > 1 and drawn.random() < 0.5):
                    yield from device.write(SHAPE.slot_place(opened.pop(0)), [CLOSED])
                slot = min({*range(SHAPE.slots)} - {*opened})
                number += 1
                base = SHAPE.slot_place(slot)
                yield from device.write(base + 1, struct.pack("<Q", number) + b"\0")
                yield from device.write(base, [OPEN])
                opened.append(slot)
                place, end = base + 9, base + SHAPE.slot
            yield from device.write(place + 1, struct.pack("<I", len(body)) + body + b"\0")
            committed.append(body)
            yield from device.write(place, [OPEN])
            place += 5 + len(body)


class Files(unittest.TestCase):
    def setUp(self):
        folder = tempfile.TemporaryDirectory()
        self.addCleanup(folder.cleanup)
        self.path = os.path.join(folder.name, "store")

    def test_what_is_no_store(self):
        rows = {
            b"": "30 NotFormatted",
            b"\0" * 2_000: "30 NotFormatted",
            b"\xa5" * 2_000: "30 NotFormatted",
            b"\xa5QDSTORE1" + b"\0" * 2_000: "38 OldFormat",
            b"\xa5QDSTORE2" + struct.pack("<6I", *SHAPE): "shorter",
        }
        for content, told in rows.items():
            with open(self.path, "wb") as file:
                file.write(content)
            with self.assertRaisesRegex(StoreError, told):
                StoreFile(self.path)

    def test_whether_the_path_names_the_file(self):
        NewStore(self.path, SHAPE).finish()
        file = StoreFile(self.path)
        self.addCleanup(file.close)
        self.assertTrue(file.is_there())
        os.rename(self.path, self.path + ".old")
        self.assertTrue(file.is_there())  # there is no other
        NewStore(self.path, SHAPE).finish()
        self.assertFalse(file.is_there())


if __name__ == "__main__":
    unittest.main()
