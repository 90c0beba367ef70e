"""Reads a device by docs/FORMATS.md, as devices.py compares with what `dump` prints: written from that page alone, for small devices."""
import struct

NOT_FORMATTED, DAMAGED, OLD_FORMAT = 30, 32, 38
NAMES = {NOT_FORMATTED: "NotFormatted", DAMAGED: "Damaged", OLD_FORMAT: "OldFormat"}
OLD_LETTERS, LETTERS = b"QDSTORE1", b"QDSTORE2"
WINDOW = 16  # how many numbers a window has at most
RANGES = [(2, 1_024), (256, 16_777_216), (1, 65_536), (256, 16_777_216), (1, 4_096), (1, 65_536)]  # slots, slot, docs, cell, sources, keep
OPEN = 0xA5
CREATION, EDIT, DELETION, REVIVAL = 1, 2, 3, 4  # kinds of entries; the last creates a deleted document again
MOST = (1 << 53) - 1
LONGEST = 1 << 48
NAME_BYTES = frozenset(b"ABCDEFGHIJKLMNOPQRSTUVWXYZabcdefghijklmnopqrstuvwxyz0123456789._-")


class Damage(Exception):
    """The content breaks a rule."""


def must(truth):
    if not truth:
        raise Damage


class Bytes:
    """Bytes that are read from the front. What isn't there is damage."""

    def __init__(self, content):
        self.content, self.place = content, 0

    def take(self, count):
        must(self.place + count <= len(self.content))
        self.place += count
        return self.content[self.place - count : self.place]

    def u(self, size):
        return int.from_bytes(self.take(size), "little")

    def text(self, size):
        try:
            return self.take(self.u(size)).decode()
        except UnicodeDecodeError:
            raise Damage from None

    def name(self, longest):
        name = self.text(2)
        must(1 <= len(name) <= longest and set(name.encode()) <= NAME_BYTES)
        return name

    def end(self):
        must(self.place == len(self.content))


# A delta is a list of operations: ("insert", text or embed, attributes), ("retain", length, attributes), ("delete", length, ()). An embed
# is a pair, attributes a tuple of pairs.


def value(read, may_be_null):
    tag = read.u(1)
    must(tag <= 4 and (tag > 0 or may_be_null))
    if tag == 3:
        number = int.from_bytes(read.take(8), "little", signed=True)
        must(abs(number) <= MOST)
        return number
    return read.text(4) if tag == 4 else (None, False, True)[tag]


def attributes(read, may_be_null):
    pairs = []
    for _ in range(read.u(4)):
        name = read.text(2)
        must(1 <= len(name.encode()) <= 64 and (not pairs or pairs[-1][0].encode() < name.encode()))
        pairs.append((name, value(read, may_be_null)))
    return tuple((name, type(it), it) for name, it in pairs)  # the type, since True is 1 to Python


def units_of(text):
    return len(text.encode("utf-16-le")) // 2


def delta(read):
    operations, base, output = [], 0, 0
    for _ in range(read.u(4)):
        tag = read.u(1)
        must(1 <= tag <= 4)
        if tag == 1:
            text = read.text(4)
            must(text)
            operation = "insert", text, attributes(read, False)
            output += units_of(text)
        elif tag == 2:
            name = read.text(2)
            must(1 <= len(name.encode()) <= 64)
            embed = name, value(read, False)
            operation = "insert", embed, attributes(read, False)
            output += 1
        else:
            length = read.u(8)
            must(length)
            operation = ("retain", length, attributes(read, True)) if tag == 3 else ("delete", length, ())
            base += length
            output += length if tag == 3 else 0
        if operations:  # the normal form: no two neighbours are one, and an insert stands before a delete
            kind, what, with_ = operations[-1]
            is_text = not isinstance(what, tuple) and not isinstance(operation[1], tuple)
            must(not (kind == operation[0] and with_ == operation[2] and is_text))
            must(not (kind == "delete" and operation[0] == "insert"))
        operations.append(operation)
    must(not operations or operations[-1][0] != "retain" or operations[-1][2])
    must(base <= LONGEST and output <= LONGEST)
    return operations


# A document is a list of units, each a code unit or an embed, with its attributes.


def units(operation):
    _, what, with_ = operation
    if isinstance(what, tuple):
        return [(what, with_)]
    return [(unit, with_) for (unit,) in struct.iter_unpack("<H", what.encode("utf-16-le"))]


def parts_pair(document, place):
    before, after = document[place - 1 : place], document[place : place + 1]
    if not before or not after or isinstance(before[0][0], tuple) or isinstance(after[0][0], tuple):
        return False
    return 0xD800 <= before[0][0] < 0xDC00 <= after[0][0] < 0xE000


def applied(document, operations):
    made, place = [], 0
    for operation in operations:
        kind, what, with_ = operation
        if kind == "insert":
            made += units(operation)
            continue
        must(place + what <= len(document))
        if kind == "retain":
            for unit, has in document[place : place + what]:
                set_ = {name: (type_, it) for name, type_, it in has} | {name: (type_, it) for name, type_, it in with_}
                kept = [(name, *it) for name, it in set_.items() if it[1] is not None]
                made.append((unit, tuple(sorted(kept, key=lambda it: it[0].encode()))))
        place += what
        must(not parts_pair(document, place))
    return made + document[place:]


def weight(document, sources):
    total = sum(56 + 8 * len(revisions) for _, revisions in sources.values())
    for unit, with_ in document:
        total += 12
        if isinstance(unit, tuple):
            total += 12 + len(unit[0].encode()) + (len(unit[1].encode()) if isinstance(unit[1], str) else 0)
        for name, _, it in with_:
            total += 12 + len(name.encode()) + (len(it.encode()) if isinstance(it, str) else 0)
    return total


def operations_of(document):
    """The operations that insert a document, as they are printed."""
    runs = []
    for unit, with_ in document:
        if isinstance(unit, tuple):
            runs.append(({unit[0]: unit[1]}, with_))
        elif runs and isinstance(runs[-1][0], list) and runs[-1][1] == with_:
            runs[-1][0].append(unit)
        else:
            runs.append(([unit], with_))
    operations = []
    for what, with_ in runs:
        if isinstance(what, list):
            what = struct.pack(f"<{len(what)}H", *what).decode("utf-16-le")
        operations.append({"insert": what, **({"attributes": {name: it for name, _, it in with_}} if with_ else {})})
    return operations


class Document:
    """A document as it is read: from a cell, or from its creation on."""

    def __init__(self, name):
        self.name, self.revision, self.floor, self.is_live, self.units, self.sources = name, 0, 0, True, [], {}

    def keep_limits(self, shape):
        must(len(self.sources) <= shape["sources"] and weight(self.units, self.sources) <= shape["cell"] - 128)

    def go_on(self, entry, shape):
        must(entry["revision"] == self.revision + 1)
        last, revisions = self.sources.get(entry["source"], (0, []))
        must(entry["number"] == last + 1)
        must(self.is_live != (entry["tag"] == REVIVAL))
        if entry["tag"] == DELETION:
            self.units = []
        else:
            self.units = applied(self.units, entry["delta"])  # nothing stands in a document that is deleted
        self.is_live = entry["tag"] != DELETION
        self.sources[entry["source"]] = entry["number"], (revisions + [entry["revision"]])[-WINDOW:]
        self.revision = entry["revision"]
        self.floor = self.revision if entry["tag"] in (DELETION, REVIVAL) else max(self.floor, self.revision - shape["keep"])
        self.keep_limits(shape)


def cell(content, number):
    """The document of a cell's body."""
    read = Bytes(content)
    must(read.u(4) == number)
    document = Document(read.name(64))
    document.revision = document.floor = read.u(8)
    must(1 <= document.revision <= MOST)
    mark = read.u(1)
    must(mark in (0, 1))
    document.is_live = mark == 1
    operations = delta(read)
    must(all(operation[0] == "insert" for operation in operations))
    must(document.is_live or not operations)
    document.units = [unit for operation in operations for unit in units(operation)]
    names = []
    for _ in range(read.u(4)):
        name, last, count = read.name(32), read.u(8), read.u(1)
        must((not names or names[-1] < name) and 1 <= last <= MOST and 1 <= count <= min(WINDOW, last))
        revisions = [read.u(8) for _ in range(count)]
        must(all(a < b for a, b in zip([0] + revisions, revisions)) and revisions[-1] <= document.revision)
        names.append(name)
        document.sources[name] = last, revisions
    read.end()
    return document


def batch(content):
    read, entries = Bytes(content), []
    count = read.u(4)
    must(count)
    for _ in range(count):
        tag = read.u(1)
        must(tag in (CREATION, EDIT, DELETION, REVIVAL))
        entry = {"tag": tag, "document": read.u(4), "revision": read.u(8), "source": read.name(32), "number": read.u(8)}
        entry["name"] = read.name(64) if tag == CREATION else None
        entry["delta"] = None if tag == DELETION else delta(read)
        if tag == CREATION:
            must(entry["revision"] == entry["number"] == 1)
        else:
            must((3 if tag == REVIVAL else 2) <= entry["revision"] <= MOST and 1 <= entry["number"] <= MOST)
        entries.append(entry)
    read.end()
    return entries


def records(area):
    """The entries of a slot's area, in order."""
    place, entries = 0, []
    while area[place] == OPEN:
        must(place + 5 <= len(area))
        n = int.from_bytes(area[place + 1 : place + 5], "little")
        must(n and place + 6 + n <= len(area))
        entries += batch(area[place + 5 : place + 5 + n])
        place += 5 + n
    return entries


def found(content, newer):
    """What stands for a content by a pick: for each document its name, revision, floor and operations, None where it is deleted. Else the
    refusal's number."""
    if len(content) < 64 or content[0] != OPEN:
        return NOT_FORMATTED
    if content[1:9] == OLD_LETTERS:
        return OLD_FORMAT
    try:
        must(content[1:9] == LETTERS)
        numbers = struct.unpack_from("<6I", content, 9)
        must(all(least <= number <= most for number, (least, most) in zip(numbers, RANGES)))
        shape = dict(zip(("slots", "slot", "docs", "cell", "sources", "keep"), numbers))
        first = 64 + 2 * shape["docs"] * shape["cell"]
        must(len(content) >= first + shape["slots"] * shape["slot"])

        picked = {}
        for number in range(shape["docs"]):
            cells = []
            for place in (64 + (2 * number + which) * shape["cell"] for which in (0, 1)):
                if content[place] == OPEN:
                    n = int.from_bytes(content[place + 1 : place + 5], "little")
                    must(5 + n <= shape["cell"])
                    cells.append(cell(content[place + 5 : place + 5 + n], number))
            if cells:
                cells.sort(key=lambda it: it.revision)  # of two of one revision the first cell is the older one
                picked[number] = cells[-1 if newer else 0]
                picked[number].keep_limits(shape)
                must(picked[number].is_live or picked[number].revision >= 2)

        from_cells = {number: it.revision for number, it in picked.items()}  # entries up to these are skipped
        segments = {}
        for number in range(shape["slots"]):
            slot = content[first + number * shape["slot"] : first + (number + 1) * shape["slot"]]
            if slot[0] == OPEN:
                segment = int.from_bytes(slot[1:9], "little")
                must(segment and segment not in segments)
                segments[segment] = records(slot[9:])

        for entry in (entry for _, entries in sorted(segments.items()) for entry in entries):
            must(entry["document"] < shape["docs"])
            document = picked.get(entry["document"])
            if document is None:
                must(entry["name"] is not None)
                document = picked[entry["document"]] = Document(entry["name"])
            if entry["revision"] > from_cells.get(entry["document"], 0):
                document.go_on(entry, shape)
        must(sorted(picked) == list(range(len(picked))))
        must(len({document.name for document in picked.values()}) == len(picked))
    except Damage:
        return DAMAGED
    shown = [picked[number] for number in sorted(picked)]
    return [(it.name, it.revision, it.floor, operations_of(it.units) if it.is_live else None) for it in shown]
