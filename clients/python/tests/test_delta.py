"""Deltas: quill-delta's published behaviour, and 2,000 drawn cases beside `richd delta`."""

import hashlib
import json
import random
import subprocess
import unittest

from richd import delta
from tests.draw import Draw, ends_of
from tests.program import richd_or_skip

SEED = 41
CASES = 2_000
SAME_CASES = "07eb1687d7de765b3e6e225be17fc51b114b2776e7e9a9569058d769a71c9543"  # the sum of those that clients/js/tests/delta.test.js draws
TEXTS = ["a", "bc", "def", "ghij", "é", "ß€", "日本", "😀", "a😀b", "😀😀", "\n", "x" * 40, '"\\\u0001']
EMBEDS = [{"image": "a.png"}, {"image": "b.png"}, {"rule": True}, {"formula": 1}]
VALUES = {"bold": [True, 1, False], "italic": [True], "size": [1, 2, "1"], "color": ["red", "#fff"]}


def operations(*given):
    """Operations in short: a text inserts, a number above 0 retains, one below deletes; a pair has attributes."""
    made = []
    for one in given:
        content, attributes = one if isinstance(one, tuple) else (one, None)
        if isinstance(content, int):
            operation = {"retain": content} if content > 0 else {"delete": -content}
        else:
            operation = {"insert": content}
        made.append({**operation, "attributes": attributes} if attributes else operation)
    return made


BOLD, PLAIN, RED, BLUE = {"bold": True}, {"bold": None}, {"color": "red"}, {"color": "blue"}


class Compose(unittest.TestCase):
    """Cases after those of quill-delta's own test of compose."""

    ROWS = [
        ("insert + insert", ["A"], ["B"], ["BA"]),
        ("insert + retain", ["A"], [(1, {"bold": True, "color": "red", "font": None})], [("A", {"bold": True, "color": "red"})]),
        ("insert + delete", ["A"], [-1], []),
        ("delete + insert", [-1], ["B"], ["B", -1]),
        ("delete + retain", [-1], [(1, {"bold": True, "color": "red"})], [-1, (1, {"bold": True, "color": "red"})]),
        ("delete + delete", [-1], [-1], [-2]),
        ("retain + insert", [(1, BLUE)], ["B"], ["B", (1, BLUE)]),
        (
            "retain + retain",
            [(1, BLUE)],
            [(1, {"bold": True, "color": "red", "font": None})],
            [(1, {"bold": True, "color": "red", "font": None})],
        ),
        ("retain + delete", [(1, BLUE)], [-1], [-1]),
        ("insert in the middle of a text", ["Hello"], [3, "X"], ["HelXlo"]),
        ("insert and delete, either way", ["Hello"], [3, "X", -1], ["HelXo"]),
        ("delete and insert, either way", ["Hello"], [3, -1, "X"], ["HelXo"]),
        ("insert an embed", [{"src": "http://quilljs.com/image.png"}], [(1, {"alt": "logo"})], [({"src": "http://quilljs.com/image.png"}, {"alt": "logo"})]),
        ("delete all of a text", [4, "Hello"], [-9], [-4]),
        ("retain more than there is of a text", ["Hello"], [10], ["Hello"]),
        ("retain an embed", [{"image": "u"}], [1], [{"image": "u"}]),
        ("remove attributes", [("A", BOLD)], [(1, PLAIN)], ["A"]),
        ("remove an embed's attributes", [({"image": "u"}, BOLD)], [(1, PLAIN)], [{"image": "u"}]),
        ("retain from the beginning", [("A", BOLD), "B", ("C", BOLD), -1], [3, "D"], [("A", BOLD), "B", ("C", BOLD), "D", -1]),
        ("retain from the beginning, and cut", [("A", BOLD), "B", ("C", BOLD), 5, -1], [2, "D"], [("A", BOLD), "BD", ("C", BOLD), 5, -1]),
        ("retain from the end", ["A", ("B", BOLD), -1], [("C"), 4], ["CA", ("B", BOLD), -1]),
        ("retain from the end, and join", ["A", ("B", BOLD), ("C"), "D"], [2, "E", 1], ["A", ("B", BOLD), "ECD"]),
    ]

    def test_rows(self):
        for name, first, second, wanted in self.ROWS:
            with self.subTest(name):
                self.assertEqual(delta.compose(operations(*first), operations(*second)), operations(*wanted))

    def test_nothing_that_is_given_is_changed(self):
        first, second = operations("Test", ("!", BOLD)), operations((4, BOLD), -1)
        before = json.dumps([first, second])
        delta.compose(first, second)
        delta.transform(first, second, True)
        self.assertEqual(json.dumps([first, second]), before)

    def test_true_and_one_are_two_values(self):
        self.assertEqual(len(delta.normal([{"insert": "a", "attributes": {"x": True}}, {"insert": "b", "attributes": {"x": 1}}])), 2)

    def test_a_character_of_two_units_is_not_parted(self):
        document = [{"insert": "a😀b"}]
        self.assertEqual(delta.compose(document, operations(1, -2)), [{"insert": "ab"}])
        with self.assertRaises(ValueError):
            delta.compose(document, operations(2, "x"))


class Transform(unittest.TestCase):
    """Cases after those of quill-delta's own test of transform."""

    ROWS = [
        ("insert + insert, with priority", ["A"], ["B"], True, [1, "B"]),
        ("insert + insert", ["A"], ["B"], False, ["B"]),
        ("insert + retain", ["A"], [(1, {"bold": True, "color": "red"})], True, [1, (1, {"bold": True, "color": "red"})]),
        ("insert + delete", ["A"], [-1], True, [1, -1]),
        ("delete + insert", [-1], ["B"], True, ["B"]),
        ("delete + retain", [-1], [(1, {"bold": True, "color": "red"})], True, []),
        ("delete + delete", [-1], [-1], True, []),
        ("retain + insert", [(1, BLUE)], ["B"], True, ["B"]),
        ("retain + retain, with priority", [(1, BLUE)], [(1, {"bold": True, "color": "red"})], True, [(1, BOLD)]),
        ("retain + retain", [(1, BLUE)], [(1, {"bold": True, "color": "red"})], False, [(1, {"bold": True, "color": "red"})]),
        ("retain + delete", [(1, BLUE)], [-1], True, [-1]),
        ("alternating edits", [2, "si", -5], [1, "e", -5, 1, "ow"], False, [1, "e", -1, 2, "ow"]),
        ("alternating edits, the other way", [1, "e", -5, 1, "ow"], [2, "si", -5], False, [2, "si", -1]),
        ("conflicting appends", [3, "aa"], [3, "bb"], True, [5, "bb"]),
        ("conflicting appends, the other way", [3, "bb"], [3, "aa"], False, [3, "aa"]),
        ("prepend and append", ["aa"], [3, "bb"], False, [5, "bb"]),
        ("append and prepend", [3, "bb"], ["aa"], False, ["aa"]),
        ("trailing deletes of different lengths", [2, -1], [-3], False, [-2]),
        ("trailing deletes, the other way", [-3], [2, -1], False, []),
    ]

    def test_rows(self):
        for name, first, second, priority, wanted in self.ROWS:
            with self.subTest(name):
                self.assertEqual(delta.transform(operations(*first), operations(*second), priority), operations(*wanted))


class Drawn(unittest.TestCase):
    """Drawn documents and deltas."""

    def setUp(self):
        self.draw = random.Random(SEED)

    def attributes(self, with_null):
        names = self.draw.sample(sorted(VALUES), self.draw.choice([0, 0, 1, 1, 2]))
        return {name: self.draw.choice(VALUES[name] + ([None] if with_null else [])) for name in names}

    def insert(self):
        content = self.draw.choice(EMBEDS) if self.draw.random() < 0.15 else self.draw.choice(TEXTS)
        attributes = self.attributes(with_null=False)
        return {"insert": content, "attributes": attributes} if attributes else {"insert": content}

    def document(self):
        return delta.normal([self.insert() for _ in range(self.draw.randrange(0, 9))])

    def change(self, document):
        """A change of a document that parts no character, not in normal form."""
        places = ends_of(document)
        at, ops = 0, []
        while at < len(places) - 1 and self.draw.random() < 0.85:
            to = min(len(places) - 1, at + self.draw.choice([1, 1, 2, 3, 7]))
            count = places[to] - places[at]
            kind = self.draw.random()
            if kind < 0.35:
                ops.append(self.insert())
                continue
            if kind < 0.6:
                ops.append({"delete": count})
            else:
                attributes = self.attributes(with_null=True)
                ops.append({"retain": count, "attributes": attributes} if attributes else {"retain": count})
            at = to
        if self.draw.random() < 0.5:
            ops.append(self.insert())
        return ops

    def same(self, ours, *words):
        """What is computed here is what the program prints for these words, the deltas among them."""
        richd = richd_or_skip(self)
        words = [word if isinstance(word, str) else json.dumps({"ops": word}, ensure_ascii=False) for word in words]
        answer = subprocess.run([richd, "delta", *words], capture_output=True, text=True)
        self.assertEqual(answer.returncode, 0, (words, answer.stderr))
        self.assertEqual(json.dumps(ours, sort_keys=True), json.dumps(json.loads(answer.stdout)["ops"], sort_keys=True), words)

    def test_beside_the_program(self):
        for _ in range(CASES // 4):
            document = self.document()
            one, other = self.change(document), self.change(document)
            then = self.change(delta.compose(document, one))
            self.same(delta.compose(document, one), "apply", document, one)
            self.same(delta.compose(one, then), "compose", one, then)
            self.same(delta.transform(one, other, False), "transform", one, other)
            self.same(delta.transform(one, other, True), "transform", one, other, "--first")

    def test_the_cases_of_the_other_client_beside_the_program(self):
        draw = Draw(1)
        cases = [draw.case(number) for number in range(CASES)]
        kinds = ("insert", "retain", "delete", "attributes")
        spelled = [[call, *[[[it.get(kind) for kind in kinds] for it in ops] for ops in pair], first] for call, *pair, first in cases]
        text = json.dumps(spelled, ensure_ascii=False, separators=(",", ":"))
        self.assertEqual(hashlib.sha256(text.encode()).hexdigest(), SAME_CASES)
        for call, one, other, is_first in cases:
            ours = delta.compose(one, other) if call == "compose" else delta.transform(one, other, is_first)
            self.same(ours, call, one, other, *(["--first"] if is_first else []))

    def test_both_orders_come_to_the_same_document(self):
        for case in range(CASES):
            document = self.document()
            one, other = self.change(document), self.change(document)
            ways = [
                delta.compose(delta.compose(document, one), delta.transform(one, other, True)),
                delta.compose(delta.compose(document, other), delta.transform(other, one, False)),
            ]
            self.assertEqual(*(json.dumps(way, sort_keys=True) for way in ways), (case, document, one, other))

    def test_composing_is_applying_twice(self):
        for case in range(CASES):
            document = self.document()
            one = self.change(document)
            between = delta.compose(document, one)
            then = self.change(between)
            self.assertEqual(delta.compose(document, delta.compose(one, then)), delta.compose(between, then), (case, document, one, then))

    def test_parts_do_what_the_whole_does(self):
        for case in range(CASES):
            document = self.document()
            change = self.change(document)
            first, rest = delta.parted(change, 2, 60)
            self.assertLessEqual(len(first), 2)
            self.assertEqual(delta.compose(delta.compose(document, first), rest), delta.compose(document, change), (case, document, change))


class Parted(unittest.TestCase):
    def test_a_long_text_comes_in_pieces_that_fit(self):
        rest, pieces = operations(3, "\u0001é😀" * 30_000, -2), []
        while rest:
            first, rest = delta.parted(rest, 1_000, 48_000)
            pieces.append(first)
            self.assertLess(len(json.dumps(first, ensure_ascii=False).encode()), 65_000)
        whole = []
        for piece in pieces:
            whole = delta.compose(whole, piece)
        self.assertEqual(whole, operations(3, "\u0001é😀" * 30_000, -2))


if __name__ == "__main__":
    unittest.main()
