"""What makes one document of another, on drawn documents and on some that are written here."""

import unittest

from richd import delta
from richd.difference import MOST_STEPS, difference
from tests.draw import Draw


class Differences(unittest.TestCase):
    def test_it_makes_the_one_of_the_other_and_what_is_typed_is_moved_past_it(self):
        draw = Draw(61)
        for number in range(3_000):
            old = draw.document()
            new = delta.compose(old, draw.change(old)) if number % 2 else draw.document()
            change, typed = difference(old, new), draw.change(old)
            self.assertEqual(delta.compose(old, change), new)
            self.assertEqual(change, delta.normal(change))
            shown = delta.compose(delta.compose(old, typed), delta.transform(typed, change, False))
            self.assertEqual(shown, delta.compose(new, delta.transform(change, typed, True)))

    def test_it_changes_no_more_than_differs(self):
        old = [{"insert": "one two\nthree four\nfive"}, {"insert": {"image": "p"}}, {"insert": "\nsix\n"}]
        new = [{"insert": "one 2\nfive"}, {"insert": {"image": "p"}}, {"insert": "\nsix "}, {"insert": "seven\n", "attributes": {"bold": True}}]
        change = [
            {"retain": 4},
            {"insert": "2"},
            {"delete": 14},
            {"retain": 10},
            {"insert": " "},
            {"insert": "seven", "attributes": {"bold": True}},
            {"retain": 1, "attributes": {"bold": True}},
        ]
        self.assertEqual(difference(old, new), change)

    def test_attributes_are_set_anew(self):
        old = [{"insert": "a word", "attributes": {"bold": True, "size": 1}}, {"insert": " more"}]
        new = [{"insert": "a "}, {"insert": "word more", "attributes": {"size": True}}]
        removed = {"bold": None, "size": None}
        change = [{"retain": 2, "attributes": removed}, {"retain": 4, "attributes": {"bold": None, "size": True}}]
        self.assertEqual(difference(old, new), [*change, {"retain": 5, "attributes": {"size": True}}])

    def test_where_too_much_differs_all_is_replaced_but_the_ends(self):
        ours = "".join(f"{number}\n" for number in range(MOST_STEPS))
        old, new = [{"insert": f"begin\n{ours}end\n"}], [{"insert": f"begin\n{ours.replace('1', 'x').replace('2', 'y')}end\n"}]
        change = difference(old, new)
        self.assertEqual(delta.compose(old, change), new)
        self.assertEqual([list(operation)[0] for operation in change], ["retain", "insert", "delete"])


if __name__ == "__main__":
    unittest.main()
