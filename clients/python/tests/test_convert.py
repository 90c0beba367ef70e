"""Documents as HTML, Markdown and text, and of Markdown and text, by the rows that the client in JavaScript is tested with as well."""

import importlib.util
import json
import os
import unittest

from richd import convert

ROWS = os.path.join(os.path.dirname(os.path.dirname(os.path.dirname(os.path.abspath(__file__)))), "conversions.json")


class Conversions(unittest.TestCase):
    @classmethod
    def setUpClass(cls):
        with open(ROWS, encoding="utf-8") as file:
            cls.rows = json.load(file)

    def test_the_rows_of_documents(self):
        for row in self.rows["to"]:
            for form, write in convert.TO.items():
                with self.subTest(row["name"], form=form):
                    self.assertEqual(write(row["ops"]), row[form])

    def test_the_rows_of_texts(self):
        rows = [row for row in self.rows["from"] if "text" in row]
        self.assertGreater(len(rows), 3)
        for row in rows:
            with self.subTest(row["name"]):
                self.assertEqual(convert.from_text(row["text"]), row["ops"])

    def test_the_rows_of_markdown_and_the_markdown_of_each_document(self):
        if importlib.util.find_spec("markdown_it") is None:
            with self.assertRaisesRegex(ValueError, "markdown-it-py"):
                convert.from_markdown("a")
            self.skipTest("there is no markdown-it-py, Debian's python3-markdown-it")
        for row in [*self.rows["to"], *(row for row in self.rows["from"] if "markdown" in row)]:
            with self.subTest(row["name"]):
                self.assertEqual(convert.from_markdown(row["markdown"]), row.get("back", row["ops"]))

    def test_an_embed_has_the_text_that_it_is_given(self):
        ops = [{"insert": {"mention": "7"}, "attributes": {"bold": True}}, {"insert": "\n"}]

        def embed(name, value, attributes):
            return f"<{name} {value} {attributes['bold']}>"

        self.assertEqual(convert.to_html(ops, embed), "<p><strong>&lt;mention 7 True&gt;</strong></p>\n")
        self.assertEqual(convert.to_markdown(ops, embed), "**\\<mention 7 True>**\n")
        self.assertEqual(convert.to_text(ops, embed), "<mention 7 True>\n")


if __name__ == "__main__":
    unittest.main()
