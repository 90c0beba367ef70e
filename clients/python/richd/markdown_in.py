"""A document of Markdown, which markdown-it-py reads."""

from __future__ import annotations

import re
from typing import Any, List, Optional

from .blocks import Attributes, is_safe
from .delta import Delta, normal

_MARKS = {"strong_open": "bold", "em_open": "italic", "s_open": "strike"}
_LISTS = {"bullet_list_open": "bullet", "ordered_list_open": "ordered"}
_BOX = re.compile(r"\[([ xX])\](?: |\Z)")


def from_markdown(text: str) -> Delta:
    """A document of a text in Markdown, with Quill's formats: CommonMark, `~~` around what is struck out, and a box before what is to be done.
    HTML in it is text. It wants the package markdown-it-py."""
    try:
        from markdown_it import MarkdownIt
    except ImportError:
        raise ValueError("to read Markdown the package markdown-it-py is wanted, Debian's python3-markdown-it") from None
    parser = MarkdownIt("commonmark", {"html": False}).enable("strikethrough")
    return _Reader().read(parser.parse(text))


def _text(tokens: List[Any]) -> str:
    return "".join(" " if token.type.endswith("break") else _text(token.children) if token.children else token.content for token in tokens)


class _Container:
    """A list and whether its item has its line, or a quote."""

    def __init__(self, name: Optional[str] = None):
        self.list = name
        self.is_begun = True


class _Reader:
    """Makes a document of tokens."""

    def __init__(self) -> None:
        self.ops: Delta = []
        self.containers: List[_Container] = []

    def read(self, tokens: List[Any]) -> Delta:
        header = 0  # in which a text stands
        for token in tokens:
            kind = token.type
            if kind == "blockquote_open":
                self.containers.append(_Container())
            elif kind in _LISTS:
                self._begin_item()
                self.containers.append(_Container(_LISTS[kind]))
            elif kind in ("blockquote_close", "bullet_list_close", "ordered_list_close"):
                self.containers.pop()
            elif kind == "list_item_open":
                self.containers[-1].is_begun = False
            elif kind == "list_item_close":
                self._begin_item()
            elif kind == "heading_open":
                header = int(token.tag[1:])
            elif kind == "heading_close":
                header = 0
            elif kind == "inline":
                self._line(token.content, token.children, header)
            elif kind == "hr":
                attributes = self._line_attributes()
                self._insert("---", {})
                self._insert("\n", attributes)
            elif kind in ("fence", "code_block"):
                self._code(token.content, (token.info.split() or [""])[0])
        return normal(self.ops) or [{"insert": "\n"}]

    def _insert(self, content: Any, attributes: Attributes) -> None:
        self.ops.append({"insert": content, "attributes": dict(attributes)} if attributes else {"insert": content})

    def _begin_item(self) -> None:
        """Gives an item that has nothing before this its line."""
        if self.containers and not self.containers[-1].is_begun:
            self._insert("\n", self._line_attributes())

    def _line_attributes(self) -> Attributes:
        """The attributes of the next line, by what it stands in. Of an item the first line alone is one of the list."""
        container = self.containers[-1] if self.containers else None
        lists = [one for one in self.containers if one.list is not None]
        is_item = container is not None and not container.is_begun
        indent = len(lists) - is_item
        for one in lists:
            one.is_begun = True
        indented = {"indent": indent} if indent > 0 else {}
        if container is not None and is_item:
            return {"list": container.list, **indented}
        return {"blockquote": True} if container is not None and container.list is None else indented

    def _line(self, content: str, children: List[Any], header: int) -> None:
        attributes = self._line_attributes()
        if header > 0:
            attributes = {"header": header}
        box = _BOX.match(content) if "list" in attributes else None
        if box and children and children[0].type == "text" and _BOX.match(children[0].content):
            attributes["list"] = "unchecked" if box[1] == " " else "checked"
            children[0].content = _BOX.sub("", children[0].content, count=1)
        self._inline(children, attributes)
        self._insert("\n", attributes)

    def _inline(self, tokens: List[Any], line: Attributes) -> None:
        around: List[Attributes] = []
        for token in tokens:
            attributes = {name: value for marks in around for name, value in marks.items()}
            if token.type.endswith("_open"):
                around.append(self._mark(token))
            elif token.type.endswith("_close"):
                around.pop()
            elif token.type == "code_inline":
                self._insert(token.content, {**attributes, "code": True})
            elif token.type == "image":
                self._image(token, attributes)
            elif token.type == "softbreak" or (token.type == "hardbreak" and ("list" in line or "header" in line)):
                self._insert(" ", attributes)
            elif token.type == "hardbreak":
                self._insert("\n", line)
            else:
                self._insert(token.content, attributes)

    @staticmethod
    def _mark(token: Any) -> Attributes:
        if token.type != "link_open":
            return {_MARKS[token.type]: True}
        link = token.attrGet("href") or ""
        return {"link": link} if is_safe(link) else {}

    def _image(self, token: Any, attributes: Attributes) -> None:
        source, alt = token.attrGet("src") or "", _text(token.children or [])
        if is_safe(source, True):
            self._insert({"image": source}, {**attributes, "alt": alt} if alt else attributes)
        else:
            self._insert(alt or "[image]", attributes)

    def _code(self, text: str, language: str) -> None:
        self._line_attributes()
        for line in re.sub(r"\n\Z", "", text).split("\n"):
            self._insert(line, {})
            self._insert("\n", {"code-block": language or True})
