"""A document in lines, and its lines in blocks, by the names that Quill's formats have."""

from __future__ import annotations

import re
from typing import Any, Callable, Dict, List, NamedTuple, Optional, Tuple, Union

from .delta import Delta

Attributes = Dict[str, Any]
EmbedText = Callable[[str, Any, Attributes], str]  # the text for an embed that is no image
Insert = Union[str, Dict[str, Any]]

LISTS = ("ordered", "bullet", "checked", "unchecked")
MOST_HEADER = 6
_LANGUAGE = re.compile(r"[A-Za-z0-9_+#.-]+")
_SCHEMES = ("http", "https", "mailto", "tel")
_PICTURE = re.compile(r"data:image/(?:gif|png|jpeg|webp);base64,", re.IGNORECASE)


class Piece(NamedTuple):
    """A text without a line's end, or an embed."""

    insert: Insert
    attributes: Attributes


class Line(NamedTuple):
    pieces: List[Piece]
    attributes: Attributes


class Block(NamedTuple):
    """Lines of one kind that follow each other: text, header, list, quote or code."""

    kind: str
    level: int  # of a header, 1 to 6
    language: str  # of code, empty where it is none
    lines: List[Line]


class Mark(NamedTuple):
    """What stands around pieces of a line: its name and value, and how it begins and ends."""

    name: str
    value: Any
    opens: str
    closes: str


class Part(NamedTuple):
    """A part of a line: a piece, or where a mark opens or closes."""

    kind: str
    of: Any


def is_safe(address: str, is_image: bool = False) -> bool:
    """Whether an address is one of the web, of a mail or a telephone, or has no scheme; an image may be data as well. Browsers overlook blanks
    and control characters in a scheme, so they count for nothing here."""
    seen = re.sub("[\0-\x20\x7f-\xa0]", "", address)
    if is_image and _PICTURE.match(seen):
        return True
    scheme = re.match("([^/?#:]*):", seen)
    return seen != "" and (scheme is None or scheme[1].lower() in _SCHEMES)


def _lines(document: Delta) -> List[Line]:
    lines: List[Line] = []
    pieces: List[Piece] = []
    for operation in document:
        insert, attributes = operation["insert"], operation.get("attributes", {})
        for index, part in enumerate(insert.split("\n") if isinstance(insert, str) else [insert]):
            if index > 0:
                lines.append(Line(pieces, attributes))
                pieces = []
            if part != "":
                pieces.append(Piece(part, attributes))
    return [*lines, Line(pieces, {})] if pieces else lines


def _kind(attributes: Attributes) -> Tuple[str, int, str]:
    code, header = attributes.get("code-block"), attributes.get("header")
    if code:
        is_named = isinstance(code, str) and code != "plain" and _LANGUAGE.fullmatch(code)
        return "code", 0, code if is_named else ""
    if type(header) is int and 1 <= header <= MOST_HEADER:
        return "header", header, ""
    if attributes.get("list") in LISTS:
        return "list", 0, ""
    return "quote" if attributes.get("blockquote") else "text", 0, ""


def blocks(document: Delta) -> List[Block]:
    """The blocks of a document."""
    result: List[Block] = []
    for line in _lines(document):
        kind = _kind(line.attributes)
        if result and result[-1][:3] == kind:
            result[-1].lines.append(line)
        else:
            result.append(Block(*kind, [line]))
    return result


def depth(line: Line, most: int) -> int:
    """How deep a line of a list stands, at most so deep."""
    indent = line.attributes.get("indent")
    return max(0, min(indent, most)) if type(indent) is int else 0


def image(insert: Insert) -> Optional[str]:
    """The address of an image, where it may stand in a page."""
    address = insert.get("image") if isinstance(insert, dict) else None
    return address if isinstance(address, str) and is_safe(address, True) else None


def text_of(insert: Insert, attributes: Attributes, embed: Optional[EmbedText] = None) -> str:
    """The text that stands for a piece where nothing but text can."""
    if isinstance(insert, str):
        return insert
    name, value = next(iter(insert.items()))
    if name == "image":
        alt = attributes.get("alt")
        return alt if isinstance(alt, str) and alt else "[image]"
    return f"[{name}]" if embed is None else embed(name, value, attributes)


def nested(pieces: List[Piece], marks_of: Callable[[Attributes], List[Mark]]) -> List[Part]:
    """The pieces of a line with the ends of the marks that stand around them, one within the other in the order that each piece has them in."""
    parts: List[Part] = []
    around: List[Mark] = []
    for piece in [*pieces, None]:
        marks = [] if piece is None else marks_of(piece.attributes)
        same = 0
        while same < min(len(around), len(marks)) and around[same][:2] == marks[same][:2]:
            same += 1
        while len(around) > same:
            parts.append(Part("close", around.pop()))
        for mark in marks[same:]:
            around.append(mark)
            parts.append(Part("open", mark))
        if piece is not None:
            parts.append(Part("piece", piece))
    return parts
