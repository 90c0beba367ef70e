"""A document as Markdown: CommonMark, with `~~` around what is struck out, and a box before what is to be done."""

from __future__ import annotations

import re
import unicodedata
from typing import List, NamedTuple, Optional
from urllib.parse import quote

from .blocks import Attributes, EmbedText, Line, Mark, Piece, blocks, depth, image, is_safe, nested, text_of
from .delta import Delta

_BLANK = "[\t\f \u00a0\u1680\u2000-\u200a\u2028\u2029\u202f\u205f\u3000\ufeff]"
_APART = re.compile(r"[\s!-/:-@\[-`{-~]")  # a blank, or what is no letter, beside which an end of a mark is one
_EMPHASIS = ("bold", "italic", "strike")  # within links, and each within those before; an end that has a blank within isn't read
_ENTITY = r"&(?=#?[A-Za-z0-9_]+;)"


class _Segment(NamedTuple):
    piece: Piece
    is_blank: bool


class _Written(NamedTuple):
    """A part of a line: a text, one that is whole and written as it is, or where a mark opens or closes."""

    kind: str
    text: str


def to_markdown(document: Delta, embed: Optional[EmbedText] = None) -> str:
    """A document as Markdown. It has no empty lines, no format that Markdown doesn't have, and no address that isn't of the web or of mails."""
    written: List[str] = []
    is_list = is_other = False  # what was written last
    for kind, level, language, lines in blocks(document):
        filled = lines if kind in ("list", "code") else [line for line in lines if line.pieces]
        if not filled:
            continue
        is_other = kind == "list" and is_list and not is_other
        is_list = kind == "list"
        if kind == "list":
            written.append(_lists(lines, is_other, embed))
        elif kind == "code":
            written.append(_fenced(lines, language, embed))
        elif kind == "quote":
            written.append("\n>\n".join(f"> {_begun(line, embed)}" for line in filled))
        elif kind == "text":
            written += [_begun(line, embed) for line in filled]
        else:
            written += [f"{'#' * level} " + re.sub(r"#\Z", r"\\#", _inline(line, embed)) for line in filled]
    return "\n".join(f"{block}\n" for block in written)


def _reference(character: str) -> str:
    return f"&#{ord(character)};"


def _escaped(text: str) -> str:
    """A text whose characters Markdown takes for themselves."""
    return re.sub(rf"[\\`*_\[\]<~]|{_ENTITY}", r"\\\g<0>", text).replace("\r", _reference("\r"))


def _destination(address: str) -> str:
    encoded = re.sub(r"[\s<>`\0-\x1f\x7f]", lambda found: quote(found[0], safe=""), address)
    return re.sub(rf"[\\()\[\]*_]|{_ENTITY}", r"\\\g<0>", encoded)


def _code_span(code: str) -> str:
    runs = {len(run) for run in re.findall("`+", code)}
    length = next(length for length in range(1, len(runs) + 2) if length not in runs)
    fence = "`" * length
    is_padded = re.search(r"^`|`\Z|^ .*[^ ].* \Z", code) is not None
    return f"{fence} {code} {fence}" if is_padded else f"{fence}{code}{fence}"


def _segments(line: Line) -> List[Piece]:
    """The pieces of a line, parted at their blanks; no blank at an end of a mark has it."""
    segments: List[_Segment] = []
    for insert, attributes in line.pieces:
        is_text = isinstance(insert, str) and not attributes.get("code")
        parts = [part for part in re.split(f"({_BLANK}+)", insert) if part] if is_text and isinstance(insert, str) else [insert]
        for part in parts:
            segments.append(_Segment(Piece(part, dict(attributes)), is_text and re.match(_BLANK, str(part)) is not None))
    for count, name in enumerate(_EMPHASIS):
        around = ("link", *_EMPHASIS[: count + 1])
        for ordered in (segments, segments[::-1]):
            beside: Attributes = {}
            for piece, is_blank in ordered:
                if is_blank and any(piece.attributes.get(mark) != beside.get(mark) for mark in around):
                    piece.attributes.pop(name, None)
                beside = piece.attributes
    return [segment.piece for segment in segments]


def _written(piece: Piece, embed: Optional[EmbedText]) -> _Written:
    source, alt = image(piece.insert), piece.attributes.get("alt")
    if source is not None:
        told = _escaped(re.sub(r"\s", " ", alt)) if isinstance(alt, str) else ""
        return _Written("whole", f"![{told}]({_destination(source)})")
    text = text_of(piece.insert, piece.attributes, embed).replace("\n", " ")
    return _Written("whole", _code_span(text)) if piece.attributes.get("code") else _Written("text", text)


def _parts(line: Line, embed: Optional[EmbedText]) -> List[_Written]:
    segments = _segments(line)
    italics = "_" if any(piece.attributes.get("bold") for piece in segments) else "*"  # so that no end of one mark is taken for another's

    def marks(attributes: Attributes) -> List[Mark]:
        link = attributes.get("link")
        linked = [Mark("link", link, "[", f"]({_destination(link)})")] if isinstance(link, str) and is_safe(link) else []
        ends = {"bold": "**", "italic": italics, "strike": "~~"}
        return linked + [Mark(name, True, end, end) for name, end in ends.items() if attributes.get(name)]

    parts: List[_Written] = []
    for kind, of in nested(segments, marks):
        part = _written(of, embed) if kind == "piece" else _Written(kind, of.opens if kind == "open" else of.closes)
        if part.kind == "text" and parts and parts[-1].kind == "text":
            parts[-1] = _Written("text", parts[-1].text + part.text)
        else:
            parts.append(part)
    return parts


def _is_word(character: str) -> bool:
    return len(character) == 1 and unicodedata.category(character)[0] in "LN"


def _is_numbered(beside: str, end: str, within: str) -> bool:
    """Whether the character beside a mark's end is written by its number, since Markdown wouldn't read the end otherwise."""
    return end[0] not in "[]" and not _APART.fullmatch(beside) and (end == "_" or not _is_word(within))


def _characters(parts: List[_Written]) -> List[List[str]]:
    """The characters of the parts of a line, those by their numbers that have to be. One may stand beside two ends."""
    characters = [list(text) for _, text in parts]
    is_done = False
    while not is_done:
        is_done = True
        for at, (kind, text) in enumerate(parts):
            if kind not in ("open", "close"):
                continue
            beside, within, last, first = (at - 1, at + 1, -1, 0) if kind == "open" else (at + 1, at - 1, 0, -1)
            if not (0 <= beside < len(parts) and parts[beside].kind == "text"):
                continue
            character = characters[beside][last]
            if len(character) == 1 and _is_numbered(character, text, characters[within][first]):
                characters[beside][last] = _reference(character)
                is_done = False
    return characters


def _inline(line: Line, embed: Optional[EmbedText]) -> str:
    """The text of a line."""
    parts = _parts(line, embed)
    written = ""
    for at, characters in enumerate(_characters(parts)):
        if parts[at].kind != "text":
            written += parts[at].text
            continue
        start = characters.pop(0) if len(characters[0]) > 1 else ""
        end = characters.pop() if characters and len(characters[-1]) > 1 else ""
        text = _escaped("".join(characters))
        if at + 1 < len(parts) and parts[at + 1].text == "[":
            text = re.sub(r"!\Z", r"\\!", text)  # it would be an image
        written += start + text + end
    return re.sub(rf"\A{_BLANK}|{_BLANK}\Z", lambda found: _reference(found[0]), written)


def _begun(line: Line, embed: Optional[EmbedText]) -> str:
    """The text of a line that begins with it, where some characters begin a block."""
    text = re.sub(r"\A(?:>|#{1,6}(?=[ \t]|\Z)|[+-](?=[ \t-]|\Z))", r"\\\g<0>", _inline(line, embed))
    return re.sub(r"\A([0-9]{1,9})(?=[.)])", r"\1\\", text)


class _List(NamedTuple):
    is_ordered: bool
    items: int
    width: int


def _lists(lines: List[Line], is_other: bool, embed: Optional[EmbedText]) -> str:
    """Lists, other than those before, which would be one with them."""
    opened: List[_List] = []  # each within an item of the one before
    rows: List[str] = []
    is_empty = True  # the item before
    for line in lines:
        kind = line.attributes["list"]
        is_ordered = kind == "ordered"
        deep = depth(line, len(opened))
        before = opened[deep] if len(opened) > deep else None
        is_first = before is None or before.is_ordered != is_ordered
        count = 1 if before is None or is_first else before.items + 1
        sign = f"{count}{')' if is_other else '.'}" if is_ordered else "*" if is_other else "-"
        opened[deep:] = [_List(is_ordered, count, len(sign) + 1)]
        box = {"checked": "[x] ", "unchecked": "[ ] "}.get(kind, "")
        text = box + _inline(line, embed) if box else _begun(line, embed)
        if is_first and text == "" and not is_empty:
            rows.append("")  # an empty item begins no list right behind a text
        is_empty = text == ""
        rows.append((" " * sum(one.width for one in opened[:deep]) + f"{sign} {text}").rstrip(" "))
    return "\n".join(rows)


def _fenced(lines: List[Line], language: str, embed: Optional[EmbedText]) -> str:
    rows = ["".join(text_of(*piece, embed) for piece in line.pieces) for line in lines]
    fence = "`" * (max([2, *(len(run) for row in rows for run in re.findall("`{3,}", row))]) + 1)
    return "\n".join([fence + language, *rows, fence])
