"""A document as HTML."""

from __future__ import annotations

import re
from html import escape
from typing import List, Optional

from .blocks import Attributes, Block, EmbedText, Line, Mark, Piece, blocks, depth, image, is_safe, nested, text_of
from .delta import Delta

_TAGS = {"bold": "strong", "italic": "em", "underline": "u", "strike": "s"}
_COLOR = re.compile(r"[a-z]+|#[0-9a-f]{3,8}|rgba?\([0-9., %]+\)", re.IGNORECASE | re.ASCII)
_SIDES = ("center", "right", "justify")


def to_html(document: Delta, embed: Optional[EmbedText] = None) -> str:
    """A document as HTML, which has no program in it whatever the document has: texts and values are escaped, and addresses that aren't of the
    web or of mails are left out. `embed` gives the text for an embed that is no image, `[name]` without it."""
    return "".join(_block(block, embed) + "\n" for block in blocks(document))


def _escaped(text: str) -> str:
    return escape(text, quote=True).replace("&#x27;", "&#39;")


def _shown(text: str) -> str:
    """A text whose blanks a browser shows all."""
    return re.sub(" (?= )", "&nbsp;", _escaped(text))


def _attribute(name: str, value: object) -> str:
    return f' {name}="{_escaped(str(value))}"'


def _marks(attributes: Attributes) -> List[Mark]:
    marks: List[Mark] = []

    def mark(name: str, tag: str, value: str = "") -> None:
        marks.append(Mark(name, value, f"<{tag}{value}>", f"</{tag}>"))

    link, script = attributes.get("link"), attributes.get("script")
    if isinstance(link, str) and is_safe(link):
        mark("link", "a", _attribute("href", link))
    for name, tag in _TAGS.items():
        if attributes.get(name):
            mark(name, tag)
    if script in ("sub", "super"):
        mark("script", "sub" if script == "sub" else "sup")
    colors = {"color": attributes.get("color"), "background-color": attributes.get("background")}
    styles = [f"{name}: {value}" for name, value in colors.items() if isinstance(value, str) and _COLOR.fullmatch(value)]
    if styles:
        mark("color", "span", _attribute("style", "; ".join(styles)))
    if attributes.get("code"):
        mark("code", "code")
    return marks


def _piece(piece: Piece, embed: Optional[EmbedText]) -> str:
    source = image(piece.insert)
    if source is None:
        return _shown(text_of(piece.insert, piece.attributes, embed))
    sizes = [(name, piece.attributes.get(name)) for name in ("alt", "width", "height")]
    told = "".join(_attribute(name, value) for name, value in sizes if isinstance(value, (str, int, float)) and not isinstance(value, bool))
    return f"<img{_attribute('src', source)}{told}>"


def _inline(line: Line, embed: Optional[EmbedText]) -> str:
    html = ""
    for kind, of in nested(line.pieces, _marks):
        html += _piece(of, embed) if kind == "piece" else of.opens if kind == "open" else of.closes
    return html


def _element(tag: str, line: Line, embed: Optional[EmbedText]) -> str:
    side = line.attributes.get("align")
    direction = _attribute("dir", "rtl") if line.attributes.get("direction") == "rtl" else ""
    style = _attribute("style", f"text-align: {side}") if side in _SIDES else ""
    return f"<{tag}{direction}{style}>{_inline(line, embed) or '<br>'}</{tag}>"


def _lists(lines: List[Line], embed: Optional[EmbedText]) -> str:
    """Lists stand within the item that they are deeper than."""
    html = ""
    tags: List[str] = []  # of each list that is open, the one within the other
    for line in lines:
        kind = line.attributes["list"]
        tag = "ol" if kind == "ordered" else "ul"
        deep = depth(line, len(tags))
        while len(tags) > deep + 1:
            html += f"</li></{tags.pop()}>"
        if len(tags) > deep and tags[-1] != tag:
            html += f"</li></{tags.pop()}>"
        html += "</li>" if len(tags) > deep else f"<{tag}>"
        if len(tags) == deep:
            tags.append(tag)
        box = {"checked": '<input type="checkbox" disabled checked> ', "unchecked": '<input type="checkbox" disabled> '}.get(kind, "")
        html += f"<li>{box}{_inline(line, embed)}"
    return html + "".join(f"</li></{tag}>" for tag in reversed(tags))


def _block(block: Block, embed: Optional[EmbedText]) -> str:
    if block.kind == "list":
        return _lists(block.lines, embed)
    if block.kind == "quote":
        return f"<blockquote>{''.join(_element('p', line, embed) for line in block.lines)}</blockquote>"
    if block.kind == "code":
        rows = ("".join(_escaped(text_of(*piece, embed)) for piece in line.pieces) + "\n" for line in block.lines)
        language = _attribute("class", f"language-{block.language}") if block.language else ""
        return f"<pre><code{language}>{''.join(rows)}</code></pre>"
    tag = f"h{block.level}" if block.kind == "header" else "p"
    return "\n".join(_element(tag, line, embed) for line in block.lines)
