"""A document as HTML, Markdown and plain text, and a document of Markdown and of plain text: the rows of clients/conversions.json say how."""

from __future__ import annotations

import re
from typing import Callable, Dict, Optional

from .blocks import EmbedText, text_of
from .delta import Delta
from .html import to_html
from .markdown import to_markdown
from .markdown_in import from_markdown

__all__ = ["FROM", "TO", "from_markdown", "from_text", "to_html", "to_markdown", "to_text"]


def to_text(document: Delta, embed: Optional[EmbedText] = None) -> str:
    """A document's text as it is, with a text for each embed: an image's is its `alt`."""
    return "".join(text_of(operation["insert"], operation.get("attributes", {}), embed) for operation in document)


def from_text(text: str) -> Delta:
    """A document that has a text. Each of its lines is a line, whichever end it has, and so is what stands behind the last end."""
    lines = re.sub("\r\n?", "\n", text)
    return [{"insert": lines if lines.endswith("\n") else lines + "\n"}]


TO: Dict[str, Callable[[Delta], str]] = {"html": to_html, "markdown": to_markdown, "text": to_text}
FROM: Dict[str, Callable[[str], Delta]] = {"markdown": from_markdown, "text": from_text}
