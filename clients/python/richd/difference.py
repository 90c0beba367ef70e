"""What makes one document of another, where nobody knows what happened in between.

Lines are compared first, and then words within the lines that differ; what both documents have is retained, with its attributes set anew
where they differ. So what somebody does to the one document can be moved to the other, past this delta.
"""

from __future__ import annotations

import itertools
import json
import re
from typing import Any, Dict, Hashable, Iterator, List, NamedTuple, Optional, Sequence, Tuple

from .delta import Delta, normal, units

MOST_STEPS = 500  # lines, or words, that only one of two lists has; where there are more all are replaced
TOKEN = re.compile(r"\n|\w+|[^\w\n]")

Attributes = Optional[Dict[str, Any]]
Block = Tuple[bool, int, int, int, int]  # whether both have it, and from where to where it stands in each


class Token(NamedTuple):
    """A word, a sign or an embed."""

    content: Any
    attributes: Attributes
    key: Hashable  # the same for the same content

    @property
    def size(self) -> int:
        return units(self.content) if isinstance(self.content, str) else 1


def difference(old: Delta, new: Delta) -> Delta:
    """The delta that makes the document `new` of the document `old`."""
    ours, theirs = list(_tokens(old)), list(_tokens(new))
    result: Delta = []
    for is_same, start, end, other_start, other_end in _blocks(ours, theirs):
        if is_same:
            for one, other, size in _runs(zip(ours[start:end], theirs[other_start:other_end])):
                result.append({"retain": size, "attributes": _changed(one, other)})
        else:
            result += _inserts(theirs[other_start:other_end])
            result.append({"delete": sum(one.size for one in ours[start:end])})
    return normal(result)


def _runs(pairs: Iterator[Tuple[Token, Token]]) -> Iterator[Tuple[Attributes, Attributes, int]]:
    """Stretches of the same attributes in each of two documents, with their units."""
    for _, run in itertools.groupby(pairs, lambda pair: (id(pair[0].attributes), id(pair[1].attributes))):
        first, *others = run
        yield first[0].attributes, first[1].attributes, sum(one.size for one, _ in [first, *others])


def _inserts(tokens: List[Token]) -> Iterator[Dict[str, Any]]:
    for _, run in itertools.groupby(tokens, lambda token: (id(token.attributes), isinstance(token.content, str) or id(token))):
        first, *others = run
        if isinstance(first.content, str):
            yield {"insert": "".join([first.content, *(other.content for other in others)]), "attributes": first.attributes}
        else:
            yield {"insert": first.content, "attributes": first.attributes}


def _tokens(document: Delta) -> Iterator[Token]:
    for operation in document:
        content, attributes = operation["insert"], operation.get("attributes")
        if isinstance(content, str):
            for word in TOKEN.findall(content):
                yield Token(word, attributes, word)
        else:
            yield Token(content, attributes, (json.dumps(content, sort_keys=True),))


def _blocks(ours: List[Token], theirs: List[Token]) -> Iterator[Block]:
    """Of two lists of tokens what both have and what they haven't, in order."""
    lines, other_lines = _lines(ours), _lines(theirs)
    places, other_places = _places(lines), _places(other_lines)
    for is_same, start, end, other_start, other_end in _compared(lines, other_lines):
        first, last, other_first, other_last = places[start], places[end], other_places[other_start], other_places[other_end]
        if is_same:
            yield True, first, last, other_first, other_last
            continue
        keys = [token.key for token in ours[first:last]]
        other_keys = [token.key for token in theirs[other_first:other_last]]
        for is_one, begin, stop, other_begin, other_stop in _compared(keys, other_keys):
            yield is_one, first + begin, first + stop, other_first + other_begin, other_first + other_stop


def _lines(tokens: List[Token]) -> List[Hashable]:
    lines: List[Hashable] = []
    line: List[Hashable] = []
    for token in tokens:
        line.append(token.key)
        if token.key == "\n":
            lines.append(tuple(line))
            line = []
    return lines + [tuple(line)] if line else lines


def _places(lines: Sequence[Any]) -> List[int]:
    """Where each line begins, in tokens, and where the last one ends."""
    return [0, *itertools.accumulate(len(line) for line in lines)]


def _compared(ours: List[Hashable], theirs: List[Hashable]) -> Iterator[Block]:
    shorter = min(len(ours), len(theirs))
    start = next((place for place in range(shorter) if ours[place] != theirs[place]), shorter)
    rest = shorter - start
    end = next((count for count in range(rest) if ours[-1 - count] != theirs[-1 - count]), rest)
    stop, other_stop = len(ours) - end, len(theirs) - end
    yield True, 0, start, 0, start
    at, other_at = start, start
    for place, other_place, count in _matches(ours[start:stop], theirs[start:other_stop]):
        yield False, at, start + place, other_at, start + other_place
        at, other_at = start + place + count, start + other_place + count
        yield True, at - count, at, other_at - count, other_at
    yield False, at, stop, other_at, other_stop
    yield True, stop, len(ours), other_stop, len(theirs)


def _matches(ours: List[Hashable], theirs: List[Hashable]) -> Iterator[Tuple[int, int, int]]:
    """What two lists have in common, in order, on the shortest way from the one to the other (Myers, 1986): where it stands in each, and how
    long it is. Nothing where that way is long."""
    rows: List[List[int]] = []  # after so many steps how far the first list is taken over, by how much more of it is than of the second
    for steps in range(MOST_STEPS + 1):
        row = []
        for index in range(steps + 1):
            before = rows[-1] if rows else [0]
            is_down = index == 0 or (index < steps and before[index - 1] < before[index])
            x = before[index] if is_down else before[index - 1] + 1
            y = x - (2 * index - steps)
            while x < len(ours) and y < len(theirs) and ours[x] == theirs[y]:
                x, y = x + 1, y + 1
            row.append(x)
            if x >= len(ours) and y >= len(theirs):
                rows.append(row)
                return iter(_traced(rows, len(ours), len(theirs))[::-1])
        rows.append(row)
    return iter(())


def _traced(rows: List[List[int]], x: int, y: int) -> List[Tuple[int, int, int]]:
    """The way that led to the ends of both lists, backwards: what both have on it."""
    matches = []
    for steps in range(len(rows) - 1, -1, -1):
        index = (x - y + steps) // 2
        begin, other_begin, before = 0, 0, rows[steps - 1]
        if steps:
            is_down = index == 0 or (index < steps and before[index - 1] < before[index])
            begin = before[index] if is_down else before[index - 1] + 1
            other_begin = begin - (x - y)
        if x > begin:
            matches.append((begin, other_begin, x - begin))
        x, y = (begin, other_begin - 1) if steps and is_down else (begin - 1, other_begin)
    return matches


def _changed(one: Attributes, other: Attributes) -> Dict[str, Any]:
    """What makes the attributes `other` of the attributes `one`: None removes one."""
    one, other = one or {}, other or {}
    if one is other:
        return {}
    removed = {name: None for name in one if name not in other}
    return {**removed, **{name: value for name, value in other.items() if name not in one or json.dumps(one[name]) != json.dumps(value)}}
