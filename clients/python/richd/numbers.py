"""How the next number of a source is found, where nobody has kept it.

A probe is an edit on a base that no document has reached, so it is never taken. Its refusal tells of its number whether it was used.
"""

from __future__ import annotations

import enum
from typing import Dict, List, Optional

from . import messages
from .messages import Message, Refused

UNREACHED = 2**53 - 1  # a revision that no document has
BEYOND = 2**53  # above each number
PROBES = 15  # that are asked at once


class Finding(enum.Enum):
    """What a probe tells of its number."""

    USED = enum.auto()
    NEXT = enum.auto()
    ABOVE = enum.auto()  # the next one


class Search:
    """Looks for the lowest number from 1 on that isn't used, where none above it is. It takes some rounds of probes; one, where a likely
    number is given and is the right one."""

    def __init__(self, likely: Optional[int] = None) -> None:
        self.found: Optional[int] = None
        self._used, self._unused = 0, BEYOND
        self._findings: Dict[int, Finding] = {}
        self.probes = self._spread() if likely is None else [likely]  # the numbers of this round

    def tell(self, number: int, error: Optional[Exception]) -> bool:
        """What the probe of a number was refused with. Gives whether the round is over: then there are other probes, or the number is
        found."""
        self._findings[number] = _finding(error)
        if len(self._findings) < len(self.probes):
            return False
        for probe, finding in sorted(self._findings.items()):
            if finding is Finding.USED:
                self._used = probe
                continue
            if finding is Finding.NEXT:
                self._used = probe - 1
            self._unused = probe
            break
        if self._unused - self._used == 1:
            self.found = self._unused
        self.probes, self._findings = self._spread(), {}
        return True

    def _spread(self) -> List[int]:
        """The numbers of the next round."""
        if self._unused == BEYOND:
            return [self._used + 2**exponent for exponent in range(53) if self._used + 2**exponent < BEYOND]
        step = -(-(self._unused - self._used) // (PROBES + 1))
        return list(range(self._used + step, self._unused, step))


def probe(doc: str, number: int) -> Message:
    """An edit that is never taken."""
    return messages.edit(doc, number, UNREACHED, [])


def _finding(error: Optional[Exception]) -> Finding:
    code = error.code if isinstance(error, Refused) else None
    if code is None or code == messages.OLD_NUMBER:
        return Finding.USED  # it was taken, now or long ago
    return Finding.ABOVE if code == messages.GAP else Finding.NEXT
