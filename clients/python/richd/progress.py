"""How far long work has come, for who waits for it."""

from __future__ import annotations

import sys
import time
from typing import Callable

Progress = Callable[[str, int, int], None]  # what is done, how many of it are, and of how many
EVERY = 1.0  # seconds from one line to the next


def silent(what: str, done: int, total: int) -> None:
    """Tells nobody."""


def printed() -> Progress:
    """Prints a line on standard error once a second: work that takes less prints nothing."""
    told = time.monotonic()

    def tell(what: str, done: int, total: int) -> None:
        nonlocal told
        if time.monotonic() - told >= EVERY:
            told = time.monotonic()
            print(f"{what}: {done:,} of {total:,}", file=sys.stderr, flush=True)

    return tell
