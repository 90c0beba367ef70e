"""The address of a server, as commands are given it."""

from __future__ import annotations

import argparse
from typing import Tuple

Address = Tuple[str, int]


def address_of(word: str) -> Address:
    host, colon, port = word.rpartition(":")
    if not (host and colon and port.isdigit() and int(port) < 65_536):
        raise argparse.ArgumentTypeError(f"{word!r} is no HOST:PORT")
    return host.strip("[]"), int(port)
