"""The commands that write a document as HTML, Markdown or plain text, and make one of Markdown or plain text."""

from __future__ import annotations

import argparse
import os
import sys
from typing import Any

from . import archive, connect, inspection
from .address import address_of
from .convert import FROM, TO
from .delta import Delta
from .difference import difference
from .folding import Unknown
from .owner import TIMEOUT
from .served import StoreFile

SQLITE = b"SQLite format 3\0"  # how the file of an archive begins


def add(commands: Any) -> None:
    """Adds them to the parser of `python3 -m richd`."""
    export = commands.add_parser("export", help="prints a document as HTML, Markdown or plain text")
    export.set_defaults(action=_export, about="place")
    export.add_argument("place", metavar="PLACE", help="a server (HOST:PORT), a store's file, which may be served, or an archive's DATABASE")
    read = commands.add_parser("import", help="makes a document, or changes it, so that it is the Markdown or plain text of standard input")
    read.set_defaults(action=_import, about="place")
    read.add_argument("place", metavar="HOST:PORT", type=address_of)
    for command, forms in ((export, sorted(TO)), (read, sorted(FROM))):
        command.add_argument("doc", metavar="DOC")
        command.add_argument("--as", dest="form", choices=forms, required=True)
        command.add_argument("--timeout", type=float, default=TIMEOUT, metavar="SECONDS", help="for each answer of a server; %(default)s without it")
    name = read.add_mutually_exclusive_group(required=True)
    name.add_argument("--source", metavar="NAME", help="the name under which it is changed, which nobody else uses at the time")
    name.add_argument("--keep", metavar="FILE", help="a file that keeps such a name from run to run")


def _export(options: argparse.Namespace) -> int:
    sys.stdout.write(TO[options.form](contents(options.place, options.doc, options.timeout)))
    return 0


def contents(place: str, doc: str, timeout: float = TIMEOUT) -> Delta:
    """What a document has, as a server, the file of a store or an archive has it."""
    if not (os.path.exists(place) or place.startswith("postgres")):
        try:
            address = address_of(place)
        except argparse.ArgumentTypeError:
            raise ValueError("it is no HOST:PORT, and no file") from None
        with connect(*address, timeout=timeout, source="reader") as client:  # who only reads takes no place
            return client.fetch(doc).ops
    return _archived(place, doc) if _is_archive(place) else _stored(place, doc)


def _is_archive(place: str) -> bool:
    if not os.path.exists(place):
        return True
    with open(place, "rb") as file:
        return file.read(len(SQLITE)) == SQLITE


def _archived(place: str, doc: str) -> Delta:
    rev, ops = archive.contents(archive.opened(place), doc)
    if ops is None:
        raise Unknown(f"{doc} is deleted at revision {rev}")
    return ops


def _stored(place: str, doc: str) -> Delta:
    file = StoreFile(place)
    try:
        states = [state for name, state in inspection.states_in(file).documents.values() if name == doc]
    finally:
        file.close()
    if not states or not states[0].is_live:
        raise ValueError(f"{doc} is deleted" if states else f"{doc} isn't there")
    return states[0].ops


def _import(options: argparse.Namespace) -> int:
    wanted = FROM[options.form](sys.stdin.read())
    with connect(*options.place, timeout=options.timeout, source=options.source, keep=options.keep) as client:
        with client.open(options.doc, create=[]) as document:
            document.apply(difference(document.contents, wanted))
            document.flush()
            print(f"revision {document.revision}")
    return 0
