"""The commands that read a store's file, which may be served meanwhile. docs/OPERATIONS.md, "How full a store is", says what they print."""

from __future__ import annotations

import argparse
import sys
from typing import Any

from . import inspection, jumping
from .progress import printed, silent
from .served import StoreFile
from .spelling import MOST_REVISIONS


def add(commands: Any) -> None:
    """Adds them to the parser of `python3 -m richd`."""
    info = commands.add_parser("info", help="how full a store is, which may be served")
    info.add_argument("--documents", action="store_true", help="a line for each document")
    info.set_defaults(action=_info)
    check = commands.add_parser("check", help="whether a store is sound, which may be served")
    check.set_defaults(action=_check)
    dump = commands.add_parser("dump", help="what a store holds, which may be served")
    dump.set_defaults(action=_dump)
    jump = commands.add_parser("jump", help="makes a copy that may be put back: its documents are at revisions that nobody has seen")
    jump.set_defaults(action=_jump)
    for command in (info, check, dump, jump):
        command.add_argument("store", metavar="STORE")
        command.add_argument("--quiet", action="store_true", help="prints no progress")
        command.set_defaults(about="store")
    jump.add_argument("copy", metavar="COPY", help="the file to make, which may not be there")
    by = "revisions that each document jumps by, more than may have been lost since STORE was copied; %(default)s without it"
    jump.add_argument("--by", type=_revisions, default=jumping.JUMP, metavar="N", help=by)


def _revisions(word: str) -> int:
    if not (word.isdigit() and 0 < int(word) <= MOST_REVISIONS):
        raise argparse.ArgumentTypeError(f"{word!r} is no count of revisions")
    return int(word)


def _info(options: argparse.Namespace) -> int:
    lines = inspection.info_documents if options.documents else inspection.info
    return _print(options, lines)


def _check(options: argparse.Namespace) -> int:
    return _print(options, lambda file, progress: [inspection.check(file, progress)])


def _dump(options: argparse.Namespace) -> int:
    return _print(options, inspection.dump)


def _jump(options: argparse.Namespace) -> int:
    file = StoreFile(options.store)
    try:
        count = jumping.jump(file, options.copy, options.by, silent if options.quiet else printed())
    finally:
        file.close()
    if not options.quiet:
        print(f"documents {count}")
    return 0


def _print(options: argparse.Namespace, lines: Any) -> int:
    file = StoreFile(options.store)
    try:
        for line in lines(file, silent if options.quiet else printed()):
            sys.stdout.write(line + "\n")
    finally:
        file.close()
    return 0
