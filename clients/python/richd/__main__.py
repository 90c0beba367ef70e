"""What an operator does by hand: `python3 -m richd COMMAND ..`."""

from __future__ import annotations

import argparse
import json
import re
import secrets
import sys
from typing import Any, List

from . import Closed, Refused, Unexpected, __version__, archive_commands, connect, convert_commands, messages, store_commands
from .address import Address, address_of
from .client import Client
from .delta import Delta, text
from .difference import difference
from .link import TcpLink
from .messages import Message
from .owner import TIMEOUT
from .spelling import StoreError

WRITTEN = ".health"  # the document, and the source, of `health --write`


def main(words: List[str]) -> int:
    options = parser().parse_args(words)
    try:
        return int(options.action(options))
    except KeyboardInterrupt:
        return 130
    except BrokenPipeError:
        return 1  # nobody reads what is printed any more
    except (Refused, Unexpected, Closed, StoreError, OSError, ValueError) as error:
        print(f"{_about(options)}: {error}", file=sys.stderr)
        return 1


def _about(options: argparse.Namespace) -> str:
    """What an error is of: the server, the archive or the store."""
    about = getattr(options, options.about)
    return re.sub("//[^/]*@", "//", about) if isinstance(about, str) else "{}:{}".format(*about)  # no password of a URL


def parser() -> argparse.ArgumentParser:
    result = argparse.ArgumentParser(prog="python -m richd", description="Looks after servers, stores and archives of richd.")
    result.add_argument("--version", action="version", version=f"richd for Python {__version__}")
    commands = result.add_subparsers(required=True, metavar="COMMAND")
    for add in (_add, convert_commands.add, archive_commands.add, store_commands.add):
        add(commands)
    return result


def _add(commands: Any) -> None:
    """Adds the commands that ask a server."""
    health = commands.add_parser("health", help="asks whether commands would be taken, and writes nothing; status 0 if so, else 1")
    health.set_defaults(action=_health)
    health.add_argument("--write", action="store_true", help=f"makes an edit of the document {WRITTEN} besides, under the source of this name")
    cat = commands.add_parser("cat", help="prints a document's text")
    cat.set_defaults(action=_cat)
    put = commands.add_parser("put", help="makes a document, or changes it, so that its text is what standard input holds")
    put.set_defaults(action=_put)
    follow = commands.add_parser("follow", help="prints each change of a document as it comes, one line of JSON each")
    follow.set_defaults(action=_follow)

    for command in (health, cat, put, follow):
        command.set_defaults(about="address")
        command.add_argument("address", metavar="HOST:PORT", type=address_of)
        command.add_argument("--timeout", type=float, default=TIMEOUT, metavar="SECONDS", help="for each answer; %(default)s without it")
    for command in (cat, put, follow):
        command.add_argument("doc", metavar="DOC")
    for command in (cat, put):
        command.add_argument("--ops", action="store_true", help="the document as JSON, the operations that insert it, with its attributes")
    cat.add_argument("--rev", type=int, help="the revision; without it the newest")
    follow.add_argument("--rev", type=int, help="the changes after this revision; without it those that come from now on")
    name = put.add_mutually_exclusive_group(required=True)
    name.add_argument("--source", metavar="NAME", help="the name under which it is changed, which nobody else uses at the time")
    name.add_argument("--keep", metavar="FILE", help="a file that keeps such a name from run to run")


def _health(options: argparse.Namespace) -> int:
    state = health(options.address, options.timeout)
    if state == "healthy" and options.write:
        state = written(options.address, options.timeout)
    print(state)
    return 0 if state == "healthy" else 1


def health(address: Address, timeout: float) -> str:
    """Tells how a server is by an undo that changes nothing, since its source has changed nothing. A store that failed refuses it all the
    same, as any command."""
    probe = secrets.token_hex(12)
    came = b""
    try:
        with TcpLink(*address, timeout) as link:
            try:
                link.send(messages.spelled(messages.hello(probe)) + messages.spelled(messages.undo("health", 1)))
                while came.count(b"\n") < 2:
                    data = link.receive()
                    if not data:
                        break
                    came += data
            except ConnectionError:
                pass  # it was closed before these lines came
    except OSError as error:
        return f"unreachable: {error}"
    if not came:
        return "full: the connection was closed without a byte, since all places are taken, or for want of memory or threads"
    replies = [_reply(line) for line in came.splitlines()]
    codes = [reply.get("code") for reply in replies]
    if messages.STORE_FAILED in codes:
        return "failed: the store takes no commands until the server is started again (21 StoreFailed)"
    if messages.NO_MEMORY in codes:
        return "short of memory (22 NoMemory)"
    if len(replies) == 2 and replies[0].get("ok") == "hello" and isinstance(codes[1], int):
        return "healthy"
    return f"no richd: it answers {came[:100]!r}"


def written(address: Address, timeout: float) -> str:
    """Tells whether a server takes an edit in time: one whose disk hangs answers all else. The edit changes nothing, and is a revision."""
    try:
        with connect(*address, source=WRITTEN, timeout=timeout) as client:
            try:
                client.edit(WRITTEN, [], client.fetch(WRITTEN).rev)
            except Refused as refusal:
                if refusal.code not in (messages.NO_DOCUMENT, messages.DELETED):
                    raise
                client.create(WRITTEN, [])
    except Refused as refusal:
        return f"refuses an edit: {refusal}"
    except Unexpected:
        return f"in doubt: another program writes as {WRITTEN} at the same time"
    except TimeoutError:
        return f"hangs: it answers, and an edit takes longer than {timeout:g} seconds"
    except (Closed, OSError) as error:
        return f"unreachable: {error}"
    return "healthy"


def _reply(line: bytes) -> Message:
    try:
        return messages.read(line)
    except Unexpected:
        return {}


def _opened(options: argparse.Namespace, **name: Any) -> Client:
    return connect(*options.address, timeout=options.timeout, **(name or {"source": "reader"}))  # who only reads takes no place


def _cat(options: argparse.Namespace) -> int:
    with _opened(options) as client:
        ops = client.fetch(options.doc, options.rev).ops
    sys.stdout.write(json.dumps(ops, ensure_ascii=False) + "\n" if options.ops else text(ops))
    return 0


def _put(options: argparse.Namespace) -> int:
    wanted = _wanted(sys.stdin.read(), options.ops)
    with _opened(options, source=options.source, keep=options.keep) as client:
        with client.open(options.doc, create=[]) as document:
            shown = document.contents if options.ops else [{"insert": operation["insert"]} for operation in document.contents]
            document.apply(difference(shown, wanted))
            document.flush()
            print(f"revision {document.revision}")
    return 0


def _wanted(content: str, is_json: bool) -> Delta:
    if not is_json:
        return [{"insert": content}] if content else []
    ops = json.loads(content)
    if not (isinstance(ops, list) and all(isinstance(operation, dict) and "insert" in operation for operation in ops)):
        raise ValueError("standard input has no list of inserts")
    return ops


def _follow(options: argparse.Namespace) -> int:
    with _opened(options) as client:
        rev = client.fetch(options.doc).rev if options.rev is None else options.rev
        for change in client.follow(options.doc, rev):
            print(json.dumps({"rev": change.rev, "ops": change.ops}, ensure_ascii=False), flush=True)
    return 0


if __name__ == "__main__":
    sys.exit(main(sys.argv[1:]))
