"""A client of richd, a durable server for rich text that many writers edit at once.

    with richd.connect("127.0.0.1", 7000, source="ann") as client:
        client.create("letter", [{"insert": "Dear all"}])
        client.edit("letter", [{"retain": 8}, {"insert": "!"}], base=1)
        print(client.fetch("letter"))

`richd.aio` has the same for asyncio, `richd.delta` what deltas are. docs/PROTOCOL.md has the protocol. The logger `richd` is told of
sessions that begin and are cut.
"""

from . import aio, delta
from .client import Client, Document, Following, connect
from .delta import Delta, Operation
from .messages import Change, Closed, Contents, Refused, Since, Taken, Unexpected

__version__ = "0.2.0"  # that of the program

__all__ = [
    "Change",
    "Client",
    "Closed",
    "Contents",
    "Delta",
    "Document",
    "Following",
    "Operation",
    "Refused",
    "Since",
    "Taken",
    "Unexpected",
    "aio",
    "connect",
    "delta",
]
