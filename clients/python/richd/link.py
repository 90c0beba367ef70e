"""Streams of bytes to a server: a connection over TCP, or the pipes of a `richd serve` of one's own."""

from __future__ import annotations

import os
import socket
import struct
import subprocess
from typing import IO, Optional, Sequence, TypeVar

LinkType = TypeVar("LinkType", bound="Link")

PIECE = 65_536  # bytes that are taken at a time
CONNECTING = 10.0  # seconds for a connection to be made
PATIENCE = 5.0  # seconds for a program to end, once its input has
SILENCE = 30  # seconds, about, after which a connection is cut whose other end answers nothing: its machine, not only its program, is gone


class Link:
    """A stream each way. Each method but `close` raises OSError where the stream is broken."""

    waits_for_place = False  # whether a server that has no place ends the stream at once, so that one tries again

    def send(self, data: bytes) -> None:
        """Sends all of these bytes."""
        raise NotImplementedError

    def receive(self) -> bytes:
        """The bytes that came, at least one; none once the server has ended the stream."""
        raise NotImplementedError

    def finish(self) -> None:
        """Ends what is sent. The server still answers what it has in whole lines, and then ends what it sends."""
        raise NotImplementedError

    def close(self) -> None:
        """Ends both streams at once, also under a `send` or `receive` of another thread."""
        raise NotImplementedError

    def __enter__(self: LinkType) -> LinkType:
        return self

    def __exit__(self, *cause: object) -> None:
        self.close()


class TcpLink(Link):
    """A connection to a `richd serve --listen`. `timeout` is for each call that sends or receives."""

    waits_for_place = True

    def __init__(self, host: str, port: int, timeout: Optional[float] = None):
        self.socket = socket.create_connection((host, port), CONNECTING)
        self.socket.settimeout(timeout)
        prepare(self.socket)

    def send(self, data: bytes) -> None:
        self.socket.sendall(data)

    def receive(self) -> bytes:
        return self.socket.recv(PIECE)

    def finish(self) -> None:
        self.socket.shutdown(socket.SHUT_WR)

    def close(self) -> None:
        try:
            self.socket.shutdown(socket.SHUT_RDWR)  # wakes who waits in `receive`
        except OSError:
            pass  # it is closed at the other end
        self.socket.close()

    def reset(self) -> None:
        """Ends the connection as a machine does that fails: what the server reads or writes next fails."""
        self.socket.setsockopt(socket.SOL_SOCKET, socket.SO_LINGER, struct.pack("ii", 1, 0))
        try:
            self.socket.shutdown(socket.SHUT_RD)  # wakes who waits in `receive`
        except OSError:
            pass  # it is closed at the other end
        self.socket.close()


def prepare(connection: socket.socket) -> None:
    """Has small lines leave at once, and has the system find out that the other machine is gone, where it can."""
    connection.setsockopt(socket.IPPROTO_TCP, socket.TCP_NODELAY, 1)
    connection.setsockopt(socket.SOL_SOCKET, socket.SO_KEEPALIVE, 1)
    options = {"TCP_KEEPIDLE": SILENCE // 2, "TCP_KEEPINTVL": SILENCE // 6, "TCP_KEEPCNT": 3, "TCP_USER_TIMEOUT": 1_000 * SILENCE}
    for name, value in options.items():
        if hasattr(socket, name):
            connection.setsockopt(socket.IPPROTO_TCP, getattr(socket, name), value)


class PipeLink(Link):
    """The pipes of a `richd serve STORE`, which ends when its input does."""

    def __init__(self, command: Sequence[str]):
        self.process = subprocess.Popen(command, stdin=subprocess.PIPE, stdout=subprocess.PIPE, bufsize=0)
        assert self.process.stdin is not None and self.process.stdout is not None
        self._input, self._output = self.process.stdin, self.process.stdout

    def send(self, data: bytes) -> None:
        rest = memoryview(data)
        while rest:
            rest = rest[os.write(_descriptor(self._input), rest) :]

    def receive(self) -> bytes:
        return os.read(_descriptor(self._output), PIECE)

    def finish(self) -> None:
        self._input.close()

    def close(self) -> None:
        self._input.close()
        try:
            self.process.wait(PATIENCE)
        except subprocess.TimeoutExpired:
            self.process.kill()
            self.process.wait()
        self._output.close()


def _descriptor(pipe: IO[bytes]) -> int:
    """A pipe's number. Raises OSError where another thread has closed it."""
    try:
        return pipe.fileno()
    except ValueError:
        raise BrokenPipeError("the pipe is closed") from None
