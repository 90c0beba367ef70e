"""The program richd, for what has to run one of its own: tests, checks and measurements."""

from __future__ import annotations

import os
import subprocess
from typing import Any, List, Tuple

from . import client

BUILT = os.path.join(os.path.dirname(os.path.abspath(__file__)), "../../../crates/richd/out/richd")


def find() -> str:
    """The path of the program: what RICHD names, or the one that ./demo builds. Raises FileNotFoundError where it isn't there."""
    path = os.environ.get("RICHD") or os.path.normpath(BUILT)
    if not os.path.exists(path):
        raise FileNotFoundError(f"there is no program {path}: run ./demo, which builds it, or name one in RICHD")
    return path


def format_store(path: str, *options: str) -> None:
    """Makes a store. The options are those of `richd format`."""
    subprocess.run([find(), "format", path, *options], check=True)


def dump(path: str, *options: str) -> str:
    """What `richd dump` prints of a store."""
    return subprocess.run([find(), "dump", path, *options], check=True, capture_output=True, text=True).stdout


class Server:
    """A `richd serve --listen` over a store, on a port that is free. Leave it by `with`, or end it by `kill`."""

    def __init__(self, store: str, *options: str, port: int = 0):
        command: List[str] = [find(), "serve", store, "--listen", f"127.0.0.1:{port}", *options]
        self.process = subprocess.Popen(command, stdout=subprocess.PIPE, text=True)
        assert self.process.stdout is not None
        self._output = self.process.stdout
        line = self._output.readline()
        if not line.startswith("listening "):
            raise ChildProcessError(f"{' '.join(command)} ended with status {self.process.wait()}")
        host, number = line.split()[1].rsplit(":", 1)
        self.address: Tuple[str, int] = host, int(number)

    def connect(self, source: str, **more: Any) -> client.Client:
        """A client of this server."""
        return client.connect(*self.address, source=source, **more)

    def kill(self) -> None:
        """Ends it by SIGKILL, which is how it may end at any moment."""
        self.process.kill()
        self.process.wait()
        self._output.close()

    def __enter__(self) -> Server:
        return self

    def __exit__(self, *cause: object) -> None:
        self.kill()
