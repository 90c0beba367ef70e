"""What `beside-bare` and `beside-peers` share: the programs that are measured, how they are started, and the medians of rounds."""
import glob
import json
import os
import re
import shutil
import signal
import socket
import statistics
import subprocess
import sys
import tempfile
import time
from pathlib import Path
from typing import NamedTuple

HERE = Path(__file__).resolve().parent
sys.path.insert(0, str(HERE.parent.parent / "clients/python"))

from richd.program import Server, format_store

PATIENCE = 120  # seconds for one run
START = 20  # seconds for a server to begin


class Row(NamedTuple):
    """One kind of load: its name, and the options of `load` that make it."""

    name: str
    options: list


class Measured(NamedTuple):
    edits: float  # a second
    p50: float  # milliseconds
    p99: float
    falls: float  # how often observers fell behind what is held, and began anew


def built(folder, names=("load", "bare")):
    """Compiles the load and the bare server, or one of them."""
    for name in names:
        command = ["rustc", "-O", "--edition", "2021", "-o", os.path.join(folder, name), str(HERE / f"{name}.rs")]
        subprocess.run(command, check=True)


def free_port():
    with socket.create_server(("127.0.0.1", 0)) as listener:
        return listener.getsockname()[1]


def wait_for(port, process):
    """Waits until somebody listens at a port."""
    until = time.monotonic() + START
    while time.monotonic() < until and process.poll() is None:
        try:
            socket.create_connection(("127.0.0.1", port)).close()
            return
        except OSError:
            time.sleep(0.05)
    raise ChildProcessError(f"{process.args[0]} doesn't listen at {port}")


def end(process, by=signal.SIGTERM):
    process.send_signal(by)
    process.wait(START)


class Richd:
    """richd, over a new store for each run."""

    name = title = "richd"

    def __init__(self, folder, every=None):
        self.store = os.path.join(folder, "store")
        self.options = ["--every", every] if every else []

    def begin(self):
        format_store(self.store)
        self.server = Server(self.store, *self.options)
        return "{}:{}".format(*self.server.address)

    def end(self):
        self.server.kill()
        os.unlink(self.store)


class Bare:
    """The bare server, which makes the same syncs and nothing else."""

    name, title = "bare", "the bare server"

    def __init__(self, folder):
        self.folder = folder

    def begin(self):
        command = [os.path.join(self.folder, "bare"), os.path.join(self.folder, "file"), "127.0.0.1:0"]
        self.process = subprocess.Popen(command, stdout=subprocess.PIPE, text=True)
        return self.process.stdout.readline().split()[1]

    def end(self):
        end(self.process)
        self.process.stdout.close()


class Redis:
    """Redis with `appendfsync always`: what it answers is on the disk."""

    name = "redis"
    oldest = 7  # the oldest version whose append-only file is known here

    def __init__(self, folder):
        self.folder = os.path.join(folder, "redis")
        self.program = shutil.which("redis-server")
        if self.program is None:
            raise FileNotFoundError("there is no redis-server (Debian: apt-get install redis-server)")
        version = re.search(r"v=([0-9.]+)", printed(self.program, "--version"))[1]
        if int(version.split(".")[0]) < self.oldest:
            raise FileNotFoundError(f"Redis {version} is older than {self.oldest}")
        self.title = f"Redis {version}"

    def begin(self):
        os.mkdir(self.folder)
        port = free_port()
        options = ["--port", str(port), "--dir", self.folder, "--appendonly", "yes", "--appendfsync", "always", "--save", ""]
        self.process = subprocess.Popen([self.program, "--bind", "127.0.0.1", *options], stdout=subprocess.DEVNULL)
        wait_for(port, self.process)
        return f"127.0.0.1:{port}"

    def end(self):
        end(self.process)
        shutil.rmtree(self.folder)


class Postgres:
    """PostgreSQL as it is installed, with `synchronous_commit` on: what it answers is on the disk. It runs as the user postgres where
    the caller is root, since it refuses that."""

    name = "postgres"
    tables = """
        DROP TABLE IF EXISTS documents, edits;
        CREATE TABLE documents (name text PRIMARY KEY, revision bigint NOT NULL);
        CREATE TABLE edits (document text, revision bigint, operations text, PRIMARY KEY (document, revision));
    """

    def __init__(self, folder):
        self.folder = os.path.join(folder, "postgres")
        places = sorted(glob.glob("/usr/lib/postgresql/*/bin")) or [os.path.dirname(shutil.which("postgres") or "")]
        self.programs = places[-1]
        if not os.path.exists(self.program("postgres")) or shutil.which("psql") is None:
            raise FileNotFoundError("there is no PostgreSQL (Debian: apt-get install postgresql)")
        self.title = f"PostgreSQL {printed(self.program('postgres'), '--version').split()[2]}"
        self.user = ["runuser", "-u", "postgres", "--"] if os.geteuid() == 0 else []
        os.mkdir(self.folder)
        if self.user:
            shutil.chown(self.folder, "postgres")
            os.chmod(folder, 0o755)  # it has to come through to its own
        self.data = os.path.join(self.folder, "data")
        words = ["-D", self.data, "-U", "richd", "--auth=trust"]
        subprocess.run([*self.user, self.program("initdb"), *words], check=True, stdout=subprocess.DEVNULL, cwd=self.folder)

    def program(self, name):
        return os.path.join(self.programs, name)

    def begin(self):
        port = free_port()
        settings = {"port": port, "listen_addresses": "127.0.0.1", "unix_socket_directories": "", "synchronous_commit": "on"}
        words = [word for name, value in settings.items() for word in ("-c", f"{name}={value}")]
        self.process = subprocess.Popen(
            [*self.user, self.program("postgres"), "-D", self.data, *words], stderr=subprocess.DEVNULL, cwd=self.folder
        )
        wait_for(port, self.process)
        address = ["-h", "127.0.0.1", "-p", str(port), "-U", "richd", "-d", "postgres"]
        until = time.monotonic() + START
        while subprocess.run(["psql", "-q", *address, "-c", self.tables], capture_output=True).returncode != 0:
            if time.monotonic() > until:
                raise ChildProcessError("PostgreSQL takes no tables")
            time.sleep(0.2)
        return f"127.0.0.1:{port}"

    def end(self):
        with open(os.path.join(self.data, "postmaster.pid")) as file:
            os.kill(int(file.readline()), signal.SIGINT)  # without waiting for its clients
        self.process.wait(START)


def printed(*command):
    return subprocess.run(command, check=True, capture_output=True, text=True).stdout


def once(folder, system, row, seconds):
    """One run of one kind of load."""
    address = system.begin()
    try:
        command = [os.path.join(folder, "load"), "--address", address, "--system", system.name, "--seconds", str(seconds), *row.options]
        run = subprocess.run(command, capture_output=True, text=True, timeout=PATIENCE)
    finally:
        system.end()
    if run.returncode != 0:
        raise ChildProcessError(f"{row.name}, {system.title}: {run.stderr.strip()}")
    told = json.loads(run.stdout)
    return Measured(told["edits_per_second"], told["p50_ms"], told["p99_ms"], told["falls"])


def medians(folder, pairs, rounds, seconds):
    """Measures each pair of a system and a row once a round. Gives for each the median of the rounds."""
    runs = {}
    for number in range(rounds):
        for system, row in pairs:
            runs.setdefault((system.name, row.name), []).append(once(folder, system, row, seconds))
        print(f"round {number + 1} of {rounds} is done", file=sys.stderr)
    return {key: Measured(*map(statistics.median, zip(*measured))) for key, measured in runs.items()}


def milliseconds(measured):
    """p50 and p99, with two digits that count."""
    return ", ".join(f"{time:.{2 if time < 1 else 1 if time < 10 else 0}f}" for time in (measured.p50, measured.p99))


def temporary_folder():
    return tempfile.TemporaryDirectory(prefix="richd-load-")
