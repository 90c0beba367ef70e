#!/usr/bin/env python3
"""Lets the disk below a served store refuse writes, cuts the power, and compares what the disk holds with what was acknowledged.

usage: checks/power.py [ROUNDS] [KIND..]     (default: 20 rounds of each file system, ext4 and xfs)

After a sync that failed the system calls pages clean that the disk lacks: a later start may read there what the next loss of power takes away.
A round is a new file system on a loop device, and a new store. Twelve writers put words into documents that all share, take some back, and
delete documents of their own. Four times, at a random moment and for up to half a second, the device is cut short before the store, so that the
kernel refuses what is written or read there (EIO): a sync of the server fails, its clients get 21, and it ends by `--exit-on-failure`. It is
started again wherever it has ended, as by the unit of docs/OPERATIONS.md; the writers send again what got 21 or no reply, and put more words.
Then the power is cut: the file system is shut down without writing anything, and mounted anew. That this is a cut is looked at each time: another
file is written over just before, and what nobody synced mustn't be there afterwards. All that was answered `taken` or `again` has to be there, by
the newer milestones and by the older, and nothing that nobody sent, and `check` has to find it sound. The server and the writers go on with it, and
the power is cut once more.

Meanwhile an archiver follows the store, its archive on another disk, and is started again where it ends, as it can't read a disk that refuses. After
each cut the archive has to be the store, with each command that was answered once, under its revision, or in a gap that it tells.

It takes the superuser, whose mounts nobody else sees, and is skipped without; so is a file system that can't be tried here, which a line names.

Run ./demo first, which builds crates/richd/out/richd, or name another program in RICHD. The disks lie in a temporary folder (TMPDIR).
"""
import ctypes
import fcntl
import os
import random
import re
import signal
import struct
import subprocess
import sys
import tempfile
import threading
import time

from loading import CELL, CLIENT, PATIENCE, Cut, Place, Writer, agrees, archived, dumped, richd

rounds = int(sys.argv[1]) if len(sys.argv) > 1 else 20
kinds = sys.argv[2:] or ["ext4", "xfs"]

WRITERS = 12
FAILURES = 4  # of a round
STORE_FAILED = 21
SIZE = 320 << 20  # bytes of a disk: xfs takes no fewer than 300 MB
SECTOR = 512
PROBE = 1 << 16  # bytes that are written before a cut, and not synced

# How a file system is made: what it keeps of itself lies before its files, where nothing is refused.
MAKE = {
    "ext4": ["mkfs.ext4", "-q", "-b", "4096", "-E", "packed_meta_blocks=1"],
    "xfs": ["mkfs.xfs", "-q", "-d", "agcount=2", "-l", "agnum=0"],
}

# The options of `format` and of `serve`, in turn: a journal with much room, and one whose slots are freed all the time.
SMALL = ["--slots", "4", "--slot", "65536"], ["--every", "64"]
SHAPES = [(["--reserve"], []), SMALL, ([], []), (["--reserve", *SMALL[0]], SMALL[1])]

# From linux/sched.h, linux/loop.h and linux/fs.h.
CLONE_NEWNS = 0x20000
LOOP_SET_STATUS64, LOOP_GET_STATUS64 = 0x4C04, 0x4C05
INFO_BYTES, LIMIT_AT = 232, 32  # of loop_info64, and the place of its lo_sizelimit
FS_IOC_SHUTDOWN, WITHOUT_FLUSH = 0x8004587D, 2


def run(*words):
    """What a command of the system prints."""
    ended = subprocess.run(words, capture_output=True, text=True, timeout=PATIENCE)
    assert ended.returncode == 0, f"{' '.join(words)}: {ended.stderr.strip()}"
    return ended.stdout


class Disk:
    """A file, and the loop device over it while it is mounted, which the system frees then. A file on it shows whether a cut of its power is one."""

    def __init__(self, folder):
        self.image, self.top = os.path.join(folder, "disk"), os.path.join(folder, "top")
        self.probe, self.unsynced = os.path.join(self.top, "probe"), b""
        os.mkdir(self.top)

    def make(self, kind):
        """Makes a file system of this kind, in place of what was there, and mounts it."""
        self.unmount()
        with open(self.image, "wb") as image:
            image.truncate(SIZE)
        run(*MAKE[kind], self.image)
        self.mount()
        with open(self.probe, "wb") as probe:
            probe.write(bytes(PROBE))
            os.fsync(probe.fileno())

    def mount(self):
        run("mount", "-o", "loop", self.image, self.top)
        self.device = run("findmnt", "--noheadings", "--output", "SOURCE", self.top).strip()

    def unmount(self, *options):
        subprocess.run(["umount", *options, self.top], capture_output=True, timeout=PATIENCE)

    def begin_of(self, path):
        """The first byte of the disk that belongs to this file."""
        found = re.findall(r"^ *\d+: *\d+\.\. *\d+: *(\d+)\.\.", run("filefrag", "-v", f"-b{SECTOR}", path), re.M)
        return SECTOR * min(int(sector) for sector in found)

    def limit(self, length):
        """Cuts the device to this length, behind which the kernel refuses all; 0: it is as long as its file again."""
        with open(self.device, "r+b", buffering=0) as device:
            info = bytearray(INFO_BYTES)
            fcntl.ioctl(device, LOOP_GET_STATUS64, info)
            struct.pack_into("<Q", info, LIMIT_AT, length)
            fcntl.ioctl(device, LOOP_SET_STATUS64, info)

    def cut_power(self):
        """What the disk lacks by now it never gets, as what is put into the probe here."""
        self.unsynced = os.urandom(PROBE)
        with open(self.probe, "r+b") as probe:
            probe.write(self.unsynced)
        top = os.open(self.top, os.O_RDONLY)
        try:
            fcntl.ioctl(top, FS_IOC_SHUTDOWN, struct.pack("<I", WITHOUT_FLUSH))
        finally:
            os.close(top)

    def mount_after_cut(self):
        """Mounts it anew. Where what nobody synced is there, no power was cut, and this script shows nothing."""
        self.unmount()
        self.mount()
        with open(self.probe, "rb") as probe:
            assert probe.read() != self.unsynced, "the cut of the power was none: what nobody synced is there"


class Unit(threading.Thread):
    """A server that is started again wherever it has ended. `said` has what each one said on standard error."""

    def __init__(self, store, port, options):
        super().__init__(daemon=True)
        dies_with_this = ["setpriv", "--pdeathsig", "KILL"]
        self.words = [*dies_with_this, richd, "serve", store, "--listen", f"127.0.0.1:{port}", "--exit-on-failure", *options]
        self.ends, self.server, self.said = threading.Event(), None, []

    def run(self):
        while not self.ends.is_set():
            self.server = subprocess.Popen(self.words, stdin=subprocess.DEVNULL, stdout=subprocess.DEVNULL, stderr=subprocess.PIPE, text=True)
            self.said.append(self.server.communicate()[1])
            time.sleep(0.02)

    def failed_syncs(self):
        return sum("richd: syncing " in said for said in self.said)

    def __enter__(self):
        self.start()
        return self

    def __exit__(self, *_cause):
        self.ends.set()
        while self.is_alive():
            if self.server is not None:
                self.server.kill()
            self.join(0.05)


class Archiver(threading.Thread):
    """An archiver that is started again wherever it has ended."""

    def __init__(self, store, database):
        super().__init__(daemon=True)
        dies_with_this = ["setpriv", "--pdeathsig", "KILL"]
        self.words = [*dies_with_this, sys.executable, "-m", "richd", "archive", store, database, "--follow", "--pause", "20", "--quiet"]
        self.ends, self.archiver = threading.Event(), None

    def run(self):
        quiet = {"stdin": subprocess.DEVNULL, "stdout": subprocess.DEVNULL, "stderr": subprocess.DEVNULL}
        while not self.ends.is_set():
            self.archiver = subprocess.Popen(self.words, env={**os.environ, "PYTHONPATH": CLIENT}, **quiet)
            self.archiver.wait()
            self.ends.wait(0.2)

    def __enter__(self):
        self.start()
        return self

    def __exit__(self, *_cause):
        self.ends.set()
        while self.is_alive():
            if self.archiver is not None:
                self.archiver.kill()
            self.join(0.05)


class Typist(Writer):
    """A writer whose changes are wide, so that a batch fills several pages, and for whom 21 is no answer yet."""

    def edit(self, doc, word):
        """Besides it takes attributes off that nobody has set, which makes no document heavier."""
        message = super().edit(doc, word)
        unset = {f"{word}.{number}.".ljust(64, "x"): None for number in range(self.drawn.randrange(16))}
        return {**message, "ops": [*message["ops"], {"retain": 1, "attributes": unset}]} if unset else message

    def settle(self, doc, command, reply):
        if reply.get("code") == STORE_FAILED:
            raise Cut
        super().settle(doc, command, reply)


class Round:
    """One file system, with what came of it: how many syncs failed, how many commands were acknowledged and how many of these are lost, and how
    else the store differs from what was answered, or None."""

    def __init__(self, kind, number):
        self.kind, self.number = kind, number
        self.place = Place(pause=0)
        self.writers = [Typist(writer, self.place) for writer in range(WRITERS)]
        self.failed_syncs = self.acknowledged = self.lost = self.archived = 0
        self.database = f"{disk.image}.{kind}.{number}"
        self.difference = None

    def is_good(self):
        return self.difference is None

    def play(self):
        try:
            disk.make(self.kind)
            self.live_on(*SHAPES[self.number % len(SHAPES)])
        except AssertionError as difference:
            self.difference = str(difference).strip()
        finally:
            self.place.ends.set()

    def live_on(self, shape, options):
        store = os.path.join(disk.top, "store")
        run(richd, "format", store, "--cell", CELL, *shape)
        begin = disk.begin_of(store)
        for writer in self.writers:
            writer.start()
        for failures in (FAILURES, 0):
            with Unit(store, self.place.port, options) as unit, Archiver(store, self.database):
                for _ in range(failures):
                    self.go_on(unit)
                    try:
                        disk.limit(begin)
                        time.sleep(random.uniform(0, 0.5))
                    finally:
                        disk.limit(0)
                self.go_on(unit)
                self.failed_syncs += unit.failed_syncs()
                disk.cut_power()
            while not all(writer.is_cut for writer in self.writers):
                time.sleep(0.01)
            disk.mount_after_cut()
            self.look(store)

    def replies(self):
        for writer in self.writers:
            if writer.fault is not None:
                raise writer.fault
        return sum(len(writer.waits) + writer.sent_again for writer in self.writers)

    def go_on(self, unit):
        """Lets the writers get some replies, and then go on for a while."""
        wanted, until = self.replies() + WRITERS, time.monotonic() + PATIENCE
        while self.replies() < wanted:
            assert not any(re.search("error 3[0-3]", said) for said in unit.said), f"it doesn't start again: {unit.said[-1]}"
            assert time.monotonic() < until, f"nobody gets a reply: {unit.said[-1:]}"
            time.sleep(0.005)
        time.sleep(random.uniform(0, 0.3))

    def look(self, store):
        """Compares what the store holds with what was acknowledged."""
        commands = [command for writer in self.writers for sent in writer.commands.values() for command in sent]
        acknowledged = [(command.message["doc"], command.rev) for command in commands if command.rev is not None]
        self.acknowledged = self.lost = len(acknowledged)  # where it doesn't open
        found = dumped(store)
        self.lost = sum(doc not in found or revision > found[doc][0] for doc, revision in acknowledged)
        assert self.lost == 0, "the store opens without them"
        assert found == dumped(store, "--pick", "older"), "the picks differ"
        agrees(found, self.writers)
        assert run(richd, "check", store).startswith("ok documents ")
        self.archived = archived(store, self.database, self.writers).revisions


def why_not(kind):
    """Why this file system can't be tried here, or None."""
    try:
        disk.make(kind)
        disk.limit(disk.begin_of(disk.probe))
        disk.limit(0)
        disk.cut_power()
    except (AssertionError, OSError) as reason:
        return reason
    return None


def told(played):
    """What came of some rounds."""
    bad = [it for it in played if not it.is_good()]
    counts = f"{len(played)} rounds, {sum(it.failed_syncs for it in played)} failed syncs, {sum(it.acknowledged for it in played)} acknowledged commands, {sum(it.archived for it in played)} revisions archived"
    unopened = sum("error 3" in str(it.difference) for it in bad)
    how = f" in {len(bad)} rounds, {unopened} of which left a store that doesn't open" if bad else ""
    return f"{counts}, {sum(it.lost for it in played)} lost{how}"


def play_all(kind):
    """Plays the rounds of a file system."""
    played = []
    for number in range(rounds):
        it = Round(kind, number)
        it.play()
        played.append(it)
        if not it.is_good():
            print(f"{kind} {number}: {it.lost} of {it.acknowledged} acknowledged commands are lost, {it.difference}", flush=True)
    print(f"{kind}: {told(played)}", flush=True)
    assert any(it.failed_syncs for it in played), "no sync has failed"
    return played


if os.geteuid() != 0 or ctypes.CDLL(None).unshare(CLONE_NEWNS) != 0:
    print("skipped: it takes a superuser who may mount")
    sys.exit()
for number in (signal.SIGTERM, signal.SIGHUP):
    signal.signal(number, lambda *_: sys.exit("interrupted"))
run("mount", "--make-rprivate", "/")
played = []
with tempfile.TemporaryDirectory() as folder:
    disk = Disk(folder)
    try:
        for kind in kinds:
            if (reason := why_not(kind)) is not None:
                print(f"skipped {kind}: {reason}", flush=True)
            else:
                played += play_all(kind)
    finally:
        disk.unmount("--lazy")  # a server that still has it open ends with this script
is_good = all(it.is_good() for it in played)
print(f"{'ok' if is_good else 'FAILED'}: {told(played)}" if played else "skipped: no file system can be tried here")
sys.exit(0 if is_good else 1)
