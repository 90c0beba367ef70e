#!/usr/bin/env python3
"""Serves a store that lies on three hosts, by GlusterFS, while hosts are killed, cut off, frozen and filled; compares it with what was acknowledged.

usage: checks/replicated.py [FAULTS] [KIND..]     (default: 21 faults of replica; the other kinds are arbiter, and defaults, which shows what is lost)

Three hosts are network and mount namespaces of this machine, on a switch of their own, each with a file system of its own (xfs on a loop device),
glusterd, and the volume that examples/replicated/volume makes. Each starts richd over the store again and again, as its unit does: who gets the lock of
the file serves. examples/replicated/rejoin runs beside it. Eight writers put words into documents that all share, take some back, and delete documents
of their own, on whichever host serves; what got no reply within four seconds they send again. The faults, in a drawn order:

- kill: SIGKILL ends the server.
- cut: a host, mostly the one that serves, is cut off from all others for ten seconds.
- partial: two hosts don't reach each other for ten seconds, and the third one both.
- freeze: all programs of a host stand still for ten seconds, nobody reaches it meanwhile, and then it knows nothing of that.
- power: a host loses its power, with all that its disk hasn't synced, and starts again after ten seconds.
- brick: the program that keeps a host's part of the data is killed, and started again after five seconds.
- fill: the file system of a host is full for eight seconds.

After each fault somebody serves again, and the volume is healed. At the end all that was acknowledged is there, once, as each host reads it; `check`
finds the store sound; and the hosts' parts of it are equal. With `defaults` the volume has Gluster's own settings, and the row says how many of
the acknowledged commands are lost: that is a warning, and no fault of this check.

It takes the superuser and Debian's glusterfs-server, and is skipped without. Run ./demo first, which builds crates/richd/out/richd, or name another
program in RICHD. The disks lie in a temporary folder (TMPDIR).
"""
import contextlib
import fcntl
import hashlib
import os
import random
import re
import shutil
import signal
import struct
import subprocess
import sys
import tempfile
import threading
import time

from loading import PATIENCE, Cut, Place, Session, Writer, agrees, dumped, parsed, richd

count = int(sys.argv[1]) if len(sys.argv) > 1 else 21
kinds = sys.argv[2:] or ["replica"]

HERE = os.path.dirname(os.path.abspath(__file__))
EXAMPLES = os.path.join(HERE, "../examples/replicated")
HOSTS = (1, 2, 3)
SIZE = 400 << 20  # bytes of a disk: xfs takes no fewer than 300 MB
SWITCH, VOLUME = "richd-switch", "richd"
WRITERS, STORE_FAILED, REPLY = 8, 21, 4  # seconds of a reply
HEALED, LOOKS = 240, 3  # seconds until a volume is healed, and looks in turn at which it has to be
AWAY = 110  # seconds, longer than Gluster's own timeouts
FS_IOC_SHUTDOWN, WITHOUT_FLUSH = 0x8004587D, 2  # from linux/fs.h
FAULTS = ["kill", "cut", "partial", "freeze", "power", "brick", "fill"]
drawn = random.Random(int(os.environ.get("SEED", "11")))


def run(*words, check=True, **more):
    """What a command of the system prints."""
    ended = subprocess.run(words, capture_output=True, text=True, timeout=2 * PATIENCE, **more)
    assert not check or ended.returncode == 0, f"{' '.join(words)}: {ended.stdout[-300:]}{ended.stderr[-300:].strip()}"
    return ended.stdout


def within(seconds, truth, what):
    until = time.monotonic() + seconds
    while not truth():
        assert time.monotonic() < until, f"not within {seconds} s: {what}"
        time.sleep(0.2)


class Host:
    """One of three, with an address and a disk, which may lose its power."""

    def __init__(self, folder, number):
        self.number, self.name, self.net = number, f"h{number}", f"richd-h{number}"
        self.address, self.folder = f"10.77.0.{number}", os.path.join(folder, f"h{number}")
        for part in ("lib", "log", "brick", "mnt"):
            os.makedirs(os.path.join(self.folder, part))
        self.image, self.brick, self.mnt = (os.path.join(self.folder, part) for part in ("image", "brick", "mnt"))
        with open(self.image, "wb") as file:
            file.truncate(SIZE)
        run("mkfs.xfs", "-q", self.image)
        run("ip", "netns", "add", self.net)
        run("ip", "link", "add", f"rh{number}", "type", "veth", "peer", "name", f"rs{number}")
        run("ip", "link", "set", f"rh{number}", "netns", self.net)
        run("ip", "link", "set", f"rs{number}", "netns", SWITCH)
        run("ip", "-n", SWITCH, "link", "set", f"rs{number}", "master", "switch", "up")
        run("ip", "-n", self.net, "addr", "add", f"{self.address}/24", "dev", f"rh{number}")
        for link in ("lo", f"rh{number}"):
            run("ip", "-n", self.net, "link", "set", link, "up")
        self.holder = self.unit = None

    @property
    def store(self):
        return os.path.join(self.mnt, "store")

    def boot(self):
        """Starts it: its disk is mounted, and glusterd runs."""
        hosts = os.path.join(self.folder, "..", "hosts")
        begin = (
            f"mount --bind {self.folder}/lib /var/lib/glusterd && mount --bind {self.folder}/log /var/log/glusterfs && mount --bind {hosts} /etc/hosts"
            f" && mount -o loop {self.image} {self.brick} && mkdir -p {self.brick}/data && mount -t tmpfs none /run && mkdir -p /run/gluster"
            " && echo ready && exec sleep infinity"
        )
        words = ["nsenter", f"--net=/run/netns/{self.net}", "unshare", "-m", "--propagation", "private", "sh", "-c", begin]
        self.holder = subprocess.Popen(words, stdout=subprocess.PIPE, text=True)
        assert self.holder.stdout.readline() == "ready\n", f"{self.name} doesn't start"
        self.inside("glusterd", "-p", "/run/glusterd.pid")
        within(PATIENCE, lambda: self.inside("gluster", "--mode=script", "pool", "list", check=False), f"glusterd of {self.name}")

    def words(self, *words):
        return ["nsenter", f"--target={self.holder.pid}", "--mount", "--net", *words]

    def inside(self, *words, check=True):
        return run(*self.words(*words), check=check)

    def mount(self, options):
        within(PATIENCE, lambda: self.has_mounted(options), f"the volume is mounted on {self.name}")

    def has_mounted(self, options):
        self.inside("mount", "-t", "glusterfs", *options, f"{self.name}:/{VOLUME}", self.mnt, check=False)
        return self.inside("findmnt", "--noheadings", self.mnt, check=False) != ""

    def reach(self, is_reached):
        run("ip", "-n", SWITCH, "link", "set", f"rs{self.number}", "up" if is_reached else "down")

    def pids(self):
        return [int(pid) for pid in run("ip", "netns", "pids", self.net).split()]

    def signal(self, number):
        for pid in self.pids():
            with contextlib.suppress(ProcessLookupError):
                os.kill(pid, number)

    def brick_pid(self):
        for pid in self.pids():
            with open(f"/proc/{pid}/cmdline") as file:
                if "glusterfsd" in file.read():
                    return pid
        return None

    def lose_power(self):
        """What its disk lacks by now it never gets, and nobody hears that it is gone."""
        self.reach(False)
        top = os.open(f"/proc/{self.holder.pid}/root{self.brick}", os.O_RDONLY)
        try:
            fcntl.ioctl(top, FS_IOC_SHUTDOWN, struct.pack("<I", WITHOUT_FLUSH))
        finally:
            os.close(top)
        self.stop()

    def stop(self):
        if self.unit is not None:
            self.unit.end()
            self.unit = None
        while self.pids():
            self.signal(signal.SIGKILL)
            time.sleep(0.05)
        if self.holder is not None:
            self.holder.wait()
            self.holder.stdout.close()

    def serve(self):
        self.unit = Unit(self)
        self.unit.start()

    def is_serving(self):
        return self.unit is not None and self.unit.is_listening


class Unit(threading.Thread):
    """richd on a host, started again wherever it has ended, and rejoin."""

    def __init__(self, host):
        super().__init__(daemon=True)
        self.host, self.ends, self.is_listening, self.server = host, threading.Event(), False, None
        self.pid_file = os.path.join(host.folder, "pid")
        restart = f"kill -KILL $(cat {self.pid_file}) 2>/dev/null"
        self.rejoin = subprocess.Popen(host.words(os.path.join(EXAMPLES, "rejoin"), VOLUME, "sh", "-c", restart), stderr=subprocess.DEVNULL)

    def run(self):
        options = ["--listen", f"{self.host.address}:7000", "--exit-on-failure", "--every", "64"]
        while not self.ends.is_set():
            words = self.host.words(richd, "serve", self.host.store, *options)
            with open(os.path.join(self.host.folder, "said"), "a") as said:
                self.server = subprocess.Popen(words, stdout=subprocess.PIPE, stderr=said, text=True)
            with open(self.pid_file, "w") as file:
                file.write(str(self.server.pid))
            self.is_listening = self.server.stdout.readline().startswith("listening ")
            self.server.wait()
            self.server.stdout.close()
            self.is_listening = False
            self.ends.wait(1)

    def kill(self):
        if self.server is not None:
            self.server.kill()

    def end(self):
        self.ends.set()
        self.rejoin.kill()
        self.rejoin.wait()
        until = time.monotonic() + PATIENCE
        while self.is_alive():
            assert time.monotonic() < until, f"richd on {self.host.name} doesn't end"
            self.kill()
            self.join(0.1)


class Somewhere(Place):
    """Where some host serves: each session tries another one."""

    def __init__(self):
        super().__init__(pause=0.02)
        self.tried, self.acknowledged = 0, []

    @property
    def port(self):
        self.tried += 1
        return f"10.77.0.{HOSTS[self.tried % len(HOSTS)]}", 7000

    @port.setter
    def port(self, _):
        pass


class Typist(Writer):
    """A writer for whom a store that failed is one whose server has ended."""

    def connect(self):
        return Session(self.place.port, self.source, REPLY)

    def settle(self, doc, command, reply):
        if reply.get("code") == STORE_FAILED:
            raise Cut
        super().settle(doc, command, reply)
        if command.rev is not None:
            self.place.acknowledged.append(time.monotonic())


class Cluster:
    """Three hosts with a volume of a kind."""

    def __init__(self, folder, kind):
        self.kind, self.folder = kind, folder
        self.options = [] if kind == "defaults" else ["-o", "direct-io-mode=enable"]
        run("ip", "netns", "add", SWITCH)
        run("ip", "-n", SWITCH, "link", "add", "switch", "type", "bridge")
        run("ip", "-n", SWITCH, "link", "set", "switch", "up")
        run("ip", "link", "add", "richd-all", "type", "veth", "peer", "name", "rsall")
        run("ip", "link", "set", "rsall", "netns", SWITCH)
        run("ip", "-n", SWITCH, "link", "set", "rsall", "master", "switch", "up")
        run("ip", "addr", "add", "10.77.0.9/24", "dev", "richd-all")
        run("ip", "link", "set", "richd-all", "up")
        with open(os.path.join(folder, "hosts"), "w") as file:
            file.write("127.0.0.1 localhost\n" + "".join(f"10.77.0.{number} h{number}\n" for number in HOSTS))
        self.hosts = [Host(folder, number) for number in HOSTS]

    def begin(self):
        for host in self.hosts:
            host.boot()
        bricks = [f"{host.name}:{host.brick}/data" for host in self.hosts]
        first = self.hosts[0]
        if self.kind == "defaults":
            for host in self.hosts[1:]:
                first.inside("gluster", "--mode=script", "peer", "probe", host.name)
            create = ["gluster", "--mode=script", "volume", "create", VOLUME, "replica", "3", *bricks]
            within(PATIENCE, lambda: "success" in first.inside(*create, check=False), "the volume")
            first.inside("gluster", "--mode=script", "volume", "start", VOLUME)
        else:
            first.inside(os.path.join(EXAMPLES, "volume"), VOLUME, *bricks, *(["arbiter"] if self.kind == "arbiter" else []))
        for host in self.hosts:
            host.mount(self.options)
        first.inside(richd, "format", first.store, "--docs", "512", "--cell", "65536", "--reserve")

    def end(self):
        for host in self.hosts:
            host.stop()
            run("ip", "netns", "del", host.net, check=False)
        run("ip", "link", "del", "richd-all", check=False)
        run("ip", "netns", "del", SWITCH, check=False)

    def serving(self):
        return [host for host in self.hosts if host.is_serving()]

    def heal(self, after):
        """Waits until all hosts are there, and none lacks what is written meanwhile."""
        looks = 0

        def has_healed():
            nonlocal looks
            looks = looks + 1 if self.is_whole() else 0
            return looks == LOOKS

        within(HEALED, has_healed, f"the volume is healed {after}")

    def is_whole(self):
        told = self.hosts[0].inside("gluster", "--mode=script", "volume", "heal", VOLUME, "info", check=False)
        return re.findall(r"^Status: (.*)$", told, re.M) == ["Connected"] * 3 and re.findall(r"^Number of entries: (.*)$", told, re.M) == ["0"] * 3

    def fault(self, what):
        """Makes a fault, ends it, and says of whom it was."""
        serving = self.serving()
        host = drawn.choice(serving) if serving and drawn.random() < 0.7 else drawn.choice(self.hosts)
        if what == "kill":
            host = serving[0] if serving else host
            host.unit.kill()
        elif what == "cut":
            host.reach(False)
            time.sleep(10)
            host.reach(True)
        elif what == "partial":
            other = drawn.choice([other for other in self.hosts if other is not host])
            for one, two in ((host, other), (other, host)):
                run("ip", "-n", one.net, "route", "add", "blackhole", f"{two.address}/32")
            time.sleep(10)
            for one, two in ((host, other), (other, host)):
                run("ip", "-n", one.net, "route", "del", "blackhole", f"{two.address}/32")
        elif what == "freeze":
            host.reach(False)
            host.signal(signal.SIGSTOP)
            time.sleep(10)
            host.reach(True)
            host.signal(signal.SIGCONT)
        elif what == "power":
            host.lose_power()
            time.sleep(10)
            host.reach(True)
            host.boot()
            host.mount(self.options)
            host.serve()
        elif what == "brick":
            os.kill(host.brick_pid(), signal.SIGKILL)
            time.sleep(5)
            host.inside("gluster", "--mode=script", "volume", "start", VOLUME, "force")
        elif what == "fill":
            filler = f"/proc/{host.holder.pid}/root{host.brick}/filler"
            subprocess.run(["fallocate", "-l", str(2 * SIZE), filler], capture_output=True)
            with open(filler, "ab") as file, contextlib.suppress(OSError):
                while True:
                    file.write(bytes(1 << 20))
                    file.flush()
            time.sleep(8)
            os.unlink(filler)
        return host is (serving[0] if serving else None)


def lost_of(found, writers):
    """How many of the acknowledged commands a store that was dumped lacks, by their words."""
    lost = 0
    for writer in writers:
        for doc, sent in writer.commands.items():
            if doc.startswith("own"):
                continue  # it may be deleted
            held = set((found.get(doc) or (0, []))[1] or [])
            undone = any(command.message["do"] == "undo" for command in sent)
            lost += 0 if undone else sum(command.rev is not None and command.word is not None and command.word not in held for command in sent)
    return lost


class Tried:
    """A cluster under load."""

    def __init__(self, cluster):
        self.cluster, self.place = cluster, Somewhere()
        self.writers = [Typist(number, self.place) for number in range(WRITERS)]
        self.unserved = []

    def replies(self):
        for writer in self.writers:
            if writer.fault is not None:
                raise writer.fault
        return len(self.place.acknowledged)

    def go_on(self, more):
        wanted = self.replies() + more
        within(2 * PATIENCE, lambda: self.replies() >= wanted, "the writers are answered")

    def play(self):
        cluster = self.cluster
        for host in cluster.hosts:
            host.serve()
        for writer in self.writers:
            writer.start()
        self.go_on(200)
        order = [what for _ in range(count // len(FAULTS) + 1) for what in drawn.sample(FAULTS, len(FAULTS))][:count]
        done = dict.fromkeys(FAULTS, 0)
        for what in order:
            began = time.monotonic()
            is_serving = cluster.fault(what)
            self.go_on(100)
            cluster.heal(f"after {what}")
            self.go_on(100)
            times = [moment for moment in self.place.acknowledged if moment >= began - 1]
            gap = max(later - earlier for earlier, later in zip(times, times[1:]))
            self.unserved.append(gap)
            done[what] += 1
            print(f"  {what} {'where it is served' if is_serving else 'elsewhere'}: {gap:.1f} s without an answer", file=sys.stderr, flush=True)
        self.place.ends.set()
        for writer in self.writers:
            writer.join(PATIENCE)
        for host in cluster.hosts:
            host.unit.end()
        cluster.heal("at the end")
        return done

    def compare(self):
        """Compares what each host reads with what was acknowledged, and the hosts' parts with each other."""
        cluster, copies = self.cluster, []
        for host in cluster.hosts:
            copy = os.path.join(cluster.folder, f"copy{host.number}")
            with open(copy, "wb") as file:
                subprocess.run(host.words("cat", host.store), check=True, stdout=file)
            acknowledged = agrees(dumped(copy), self.writers)
            run(richd, "check", copy)
            copies.append(copy)
        parts = [f"/proc/{host.holder.pid}/root{host.brick}/data/store" for host in cluster.hosts]
        digests = {digest(path) for path in [*copies, *parts[: 2 if cluster.kind == "arbiter" else 3]]}
        assert len(digests) == 1, "the hosts' parts differ"
        return acknowledged


def digest(path):
    with open(path, "rb") as file:
        return hashlib.file_digest(file, "sha256").hexdigest()


def lost_by_defaults():
    """What a volume with Gluster's own settings loses, where its server moves from host to host, and where its host is cut off, comes back, and the
    server that has taken over is killed."""
    with tempfile.TemporaryDirectory() as folder:
        cluster = Cluster(folder, "defaults")
        try:
            cluster.begin()
            it = Tried(cluster)
            for host in cluster.hosts:
                host.serve()
            for writer in it.writers:
                writer.start()
            for _ in range(2):
                time.sleep(4)
                for host in cluster.serving():
                    host.unit.kill()
            time.sleep(4)
            away, both = cluster.serving(), 0
            for host in away:
                host.reach(False)
            for _ in range(AWAY):
                time.sleep(1)
                both = max(both, len(cluster.serving()))
            for host in away:
                host.reach(True)
            time.sleep(10)
            for host in cluster.serving():
                if host not in away:
                    host.unit.kill()
            time.sleep(10)
            it.place.ends.set()
            for writer in it.writers:
                writer.join(PATIENCE)
            for host in cluster.hosts:
                host.unit.end()
            time.sleep(10)
            lost = []
            for host in cluster.hosts:
                done = subprocess.run(host.words(richd, "dump", host.store), capture_output=True, text=True)
                lost.append(str(lost_of(parsed(done.stdout), it.writers)) if done.returncode == 0 else done.stderr.strip().splitlines()[0])
        finally:
            cluster.end()
    words = sum(command.rev is not None and command.word is not None for writer in it.writers for sent in writer.commands.values() for command in sent)
    return f"defaults: {both} served at once; of {words} acknowledged words lost, as the three hosts read the store: {', '.join(lost)}"


def tried(kind):
    if kind == "defaults":
        return lost_by_defaults()
    with tempfile.TemporaryDirectory() as folder:
        cluster = Cluster(folder, kind)
        try:
            cluster.begin()
            it = Tried(cluster)
            try:
                done = it.play()
                acknowledged = it.compare()
            except BaseException:
                for host in cluster.hosts:
                    said = os.path.join(host.folder, "said")
                    if os.path.exists(said):
                        with open(said) as file:
                            print(f"{host.name}: {file.read()[-600:]}", file=sys.stderr)
                raise
            finally:
                it.place.ends.set()
        finally:
            cluster.end()
    waits = sorted(it.unserved)
    told = ", ".join(f"{what} {number}" for what, number in done.items())
    return (f"{kind}: {sum(done.values())} faults ({told}), {acknowledged} acknowledged, 0 lost; without an answer for {waits[len(waits) // 2]:.1f} s in the middle, "
            f"{waits[-1]:.1f} s at most")


def main():
    missing = [program for program in ("glusterd", "gluster", "mkfs.xfs", "ip", "nsenter", "unshare") if shutil.which(program) is None]
    if os.geteuid() != 0 or missing:
        print("skipped: " + (f"there is no {missing[0]}, Debian's glusterfs-server, xfsprogs and iproute2" if missing else "it takes the superuser"))
        return
    total = 0
    for kind in kinds:
        print(tried(kind), flush=True)
        total += count if kind != "defaults" else 0
    print(f"ok: {total} faults, 0 lost")


if __name__ == "__main__":
    main()
