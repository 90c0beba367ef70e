#!/usr/bin/env python3
"""Builds the packages twice, and installs, uses and removes that for Debian on a copy of this machine.

usage: checks/package.py

The copy is an overlay over the root of this machine, in a mount namespace of its own, so that this machine stays unchanged. There dpkg installs the package,
and then what docs/OPERATIONS.md and docs/ARCHIVE.md have is done by it alone: a store is made and served by the user richd, asked for its health,
archived, lost, and restored, and its client goes on; a copy is put back. The manual page and the units are looked at. At last the package is removed and purged: the program goes, and
the store is left. Both builds have to be the same bytes. The JavaScript client is imported as its archive has it.

Run ./demo first, which builds crates/richd/out/richd, or name another program in RICHD. It wants root and Debian's dpkg-deb, else it skips.
"""
import glob
import os
import re
import shutil
import subprocess
import sys
import tempfile
import time
from pathlib import Path

TOP = Path(__file__).resolve().parent.parent

# What is done on the copy; each line that fails ends it. Its Python is that of Debian.
SCRIPT = r"""
set -eu
cd /
dpkg --install /richd.deb
test "$(command -v richd)" = /usr/bin/richd
richd --version
for folder in richd richd-archive; do test "$(stat -c '%U %a' /var/lib/$folder)" = "richd 700"; done
man -w richd
man -l "$(man -w richd)" | grep -q 'serve'
systemd-analyze verify /lib/systemd/system/richd.service /lib/systemd/system/richd-archive.service
as() { setpriv --reuid richd --regid richd --init-groups "$@"; } # runuser stops itself with the server that a backup stops
client() { as /usr/bin/python3 -m richd "$@"; }
served() {
    : >/tmp/listening
    as richd serve "$1" --listen 127.0.0.1:0 >/tmp/listening &
    server=$!
    until grep -q '^listening' /tmp/listening; do kill -0 $server; sleep 0.1; done
    at=$(cut -d ' ' -f 2 /tmp/listening)
}
as richd format /var/lib/richd/store
served /var/lib/richd/store
client health $at
echo "Dear all" | client put $at letter --source me
client archive /var/lib/richd/store /var/lib/richd-archive/archive --quiet
echo "Dear everybody" | client put $at letter --source me
client health --write $at
client archive /var/lib/richd/store /var/lib/richd-archive/archive --quiet
as sh /usr/share/doc/richd/examples/backup /var/lib/richd/store /var/lib/richd/copy $(pgrep -x richd)
as richd check /var/lib/richd/copy
kill -9 $(pgrep -x richd); wait $server || true
rm /var/lib/richd/store
client restore /var/lib/richd-archive/archive /var/lib/richd/store
as richd check /var/lib/richd/store
served /var/lib/richd/store
test "$(client cat $at letter)" = "Dear everybody"
echo "Dear everybody!" | client put $at letter --source me
test "$(client show /var/lib/richd-archive/archive letter --at 2)" = "Dear all"
kill -9 $(pgrep -x richd); wait $server || true
client jump /var/lib/richd/copy /var/lib/richd/back --by 2000000
as richd check /var/lib/richd/back
test -x /usr/share/doc/richd/examples/replicated/volume
dpkg --remove richd
test ! -e /usr/bin/richd
dpkg --purge richd
test -e /var/lib/richd/store
"""


def build(folder):
    subprocess.run([TOP / "package", folder], check=True, stdout=subprocess.DEVNULL)
    return {path.name: path.read_bytes() for path in Path(folder).iterdir()}


def on_a_copy(folder, package):
    """Runs the script on an overlay over this machine."""
    for name in ("upper", "work", "root"):
        os.mkdir(os.path.join(folder, name))
    root = os.path.join(folder, "root")
    shutil.copy(package, os.path.join(folder, "upper", "richd.deb"))
    Path(folder, "upper", "script").write_text(SCRIPT)
    steps = [
        "mount --make-rprivate /",
        f"mount -t overlay overlay -o lowerdir=/,upperdir={folder}/upper,workdir={folder}/work {root}",
        f"mount -t proc proc {root}/proc",
        f"mount --rbind /dev {root}/dev",
        f"mount -t tmpfs tmpfs {root}/tmp",
        f"exec chroot {root} env -i PATH=/usr/bin:/bin:/usr/sbin:/sbin sh /script",
    ]
    words = ["unshare", "--mount", "--pid", "--fork", "--kill-child", "sh", "-ec", "\n".join(steps)]
    return subprocess.run(words, stdout=subprocess.PIPE, stderr=subprocess.STDOUT, text=True)


def main():
    if os.geteuid() != 0 or shutil.which("dpkg-deb") is None:
        print("skipped: it wants root and dpkg-deb")
        return
    began = time.monotonic()
    with tempfile.TemporaryDirectory() as folder:
        for name in ("one", "other", "js"):
            os.mkdir(os.path.join(folder, name))
        one, other = (build(os.path.join(folder, name)) for name in ("one", "other"))
        assert one == other, "two builds differ"
        kinds = sorted(re.sub(r"[-_]\d.*?(?=\.(?:tgz)|-py3|_amd64)", "", name) for name in one)
        assert kinds == ["richd-gateway.tgz", "richd-py3-none-any.whl", "richd.tgz", "richd_amd64.deb"], kinds
        if shutil.which("node"):
            subprocess.run(["tar", "-xzf", *glob.glob(f"{folder}/one/richd-[0-9]*.tgz"), "-C", f"{folder}/js"], check=True)
            code = f"import('{folder}/js/package/node.js').then((it) => console.log(Object.keys(it).length))"
            subprocess.run(["node", "-e", code], check=True, stdout=subprocess.DEVNULL)
        done = on_a_copy(folder, *glob.glob(f"{folder}/one/*.deb"))
        if done.returncode:
            sys.exit(f"{done.stdout[-3000:]}\nit ends with {done.returncode}")
    print(f"ok: four packages, built twice alike; installed, used and removed on a copy of this machine, in {time.monotonic() - began:.0f} s")


if __name__ == "__main__":
    main()
