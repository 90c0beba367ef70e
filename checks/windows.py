#!/usr/bin/env python3
"""Shows the notes of examples/notes in windows of a headless Chromium, over TLS, through a gateway that asks who somebody is.

usage: checks/windows.py [PICTURE]

HAProxy stands in front, with a certificate of its own making. It hands WebSockets and `/docs` on to the gateway, and the page to a server of
files. The gateway knows its users by `?user=`, serves three sessions at once, and lets eve read alone.

1. Ann and bob write a note with a title, formats and a list. Each sees the other's caret with its name, where the other has it, also while both
   type. Undo takes back what was typed here.
2. Eve reads it and sees both carets. What she types is refused as NotAllowed, shown no longer, and its text is in the event and on her page.
   So is a note that she would create.
3. A fourth window is told that the server is full, and is served once another window is closed.
4. Ann looks at the versions of the note, which an archiver keeps: who changed it, in order. She opens the first one, and makes the note that again.
   Eve may look too; a user who may not read it gets nothing.
5. With HAProxy gone bob's window is typed in and loaded again: it shows what was typed, and sends it once HAProxy is there again, once.

At the end the windows and `richd dump` have the same. A screenshot is left in PICTURE, else in notes.png in the temporary folder of the system,
and one of each further state beside it, as notes-refused.png.

It wants Debian's chromium, haproxy, openssl, nodejs and node-ws, and the program that ./demo builds, or another that RICHD names. Where
Chromium or HAProxy is missing it says so, and its status is 0.
"""
import base64
import collections
import functools
import http.server
import json
import os
import pathlib
import re
import shutil
import signal
import socket
import subprocess
import sys
import tempfile
import threading
import time

from chromium import CONTROL, ENTER, IS_THERE, PATIENCE, Chromium

ROOT = pathlib.Path(__file__).resolve().parent.parent
RICHD = os.environ.get("RICHD") or str(ROOT / "crates/richd/out/richd")
HAPROXY = shutil.which("haproxy") or ("/usr/sbin/haproxy" if os.access("/usr/sbin/haproxy", os.X_OK) else None)
MOST_SESSIONS = 3
RIGHTS = """
export const authorize = ({ url }) => new URL(url, "http://gateway").searchParams.get("user");
export const can = (user, doc, action) => ({ eve: action === "read", mallory: false })[user.id ?? user] ?? true;
"""
PROXY = """
defaults
    mode http
    timeout connect 5s
    timeout client 60s
    timeout server 60s
    timeout tunnel 1h
frontend tls
    bind 127.0.0.1:%(port)d ssl crt %(certificate)s
    use_backend gateway if { hdr(Upgrade) -i websocket } || { path_beg /docs }
    default_backend pages
backend gateway
    server gateway 127.0.0.1:%(gateway)d
backend pages
    server pages 127.0.0.1:%(pages)d
"""


class Pages(http.server.SimpleHTTPRequestHandler):
    def log_message(self, *_):
        pass


def serve_pages():
    server = http.server.ThreadingHTTPServer(("127.0.0.1", 0), functools.partial(Pages, directory=str(ROOT)))
    threading.Thread(target=server.serve_forever, daemon=True).start()
    return server.server_address[1]


def free_port():
    with socket.create_server(("127.0.0.1", 0)) as listener:
        return listener.getsockname()[1]


def make_certificate(folder):
    """A certificate that signs itself, in one file with its key; gives the file, and by what Chromium knows the key."""
    key, certificate, both = (str(folder / name) for name in ("key.pem", "certificate.pem", "both.pem"))
    subject = ["-subj", "/CN=localhost", "-addext", "subjectAltName=DNS:localhost"]
    make = ["openssl", "req", "-x509", "-newkey", "rsa:2048", "-nodes", "-days", "2", "-keyout", key, "-out", certificate, *subject]
    subprocess.run(make, check=True, capture_output=True)
    pathlib.Path(both).write_text(pathlib.Path(certificate).read_text() + pathlib.Path(key).read_text())
    public = subprocess.run(["openssl", "pkey", "-in", key, "-pubout", "-outform", "DER"], check=True, capture_output=True).stdout
    digest = subprocess.run(["openssl", "dgst", "-sha256", "-binary"], input=public, check=True, capture_output=True).stdout
    return both, base64.b64encode(digest).decode()


class Programs:
    """richd, the gateway and HAProxy, which may go and come."""

    def __init__(self, folder):
        self.folder, self.started = pathlib.Path(folder), []
        self.store = str(self.folder / "store")
        subprocess.run([RICHD, "format", self.store], check=True)
        richd = self.start([RICHD, "serve", self.store, "--listen", "127.0.0.1:0"])
        self.richd = int(richd.stdout.readline().rsplit(":", 1)[1])
        self.archive = str(self.folder / "archive")
        self.start([sys.executable, "-m", "richd", "archive", "--follow", "--lag", "0", self.store, self.archive])
        self.port = free_port()
        self.certificate, self.key = make_certificate(self.folder)
        (self.folder / "rights.mjs").write_text(RIGHTS)
        settings = {
            "listen": "127.0.0.1:0",
            "stores": [{"name": "s1", "host": "127.0.0.1", "port": self.richd}],
            "data": str(self.folder / "data"),
            "module": str(self.folder / "rights.mjs"),
            "origins": [f"https://localhost:{self.port}"],
            "archive": self.archive,
            "limits": {"sessions": MOST_SESSIONS},
        }
        (self.folder / "settings.json").write_text(json.dumps(settings))
        gateway = self.start(["node", str(ROOT / "gateway/program.js"), "--settings", str(self.folder / "settings.json")])
        self.gateway = int(re.search(r":(\d+)/", gateway.stdout.readline())[1])
        self.pages = serve_pages()
        self.url = f"https://localhost:{self.port}/examples/notes/"
        self.start_proxy()

    def start(self, command):
        environment = {**os.environ, "PYTHONPATH": str(ROOT / "clients/python")}  # where the gateway finds what asks the archive
        program = subprocess.Popen(command, stdout=subprocess.PIPE, stderr=subprocess.DEVNULL, text=True, env=environment)
        self.started.append(program)
        return program

    def start_proxy(self):
        names = {"port": self.port, "certificate": self.certificate, "gateway": self.gateway, "pages": self.pages}
        (self.folder / "haproxy.cfg").write_text(PROXY % names)
        self.proxy = self.start([HAPROXY, "-db", "-q", "-f", str(self.folder / "haproxy.cfg")])
        end = time.monotonic() + PATIENCE
        while time.monotonic() < end:
            try:
                return socket.create_connection(("127.0.0.1", self.port)).close()
            except OSError:
                time.sleep(0.05)
        sys.exit("FAILED  HAProxy doesn't listen")

    def stop_proxy(self):
        self.proxy.kill()
        self.proxy.wait()

    def stop(self):
        for program in reversed(self.started):
            program.send_signal(signal.SIGTERM)
            program.wait(PATIENCE)

    def dump(self):
        dumped = subprocess.run([RICHD, "dump", self.store], check=True, capture_output=True, text=True).stdout
        return {name: json.loads(document)["ops"] for name, _, _, document in (line.split(" ", 3) for line in dumped.splitlines())}


READ = """
    const { client, note, editor, titles } = globalThis.notes ?? {};
    const labels = [...document.querySelectorAll(".caret span")].map((label) => label.textContent).sort();
    return client && {
        client: client.state, titles: [...titles.values()], labels, said: document.getElementById("state").textContent,
        lost: document.getElementById("lost").hidden ? null : document.getElementById("lost").textContent,
        state: note?.state, name: note?.name, shared: note?.contents.ops, editor: editor.getContents().ops, isKept: note?.isKept,
        isSaved: note?.isSaved, selection: editor.getSelection(), others: note?.presence.others.map(({ user, range }) => [user, range]),
    }
"""


class Window:
    def __init__(self, browser, url, user):
        self.browser, self.user = browser, user
        self.window = browser.open_window(f"{url}?user={user}")
        self.wait(lambda page: page is not None, "the page")

    def run(self, script, *arguments):
        self.browser.switch(self.window)
        return self.browser.run(script, *arguments)

    def read(self):
        page = self.run(READ)
        return page and collections.defaultdict(lambda: None, page)  # what there isn't is missing

    def wait(self, holds, what):
        end = time.monotonic() + PATIENCE
        while not holds(page := self.read()):
            if time.monotonic() > end:
                sys.exit(f"FAILED  {self.user}: {what}: not within {PATIENCE} seconds\n        {json.dumps(page)}")
            time.sleep(0.05)
        return page

    def select(self, index, length=0):
        self.run("notes.editor.setSelection(...arguments)", index, length)

    def press(self, *keys):
        self.browser.switch(self.window)
        self.browser.press(*keys)

    def click(self, selector):
        self.run("document.querySelector(arguments[0]).click()", selector)

    def settle(self):
        return self.wait(lambda page: page["state"] == "saved" and page["shared"] == page["editor"], "saved")

    def picture(self, file):
        self.browser.switch(self.window)
        file.write_bytes(self.browser.screenshot())


def text_of(ops):
    return "".join(op["insert"] for op in ops)


class Showing:
    def __init__(self, programs, browser, picture):
        self.programs, self.browser, self.picture = programs, browser, pathlib.Path(picture)
        self.failed, self.shown = [], 0

    def expect(self, holds, what):
        self.shown += 1
        if not holds:
            self.failed.append(what)

    def leave(self, window, state=None):
        window.picture(self.picture.with_name(f"{self.picture.stem}-{state}{self.picture.suffix}") if state else self.picture)

    def open(self, user):
        return Window(self.browser, self.programs.url, user)

    def alike(self, *windows):
        """Waits until all show the same, and each other's carets where they are."""
        pages = []

        def are_alike(_):
            pages[:] = [window.settle() for window in windows]
            names = [window.user for window in windows]
            if any(page["shared"] != pages[0]["shared"] for page in pages):
                return False
            places = {name: page["selection"] for name, page in zip(names, pages) if page["selection"]}
            return all([name, place] in page["others"] for page, own in zip(pages, names) for name, place in places.items() if name != own)

        windows[0].wait(are_alike, "the same text, and carets where they are")
        return pages

    def write_together(self):
        ann = self.open("ann")
        ann.wait(lambda page: page["client"] == "connected", "a connection")
        ann.click("#new")
        ann.settle()
        ann.press(*"Shopping", ENTER, *"milk", ENTER, *"bread")
        ann.select(10, 8)
        ann.click("[data-value=bullet]")
        ann.settle()
        bob = self.open("bob")
        bob.wait(lambda page: page["state"] == "saved" and page["titles"] == ["Shopping"], "the note in the list")
        bob.select(9, 4)
        bob.press(CONTROL + "b")
        bob.select(13)
        ann.select(19)
        self.alike(ann, bob)
        for one, other in zip(" and honey", ", rye   "):
            bob.press(one)
            ann.press(other)
        pages = self.alike(ann, bob)
        self.expect([page["labels"] for page in pages] == [["bob"], ["ann"]], f"the carets are named {[page['labels'] for page in pages]}")
        self.expect(text_of(pages[0]["shared"]) == "Shopping\nmilk and hon\nbread, rye   \n", f"they have written {text_of(pages[0]['shared'])!r}")
        time.sleep(1.2)  # what is typed next is a step of its own
        ann.press(*"MINE")
        bob.press(*"ey")
        self.alike(ann, bob)
        ann.press(CONTROL + "z")
        ann.wait(lambda page: "MINE" not in text_of(page["shared"]), "Ctrl+Z")
        pages = self.alike(ann, bob)
        self.expect(text_of(pages[0]["shared"]) == "Shopping\nmilk and honey\nbread, rye   \n", f"Ctrl+Z has left {text_of(pages[0]['shared'])!r}")
        ann.select(1, 4)
        bob.select(14, 9)
        self.alike(ann, bob)
        self.leave(ann)
        return ann, bob

    def refuse(self, ann, bob):
        eve = self.open("eve")
        before = eve.wait(lambda page: page["state"] == "saved", "the note that eve may read")["shared"]
        page = eve.wait(lambda page: sorted(page["labels"]) == ["ann", "bob"], "the carets of both")
        eve.run(
            """globalThis.troubles = [];
            notes.note.addEventListener("trouble", ({ error, delta, isFinal }) => troubles.push([error.code, error.name, delta.ops, isFinal]));"""
        )
        eve.browser.type("eve was here")
        page = eve.wait(lambda page: page["state"] == "refused", "a refusal")
        troubles = eve.run("return troubles")
        self.expect(troubles == [[60, "NotAllowed", [{"insert": "eve was here"}], False]], f"eve is told {troubles}")
        self.expect(page["shared"] == page["editor"] == before, "what eve typed is still shown")
        self.expect(page["lost"] == "you may not change it: “eve was here”", f"eve's page says {page['lost']}")
        self.leave(eve, "refused")
        eve.click("#new")
        page = eve.wait(lambda page: page["lost"] == "you may not change it", "a refused note")
        self.expect(all(window.read()["shared"] == before for window in (ann, bob)), "eve has changed the note")
        return eve

    def look_back(self, ann, bob):
        versions = "return [...document.querySelectorAll('aside li')].map((item) => item.firstChild.textContent)"
        now = text_of(ann.settle()["shared"])
        ann.click("#versions")
        ann.wait(lambda _: len(ann.run(versions)) > 2, "the versions")
        names = ann.run(versions)
        self.expect(names[-1] == "ann" and set(names) == {"ann", "bob"}, f"the versions are by {names}")
        ann.click("aside li:last-child")
        shown = "return [document.getElementById('then').hidden, document.querySelector('#then div').textContent]"
        ann.wait(lambda _: ann.run(shown)[0] is False, "the first version")
        first = ann.run(shown)[1]
        self.expect(first.startswith("Shopping\nmilk\nbread") and first != now, f"the first version is {first!r}")
        self.leave(ann, "versions")
        ask = "return fetch(`/docs/${notes.note.name}/versions?user=${arguments[0]}`).then((response) => response.status)"
        statuses = [ann.run(ask, user) for user in ("ann", "eve", "mallory")]
        self.expect(statuses == [200, 200, 403], f"the versions are given with {statuses}")
        ann.click("#again")
        page = ann.settle()
        self.expect(text_of(page["shared"]) == first, f"it is made {text_of(page['shared'])!r} again")
        self.alike(ann, bob)
        ann.run("notes.note.history.undo()")
        self.expect(text_of(ann.settle()["shared"]) == now, "that isn't taken back")
        ann.select(1, 4)
        self.alike(ann, bob)

    def fill(self, eve):
        dan = self.open("dan")
        page = dan.wait(lambda page: page["client"] == "full", "a full server")
        self.expect(page["said"] == "the server is full", f"dan's page says {page['said']}")
        self.leave(dan, "full")
        self.browser.ask("Target.closeTarget", targetId=eve.window)
        dan.wait(lambda page: page["client"] == "connected" and page["titles"] == ["Shopping"], "a place")
        self.browser.ask("Target.closeTarget", targetId=dan.window)

    def outlive(self, ann, bob):
        bob.run("return navigator.serviceWorker.ready.then(() => caches.open('notes')).then((cache) => cache.keys()).then((keys) => keys.length)")
        bob.wait(lambda _: bob.run("return caches.open('notes').then((cache) => cache.keys()).then((keys) => keys.length)") > 20, "the page to be kept")
        before = bob.settle()["shared"]
        self.programs.stop_proxy()
        bob.wait(lambda page: page["client"] == "offline", "no connection")
        bob.select(0)
        bob.press(*"OFFLINE ")
        bob.wait(lambda page: page["isKept"] and not page["isSaved"], "what was typed to be kept")
        self.leave(bob, "offline")
        bob.browser.switch(bob.window)
        bob.browser.go_to(bob.browser.run("return location.href.replace(/#.*/, '') + '&again' + location.hash"))
        page = bob.wait(lambda page: page is not None and page["shared"] is not None, "the page without a network")
        self.expect(text_of(page["shared"]) == "OFFLINE " + text_of(before), "what was typed isn't shown after a reload")
        self.programs.start_proxy()
        ann.wait(lambda page: page["shared"] and text_of(page["shared"]).startswith("OFFLINE "), "what bob typed")
        pages = self.alike(ann, bob)
        self.expect(text_of(pages[0]["shared"]) == "OFFLINE " + text_of(before), "what was typed without a network isn't there once")
        return pages[0]


def main(picture):
    if not os.access(RICHD, os.X_OK):
        sys.exit(f"{RICHD} isn't there: ./demo builds it, or name another program in RICHD")
    if not IS_THERE or HAPROXY is None:
        print("skipped: there is no " + ("HAProxy, Debian's haproxy" if IS_THERE else "Chromium, Debian's chromium"))
        return 0
    with tempfile.TemporaryDirectory() as folder:
        programs = Programs(folder)
        try:
            browser = Chromium(f"--ignore-certificate-errors-spki-list={programs.key}", width=1000, height=420)
            try:
                showing = Showing(programs, browser, picture)
                ann, bob = showing.write_together()
                eve = showing.refuse(ann, bob)
                showing.fill(eve)
                showing.look_back(ann, bob)
                page = showing.outlive(ann, bob)
            finally:
                browser.close()
        finally:
            programs.stop()
        dumped = programs.dump()
    showing.expect(dumped == {page["name"]: page["shared"]}, f"richd dump shows something else: {dumped}")
    for reason in showing.failed:
        print(f"FAILED  {reason}")
    if showing.failed:
        return 1
    print(f"ok: over TLS two see each other's carets, one without rights is refused with his text, a full server says so, versions are shown, {showing.shown} things shown; {picture}")
    return 0


if __name__ == "__main__":
    sys.exit(main(sys.argv[1] if len(sys.argv) > 1 else os.path.join(tempfile.gettempdir(), "notes.png")))
