#!/usr/bin/env python3
"""Types in the editors of examples/editor, in two windows of a headless Chromium, through what befalls an editor.

usage: checks/editor.py [--quill FOLDER] [PICTURE]

1. Keys go to both editors of a window in turn for ten seconds, so that each edit is on its way while the other writes. In the middle the
   second editor's connection is cut. Each character that was typed is there once.
2. A character is composed by an input method, while another window's user types before it.
3. An image is pasted that is too long for a line: it is told and taken out again, and nothing is sent.
4. Ctrl+Z takes back what was typed in this editor, and leaves what others typed since.
5. A window loses its server, is typed in, and is loaded again: it shows what was typed, under the same sources, and sends it once there is a
   server again, once.

After each of these the four editors have the same contents, and at the end `richd dump` shows them too. A screenshot is left in PICTURE, else
in editors.png in the temporary folder of the system, and one of each further state beside it, as editors-offline.png.

The editors are those of the page's own, or Quill where FOLDER has its quill.js and quill.snow.css. At the beginning Ctrl+Z is pressed in the
second before it has typed anything, which has to leave alone what the first typed.

It wants Debian's chromium, nodejs and node-ws, and the program that ./demo builds, or another that RICHD names. Where there is no Chromium it
says so, and its status is 0.
"""
import argparse
import collections
import json
import os
import pathlib
import random
import re
import signal
import socket
import subprocess
import sys
import tempfile
import threading
import time

from chromium import BACKSPACE, CONTROL, ENTER, IS_THERE, PATIENCE, Chromium

ROOT = pathlib.Path(__file__).resolve().parent.parent
RICHD = os.environ.get("RICHD") or str(ROOT / "crates/richd/out/richd")
SECONDS = 10  # of typing
IMAGE = "data:image/png;base64," + "A" * 90_000  # longer than a line may be

# What they type; a star begins and ends what is bold.
ANN = (
    "Dear bob, this is my line, and that below is yours. We write *at the same time*, and neither waits for the other. What I type "
    "shows here at once, and then over there; what you type comes in between, and nothing is lost and *nothing twice*. "
)
BOB = (
    "Dear ann, I see yours while I type mine. In the middle *my connection breaks*, and I go on all the same: what I wrote "
    "meanwhile is sent again, under *the same number*, so it is taken once. Then both of us have one text, and so has the disk. "
)


class Proxy:
    """Stands between the browser and the bridge, so that a connection can be cut without the knowledge of either."""

    def __init__(self, upstream):
        self.upstream = upstream
        self.listener = socket.create_server(("127.0.0.1", 0))
        self.address = "%s:%d" % self.listener.getsockname()
        self.web_sockets = []
        self.is_away = False  # WebSockets are refused
        threading.Thread(target=self.accept, daemon=True).start()

    def accept(self):
        while True:
            near, _ = self.listener.accept()
            far = socket.create_connection(self.upstream)
            for one in (near, far):
                one.setsockopt(socket.IPPROTO_TCP, socket.TCP_NODELAY, 1)
            threading.Thread(target=self.carry, args=(near, far, True), daemon=True).start()
            threading.Thread(target=self.carry, args=(far, near, False), daemon=True).start()

    def carry(self, source, target, is_request):
        try:
            while piece := source.recv(65_536):
                if is_request and re.search(rb"^upgrade: *websocket", piece, re.IGNORECASE | re.MULTILINE):
                    if self.is_away:
                        break
                    self.web_sockets.append((source, target))
                target.sendall(piece)
        except OSError:
            pass
        for one in (source, target):
            cut(one)

    def go_away(self):
        self.is_away = True
        for pair in self.web_sockets:
            for one in pair:
                cut(one)


def cut(one):
    try:
        one.shutdown(socket.SHUT_RDWR)
    except OSError:
        pass


def wait_until(holds, what):
    end = time.monotonic() + PATIENCE
    while not holds():
        if time.monotonic() > end:
            sys.exit(f"FAILED  {what}: not within {PATIENCE} seconds")
        time.sleep(0.05)


PLACE = """
    const [index, share] = arguments;
    const { editor } = editors[index];
    const shown = editor.getContents().ops.map((op) => op.insert).join("");
    const ownEnd = index === 0 ? shown.indexOf("\\n") : shown.length - 1;
    const words = [...shown.matchAll(/ /g)].map((space) => space.index + 1);
    editor.setSelection(share === null ? ownEnd : words[Math.floor(share * words.length)] ?? 0, 0);
"""


class Writer:
    """Types a text in one of the editors: mostly behind its own line, and now and then a word between two others of either line."""

    def __init__(self, browser, index, text, name):
        self.browser, self.index, self.text, self.name = browser, index, text, name
        self.typed = collections.Counter()
        self.count = 0

    def press(self, keys, share=None):
        """Presses keys at the end of the own line, or at a share of all words."""
        self.browser.run(PLACE, self.index, share)
        self.browser.press(*keys)

    def type(self, keys, share=None):
        self.press(keys, share)
        self.typed.update(key for key in keys if len(key) == 1)

    def next_letter(self):
        self.count += 1
        return self.text[(self.count - 1) % len(self.text)]

    def turn(self):
        letter = self.next_letter()
        self.type([CONTROL + "b", self.next_letter()] if letter == "*" else [letter])
        if self.count % 60 == 0:
            self.type(f"({self.name}) ", random.random())
        if self.count % 35 == 0:
            self.press(["#", BACKSPACE])


def contents(browser):
    """What both documents and both editors hold, and what both show."""
    return browser.run(
        """return editors.map(({ shared, editor }) => ({
            shared: shared.contents.ops, editor: editor.getContents().ops, isSaved: shared.isSaved, revision: shared.revision
        }))"""
    )


def are_alike(sides):
    return all(side["isSaved"] and side["shared"] == side["editor"] == sides[0]["shared"] for side in sides)


def text_of(ops):
    return "".join(op["insert"] if isinstance(op["insert"], str) else "*" for op in ops)


def undo_alone(browser):
    """Ctrl+Z of one who has typed nothing leaves alone what the other typed."""
    before = contents(browser)[0]["shared"]
    browser.run("editors[1].editor.setSelection(0, 0)")
    browser.press(CONTROL + "z")
    wait_until(lambda: are_alike(contents(browser)), "the same contents after Ctrl+Z")
    assert contents(browser)[0]["shared"] == before, f"Ctrl+Z made {contents(browser)} of {before}"


def write_together(browser, proxy):
    wait_until(lambda: browser.run("return globalThis.editors !== undefined"), "the page's editors")
    ann, bob = Writer(browser, 0, ANN, "ann"), Writer(browser, 1, BOB, "bob")
    ann.browser.run("editors[0].editor.setSelection(0, 0)")
    browser.press(ENTER)  # a line for each
    wait_until(lambda: are_alike(contents(browser)), "a line for each")
    undo_alone(browser)
    connections = len(proxy.web_sockets)
    assert connections == 2, f"{connections} connections"

    begin = time.monotonic()
    is_cut = False
    while (passed := time.monotonic() - begin) < SECONDS or not is_cut:
        if passed > SECONDS / 2 and not is_cut:
            is_cut = True
            for one in proxy.web_sockets[-1]:
                cut(one)
        ann.turn()
        bob.turn()
    wait_until(lambda: are_alike(contents(browser)), "the same contents in both")
    assert len(proxy.web_sockets) > connections, "no connection was begun again"
    return ann, bob


class Windows:
    """Two windows of one browser, `here` and `there`, with two editors each."""

    def __init__(self, browser, proxy, here, there, picture):
        self.browser, self.proxy, self.here, self.there = browser, proxy, here, there
        self.picture = pathlib.Path(picture)
        self.failed = []

    def at(self, window):
        self.browser.switch(window)
        return self.browser

    def contents(self):
        return [side for window in (self.here, self.there) for side in contents(self.at(window))]

    def text(self, window):
        return text_of(contents(self.at(window))[0]["shared"])

    def settle(self, what):
        wait_until(lambda: are_alike(self.contents()), f"the same contents in all four after {what}")
        return self.text(self.here)

    def type(self, window, text, index=0, place=0):
        self.at(window).run("const [index, place] = arguments; editors[index].editor.setSelection(place, 0)", index, place)
        self.browser.press(*text)

    def expect(self, holds, what):
        if not holds:
            self.failed.append(what)

    def show(self, window, state):
        """Leaves a screenshot of a state."""
        picture = self.picture.with_name(f"{self.picture.stem}-{state}{self.picture.suffix}")
        picture.write_bytes(self.at(window).screenshot())

    def compose(self):
        """An input method composes in one window, and the other types before it."""
        before = self.settle("opening")
        self.at(self.here).run("editors[0].editor.setSelection(3, 0)")
        self.browser.command("Input.imeSetComposition", text="か", selectionStart=1, selectionEnd=1)
        self.type(self.there, "ABC ")
        wait_until(lambda: "ABC " in self.text(self.here), "what others typed, while a character is composed")
        self.browser.command("Input.imeSetComposition", text="かな", selectionStart=2, selectionEnd=2)
        self.show(self.here, "composition")
        self.at(self.here).type("仮名")
        wait_until(lambda: "仮名" in self.text(self.there), "what was composed")
        after = self.settle("a composition")
        self.expect(after == "ABC " + before[:3] + "仮名" + before[3:], "what was composed isn't in its place")

    def paste_image(self):
        """Quill pastes an image as an embed that holds it."""
        self.settle("typing")
        before = contents(self.at(self.here))[0]
        lost = self.browser.run(
            """const [image] = arguments;
            const { editor, shared } = editors[0];
            const lost = [];
            shared.addEventListener("trouble", ({ error, delta }) => lost.push([error.name, delta.ops.length]));
            editor.updateContents({ ops: [{ retain: 2 }, { insert: { image } }] }, "user");
            return lost;""",
            IMAGE,
        )
        self.expect([name for name, _ in lost] == ["LineTooLong"], f"a pasted image is told as {lost}")
        wait_until(lambda: contents(self.at(self.here))[0]["editor"] == before["editor"], "the image's way out of the editor")
        time.sleep(1)
        self.show(self.here, "image")
        after = contents(self.at(self.here))[0]
        self.expect(after["revision"] == before["revision"], "revisions were made of an image that wasn't sent")
        self.settle("a pasted image")

    def take_back(self):
        """Ctrl+Z, after another's typing."""
        before = self.settle("typing")
        time.sleep(1.2)  # what is typed next is a step of its own
        self.at(self.here).run("editors[0].editor.setSelection(1, 0)")
        self.browser.type("MINE ")  # at once, so it is one step however slow the machine is
        self.type(self.there, "yours ", place=0)
        self.settle("typing in both")
        self.at(self.here).run("editors[0].editor.setSelection(0, 0)")
        self.browser.press(CONTROL + "z")
        wait_until(lambda: "MINE" not in self.text(self.here), "Ctrl+Z")
        self.show(self.here, "undo")
        after = self.settle("Ctrl+Z")
        self.expect(after == "yours " + before, f"Ctrl+Z left {after[:20]}")

    def outlive(self):
        """A window without a server is typed in, and loaded again."""
        before = self.settle("typing")
        sources = self.at(self.there).run("return editors.map(({ client }) => client.source)")
        self.proxy.go_away()
        wait_until(lambda: self.at(self.there).run("return editors[0].shared.state") == "offline", "a window without a server")
        self.type(self.there, "OFFLINE ")
        wait_until(lambda: self.at(self.there).run("return editors[0].shared.isKept"), "what was typed to be kept")
        self.show(self.there, "offline")
        self.at(self.there).go_to(self.browser.run("return location.href"))
        wait_until(lambda: self.at(self.there).run("return globalThis.editors !== undefined"), "the page that was loaded again")
        self.expect(self.text(self.there) == "OFFLINE " + before, "what was typed isn't shown after a reload")
        self.expect(self.browser.run("return editors.map(({ client }) => client.source)") == sources, "the page has other sources after a reload")
        self.type(self.there, "STILL ", place=8)
        self.show(self.there, "reloaded")
        self.proxy.is_away = False
        wait_until(lambda: "OFFLINE STILL " in self.text(self.here), "what was typed without a server")
        after = self.settle("a reload")
        self.expect(after == "OFFLINE STILL " + before, "what was typed without a server isn't there once")
        self.show(self.there, "saved")


def main(picture, quill):
    if not os.access(RICHD, os.X_OK):
        sys.exit(f"{RICHD} isn't there: ./demo builds it, or name another program in RICHD")
    if not IS_THERE:
        print("skipped: there is no Chromium, Debian's chromium")
        return 0
    failed = []
    with tempfile.TemporaryDirectory() as folder:
        store = os.path.join(folder, "store")
        command = [str(ROOT / "examples/editor/run"), "--listen", "127.0.0.1:0", *(["--quill", quill] if quill else [])]
        served = subprocess.Popen(command, stdout=subprocess.PIPE, text=True, env={**os.environ, "STORE": store, "RICHD": RICHD})
        try:
            host, port = re.search(r"http://(.+):(\d+)/", served.stdout.readline()).groups()
            proxy = Proxy((host, int(port)))
            browser = Chromium()
            try:
                here = browser.open_window(f"http://{proxy.address}/")
                ann, bob = write_together(browser, proxy)
                pathlib.Path(picture).write_bytes(browser.screenshot())
                text = text_of(contents(browser)[0]["shared"])
                if collections.Counter(text) != ann.typed + bob.typed + collections.Counter("\n\n"):
                    failed.append("what was typed isn't there once")
                there = browser.open_window(f"http://{proxy.address}/")
                wait_until(lambda: browser.run("return globalThis.editors !== undefined"), "the second window's editors")
                windows = Windows(browser, proxy, here, there, picture)
                for befalls in (windows.compose, windows.paste_image, windows.take_back, windows.outlive):
                    befalls()
                failed += windows.failed
                sides = windows.contents()
            finally:
                browser.close()
        finally:
            served.send_signal(signal.SIGTERM)
            served.wait(PATIENCE)
        dumped = subprocess.run([RICHD, "dump", store], check=True, capture_output=True, text=True).stdout
    name, revision, _, document = dumped.rstrip("\n").split(" ", 3)

    ops = sides[0]["shared"]
    if (name, int(revision), json.loads(document)) != ("letter", sides[0]["revision"], {"ops": ops}):
        failed.append(f"richd dump shows something else: {dumped}")
    for reason in failed:
        print(f"FAILED  {reason}")
    if failed:
        print(f"        the editors: {json.dumps(ops)}")
        return 1
    print(f"ok      {sum(ann.typed.values())} and {sum(bob.typed.values())} characters in {SECONDS} seconds, with a cut in the middle")
    print("        a composition, a pasted image, Ctrl+Z, and a reload without a server, in two windows")
    print(f"        the editors and richd dump have the same {len(text_of(ops))} at revision {revision}; the picture is {picture}")
    return 0


if __name__ == "__main__":
    parser = argparse.ArgumentParser(usage="checks/editor.py [--quill FOLDER] [PICTURE]")
    parser.add_argument("--quill", metavar="FOLDER")
    parser.add_argument("picture", nargs="?", default=os.path.join(tempfile.gettempdir(), "editors.png"))
    words = parser.parse_args()
    sys.exit(main(words.picture, words.quill))
