#!/usr/bin/env python3
"""Types in Quill itself, in one to three windows of a headless Chromium, through the gateway, by keys, mouse, clipboard and input method.

usage: checks/quill.py [--actions N] [--seed N] [SCENE..]     (default: all scenes, and 500 actions)

Each scene has a document of its own. After each the windows, their editors and the server have the same, and what the scene says is there:

    letters       what is typed reaches the document, in one, two and three windows
    undo          Ctrl+Z and Ctrl+Shift+Z take back and bring back what was typed here, past what others did, and the caret goes there
    formats       lines that are made a header and a list at the same time, a list and a block of code, bold text in a block of code
    fewer         a window whose Quill has one format alone
    throwing      a change at which Quill throws
    texts         accents apart, Hangul, joined emoji, from right to left: typed, composed and pasted
    composing     an input method, while others type before, within and behind it, and delete the line
    long          contents of 200 KB that a page creates, and closes in between; a paste of 200 KB
    pasting       HTML with everything, images, text with other ends of lines
    lines         lists, tabs, headers, all selected and deleted, an empty document
    values        a mention, whose value is an object
    uploading     a pasted image that is uploaded while others type
    presence      carets of others
    readme        the page of clients/js/README.md in a folder of its own, and, where esbuild is there, bundled by it
    random        N actions in one, two and three windows, while connections are cut, the server and the gateway are killed, and pages are
                  loaded again; every 50 of them all windows and the server have the same, and nothing changes any more

At the end `richd dump` has what the windows show.

It wants Debian's chromium, bibledit-cloud-data (Quill 1.3), nodejs and node-ws, and the program that ./demo builds, or another that RICHD names.
Where Chromium or Quill is missing it says so, and its status is 0.
"""
import argparse
import collections
import json
import os
import pathlib
import random
import re
import shutil
import subprocess
import sys
import tempfile
import threading
import time

from chromium import IS_THERE, Chromium
from quill_windows import CONTROL, PATIENCE, PLACE, QUILL, RICHD, ROOT, SHIFT, Programs, Proxy, Window, wait_until

USERS = ["ann", "bob", "cyn"]


def spelled(ops):
    return json.dumps(ops, sort_keys=True, ensure_ascii=False)


class Check:
    def __init__(self, programs, proxy, browser, actions=0, seed=1):
        self.programs, self.proxy, self.browser, self.actions, self.seed = programs, proxy, browser, actions, seed
        self.failed, self.shown, self.scene, self.counts = [], 0, None, collections.Counter()
        self.last = {}  # of each document, what it is at last

    def expect(self, holds, what):
        self.shown += 1
        if not holds:
            self.fail(what)

    def fail(self, what):
        self.failed.append(what)
        print(f"FAILED  {self.scene}: {what}", flush=True)

    def open(self, doc, count=2, **options):
        words = "".join(f"&{name}={value}" for name, value in options.items())
        url = f"{self.programs.origin}/checks/quill.html?server=127.0.0.1:{self.proxy.port}&doc={doc}{words}&user="
        return [Window(self.browser, url + user, user) for user in USERS[:count]]

    def close(self):
        for window in list(self.browser.sessions):
            try:
                self.browser.ask("Target.closeTarget", targetId=window)
            except RuntimeError:
                pass
        self.browser.sessions.clear()

    def settle(self, doc, *windows, shows_all=True, quietly=False, may_lose=False):
        """Waits until all windows and the server have the same. Gives the operations, as the server has them. Where Quill itself threw at what its
        user did, that may be lost."""
        end, pages, served = time.monotonic() + PATIENCE, [], {}
        while time.monotonic() < end:
            pages = [window.read() for window in windows]
            served = self.programs.fetch(doc)
            alike = all(
                (page["state"] == "saved" or may_lose and page["state"] == "refused" and page["isSaved"]) and page["revision"] == served["rev"] and spelled(page["values"]) == spelled(served["ops"])
                and (not shows_all or spelled(page["editor"]) == spelled(page["shared"]))
                for page in pages
            )
            if alike:
                self.last[doc] = served["ops"]
                if not quietly:
                    self.shown += 1
                return served["ops"]
            time.sleep(0.05)
        seen = [{**page, "values": None} for page in pages]
        raise TimeoutError(f"the windows differ: {json.dumps(seen, ensure_ascii=False)[:3000]}, the server has {json.dumps(served, ensure_ascii=False)[:1000]}")

    # The scenes.

    def letters(self, doc):
        for count in (1, 2, 3):
            windows = self.open(f"{doc}-{count}", count)
            for window in windows:
                window.caret(0)
                window.type(window.user)
                self.settle(f"{doc}-{count}", *windows)
            text = windows[0].text()
            self.expect(text == "".join(reversed(USERS[:count])) + "\n", f"{count} have typed {text!r}")
            self.close()

    def undo(self, doc):
        ann, bob = self.open(doc)
        bob.caret(0)
        bob.type("one two")
        self.settle(doc, ann, bob)
        for place, letters in ((3, "AAA"), (0, "BBB")):
            ann.caret(place)
            ann.run("page.quill.history.cutoff()")
            ann.put(letters)
            self.settle(doc, ann, bob)
        bob.caret(4)
        bob.type("xyz")
        self.settle(doc, ann, bob)
        texts = []
        ann.caret(12)
        for turn in (ann.undo, ann.undo, ann.undo, ann.redo, ann.redo):
            turn()
            self.settle(doc, ann, bob, quietly=True)
            texts.append(ann.text())
        wanted = ["oxyzneAAA two\n", "oxyzne two\n", "oxyzne two\n", "oxyzneAAA two\n", "BBBoxyzneAAA two\n"]
        self.expect(texts == wanted, f"undo and redo made {texts}")
        self.expect(ann.read()["selection"] == {"index": 3, "length": 0}, f"the caret is at {ann.read()['selection']}")
        for seed in range(3):
            self.undo_all(f"{doc}-{seed}", random.Random(seed))

    def undo_all(self, doc, draw):
        """All of one user's is taken back, and all of the other's stays."""
        self.close()
        ann, bob = self.open(doc)
        bobs = collections.Counter("HELLO WORLD\n")
        bob.caret(0)
        bob.put("HELLO WORLD")
        self.settle(doc, ann, bob)
        for _ in range(10):
            window, letters = draw.choice([(ann, "aaa"), (ann, "bb"), (bob, "XX"), (bob, "YYYY")])
            window.run("page.quill.history.cutoff()")
            window.caret(draw.randrange(len(window.text())))
            window.put(letters)
            bobs.update(letters if window is bob else "")
            self.settle(doc, ann, bob, quietly=True)
        for _ in range(12):
            ann.undo()
        self.settle(doc, ann, bob)
        self.expect(collections.Counter(ann.text()) == bobs, f"of bob's {bobs} undo left {ann.text()!r}")

    def formats(self, doc):
        header, bullet = ".ql-header .ql-picker-item[data-value='1']", ".ql-list[value=bullet]"
        cases = [
            (lambda ann: (ann.caret(1), ann.click(".ql-header .ql-picker-label"), ann.click(header)), lambda bob: (bob.caret(2), bob.click(bullet)), {"list": "bullet"}),
            (lambda ann: (ann.caret(1), ann.click(bullet)), lambda bob: (bob.caret(2), bob.click(".ql-code-block")), {"code-block": True}),
            (lambda ann: (ann.caret(0, 4), ann.key("b", CONTROL)), lambda bob: (bob.caret(2), bob.click(".ql-code-block")), {"code-block": True}),
            (lambda ann: (ann.caret(1), ann.click(".ql-blockquote")), lambda bob: (bob.caret(2), bob.click(".ql-code-block")), {"code-block": True}),
        ]
        for number, (one, other, left) in enumerate(cases):
            ann, bob = self.open(f"{doc}-{number}")
            ann.caret(0)
            ann.type("line")
            self.settle(f"{doc}-{number}", ann, bob)
            self.proxy.go_away()
            one(ann)
            other(bob)
            self.proxy.is_away = False
            ops = self.settle(f"{doc}-{number}", ann, bob)
            self.expect(ops == [{"insert": "line"}, {"attributes": left, "insert": "\n"}], f"both have {ops}")
            ann.caret(4)
            ann.type("x")
            bob.caret(0)
            bob.type("y")
            self.settle(f"{doc}-{number}", ann, bob)
            late, = self.open(f"{doc}-{number}", 1)
            self.settle(f"{doc}-{number}", ann, bob, late)
            self.close()

    def fewer(self, doc):
        ann, = self.open(doc, 1)
        bob, = self.open(doc, 1, formats="bold")
        ann.caret(0)
        ann.type("plain")
        ann.caret(0, 5)
        ann.key("i", CONTROL)
        ann.key("b", CONTROL)
        ann.click(".ql-list[value=ordered]")
        self.settle(doc, ann, bob, shows_all=False)
        bob.caret(5)
        bob.type("x")
        ann.apply({"insert": {"image": "/a.png"}})
        ops = self.settle(doc, ann, bob, shows_all=False)
        self.expect(spelled(ann.read()["editor"]) == spelled(ops), "who has all formats shows other ones")
        self.expect(ops[-1]["attributes"] == {"list": "ordered"} and ops[0]["insert"] == {"image": "/a.png"}, f"what one doesn't know is gone from {ops}")
        shown = bob.read()["editor"]
        self.expect("".join(op["insert"] for op in shown) == "\ufffcplainx\n", f"one with fewer formats shows {shown}")
        self.expect(not any(set(op.get("attributes", {})) - {"bold"} for op in shown), f"one with fewer formats shows {shown}")

    def throwing(self, doc):
        ann, bob = self.open(doc)
        ann.caret(0)
        ann.type("ab\n\nc")
        for place, button in ((0, ".ql-code-block"), (3, ".ql-code-block"), (5, ".ql-list[value=ordered]")):
            ann.caret(place)
            ann.click(button)
        self.settle(doc, ann, bob)
        ann.run("page.shared.apply([{ retain: 3 }, { delete: 2 }])")  # at which Quill throws in bob's window
        ops = self.programs.fetch(doc)["ops"]
        self.settle(doc, bob)
        bob.caret(1)
        bob.type("x")
        ops = self.settle(doc, bob)
        self.expect("".join(op["insert"] for op in ops) == "axb\n\n", f"the document is {ops}")

    def texts(self, doc):
        drawn = ["cafe\u0301 noir", "\u1112\u1161\u11ab\u1100\u1173\u11af", "\U0001f468\u200d\U0001f469\u200d\U0001f467 \u2764\ufe0f", "\u05e9\u05c1\u05dc\u05d5\u05dd \u0628\u0650", "5 \u2126"]
        for number, text in enumerate(drawn):
            name = f"{doc}-{number}"
            ann, bob = self.open(name)
            length = len(text.encode("utf-16-le")) // 2
            ann.caret(0)
            ann.put(text)  # as typed
            self.settle(name, ann, bob)
            bob.caret(length)
            bob.compose(text[:1])
            bob.compose(text)
            bob.put(text)
            self.settle(name, ann, bob)
            ann.caret(2 * length)
            ann.paste(text=text)
            self.settle(name, ann, bob)
            bob.caret(2 * length)
            bob.type("|")
            bob.caret(0)
            bob.type("<")
            ops = self.settle(name, ann, bob)
            self.expect(ops == [{"insert": f"<{text}{text}|{text}\n"}], f"{text!r} became {ops}")
            self.expect(not ann.read()["told"] and not bob.read()["told"], f"{text!r}: {ann.read()['told']}")
            self.close()

    def composing(self, doc):
        def case(name, wanted, *acts, text="hello world"):
            ann, bob = self.open(f"{doc}-{name}")
            bob.caret(0)
            bob.type(text)
            self.settle(f"{doc}-{name}", ann, bob)
            ann.caret(min(5, len(text)))
            for act in acts:
                act(ann, bob)
                time.sleep(0.15)
            self.settle(f"{doc}-{name}", ann, bob)
            self.expect(ann.text() in wanted, f"{name}: {ann.text()!r}")
            self.close()

        def begin(ann, _):
            ann.compose("か")

        def more(ann, _):
            ann.compose("かな")

        def commit(ann, _):
            ann.put("仮名")

        def typed(place, text):
            return lambda _, bob: (bob.caret(place), bob.type(text))

        def clear(_, bob):
            bob.select_all()
            bob.key("Backspace")

        def away(*_):
            self.proxy.go_away()

        def back(*_):
            self.proxy.is_away = False

        case("before", ["XYhello仮名 world\n"], begin, typed(0, "XY"), more, commit)
        case("there", ["hello仮名XY world\n", "helloXY仮名 world\n"], begin, typed(5, "XY"), more, commit)
        case("within", ["hello仮名X world\n", "helloX仮名 world\n", "hello仮X名 world\n"], begin, more, typed(6, "X"), commit)
        case("deleted", ["仮名\n"], begin, clear, more, commit)
        case("cancelled", ["Qhello world\n"], begin, typed(0, "Q"), lambda ann, _: ann.compose(""))
        case("empty", ["Q仮名\n", "仮名Q\n"], begin, typed(0, "Q"), commit, text="")
        case("bold", ["Qhello仮名 world\n"], lambda ann, _: ann.key("b", CONTROL), begin, typed(0, "Q"), more, commit)
        case("cut", ["Qhello仮名 world\n"], begin, away, typed(0, "Q"), more, commit, back)
        case("undone", ["Qhello world\n"], lambda ann, _: ann.run("page.quill.history.cutoff()"), begin, typed(0, "Q"), commit, lambda ann, _: ann.undo())

    def long(self, doc):
        words = "words of a long document " * 5
        contents = []
        for line in range(160):
            contents += [{"insert": f"{line} {run} {words}", "attributes": {"bold": True} if run % 2 else {"italic": True}} for run in range(10)]
            contents.append({"insert": "\n", "attributes": {"list": "bullet"}})
        with tempfile.NamedTemporaryFile("w", dir=ROOT / "checks", prefix="quill-", suffix=".json") as file:
            json.dump(contents, file)
            file.flush()
            name = os.path.basename(file.name)
            ann, bob = self.open(f"{doc}-whole", create=name)
            self.expect(spelled(self.settle(f"{doc}-whole", ann, bob)) == spelled(contents), "a long creation is another")
            self.close()
            ann, = self.open(f"{doc}-closed", 1, create=name, offline=1)
            wait_until(lambda: ann.run("return page.shared.isKept"), "what is created to be kept")
            ann.load_again()
            self.expect(spelled(self.settle(f"{doc}-closed", ann)) == spelled(contents), "a creation whose page was closed in between is another")
            self.close()
        ann, bob = self.open(f"{doc}-pasted")
        ann.caret(0)
        ann.type("ab")
        self.settle(f"{doc}-pasted", ann, bob)
        ann.caret(1)
        ann.paste(html="".join(f"<p><b>bold {number}</b> {words * 8} <i>it {number}</i></p>" for number in range(200)))
        bob.caret(0)
        bob.type("QQ")
        ops = self.settle(f"{doc}-pasted", ann, bob)
        self.expect(len(json.dumps(ops)) > 200_000, f"{len(json.dumps(ops))} bytes were pasted")
        ann.undo()
        self.settle(f"{doc}-pasted", ann, bob)
        self.expect(ann.text() in ("QQab\n", "QQ\n"), f"a paste that was taken back has left {ann.text()[:40]!r}")

    def pasting(self, doc):
        ann, bob = self.open(doc)
        ann.caret(0)
        ann.type("one two")
        ann.caret(3)
        ann.paste(
            html='<h1>Title <b>bo<i>ld</i></b></h1><p>a&nbsp;b&nbsp;&nbsp;c <a href="http://x/y">li<b>nk</b></a> <span style="color:rgb(200,0,0);font-size:18px;'
            'background-color:#ff0">red</span></p><ul><li>one<ul><li>in</li></ul></li><li>two</li></ul><ol><li>1</li></ol><pre>code\n  more</pre>'
            '<blockquote>q</blockquote><table><tr><td>c1</td><td>c2</td></tr></table><p style="text-align:right">r</p><p>\U0001f600 e\u0301 \u200b \ufeff</p>'
            '<br><br><iframe src="https://www.youtube.com/embed/x"></iframe><img src="data:image/png;base64,iVBORw0KGgo=">'
        )
        self.settle(doc, ann, bob)
        bob.caret(1)
        bob.paste(text="plain\r\nwin\rmac\ttab")
        self.settle(doc, ann, bob)
        bob.select_all()
        bob.paste(html="<b>all</b>")
        self.settle(doc, ann, bob)
        for _ in range(3):
            bob.undo()
            ann.undo()
            self.settle(doc, ann, bob)
        ann.caret(0)
        ann.apply({"insert": {"image": "data:image/png;base64," + "A" * 90_000}})
        self.settle(doc, bob)
        self.expect(["trouble", "LineTooLong"] in [told[:2] for told in ann.read()["told"]], f"an image that is too long is told as {ann.read()['told']}")
        ann.type("k")
        self.settle(doc, ann, bob)

    def lines(self, doc):
        ann, bob = self.open(doc)
        ann.caret(0)
        ann.type("- one\n")
        ann.key("Tab")
        ann.type("two\n")
        ann.key("Tab")
        ann.type("three\n")
        ann.key("Tab", SHIFT)
        ann.type("four\n\n\n")
        self.settle(doc, ann, bob)
        bob.caret(0)
        bob.key("Backspace")
        bob.type("# ")
        ann.caret(4)
        ann.key("Enter")
        ann.key("Backspace")
        self.settle(doc, ann, bob)
        bob.caret(2)
        bob.click(".ql-list[value=ordered]")
        bob.key("Enter")
        bob.key("Delete")
        self.settle(doc, ann, bob)
        self.proxy.go_away()
        for window in (ann, bob):
            window.caret(0)
            window.key("Tab")
        self.proxy.is_away = False
        self.settle(doc, ann, bob)
        ann.select_all()
        ann.click(".ql-clean")
        self.settle(doc, ann, bob)
        ann.select_all()
        ann.key("Backspace")
        self.settle(doc, ann, bob)
        for script in ("setContents([], 'user')", "setText('', 'user')", "setContents([{ insert: 'hi' }], 'user')", "deleteText(0, 99, 'user')", "insertText(9, 'end', 'user')"):
            bob.run(f"page.quill.{script}")
            self.settle(doc, ann, bob)
        bob.run("page.quill.setContents([{ insert: 'ab\\u{1f600}cd\\n' }], 'user')")
        self.settle(doc, ann, bob)
        for script in ("formatText(0, 3, 'bold', true, 'user')", "deleteText(2, 1, 'user')", "insertText(3, 'y', 'user')"):  # half of a character
            bob.run(f"page.quill.{script}")
            ann.caret(0)
            ann.type("x")
            wait_until(lambda: bob.text() == ann.text(), "the same text")
        self.settle(doc, ann, bob)

    def values(self, doc):
        ann, bob = self.open(doc)
        ann.caret(0)
        ann.type("hello ")
        ann.run("page.quill.insertEmbed(6, 'mention', { name: 'bob', id: 7 }, 'user')")
        ops = self.settle(doc, ann, bob)
        self.expect(ops[1] == {"insert": {"mention": 'json:{"id":7,"name":"bob"}'}}, f"the server has {ops}")
        self.expect(bob.run("return document.querySelector('.mention').textContent.trim()") == "@bob", "the mention isn't shown")
        bob.run("page.quill.formatText(0, 7, 'bold', true, 'user')")
        ann.caret(6, 1)
        ann.run("page.quill.history.cutoff()")
        ann.key("Delete")
        self.settle(doc, ann, bob)
        ann.undo()
        ops = self.settle(doc, ann, bob)
        self.expect(any(op["insert"] == {"mention": 'json:{"id":7,"name":"bob"}'} for op in ops), f"the mention isn't back in {ops}")

    def uploading(self, doc):
        ann, bob = self.open(doc, upload=300)
        ann.caret(0)
        ann.type("before after")
        self.settle(doc, ann, bob)
        ann.caret(7)
        ann.paste(html=f'<p>x<img src="data:image/png;base64,{"A" * 90_000}">y</p>')
        self.expect(ann.run("return page.shared.state") == "saving", "an image that is being uploaded is told as saved")
        bob.caret(0)
        bob.type("QQ")
        wait_until(lambda: any(isinstance(op["insert"], dict) for op in self.programs.fetch(doc)["ops"]), "the uploaded image")
        ops = self.settle(doc, ann, bob)
        self.expect([op["insert"] for op in ops if isinstance(op["insert"], dict)][0]["image"].startswith("/uploaded/image/"), f"the image is {ops}")

    def presence(self, doc):
        def places(window):
            return window.run("return page.quill.getModule('cursors').cursors().map(({ name, range }) => [name, range.index, range.length]).sort()")

        ann, bob, cyn = self.open(doc, 3)
        ann.caret(0)
        ann.type("hello world")
        self.settle(doc, ann, bob, cyn)
        bob.caret(6, 5)
        cyn.caret(0)
        wait_until(lambda: places(ann) == [["bob", 6, 5], ["cyn", 0, 0]], "carets")
        cyn.type("X")
        wait_until(lambda: places(ann) == [["bob", 7, 5], ["cyn", 1, 0]], "carets that move")
        self.expect(ann.run("return document.querySelectorAll('.caret').length") == 2, "the carets aren't drawn")
        ann.caret(12)
        wait_until(lambda: places(bob) == [["ann", 12, 0], ["cyn", 1, 0]], "the caret of who types")
        self.settle(doc, ann, bob, cyn)

    def readme(self, _):
        page = re.search(r"```html\n(.*?)```", (ROOT / "clients/js/README.md").read_text(), re.DOTALL)[1]
        with tempfile.TemporaryDirectory() as folder:
            pages = pathlib.Path(folder, "pages")
            (pages / "node_modules").mkdir(parents=True)
            (pages / "index.html").write_text(page)
            names = [""]
            if shutil.which("esbuild"):
                names.append("bundled.html")
                (pages / "node_modules/richd").symlink_to(ROOT / "clients/js")
                script = re.search(r'<script type="module">(.*?)</script>', page, re.DOTALL)[1]
                (pages / "main.js").write_text(re.sub(r'"/clients/js/(\w+)\.js"', r'"richd/\1"', script))
                (pages / "bundled.html").write_text(page.replace(script, "").replace('<script type="module">', '<script type="module" src="/bundle.js">'))
                command = ["esbuild", "main.js", "--bundle", "--format=esm", "--outfile=bundle.js", "--log-level=error"]
                subprocess.run(command, cwd=pages, check=True)
            programs = Programs(folder, str(pages))
            try:
                for number, name in enumerate(names):
                    windows = []
                    for user in USERS[:2]:
                        windows.append(self.browser.open_window(f"http://127.0.0.1:{programs.gateway_port}/{name}?user={user}"))
                        wait_until(lambda: self.browser.run("return document.getElementById('state').textContent") == "saved", "the page's state")
                        self.browser.run("document.querySelector('.ql-editor').focus()")
                        self.browser.press(*user)
                    wanted = "bobann" * (number + 1)
                    for window in windows:
                        self.browser.switch(window)
                        wait_until(lambda: self.browser.run("return document.querySelector('.ql-editor').textContent") == wanted, f"{wanted} in both windows")
                    wait_until(lambda: programs.fetch("letter")["ops"] == [{"insert": wanted + "\n"}], "the document")
                    self.shown += 1
                    self.close()
            finally:
                programs.stop()

    def random(self, doc):
        for count in (1, 2, 3):
            fuzz = Fuzz(self, random.Random(self.seed + count), f"{doc}-{count}", count)
            try:
                fuzz.run(self.actions * count // 6)
            finally:
                self.counts += fuzz.counts
            self.close()


SCENES = ["letters", "undo", "formats", "fewer", "throwing", "texts", "composing", "long", "pasting", "lines", "values", "uploading", "presence", "readme", "random"]

HTML = ["<b>bo</b>ld<p>para</p>", "<ul><li>x<ul><li>y</li></ul></li></ul>", '<a href="http://e.org/">link</a> t', "<p>\U0001f600</p><p><br></p>", "<h1>H</h1>"]
HTML += ['<img src="data:image/png;base64,iVBORw0KGgo=">', "<ol><li>1</li><li>2</li></ol>", "<p>a&nbsp;&nbsp;b</p>", "<pre>code\n x</pre>", "<blockquote>q</blockquote>"]
BUTTONS = [".ql-list[value=bullet]", ".ql-list[value=ordered]", ".ql-code-block", ".ql-blockquote", ".ql-clean", ".ql-bold"]
PIECES = ["\U0001f600", "\U0001f468\u200d\U0001f469", "e\u0301", "\u1112\u1161", "\u05e9\u05c1"]


class Fuzz:
    """Random actions in some windows, over what befalls the programs and pages."""

    def __init__(self, check, draw, doc, count):
        self.check, self.draw, self.doc = check, draw, doc
        self.windows = check.open(doc, count, offline=1)
        self.letters = dict(zip(USERS, ("abcdef", "GHIJKL", "mnopqr")))
        self.counts, self.log = collections.Counter(), []
        for window in self.windows:
            window.caret(0)

    def act(self, window):
        draw = self.draw
        if window.composed is not None:
            return self.compose(window)
        # so often each, in a hundred
        acts = {
            "type": (30, lambda: window.type("".join(draw.choice(self.letters[window.user]) for _ in range(draw.randrange(1, 4))))),
            "enter": (8, lambda: window.key("Enter")),
            "erase": (10, lambda: window.key(draw.choice(["Backspace", "Backspace", "Delete"]))),
            "caret": (11, lambda: window.run(PLACE, draw.random(), 0)),
            "select": (6, lambda: window.run(PLACE, draw.random(), draw.randrange(8))),
            "format": (4, lambda: window.key(draw.choice("biu"), CONTROL)),
            "button": (7, lambda: window.click(draw.choice(BUTTONS))),
            "tab": (2, lambda: window.key("Tab", SHIFT if draw.random() < 0.4 else 0)),
            "paste": (3, lambda: window.paste(html=draw.choice(HTML))),
            "clear": (1, lambda: (window.select_all(), window.key("Backspace"))),
            "undo": (5, window.undo),
            "redo": (2, window.redo),
            "compose": (4, lambda: self.compose(window)),
            "piece": (3, lambda: window.put(draw.choice(PIECES))),
            "move": (3, lambda: window.key(draw.choice(["ArrowLeft", "ArrowRight", "ArrowUp", "ArrowDown", "Home", "End"]))),
            "range": (1, lambda: window.run("const range = page.quill.getSelection(); if (range) page.quill.formatText(range, 'color', 'red', 'user')")),
        }
        name = draw.choices(list(acts), [weight for weight, _ in acts.values()])[0]
        self.log.append((window.user, name))
        self.counts["actions"] += 1
        acts[name][1]()

    def compose(self, window):
        if window.composed is None:
            window.composed = self.draw.choice("かなに")
        elif self.draw.random() < 0.5:
            window.composed += self.draw.choice("かなにほんご")
        else:
            text, window.composed = self.draw.choice(["仮名", window.composed, ""]), None
            return window.put(text) if text else window.compose("")
        self.counts["compositions"] += 1
        window.compose(window.composed)

    def befall(self):
        proxy, programs, draw = self.check.proxy, self.check.programs, self.draw
        what = draw.choices(["delay", "cut", "away", "richd", "gateway", "reload"], [30, 15, 15, 15, 10, 15])[0]
        self.counts[what] += 1
        self.log.append(("*", what))
        if what == "delay":
            proxy.delay = draw.choice([0, 0.02, 0.1, 0.3])
        elif what == "cut":
            proxy.cut()
        elif what == "away":
            proxy.go_away()
            threading.Timer(draw.uniform(0.3, 1.5), lambda: setattr(proxy, "is_away", False)).start()
        elif what in ("richd", "gateway"):
            programs.kill(what)
            time.sleep(draw.uniform(0, 0.3))
            getattr(programs, f"start_{what}")()
        else:
            window = draw.choice(self.windows)
            if window.composed is not None:
                window.put(window.composed)
            wait_until(lambda: window.run("return page.shared.isKept"), "what was typed to be kept")
            window.load_again()

    def settle(self):
        for window in self.windows:
            if window.composed is not None:
                window.put(window.composed)
                window.composed = None
        self.check.proxy.delay, self.check.proxy.is_away = 0, False
        try:
            self.check.settle(self.doc, *self.windows, quietly=True, may_lose=True)
            for window in self.windows:
                told = window.run("return page.told.splice(0)")
                parted, thrown = ([one for one in told if one[name] == what] for name, what in ((1, "Parted"), (0, "error")))
                assert len(parted) <= len(thrown), f"{window.user}'s editor was parted: {parted}"
                self.counts["changes at which Quill threw"] += len(thrown)
            revision = self.check.programs.fetch(self.doc)["rev"]
            time.sleep(0.2)
            assert self.check.programs.fetch(self.doc)["rev"] == revision, "revisions are made though nobody types"
        except (TimeoutError, AssertionError) as error:
            raise type(error)(f"{error}\n        after {self.log}") from None
        self.log.clear()
        if len(self.windows[0].text()) > 3_000:
            self.windows[0].run("page.quill.setContents([{ insert: 'anew\\n' }], 'user')")

    def run(self, actions):
        for number in range(1, actions + 1):
            self.act(self.draw.choice(self.windows))
            if self.draw.random() < 0.04:
                self.befall()
            if number % 50 == 0 or number == actions:
                self.settle()


def main(words):
    if not os.access(RICHD, os.X_OK):
        sys.exit(f"{RICHD} isn't there: ./demo builds it, or name another program in RICHD")
    missing = "Chromium, Debian's chromium" if not IS_THERE else "Quill, Debian's bibledit-cloud-data" if not QUILL.is_dir() else None
    if missing:
        print(f"skipped: there is no {missing}")
        return 0
    with tempfile.TemporaryDirectory() as folder:
        programs = Programs(folder)
        check = None
        try:
            proxy = Proxy(programs.gateway_port)
            browser = Chromium(width=900, height=600)
            try:
                browser.ask("Browser.grantPermissions", permissions=["clipboardReadWrite", "clipboardSanitizedWrite"])
                check = Check(programs, proxy, browser, words.actions, words.seed)
                for check.scene in words.scenes or SCENES:
                    began = time.monotonic()
                    try:
                        getattr(check, check.scene)(check.scene)
                    except (TimeoutError, RuntimeError, AssertionError) as error:
                        check.fail(f"{type(error).__name__} {error}")
                    proxy.delay, proxy.is_away = 0, False
                    check.close()
                    print(f"        {check.scene}: {time.monotonic() - began:.0f} s", flush=True)
            finally:
                browser.close()
        finally:
            programs.stop()
        dumped = programs.dump()
    for doc, ops in check.last.items():
        if dumped.get(doc) != ops:
            check.fail(f"richd dump has something else than the windows of {doc}: {json.dumps(dumped.get(doc))[:500]}")
    if check.failed:
        return 1
    said = ", ".join(f"{number} {name}" for name, number in check.counts.items())
    print(f"ok: {len(words.scenes or SCENES)} scenes, {check.shown} things shown, {said or 'nothing at random'}, 0 differences in {len(check.last)} documents")
    return 0


if __name__ == "__main__":
    parser = argparse.ArgumentParser(usage="checks/quill.py [--actions N] [--seed N] [SCENE..]")
    parser.add_argument("--actions", type=int, default=500)
    parser.add_argument("--seed", type=int, default=1)
    parser.add_argument("scenes", nargs="*", choices=[*SCENES, []])
    sys.exit(main(parser.parse_args()))
