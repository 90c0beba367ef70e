"""Quill in windows of a browser, for quill.py: the programs behind its page, a proxy that delays and cuts, and what a user does in a window."""
import functools
import http.server
import json
import os
import pathlib
import queue
import signal
import socket
import subprocess
import threading
import time

ROOT = pathlib.Path(__file__).resolve().parent.parent
RICHD = os.environ.get("RICHD") or str(ROOT / "crates/richd/out/richd")
QUILL = pathlib.Path("/usr/share/bibledit-cloud/quill")
PATIENCE = 60  # seconds, on a busy machine too
SHAPE = ["--cell", "16000000", "--slot", "4000000", "--sources", "4096"]


def free_port():
    with socket.create_server(("127.0.0.1", 0)) as listener:
        return listener.getsockname()[1]


def cut(one):
    try:
        one.shutdown(socket.SHUT_RDWR)
    except OSError:
        pass


def wait_until(holds, what, patience=PATIENCE):
    end = time.monotonic() + patience
    while not (value := holds()):
        if time.monotonic() > end:
            raise TimeoutError(f"{what}: not within {patience} seconds")
        time.sleep(0.03)
    return value


class Proxy:
    """Stands between the browser and the gateway: delays what goes either way, cuts connections, and refuses them."""

    def __init__(self, upstream):
        self.upstream, self.delay, self.is_away, self.pairs = upstream, 0.0, False, []
        self.listener = socket.create_server(("127.0.0.1", 0))
        self.port = self.listener.getsockname()[1]
        threading.Thread(target=self.accept, daemon=True).start()

    def accept(self):
        while True:
            try:
                near = self.listener.accept()[0]
            except OSError:
                return
            try:
                if self.is_away:
                    raise ConnectionRefusedError
                far = socket.create_connection(("127.0.0.1", self.upstream))
            except OSError:
                near.close()
                continue
            self.pairs.append((near, far))
            for one, other in ((near, far), (far, near)):
                one.setsockopt(socket.IPPROTO_TCP, socket.TCP_NODELAY, 1)
                threading.Thread(target=self.carry, args=(one, other), daemon=True).start()

    def carry(self, source, target):
        pieces = queue.Queue()
        threading.Thread(target=self.send, args=(pieces, source, target), daemon=True).start()
        try:
            while piece := source.recv(65_536):
                pieces.put((time.monotonic() + self.delay, piece))
        except OSError:
            pass
        pieces.put(None)

    def send(self, pieces, source, target):
        while item := pieces.get():
            time.sleep(max(0, item[0] - time.monotonic()))
            try:
                target.sendall(item[1])
            except OSError:
                break
        cut(source)
        cut(target)

    def cut(self):
        for pair in self.pairs:
            for one in pair:
                cut(one)
        self.pairs.clear()

    def go_away(self):
        self.is_away = True
        self.cut()


class Pages(http.server.SimpleHTTPRequestHandler):
    def log_message(self, *_):
        pass

    def translate_path(self, path):
        path = path.split("?")[0]
        return str(QUILL / path.removeprefix("/quill/")) if path.startswith("/quill/") else super().translate_path(path)


class Programs:
    """richd and the gateway, which may be killed and started again, and a server of the page."""

    def __init__(self, folder, own_pages=None):
        self.folder, self.store, self.own_pages = folder, os.path.join(folder, "store"), own_pages
        subprocess.run([RICHD, "format", self.store, *SHAPE], check=True)
        pages = http.server.ThreadingHTTPServer(("127.0.0.1", 0), functools.partial(Pages, directory=str(ROOT)))
        threading.Thread(target=pages.serve_forever, daemon=True).start()
        self.origin = f"http://127.0.0.1:{pages.server_address[1]}"
        self.richd_port, self.gateway_port = free_port(), free_port()
        self.start_richd()
        self.start_gateway()

    def start(self, command, ready):
        program = subprocess.Popen(command, stdout=subprocess.PIPE, stderr=subprocess.DEVNULL, text=True)
        line = program.stdout.readline()
        assert ready in line, f"{command[0]}: {line}"
        return program

    def start_richd(self):
        self.richd = self.start([RICHD, "serve", self.store, "--listen", f"127.0.0.1:{self.richd_port}"], "listening")

    def start_gateway(self):
        words = [f"127.0.0.1:{self.richd_port}", "--listen", f"127.0.0.1:{self.gateway_port}", "--data", self.folder + "/data"]
        words += ["--quill", str(QUILL), "--pages", self.own_pages] if self.own_pages else ["--origin", self.origin]
        self.gateway = self.start(["node", str(ROOT / "clients/js/bridge.js"), *words], "bridge")

    def kill(self, name):
        program = getattr(self, name)
        program.kill()
        program.wait()

    def fetch(self, doc):
        with socket.create_connection(("127.0.0.1", self.richd_port)) as connection, connection.makefile("rw") as lines:
            lines.write('{"do":"hello","source":"observer"}\n' + json.dumps({"do": "fetch", "doc": doc}) + "\n")
            lines.flush()
            lines.readline()
            return json.loads(lines.readline())

    def stop(self):
        for program in (self.gateway, self.richd):
            program.send_signal(signal.SIGTERM)
            program.wait(PATIENCE)

    def dump(self):
        dumped = subprocess.run([RICHD, "dump", self.store], check=True, capture_output=True, text=True).stdout
        return {name: json.loads(document)["ops"] for name, _, _, document in (line.split(" ", 3) for line in dumped.splitlines())}


READ = """
    const { quill, shared, told } = page;
    quill.update();
    return {
        editor: quill.getContents().ops, shared: shared.contents.ops, state: shared.state, isSaved: shared.isSaved, revision: shared.revision,
        selection: quill.getSelection(), told, values: shared.values.encode(shared.contents.ops),
    };"""

# Where a caret may be: at a share of the text, between whole characters.
PLACE = """
    const [share, length] = arguments;
    const text = page.quill.getContents().ops.map(({ insert }) => (typeof insert === "string" ? insert : "*")).join("");
    const whole = (index) => (/[\\udc00-\\udfff]/.test(text[index] ?? "") ? index - 1 : index);
    const start = whole(Math.floor(share * text.length));
    const end = Math.max(start, whole(Math.min(text.length - 1, start + length)));
    page.quill.focus();
    page.quill.setSelection(start, end - start, "user");"""

CONTROL, SHIFT = 2, 8  # modifiers of a key
KEYS = {"Enter": (13, "\r"), "Backspace": (8, None), "Delete": (46, None), "Tab": (9, None), "Home": (36, None), "End": (35, None)}
KEYS |= {name: (37 + index, None) for index, name in enumerate(["ArrowLeft", "ArrowUp", "ArrowRight", "ArrowDown"])}


class Window:
    def __init__(self, browser, url, user):
        self.browser, self.url, self.user, self.composed = browser, url, user, None
        self.window = browser.open_window(url)
        self.wait_for_page()

    def wait_for_page(self):
        wait_until(lambda: self.run("return globalThis.page !== undefined"), "the page")

    def load_again(self):
        self.browser.switch(self.window)
        self.browser.go_to(self.url)
        self.composed = None
        self.wait_for_page()

    def run(self, script, *arguments):
        self.browser.switch(self.window)
        return self.browser.run(script, *arguments)

    def command(self, name, **parameters):
        self.browser.switch(self.window)
        return self.browser.command(name, **parameters)

    def read(self):
        return self.run(READ)

    def text(self):
        return "".join(op["insert"] if isinstance(op["insert"], str) else "*" for op in self.read()["editor"])

    def caret(self, index, length=0):
        self.run("page.quill.focus(); page.quill.setSelection(arguments[0], arguments[1], 'user')", index, length)

    def key(self, key, modifiers=0, commands=()):
        number, text = KEYS[key] if key in KEYS else (ord(key.upper()) if key.isalnum() else 0, key)
        names = {"key": key, "windowsVirtualKeyCode": number, "modifiers": modifiers}
        said = {"text": text} if text is not None and modifiers & CONTROL == 0 else {}
        self.command("Input.dispatchKeyEvent", type="keyDown" if said else "rawKeyDown", **names, **said, commands=list(commands))
        self.command("Input.dispatchKeyEvent", type="keyUp", **names)

    def type(self, text):
        for character in text:
            if character == "\n":
                self.key("Enter")
            elif character.isascii():
                self.key(character)
            else:
                self.put(character)

    def put(self, text):
        """What an input method, or a list of emoji, puts in at once."""
        self.command("Input.insertText", text=text)

    def compose(self, text):
        self.command("Input.imeSetComposition", text=text, selectionStart=len(text), selectionEnd=len(text))

    def undo(self):
        self.key("z", CONTROL)

    def redo(self):
        self.key("z", CONTROL | SHIFT)

    def select_all(self):
        self.key("a", CONTROL, ["selectAll"])

    def click(self, selector):
        box = self.run("const box = document.querySelector(arguments[0]).getBoundingClientRect(); return [box.x + box.width / 2, box.y + box.height / 2]", selector)
        for kind in ("mousePressed", "mouseReleased"):
            self.command("Input.dispatchMouseEvent", type=kind, x=box[0], y=box[1], button="left", clickCount=1)

    def paste(self, html=None, text="nothing"):
        """Writes the clipboard, and presses Ctrl+V."""
        self.command("Page.bringToFront")
        self.run(
            """const [html, text] = arguments;
            const parts = { "text/plain": new Blob([text], { type: "text/plain" }) };
            if (html !== null) parts["text/html"] = new Blob([html], { type: "text/html" });
            return navigator.clipboard.write([new ClipboardItem(parts)]);""",
            html,
            text,
        )
        before = self.run("page.pastes = (page.pastes ?? 0); page.quill.root.addEventListener('paste', () => setTimeout(() => (page.pastes += 1), 5), { once: true, capture: true }); return page.pastes")
        self.key("v", CONTROL, ["paste"])
        wait_until(lambda: self.run("return page.pastes") > before, "a paste")

    def apply(self, *ops):
        """What the page's code does as its user."""
        self.run("page.quill.updateContents(arguments[0], 'user')", list(ops))
