"""A headless Chromium for checks, by the DevTools protocol over a pair of pipes: nothing but Debian's chromium is wanted."""
import base64
import json
import os
import select
import shutil
import subprocess
import tempfile
import time

CONTROL, BACKSPACE, ENTER = "\ue009", "\ue003", "\ue007"
NAMED = {BACKSPACE: ("Backspace", 8, None), ENTER: ("Enter", 13, "\r"), CONTROL: ("Control", 17, None)}
CONTROL_MODIFIER = 2
PATIENCE = 120  # seconds, on a busy machine too

IS_THERE = shutil.which("chromium") is not None


class Chromium:
    """One browser with windows. What is said of a page is said of the window that was switched to last."""

    def __init__(self, *switches, width=1100, height=640):
        self.size = {"width": width, "height": height}
        self.folder = tempfile.TemporaryDirectory(prefix="chromium-", ignore_cleanup_errors=True)
        to_browser, self.sending = os.pipe()
        self.receiving, from_browser = os.pipe()
        command = ["chromium", "--headless=new", "--no-sandbox", "--disable-dev-shm-usage", "--remote-debugging-pipe", "--no-first-run"]
        command += [f"--user-data-dir={self.folder.name}", f"--window-size={width},{height}", *switches, "about:blank"]

        # The browser reads from 3 and writes to 4, which are others' here until it begins.
        arranged = f"exec 3<&{to_browser} 4>&{from_browser}; exec \"$@\""
        words = ["bash", "-c", arranged, "chromium", *command]
        self.said = open(os.path.join(self.folder.name, "said"), "w+")
        self.process = subprocess.Popen(words, pass_fds=(to_browser, from_browser), stdin=subprocess.DEVNULL, stderr=self.said)
        os.close(to_browser)
        os.close(from_browser)
        self.count, self.buffer, self.sessions = 0, b"", {}
        self.window = None

    def ask(self, method, session=None, **parameters):
        """Sends a command, and gives its result."""
        self.count += 1
        message = {"id": self.count, "method": method, "params": parameters, **({"sessionId": session} if session else {})}
        try:
            os.write(self.sending, json.dumps(message).encode() + b"\0")
        except BrokenPipeError:
            raise self.ended() from None
        end = time.monotonic() + PATIENCE
        while True:
            while b"\0" not in self.buffer:
                if not select.select([self.receiving], [], [], max(0, end - time.monotonic()))[0]:
                    raise TimeoutError(f"{method} isn't answered")
                piece = os.read(self.receiving, 1 << 20)
                if not piece:
                    raise self.ended()
                self.buffer += piece
            line, _, self.buffer = self.buffer.partition(b"\0")
            answer = json.loads(line)
            if answer.get("id") == self.count:
                if "error" in answer:
                    raise RuntimeError(answer["error"]["message"])
                return answer["result"]

    def ended(self):
        """An error that says with which status Chromium ended, and what it said last."""
        status = self.process.wait(10)
        self.said.seek(0)
        return ConnectionError(f"Chromium has ended with status {status}: {self.said.read()[-2_000:]}")

    def command(self, name, **parameters):
        """A command of a page."""
        return self.ask(name, self.sessions[self.window], **parameters)

    def open_window(self, url):
        """Opens a window, switches to it, and gives it."""
        window = self.ask("Target.createTarget", url="about:blank", newWindow=True, **self.size)["targetId"]
        self.sessions[window] = self.ask("Target.attachToTarget", targetId=window, flatten=True)["sessionId"]
        self.switch(window)
        self.command("Page.enable")
        self.command("Emulation.setFocusEmulationEnabled", enabled=True)
        self.command("Emulation.setDeviceMetricsOverride", **self.size, deviceScaleFactor=1, mobile=False)
        self.go_to(url)
        return window

    def switch(self, window):
        self.window = window

    def go_to(self, url):
        """Loads a page, and waits until it is there."""
        if text := self.command("Page.navigate", url=url).get("errorText"):
            raise RuntimeError(f"{url}: {text}")
        end = time.monotonic() + PATIENCE
        while self.run("return document.readyState") != "complete":
            if time.monotonic() > end:
                raise TimeoutError(url)
            time.sleep(0.02)

    def run(self, script, *arguments):
        """Runs the body of a function, with `arguments`, and gives what it returns."""
        expression = f"(function () {{ {script} }}).apply(null, {json.dumps(arguments)})"
        answer = self.command("Runtime.evaluate", expression=expression, awaitPromise=True, returnByValue=True)
        if "exceptionDetails" in answer:
            details = answer["exceptionDetails"]
            raise RuntimeError(details.get("exception", {}).get("description") or details["text"])
        return answer["result"].get("value")

    def type(self, text):
        """Puts in a text at once, as by pasting it."""
        self.command("Input.insertText", text=text)

    def press(self, *keys):
        """Presses keys one after the other; a key of several characters is a chord."""
        for chord in keys:
            modifiers = CONTROL_MODIFIER if CONTROL in chord else 0
            for key in chord:
                self.key("keyDown", key, modifiers)
            for key in reversed(chord):
                self.key("keyUp", key, modifiers)

    def key(self, kind, key, modifiers):
        name, number, text = NAMED.get(key, (key, ord(key.upper()) if key.isascii() and key.isalnum() else 0, key))
        if modifiers or kind == "keyUp":
            text = None
        kind = "rawKeyDown" if kind == "keyDown" and text is None else kind
        told = {"text": text} if text is not None else {}
        self.command("Input.dispatchKeyEvent", type=kind, key=name, windowsVirtualKeyCode=number, modifiers=modifiers, **told)

    def screenshot(self):
        return base64.b64decode(self.command("Page.captureScreenshot", format="png")["data"])

    def close(self):
        try:
            self.ask("Browser.close")
        except (OSError, TimeoutError, subprocess.TimeoutExpired):
            pass
        try:
            self.process.wait(10)
        except subprocess.TimeoutExpired:
            self.process.kill()
            self.process.wait()
        os.close(self.sending)
        os.close(self.receiving)
        self.said.close()
        self.folder.cleanup()
