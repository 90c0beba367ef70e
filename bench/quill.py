#!/usr/bin/env python3
"""Measures what an editor takes of its window's processor: Quill 1.3 in Chromium, over a document of many runs, with `bind` and without.

usage: bench/quill.py [--runs N] [--letters N] [--profile]

    a letter that is typed    with `bind`, and in the same window once the binding was ended
    a letter of another       in a second window that shows the document
    opening                   a document of 1 MB: with `bind`, and by Quill's setContents alone; what isn't layout is script

Times are those that the window's main thread had the processor, by Chromium's own metrics, so a busy machine makes them little longer: `all` is
all that the thread did, with painting, and `script` is the JavaScript alone. With --profile it prints where the JavaScript's time went.

It wants what checks/quill.py wants.
"""
import argparse
import collections
import json
import os
import pathlib
import sys
import tempfile
import time

sys.path.insert(0, str(pathlib.Path(__file__).resolve().parent.parent / "checks"))

from chromium import Chromium
from quill_windows import ROOT, Programs, Window, wait_until

PAUSE = 0.05  # seconds between letters, so that each is sent alone
MEGABYTE = 1_000_000


def document(runs, letters):
    """So many runs of so many letters, ten in a line."""
    ops, text = [], ("word " * (letters // 5 + 1))[:letters]
    for run in range(runs):
        ops.append({"insert": text, "attributes": {"bold": True} if run % 2 else {"color": f"#{run % 255:02x}0000", "italic": True}})
        if run % 10 == 9:
            ops.append({"insert": "\n"})
    return ops


def named(frame):
    return f"{frame['url'].rsplit('/', 1)[-1]}:{frame['functionName']}:{frame['lineNumber'] + 1}"


class Bench:
    def __init__(self, browser, programs, words):
        self.browser, self.programs, self.words = browser, programs, words

    def open(self, doc, user, **options):
        words = "".join(f"&{name}={value}" for name, value in options.items())
        server = f"127.0.0.1:{self.programs.gateway_port}"
        return Window(self.browser, f"{self.programs.origin}/checks/quill.html?server={server}&doc={doc}&user={user}{words}", user)

    def times(self, window):
        metrics = window.command("Performance.getMetrics")["metrics"]
        values = {metric["name"]: metric["value"] * 1_000 for metric in metrics}
        return values["TaskDuration"], values["ScriptDuration"], values["LayoutDuration"] + values["RecalcStyleDuration"]

    def measured(self, what, window, act, count):
        window.command("Performance.enable", timeDomain="threadTicks")
        if self.words.profile:
            window.command("Profiler.enable")
            window.command("Profiler.setSamplingInterval", interval=500)
            window.command("Profiler.start")
        before = self.times(window)
        act()
        everything, script, layout = ((after - once) / count for after, once in zip(self.times(window), before))
        print(f"{what}: script {script:.1f} ms, styles and layout {layout:.1f} ms, all {everything:.1f} ms", flush=True)
        if self.words.profile:
            self.print_profile(window.command("Profiler.stop")["profile"], count)
        window.command("Performance.disable")

    def print_profile(self, profile, count):
        nodes = {node["id"]: node["callFrame"] for node in profile["nodes"]}
        parents = {child: node["id"] for node in profile["nodes"] for child in node.get("children", [])}
        alone, within = collections.Counter(), collections.Counter()
        for sample, time_ in zip(profile["samples"], profile["timeDeltas"]):
            alone[named(nodes[sample])] += time_
            around, at = set(), sample
            while at is not None:
                around.add(named(nodes[at]))
                at = parents.get(at)
            within.update({name: time_ for name in around})
        for title, counter, most in (("alone", alone, 14), ("with what it calls", within, 40)):
            print(f"    {title}: " + ", ".join(f"{name} {time_ / 1_000 / count:.2f}" for name, time_ in counter.most_common(most)))

    def type(self, window, letter):
        for _ in range(self.words.letters):
            window.type(letter)
            time.sleep(PAUSE)

    def letters(self, name):
        ann, bob = self.open("letters", "ann", create=name), self.open("letters", "bob")
        length = ann.run("return page.shared.length")
        ann.caret(length // 2)
        wait_until(lambda: ann.run("return page.shared.state") == "saved", "the document")

        def settled():
            told = "return [page.shared.revision, page.shared.isSaved]"
            wait_until(lambda: ann.run(told)[1] and bob.run(told) == ann.run(told), "both alike")

        settled()
        self.type(ann, "w")  # until what is compiled is
        self.measured("a letter that is typed, bound", ann, lambda: (self.type(ann, "x"), settled()), self.words.letters)
        self.measured("a letter of another, bound", bob, lambda: (self.type(ann, "y"), settled(), time.sleep(0.5)), self.words.letters)
        ann.run("page.unbind()")
        self.measured("a letter that is typed, Quill alone", ann, lambda: self.type(ann, "z"), self.words.letters)

    def opening(self, name, ops):
        ann = self.open("opening", "ann", create=name)
        wait_until(lambda: ann.run("return page.shared.state") == "saved", "the document")
        bob = self.open("another", "bob")
        act = """return (async () => {
            const { bind } = await import("/clients/js/quill.js");
            page.unbind();
            bind(page.quill, await page.client.open("opening"));
        })();"""
        self.measured("opening, bound", bob, lambda: bob.run(act), 1)
        cyn = self.open("third", "cyn")
        cyn.run("page.unbind(); globalThis.ops = arguments[0]", ops)
        self.measured("opening, Quill's setContents alone", cyn, lambda: cyn.run("page.quill.setContents(ops)"), 1)


def main(words):
    with tempfile.TemporaryDirectory() as folder:
        programs = Programs(folder)
        browser = Chromium(width=900, height=600)
        bench = Bench(browser, programs, words)
        try:
            for act, ops in ((bench.letters, document(words.runs, 20)), (bench.opening, document(words.runs, MEGABYTE // words.runs))):
                with tempfile.NamedTemporaryFile("w", dir=ROOT / "checks", prefix="quill-", suffix=".json") as file:
                    json.dump(ops, file)
                    file.flush()
                    name = os.path.basename(file.name)
                    act(*((name,) if act == bench.letters else (name, ops)))
        finally:
            browser.close()
            programs.stop()


if __name__ == "__main__":
    parser = argparse.ArgumentParser(usage="bench/quill.py [--runs N] [--letters N] [--profile]")
    parser.add_argument("--runs", type=int, default=8_000)
    parser.add_argument("--letters", type=int, default=40)
    parser.add_argument("--profile", action="store_true")
    main(parser.parse_args())
