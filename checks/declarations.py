#!/usr/bin/env python3
"""Checks the declarations of clients/js/types by TypeScript, which needn't be there.

usage: checks/declarations.py [--write]     (with --write it makes them anew)

- They are what tsc makes of the JSDoc of clients/js. Versions of tsc print a little differently, so this is asked of the one that made them.
- None names a type of Node.
- A strict program without any other types compiles: the examples of README.md and clients/js/README.md, and the uses of RIGHT.
- Each use of WRONG is refused, where it stands and by the error beside it.

It wants tsc, Debian's node-typescript. Where there is none it says so, and its status is 0.
"""
import json
import os
import re
import shutil
import subprocess
import sys
import tempfile
from pathlib import Path

TOP = Path(__file__).resolve().parent.parent
CLIENT = TOP / "clients/js"
TYPES = CLIENT / "types"
MADE_BY = "4.8.4"  # the version of tsc
STRICT = {"strict": True, "target": "es2022", "module": "node16", "moduleResolution": "node16", "types": []}

GIVEN = """\
import { connect, Client, RichDocument, RichdError } from "richd";
import type { DocumentEvents, DocumentState, OpenOptions, Other, Range } from "richd";
import { fromMarkdown, fromText, toHtml, toMarkdown, toText } from "richd/convert";
import { Delta } from "richd/delta";
import { connect as connectOffline } from "richd/offline";
import { bind } from "richd/quill";
declare const client: Client;
declare const letter: RichDocument;
declare const quill: any;
interface Parser { enable(rule: string): unknown; parse(text: string, environment: object): any[] }
declare const MarkdownIt: new (preset: "commonmark", options: object) => Parser;
"""

RIGHT = [
    'await connect({ port: 7000, signal: new AbortController().signal });',
    'await connect({ command: "richd", args: ["serve", "store"] });',
    'await connect({ url: "ws://127.0.0.1:8080/", source: "ann" });',
    'await connect({ url: async () => `wss://notes.example/?token=${await (await fetch("/token")).text()}` });',
    'client.addEventListener("cut", () => {}, { once: true });',
    'letter.addEventListener("change", ({ delta }) => { const moved: number = delta.transformPosition(3); return moved; });',
    'letter.addEventListener("trouble", ({ error }) => { if (error.name === "TooHeavy") console.log(error.code); });',
    'letter.apply([{ insert: { image: "a.png" } }, { retain: 1, attributes: { bold: null } }, { delete: 2 }]);',
    'letter.apply(new Delta().retain(5).insert("!"), { isStep: false });',
    'letter.apply({ ops: [{ insert: { mention: { id: 7 } }, attributes: { "line-height": 1.5 } }] });',
    'letter.addEventListener("trouble", (event) => { if ("shown" in event) console.log(event.contents.ops, event.shown.ops, event.isDisabled); });',
    'letter.addEventListener("change", ({ isOwn }) => { const own: boolean = isOwn; return own; });',
    'await client.open("letter", { create: [{ insert: { mention: { id: 7 } } }], encode: (value, name) => name + value.id, decode: (value) => ({ id: value }) });',
    'const end: () => void = bind(quill, letter); end();',
    'const lasting = await connectOffline({ url: "ws://127.0.0.1:8080/" }); const isKept: boolean = lasting.isKept && letter.isKept;',
    'lasting.addEventListener("left", ({ doc, delta, error }) => console.log(doc, delta.ops, error.name)); isKept;',
    'letter.addEventListener("doubt", ({ delta, revision }) => letter.apply([{ retain: revision }, ...delta.ops]));',
    'letter.addEventListener("state", ({ state }) => { const known: DocumentState = state; return known === "closed"; });',
    'const lost = ({ delta, isFinal }: DocumentEvents["trouble"]) => isFinal || delta.ops; letter.addEventListener("trouble", lost);',
    'const made: OpenOptions = { create: [{ insert: "a" }] }; await client.open("letter", made);',
    'letter.addEventListener("progress", () => console.log(letter.revision, letter.isSaved, letter.history.canUndo));',
    'letter.addEventListener("rebased", ({ from, to }) => console.log(to - from));',
    'letter.presence.set({ index: 5, length: 0 }); letter.presence.set(null);',
    'for (const { id, user, range } of letter.presence.others) console.log(id.length, user.length, range.index + range.length);',
    'letter.presence.addEventListener("change", ({ others }) => { const all: Other[] = others; return all.length; });',
    'bind(quill, letter, { colorOf: (user) => (user === "ann" ? "red" : "blue") });',
    'letter.addEventListener("trouble", ({ error }) => error.name === "NotAllowed" || error.name === "Replaced" || error.code === 60);',
    'const html: string = toHtml(letter.contents, { embed: (name, value) => name + value.id }); html;',
    'const read = fromText("a"); const written: string = toMarkdown(read) + toText(read.ops); written;',
    'await client.open("letter", { create: fromMarkdown("# a", MarkdownIt).ops });',
    'const places: Range = { index: 0, length: 2 }; letter.presence.set(places);',
    'for await (const { rev, ops } of client.follow("letter", 0)) console.log(rev + 1, ops.length);',
    'try { await letter.flush(); } catch (error) { if (error instanceof RichdError && error.name === "Closed") throw error; }',
]

# Each with the number of the error that refuses it.
WRONG = [
    (2345, 'await connect({});'),
    (2345, 'await connect({ host: "127.0.0.1", port: 7000, url: "ws://127.0.0.1:8080/" });'),
    (2345, 'await connect({ command: "richd", port: 7000 });'),
    (2322, 'letter.apply([{ insert: "a", retain: 3 }]);'),
    (2322, 'letter.apply([{ delete: 1, attributes: { bold: true } }]);'),
    (2322, 'await client.create("letter", [{ insert: { image: { src: "a.png" } } }]);'),
    (2322, 'await client.edit("letter", [{ insert: "a", attributes: { style: { color: "red" } } }], 1);'),
    (2554, 'await client.edit("letter", [{ insert: "a" }]);'),
    (2345, 'letter.addEventListener("changed", () => {});'),
    (2339, 'letter.addEventListener("change", ({ error }) => console.log(error));'),
    (2322, 'await client.open("letter", { encode: () => ({}) });'),
    (2345, 'await client.open("letter", { Delta });'),
    (2339, 'letter.addEventListener("trouble", ({ shown }) => console.log(shown));'),
    (2540, 'letter.revision = 5;'),
    (2367, 'letter.addEventListener("trouble", ({ error }) => error.name === "TooFat");'),
    (2367, 'letter.addEventListener("state", ({ state }) => state === "lost");'),
    (2345, 'letter.presence.set({ index: 5 });'),
    (2345, 'letter.presence.set([5, 0]);'),
    (2540, 'letter.presence.others = [];'),
    (2339, 'letter.presence.addEventListener("change", ({ delta }) => console.log(delta));'),
    (2345, 'letter.presence.addEventListener("cursor", () => {});'),
    (2322, 'bind(quill, letter, { colorOf: () => 7 });'),
    (2339, 'for (const { name } of letter.presence.others) console.log(name);'),
    (2339, 'for await (const { revision } of client.follow("letter", 0)) console.log(revision);'),
    (2345, 'client.addEventListener("left", () => {});'),
    (2339, 'document.flush();'),
]


def tsc(folder, options, files):
    """What the compiler says of files: lines of `file(line,column): error TSnumber: ..`."""
    (folder / "tsconfig.json").write_text(json.dumps({"compilerOptions": options, "files": [str(file) for file in files]}))
    return subprocess.run(["tsc", "-p", folder], capture_output=True, text=True, cwd=folder).stdout.splitlines()


def made(folder):
    """The declarations as they are made of the sources that the package exports."""
    exports = json.loads((CLIENT / "package.json").read_text())["exports"].values()
    entries = sorted({way["types"] for way in exports if isinstance(way, dict)})
    sources = [CLIENT / (Path(entry).name.removesuffix(".d.ts") + ".js") for entry in entries]
    options = {"allowJs": True, "declaration": True, "emitDeclarationOnly": True, "rootDir": str(CLIENT), "outDir": str(folder / "types")}
    for line in tsc(folder, {**STRICT, **options}, sources):
        print(line)
    return {file.name: file.read_text() for file in (folder / "types").glob("*.d.ts")}


def check_made(folder):
    committed = {file.name: file.read_text() for file in TYPES.glob("*.d.ts")}
    again = made(folder)
    return [
        f"{name} isn't what tsc makes of the sources: checks/declarations.py --write makes it anew"
        for name in sorted(committed.keys() | again.keys())
        if committed.get(name) != again.get(name)
    ]


def check_nodes():
    node = re.compile(r"\bNodeJS\b|\bBuffer\b|[\"']node:|reference types")
    return [f"{file.name} names a type of Node: {found[0]}" for file in sorted(TYPES.glob("*.d.ts")) if (found := node.search(file.read_text()))]


def examples():
    """The programs in JavaScript of the two pages, as a package's user writes them."""
    shown = re.findall(r"^```js\n(.*?)^```$", (TOP / "README.md").read_text(), re.MULTILINE | re.DOTALL)
    indented = re.search(r"^ {4}import \{ connect \}.*?(?=^\S)", (CLIENT / "README.md").read_text(), re.MULTILINE | re.DOTALL)
    shown.append(re.sub("^ {4}", "", indented[0], flags=re.MULTILINE))
    return [example.replace("./clients/js/richd.js", "richd") for example in shown]


def check_uses(folder):
    (folder / "node_modules").mkdir()
    (folder / "node_modules/richd").symlink_to(CLIENT)
    (folder / "package.json").write_text('{ "type": "module" }')
    files = {f"example{number}.ts": example for number, example in enumerate(examples(), 1)}
    files["right.ts"] = GIVEN + "\n".join(RIGHT)
    files["wrong.ts"] = GIVEN + "\n".join(use for _, use in WRONG)
    for name, text in files.items():
        (folder / name).write_text(text + "\n")
    findings, refused = [], {}
    for line in tsc(folder, {**STRICT, "noEmit": True}, files):
        found = re.match(r"wrong\.ts\((\d+),\d+\): error TS(\d+)", line)
        if found and int(found[1]) > len(GIVEN.splitlines()):
            refused.setdefault(int(found[1]) - len(GIVEN.splitlines()), int(found[2]))
        elif re.match(r"\S", line):
            findings.append(line)
    for number, (code, use) in enumerate(WRONG, 1):
        if number not in refused:
            findings.append(f"it compiles: {use}")
        elif refused[number] != code:
            findings.append(f"TS{refused[number]} refuses it, and not TS{code}: {use}")
    return findings, len(files) - 2


if shutil.which("tsc") is None:
    print("skipped: there is no tsc, Debian's node-typescript")
    sys.exit(0)
version = subprocess.run(["tsc", "--version"], capture_output=True, text=True).stdout.split()[-1]
with tempfile.TemporaryDirectory() as name:
    if "--write" in sys.argv[1:]:
        declarations = made(Path(name))
        TYPES.mkdir(exist_ok=True)
        for old in TYPES.glob("*.d.ts"):
            old.unlink()
        for file, text in declarations.items():
            (TYPES / file).write_text(text)
        print(f"{len(declarations)} files by tsc {version}" + ("" if version == MADE_BY else f": put it in {os.path.relpath(__file__)} for {MADE_BY}"))
        sys.exit(0)
    findings = check_made(Path(name)) if version == MADE_BY else []
with tempfile.TemporaryDirectory() as name:
    misused, count = check_uses(Path(name))
findings += check_nodes() + misused
for finding in findings:
    print(f"FAILED  {finding}")
counts = f"{len(list(TYPES.glob('*.d.ts')))} files, {count} examples and {len(RIGHT)} right uses compile, {len(WRONG)} wrong ones are refused"
if version != MADE_BY:
    counts += f"; whether tsc {MADE_BY} makes them of the sources wasn't asked, this is {version}"
print(f"FAILED: {len(findings)} faults" if findings else f"ok: {counts}")
sys.exit(1 if findings else 0)
