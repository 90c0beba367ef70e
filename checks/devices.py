#!/usr/bin/env python3
"""Gives richd files that aren't quite stores, and checks that `dump` answers each, and writes none.

usage: checks/devices.py [IMAGES] [SEED] [RUNS]     (default: 100,000 images; as many runs at once as there are processors)

An image is drawn from a real store, as the sessions of scripts.py leave it after each of their messages: bytes of it are changed, numbers
put to their edges, parts filled, copied, moved, left out or put in, slots and cells exchanged, the end cut off or made longer. `dump` by
either pick has to print documents, status 0, or end with status 1 and `error 30 NotFormatted`, `error 32 Damaged` or `error 38 OldFormat`: just what reading.py
finds by docs/FORMATS.md. It has a second of a processor for it; and the file has to be the same afterwards, and not written. An image that
disagrees is kept, in a folder that is named.

Run ./demo first, which builds crates/richd/out/richd, or name another program in RICHD. The images lie in a temporary folder (TMPDIR).
"""
import collections
import concurrent.futures
import json
import os
import random
import re
import struct
import subprocess
import sys
import tempfile
import threading
import time

import reading
from refusing import richd
from scripts import SCRIPTS

SLOWEST = 1.0  # seconds of a processor
PATIENCE = 20  # seconds, after which a run hangs
LARGEST = 1 << 16  # bytes of a store that images are drawn from
DOCUMENT = re.compile(rb'([A-Za-z0-9._-]{1,64}) ([0-9]+) ([0-9]+) (\{"ops":\[.*\]\}|deleted)\n')
EDGES = [0, 1, 2, 3, 4, 9, 0x7F, 0x80, 0xFF, 0xA5, 0xFFFF]
EDGES += [(1 << 31) - 1, 1 << 31, (1 << 32) - 1, (1 << 48) + 1, (1 << 53) - 1, 1 << 53, (1 << 64) - 1]
FILLS = [b"\x00", b"\xa5", b"\xff", b"\x3c", b"\x01"]


class Image:
    """A real store, with the places that its shape gives it."""

    def __init__(self, content):
        self.content = content
        slots, slot, docs, cell = struct.unpack_from("<IIII", content, 9)
        self.blocks = [(64 + number * cell, cell) for number in range(2 * docs)]
        self.blocks += [(64 + 2 * docs * cell + number * slot, slot) for number in range(slots)]
        self.gates = [place for place, byte in enumerate(content) if byte == 0xA5]


def real_images(folder):
    """What the sessions of the scripts leave after each of their messages, in stores that are small."""
    images, store = {}, os.path.join(folder, "real")
    for script in SCRIPTS:
        subprocess.run([richd, "format", store, *script.shape], check=True)
        if os.path.getsize(store) <= LARGEST:
            for source, messages in script.sessions:
                hello = {"do": "hello", "source": source}
                for message in messages:
                    lines = "".join(json.dumps(it) + "\n" for it in (hello, message))
                    subprocess.run([richd, "serve", store, *script.options], input=lines.encode(), check=True, stdout=subprocess.DEVNULL)
                    with open(store, "rb") as file:
                        images[file.read()] = True
        os.unlink(store)
    return [Image(content) for content in images]


def place_in(draw, image, content):
    """A place, mostly one that means much: of the superblock, of a head of a cell or slot, or near a gate."""
    way = draw.randrange(5)
    if way == 0:
        place = draw.randrange(34)
    elif way == 1:
        place = draw.choice(image.blocks)[0] + draw.randrange(16)
    elif way in (2, 3):
        place = draw.choice(image.gates) + draw.randrange(-2, 80)
    else:
        place = draw.randrange(len(content) or 1)
    return max(0, min(place, len(content)))


def change(draw, image, content):
    """Changes something of a content."""
    place, way = place_in(draw, image, content), draw.randrange(12)
    length = draw.choice((1, 2, 4, 8, draw.randrange(1, 64), draw.randrange(1, 300)))
    if way <= 1:
        content[place : place + 1] = bytes([draw.choice((0, 1, 2, 3, 4, 0xA5, 0xFF, draw.randrange(256)))])
    elif way == 2 and place < len(content):
        content[place] ^= 1 << draw.randrange(8)
    elif way in (3, 4):
        size = draw.choice((2, 4, 8))
        old = int.from_bytes(content[place : place + size], "little")
        new = draw.choice((*EDGES, old + 1, old - 1, old * 2)) % (1 << 8 * size)
        content[place : place + size] = new.to_bytes(size, "little")
    elif way == 5:
        content[place : place + length] = draw.choice(FILLS) * length
    elif way == 6:
        other = place_in(draw, image, content)
        part = content[place : place + length]
        content[other : other + len(part)] = part
    elif way == 7:
        del content[place : place + length]
    elif way == 8:
        content[place:place] = draw.choice((draw.choice(FILLS) * length, content[place : place + length], draw.randbytes(length)))
    elif way == 9:
        (one, size), (other, of_other) = draw.choice(image.blocks), draw.choice(image.blocks)
        size = min(size, of_other)
        content[one : one + size], content[other : other + size] = content[other : other + size], content[one : one + size]
    elif way == 10:
        del content[draw.choice((place, 0, 1, 63, 64, len(content) - 1)) :]
    else:
        content += draw.choice((bytes(length), draw.randbytes(length), bytes(10_000)))


def drawn_image(images, seed, number):
    draw = random.Random(f"{seed} {number}")
    image = draw.choice(images)
    content = bytearray(image.content)
    for _ in range(draw.choice((1, 1, 1, 2, 3, 5))):
        change(draw, image, content)
    return bytes(content)


def wanted_of(content, pick):
    """The status, the documents and the errors that are due for an image."""
    found = reading.found(content, pick == "newer")
    if isinstance(found, int):
        return 1, [], f"error {found} {reading.NAMES[found]}\n".encode()
    return 0, [(name, rev, floor, json.dumps(ops, sort_keys=True)) for name, rev, floor, ops in found], b""


def documents_of(output):
    """The documents of an output, which is lines of them, or None. One that is deleted has no operations."""
    documents = []
    for line in output.splitlines(True):
        found = DOCUMENT.fullmatch(line)
        if not found:
            return None
        ops = None if found[4] == b"deleted" else json.loads(found[4])["ops"]
        documents.append((found[1].decode(), int(found[2]), int(found[3]), json.dumps(ops, sort_keys=True)))
    return documents


def run(words):
    """Runs the program: its status, its output, its errors, and the seconds of a processor that it took. One that hangs is killed."""
    with tempfile.TemporaryFile() as output, tempfile.TemporaryFile() as errors:
        process = subprocess.Popen([richd, *words], stdin=subprocess.DEVNULL, stdout=output, stderr=errors)
        killer = threading.Timer(PATIENCE, process.kill)
        killer.start()
        _, status, used = os.wait4(process.pid, 0)
        killer.cancel()
        process.returncode = os.waitstatus_to_exitcode(status)
        output.seek(0)
        errors.seek(0)
        return process.returncode, output.read(), errors.read(), used.ru_utime + used.ru_stime


def wrong_of(path, content, ends):
    """What is wrong with the answers on an image, or none."""
    with open(path, "wb") as file:
        file.write(content)
    written = os.stat(path).st_mtime_ns
    for pick in ("newer", "older"):
        status, output, errors, took = run(["dump", path, "--pick", pick])
        if took > SLOWEST:
            return f"{pick} takes {took:.1f} s of a processor, and ends with status {status}"
        ended, wanted = (status, documents_of(output), errors), wanted_of(content, pick)
        if ended != wanted:
            return f"{pick} gives {str(ended)[:300]} and not {str(wanted)[:300]}"
        ends[f"{pick} {errors.decode().strip() or 'printed'}"] += 1
        with open(path, "rb") as file:
            if file.read() != content or os.stat(path).st_mtime_ns != written:
                return f"{pick} writes the file"
    return None


def main():
    count = int(sys.argv[1]) if len(sys.argv) > 1 else 100_000
    seed = sys.argv[2] if len(sys.argv) > 2 else str(random.randrange(1 << 32))
    runs = int(sys.argv[3]) if len(sys.argv) > 3 else os.cpu_count() or 1
    began, wrong, lock, ends, numbers = time.monotonic(), [], threading.Lock(), collections.Counter(), iter(range(count))

    with tempfile.TemporaryDirectory() as folder:
        images = real_images(folder)

        def work(worker):
            path, mine = os.path.join(folder, f"image{worker}"), collections.Counter()
            while True:
                with lock:
                    number = next(numbers, None)
                if number is None or len(wrong) >= 20:
                    break
                content = drawn_image(images, seed, number)
                what = wrong_of(path, content, mine)
                if what is not None:
                    kept = os.path.join(tempfile.mkdtemp(prefix="richd-image-"), f"{seed}-{number}")
                    with open(kept, "wb") as file:
                        file.write(content)
                    with lock:
                        wrong.append(number)
                        print(f"DISAGREES  image {number} of seed {seed}, kept as {kept}: {what}", flush=True)
            with lock:
                ends.update(mine)

        with concurrent.futures.ThreadPoolExecutor(runs) as pool:
            for begun in [pool.submit(work, worker) for worker in range(runs)]:
                begun.result()
    print("by end:", ", ".join(f"{end} {number}" for end, number in sorted(ends.items())))
    print(f"{count} images of {len(images)} stores (seed {seed}), {len(wrong)} disagreements, {time.monotonic() - began:.0f} s")
    sys.exit(1 if wrong else 0)


if __name__ == "__main__":
    main()
