"""Spells a store as the first format does, by docs/FORMATS.md: for playing.py, which brings it over to the second one."""
import struct

from reading import LETTERS, OLD_LETTERS, OPEN, Bytes, delta


def cell_in_first_format(body):
    """A cell's body with no byte behind the revision, and of each source its last number with that one's revision."""
    read = Bytes(body)
    read.take(4)
    read.name(64)
    read.take(8)
    front = body[: read.place]
    read.take(1)
    begin = read.place
    delta(read)
    out = bytearray(front + body[begin : read.place])
    count = read.u(4)
    out += struct.pack("<I", count)
    for _ in range(count):
        name = read.name(32).encode()
        out += struct.pack("<H", len(name)) + name + read.take(8)
        out += read.take(8 * read.u(1))[-8:]
    read.end()
    return bytes(out)


def in_first_format(content):
    """The same store in the first format."""
    assert content[0] == OPEN and content[1:9] == LETTERS
    _, _, docs, cell, _, _ = struct.unpack_from("<6I", content, 9)
    out = bytearray(content)
    out[1:9] = OLD_LETTERS
    for place in (64 + number * cell for number in range(2 * docs)):
        if content[place] == OPEN:
            length = int.from_bytes(content[place + 1 : place + 5], "little")
            body = cell_in_first_format(content[place + 5 : place + 5 + length])
            out[place + 1 : place + 5 + len(body)] = struct.pack("<I", len(body)) + body
    return bytes(out)
