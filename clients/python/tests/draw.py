"""Drawn documents and changes: for one seed those of clients/js/tests/draw.js."""

from richd import delta

PIECES = ["a", "b", "no", " ", "\n", "é", "\U0001f600", "\U0001d11ex"]
ATTRIBUTES = {"bold": [True], "italic": [True], "size": [1, 2], "link": ["u", "v"]}
WORD = 0xFFFFFFFF


class Draw:
    def __init__(self, seed):
        self.state = seed

    def below(self, bound):
        """A whole number from 0 on below a bound (mulberry32)."""
        self.state = (self.state + 0x6D2B79F5) & WORD
        mixed = (self.state ^ self.state >> 15) * (1 | self.state) & WORD
        mixed = (mixed + (mixed ^ mixed >> 7) * (61 | mixed) & WORD) ^ mixed
        return (mixed ^ mixed >> 14) % bound

    def of(self, items):
        return items[self.below(len(items))]

    def attributes(self, may_remove):
        if self.below(2) == 0:
            return None
        name = self.of(list(ATTRIBUTES))
        return {name: None if may_remove and self.below(3) == 0 else self.of(ATTRIBUTES[name])}

    def insert(self):
        content = {"image": self.of(["p", "q"])} if self.below(6) == 0 else self.text()
        return with_attributes({"insert": content}, self.attributes(False))

    def text(self):
        return "".join(self.of(PIECES) for _ in range(1 + self.below(3)))

    def document(self):
        return delta.normal([self.insert() for _ in range(self.below(5))])

    def change(self, base):
        """A change of a document, which parts no pair."""
        ends, ops, at = ends_of(base), [], 0
        while at < ends[-1]:
            most = min(at + 1 + self.below(4), ends[-1])
            length = next(end for end in ends if end >= most) - at
            kind = self.below(4)
            if kind == 0:
                ops.append({"delete": length})
            else:
                ops.append(with_attributes({"retain": length}, self.attributes(True) if kind == 1 else None))
            at += length
            if self.below(3) == 0:
                ops.append(self.insert())
        if self.below(3) == 0:
            ops.append(self.insert())
        return delta.normal(ops)

    def case(self, number):
        """What is computed with which two deltas, and whether the first one stands first."""
        base = self.document()
        first = self.change(base)
        if number % 2 == 0:
            return "compose", first, self.change(delta.compose(base, first)), False
        return "transform", first, self.change(base), self.below(2) == 0


def with_attributes(operation, attributes):
    return {**operation, "attributes": attributes} if attributes else operation


def ends_of(document):
    """The places in a document at which it may be cut, in units."""
    places = [0]
    for operation in document:
        content = operation["insert"]
        for size in [delta.units(letter) for letter in content] if isinstance(content, str) else [1]:
            places.append(places[-1] + size)
    return places
