"""The numbers of commands, against a server that is played here: over cuts, refusals, want of memory and late edits of an earlier run."""

import json
import random
import unittest
from collections import deque

from richd.core import Core
from richd.messages import Refused, Taken, Unexpected
from richd.numbers import UNREACHED

WINDOW = 16


class Played:
    """A server with one document, over a connection that may be cut."""

    def __init__(self, draw, last):
        self.draw = draw
        self.log = ["earlier"] * last  # what was taken of the source, by number
        self.lines, self.replies = deque(), deque()
        self.may_fail = True

    def reply_to(self, message):
        if message["do"] == "hello":
            return {"ok": "hello"}
        n, last = message["n"], len(self.log)
        if last - WINDOW < n <= last:
            return {"doc": "d", "n": n, "ok": "again", "rev": n}
        if n <= last:
            return {"code": 10, "error": "OldNumber"}
        if n > last + 1:
            return {"code": 9, "error": "Gap"}
        if message["base"] == UNREACHED:
            return {"code": 12, "error": "Future"}
        if self.draw.random() < 0.1:
            return {"code": 16, "error": "TooHeavy"}
        self.log.append(message["ops"][0]["insert"])
        return {"doc": "d", "n": n, "ok": "taken", "rev": n}

    def read(self, count):
        for _ in range(min(count, len(self.lines))):
            message = json.loads(self.lines.popleft())
            is_short = message["do"] != "hello" and self.draw.random() < 0.05 and self.may_fail
            reply = self.reply_to(message) if not is_short or self.draw.random() < 0.5 else None
            self.replies.append({"code": 22, "error": "NoMemory"} if is_short else reply)

    def cut(self):
        self.read(self.draw.randrange(len(self.lines) + 1))  # what had come to it by then
        self.lines.clear()
        self.replies.clear()


class Life:
    """One run of a program, which sends so many edits of its own. Each has a text that no other has."""

    def __init__(self, draw, server, likely, count):
        self.draw, self.server, self.later = draw, server, []
        self.core = Core("ann", likely, lambda seconds, action: self.later.append(action))
        self.left, self.asked, self.answers = count, [], {}
        self.has_late = draw.random() < 0.5  # lines of the earlier run are on their way
        self.late = 4 if self.has_late else 0
        self.core.connected()

    def step(self):
        draw, core, server = self.draw, self.core, self.server
        server.may_fail = not self.has_late  # else the edit of the earlier run would be taken for this one's, whose reply is lost
        kind = draw.random()
        if kind < 0.25 and self.left:
            self.left -= 1
            self.ask(f"edit {len(self.asked)}")
        elif kind < 0.30 and self.later:
            self.later.pop(draw.randrange(len(self.later)))()
        elif kind < 0.33 and not self.has_late:
            server.cut()
            core.cut()
            core.connected()
        elif kind < 0.36 and self.late:
            self.late -= 1
            server.log.append("late")
        elif kind < 0.7:
            server.read(draw.randrange(8))
        else:
            for _ in range(min(draw.randrange(8), len(server.replies))):
                core.received(json.dumps(server.replies.popleft()).encode() + b"\n")
        server.lines.extend(core.to_send().splitlines())

    def ask(self, text):
        self.asked.append(text)

        def done(value, error):
            assert text not in self.answers, f"{text} is answered twice"
            self.answers[text] = value if error is None else error

        self.core.edit("d", [{"insert": text}], 1, done)


class Numbers(unittest.TestCase):
    def test_each_edit_is_taken_once_or_refused_whatever_earlier_runs_have_left(self):
        for seed in range(60):
            draw = random.Random(seed)
            last = draw.choice([0, 1, 2, 15, 16, 17, 40, 1_000])
            likely = draw.choice([{}, {}, {"d": last + 1}, {"d": max(1, last - draw.randrange(30))}, {"d": last + 5}])
            server = Played(draw, last)
            life = Life(draw, server, likely, count=draw.randrange(1, 60))
            for _ in range(5_000):
                life.step()
                if not life.left and len(life.answers) == len(life.asked):
                    break
            with self.subTest(seed=seed):
                self.check(server.log, life)

    def check(self, log, life):
        self.assertEqual(len(life.answers), len(life.asked))
        taken = [text for text in log if text.startswith("edit")]
        self.assertEqual(len(taken), len(set(taken)), "an edit is taken twice")
        for text, answer in life.answers.items():
            if isinstance(answer, Taken):
                self.assertEqual(log[answer.rev - 1], text)
            else:
                self.assertIsInstance(answer, (Refused, Unexpected))
                self.assertNotIn(text, taken)
        if not life.has_late:
            self.assertEqual(taken, [text for text in life.asked if text in taken], "the order isn't that of the calls")


if __name__ == "__main__":
    unittest.main()
