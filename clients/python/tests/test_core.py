"""The core and a document that is typed into, by lines that are written here: no server, no time."""

import json
import time
import unittest

from richd.core import Core, Follower
from richd.draft import Draft
from richd.messages import Change, Closed, Contents, Refused, Since, Taken, Unexpected
from richd.numbers import UNREACHED


class Answer:
    """Keeps what a request was answered."""

    def __init__(self):
        self.given = []

    def __call__(self, value, error):
        self.given.append(value if error is None else error)

    @property
    def only(self):
        (answer,) = self.given
        return answer


class Told(Follower):
    """Keeps what it is told of a document."""

    def __init__(self, rev):
        super().__init__(rev)
        self.told = []

    def change(self, change):
        self.told.append(change)

    def end(self, error):
        self.told.append(error)


class CoreTest(unittest.TestCase):
    def setUp(self):
        self.begin()

    def begin(self, likely=None):
        """Begins with a new source, or with one that has such numbers."""
        self.later = []
        self.core = Core("ann", likely, lambda seconds, action: self.later.append((seconds, action)))
        self.greet()

    def greet(self):
        self.core.connected()
        self.sends({"do": "hello", "source": "ann"})
        self.comes({"ok": "hello"})

    def sends(self, *messages):
        """The core has just these messages to send."""
        self.assertEqual([json.loads(line) for line in self.core.to_send().splitlines()], list(messages))

    def comes(self, *messages):
        self.core.received(b"".join(json.dumps(message).encode() + b"\n" for message in messages))

    def refusal(self, code, name):
        return {"code": code, "error": name}

    def edit(self, n, base=1, doc="d", text="x"):
        return {"do": "edit", "doc": doc, "n": n, "base": base, "ops": [{"insert": text}]}

    def taken(self, n, rev, doc="d", how="taken"):
        return {"doc": doc, "n": n, "ok": how, "rev": rev}

    def news(self, rev, *ops, doc="d"):
        return {"doc": doc, "news": rev, "ops": list(ops)}


class Requests(CoreTest):
    def test_replies_go_to_their_requests_in_order_with_news_between(self):
        one, two, follower = Answer(), Answer(), Told(1)
        self.core.follow("d", follower)
        self.sends({"do": "subscribe", "doc": "d", "rev": 1})
        self.core.fetch("d", None, one)
        self.core.since("e", 3, two)
        self.sends({"do": "fetch", "doc": "d"}, {"do": "since", "doc": "e", "rev": 3})
        self.comes(
            {"doc": "d", "ok": "subscribed", "rev": 1},
            self.news(2, {"insert": "a"}),
            {"doc": "d", "ok": "doc", "ops": [{"insert": "a"}], "rev": 2},
            self.news(3, {"delete": 1}),
            {"deltas": [[{"insert": "b"}]], "doc": "e", "ok": "since", "rev": 4},
        )
        self.assertEqual(one.only, Contents(2, [{"insert": "a"}]))
        self.assertEqual(two.only, Since(4, [[{"insert": "b"}]]))
        self.assertEqual(follower.told, [Change(2, [{"insert": "a"}]), Change(3, [{"delete": 1}])])

    def test_it_doesnt_matter_in_which_pieces_a_line_comes(self):
        answer = Answer()
        self.core.fetch("d", 1, answer)
        self.sends({"do": "fetch", "doc": "d", "rev": 1})
        for byte in b'{"doc":"d","ok":"doc","ops":[{"insert":"\xc3\xa9"}],"rev":1}\n':
            self.core.received(bytes([byte]))
        self.assertEqual(answer.only, Contents(1, [{"insert": "é"}]))

    def test_a_long_line_isnt_copied_for_each_piece_of_it(self):
        answer = Answer()
        self.core.fetch("d", None, answer)
        line = json.dumps({"doc": "d", "ok": "doc", "ops": [{"insert": "x" * 20_000_000}], "rev": 1}).encode() + b"\n"
        began = time.perf_counter()
        for at in range(0, len(line), 1_000):
            self.core.received(line[at : at + 1_000])
        self.assertEqual(answer.only.rev, 1)
        self.assertLess(time.perf_counter() - began, 10)  # else some 200 GB are copied

    def test_a_refusal_has_its_code_and_its_name(self):
        answer = Answer()
        self.core.fetch("d", None, answer)
        self.comes(self.refusal(6, "NoDocument"))
        self.assertEqual((answer.only.code, answer.only.name), (6, "NoDocument"))

    def test_what_comes_before_a_connection_is_sent_on_it(self):
        core = Core("ann", None, lambda seconds, action: None)
        core.fetch("d", None, Answer())
        core.connected()
        self.assertEqual(core.to_send(), b'{"do":"hello","source":"ann"}\n')
        core.received(b'{"ok":"hello"}\n')
        self.assertEqual(core.to_send(), b'{"do":"fetch","doc":"d"}\n')

    def test_half_a_character_is_refused_before_it_is_sent(self):
        with self.assertRaises(ValueError):
            self.core.create("d", [{"insert": "\ud83d"}], Answer())
        self.sends()

    def test_what_is_no_reply_is_an_error(self):
        for line in (b"[]\n", b"{\n", b'{"ok":"hello"}\n'):
            with self.assertRaises(Unexpected):
                self.core.received(line)

    def test_the_reply_to_another_request_is_an_error(self):
        self.core.undo("d", Answer())
        for reply in (self.taken(2, 5), self.taken(1, 5, doc="e")):
            with self.assertRaises(Unexpected):
                self.comes(reply)
            self.begin()
            self.core.undo("d", Answer())

    def test_who_waits_is_told_of_a_reply_that_is_none(self):
        for reply in ({"doc": "e", "ok": "doc", "ops": [], "rev": 1}, {"doc": "d", "ok": "doc", "rev": 1}, {"doc": "d", "ok": "unsubscribed"}):
            answer = Answer()
            self.core.fetch("d", None, answer)
            with self.assertRaises(Unexpected) as caught:
                self.comes(reply)
            self.core.fail(caught.exception)
            self.assertIs(answer.only, caught.exception)
            self.begin()

    def test_a_refused_hello_is_told(self):
        core = Core("a b", None, lambda seconds, action: None)
        core.connected()
        with self.assertRaises(Refused):
            core.received(b'{"code":8,"error":"BadName"}\n')

    def test_after_the_end_everybody_is_told(self):
        one, two, three, follower = Answer(), Answer(), Answer(), Told(1)
        self.core.edit("d", [], 1, one)
        self.core.edit("d", [], 1, two)
        self.core.follow("d", follower)
        self.core.fail(Closed("closed"))
        self.core.undo("d", three)
        for answer in (one, two, three):
            self.assertIsInstance(answer.only, Closed)
        self.assertIsInstance(follower.told[0], Closed)


class Numbers(CoreTest):
    def test_commands_of_a_document_are_sent_ahead_and_those_of_others_beside(self):
        answers = [Answer() for _ in range(4)]
        self.core.create("d", [{"insert": "x"}], answers[0])
        self.core.edit("d", [{"insert": "x"}], 1, answers[1])
        self.core.create("e", [], answers[2])
        self.core.undo("d", answers[3])
        create = {"do": "create", "doc": "d", "n": 1, "ops": [{"insert": "x"}]}
        undo = {"do": "undo", "doc": "d", "n": 3}
        self.sends(create, self.edit(2), {"do": "create", "doc": "e", "n": 1, "ops": []}, undo)
        self.assertEqual(self.core.likely_numbers(), {"d": 1, "e": 1})
        self.comes(self.taken(1, 1), self.taken(2, 5), self.taken(1, 1, doc="e"))
        self.assertEqual(self.core.likely_numbers(), {"d": 3, "e": 2})
        self.comes(self.taken(3, 6))
        self.assertEqual([answer.only for answer in answers], [Taken(1), Taken(5), Taken(1), Taken(6)])
        self.assertEqual(self.core.likely_numbers(), {"d": 4, "e": 2})

    def test_sixteen_commands_of_a_document_are_on_their_way(self):
        answers = [Answer() for _ in range(18)]
        for answer in answers:
            self.core.edit("d", [{"insert": "x"}], 1, answer)
        self.sends(*[self.edit(n) for n in range(1, 17)])
        self.comes(self.taken(1, 2))
        self.sends(self.edit(17))
        self.comes(self.taken(2, 3))
        self.sends(self.edit(18))
        self.comes(*[self.taken(n, n + 1) for n in range(3, 19)])
        self.assertEqual([answer.only for answer in answers], [Taken(n + 2) for n in range(18)])

    def test_all_that_are_on_their_way_at_a_cut_are_sent_again_in_order(self):
        answers = [Answer() for _ in range(3)]
        for answer in answers:
            self.core.edit("d", [{"insert": "x"}], 1, answer)
        self.sends(*[self.edit(n) for n in (1, 2, 3)])
        self.core.cut()
        self.greet()
        self.sends(*[self.edit(n) for n in (1, 2, 3)])
        self.comes(self.taken(1, 2, how="again"), self.taken(2, 3, how="again"), self.taken(3, 4))
        self.assertEqual([answer.only for answer in answers], [Taken(2, again=True), Taken(3, again=True), Taken(4)])

    def test_a_refused_command_leaves_its_number_to_the_next(self):
        one, two = Answer(), Answer()
        self.core.edit("d", [{"insert": "x"}], 9, one)
        self.sends(self.edit(1, base=9))
        self.comes(self.refusal(12, "Future"))
        self.assertEqual(one.only.name, "Future")
        self.core.edit("d", [{"insert": "x"}], 1, two)
        self.sends(self.edit(1))

    def test_those_behind_a_refused_command_are_sent_again_with_other_numbers(self):
        answers = [Answer() for _ in range(4)]
        self.core.edit("d", [{"insert": "x"}], 1, answers[0])
        self.core.edit("d", [{"insert": "x"}], 9, answers[1])
        self.core.edit("d", [{"insert": "y"}], 1, answers[2])
        self.core.edit("d", [{"insert": "z"}], 1, answers[3])
        self.sends(self.edit(1), self.edit(2, base=9), self.edit(3, text="y"), self.edit(4, text="z"))
        self.comes(self.taken(1, 2), self.refusal(12, "Future"))
        self.assertEqual(answers[1].only.name, "Future")
        self.sends()  # the two behind it are on their way still
        self.comes(self.refusal(9, "Gap"))
        self.sends(self.edit(2, text="y"))
        late = Answer()
        self.core.edit("d", [{"insert": "a"}], 1, late)
        self.sends()  # so that it doesn't pass the one before it
        self.comes(self.refusal(9, "Gap"))
        self.sends(self.edit(3, text="z"), self.edit(4, text="a"))
        self.comes(self.taken(2, 3), self.taken(3, 4), self.taken(4, 5))
        self.assertEqual([answer.only for answer in [answers[0], *answers[2:], late]], [Taken(2), Taken(3), Taken(4), Taken(5)])
        self.assertEqual(self.core.likely_numbers(), {"d": 5})

    def test_an_edit_behind_a_creation_that_is_refused_is_tried_once_more(self):
        one, two = Answer(), Answer()
        self.core.create("d", [{"insert": "x"}], one)
        self.core.edit("d", [{"insert": "x"}], 1, two)
        self.sends({"do": "create", "doc": "d", "n": 1, "ops": [{"insert": "x"}]}, self.edit(2))
        self.comes(self.refusal(20, "TooManyDocuments"), self.refusal(6, "NoDocument"))
        self.sends(self.edit(1))
        self.comes(self.refusal(6, "NoDocument"))
        self.assertEqual((one.only.code, two.only.code), (20, 6))

    def test_a_document_is_deleted_and_created_again_by_the_next_numbers(self):
        answers = [Answer() for _ in range(3)]
        self.core.edit("d", [{"insert": "x"}], 1, answers[0])
        self.core.delete("d", answers[1])
        self.core.create("d", [{"insert": "n"}], answers[2])
        creation = {"do": "create", "doc": "d", "ops": [{"insert": "n"}]}
        self.sends(self.edit(1), {"do": "delete", "doc": "d", "n": 2}, {**creation, "n": 3})
        # the edit is refused, so the deletion has a gap before it, and the creation finds the document there
        self.comes(self.refusal(16, "TooHeavy"), self.refusal(9, "Gap"), self.refusal(7, "Exists"))
        self.sends({"do": "delete", "doc": "d", "n": 1}, {**creation, "n": 2})
        self.comes(self.taken(1, 2), self.taken(2, 3))
        self.assertEqual([answer.only for answer in answers[1:]], [Taken(2), Taken(3)])

    def test_without_memory_those_behind_wait_for_it(self):
        answers = [Answer() for _ in range(3)]
        for answer in answers:
            self.core.edit("d", [{"insert": "x"}], 1, answer)
        self.sends(*[self.edit(n) for n in (1, 2, 3)])
        # The first one wasn't taken.
        self.comes(self.refusal(22, "NoMemory"), self.refusal(9, "Gap"))
        self.sends()
        ((_, resume),) = self.later
        resume()
        self.sends(self.edit(1), self.edit(2))
        self.comes(self.refusal(9, "Gap"))
        self.sends(self.edit(3))
        self.comes(self.taken(1, 2), self.taken(2, 3), self.taken(3, 4))
        self.assertEqual([answer.only for answer in answers], [Taken(2), Taken(3), Taken(4)])

    def test_without_memory_for_the_reply_alone_those_behind_are_taken(self):
        one, two = Answer(), Answer()
        self.core.edit("d", [{"insert": "x"}], 1, one)
        self.core.edit("d", [{"insert": "x"}], 1, two)
        self.sends(self.edit(1), self.edit(2))
        self.comes(self.refusal(22, "NoMemory"), self.taken(2, 3))
        self.assertEqual((one.given, two.only), ([], Taken(3)))
        ((_, resume),) = self.later
        resume()
        self.sends(self.edit(1))
        self.comes(self.taken(1, 2, how="again"))
        self.assertEqual(one.only, Taken(2, again=True))
        self.assertEqual(self.core.likely_numbers(), {"d": 3})

    def test_what_is_unanswered_at_a_cut_is_sent_again_with_its_number(self):
        one, two, read = Answer(), Answer(), Answer()
        self.core.edit("d", [{"insert": "x"}], 1, one)
        self.core.fetch("d", None, read)
        self.core.edit("d", [{"insert": "x"}], 1, two)
        self.sends(self.edit(1), {"do": "fetch", "doc": "d"}, self.edit(2))
        self.core.cut()
        self.greet()
        self.sends(self.edit(1), {"do": "fetch", "doc": "d"}, self.edit(2))
        self.comes(self.taken(1, 7, how="again"))
        self.assertEqual(one.only, Taken(7, again=True))

    def test_part_of_a_line_that_came_before_a_cut_is_dropped(self):
        answer = Answer()
        self.core.edit("d", [{"insert": "x"}], 1, answer)
        self.core.received(b'{"doc":"d","n":1,"ok":"taken","re')
        self.core.cut()
        self.core.to_send()
        self.greet()
        self.comes(self.taken(1, 7, how="again"))
        self.assertEqual(answer.only, Taken(7, again=True))

    def test_a_source_that_somebody_has_used_is_found_out(self):
        answer = Answer()
        self.core.edit("d", [{"insert": "x"}], 1, answer)
        self.comes(self.taken(1, 1, how="again"))
        self.assertIsInstance(answer.only, Unexpected)

    def test_without_memory_it_is_sent_again_and_the_pause_doubles(self):
        answer = Answer()
        self.core.edit("d", [{"insert": "x"}], 1, answer)
        pauses = []
        for _ in range(8):
            self.sends(self.edit(1))
            self.comes(self.refusal(22, "NoMemory"))
            self.sends()
            ((seconds, resume),) = self.later
            pauses.append(seconds)
            self.later.clear()
            resume()
        self.assertEqual(pauses, [0.1, 0.2, 0.4, 0.8, 1.6, 3.2, 5.0, 5.0])
        self.comes(self.taken(1, 2))
        self.assertEqual(answer.only, Taken(2))

    def test_where_the_store_failed_the_commands_are_kept(self):
        one, two, three = Answer(), Answer(), Answer()
        self.core.edit("d", [{"insert": "x"}], 1, one)
        self.core.edit("d", [{"insert": "y"}], 1, two)
        self.sends(self.edit(1), self.edit(2, text="y"))
        self.comes(self.refusal(21, "StoreFailed"), self.refusal(21, "StoreFailed"))
        self.assertEqual([one.only.code, two.only.code], [21, 21])
        self.sends()
        # The server is started anew. It had taken the first edit.
        self.core.cut()
        self.greet()
        self.sends(self.edit(1), self.edit(2, text="y"))
        self.core.edit("d", [{"insert": "z"}], 1, three)
        self.sends(self.edit(3, text="z"))
        self.comes(self.taken(1, 2, how="again"), self.taken(2, 3), self.taken(3, 4))
        self.assertEqual(three.only, Taken(4))
        self.assertEqual([len(one.given), len(two.given)], [1, 1])

    def test_where_the_store_failed_the_next_command_sends_those_that_are_kept_again(self):
        one, two = Answer(), Answer()
        self.core.edit("d", [{"insert": "x"}], 1, one)
        self.sends(self.edit(1))
        self.comes(self.refusal(21, "StoreFailed"))
        self.core.edit("d", [{"insert": "y"}], 1, two)
        self.sends(self.edit(1), self.edit(2, text="y"))
        self.comes(self.refusal(21, "StoreFailed"), self.refusal(21, "StoreFailed"))
        self.assertEqual([one.only.code, two.only.code], [21, 21])


class Asking(CoreTest):
    """The next number, where nobody knows it."""

    def setUp(self):
        self.begin({})

    def probes(self, *numbers):
        """The core has just these probes to send."""
        self.sends(*[{"do": "edit", "doc": "d", "n": n, "base": UNREACHED, "ops": []} for n in numbers])

    def answer_for(self, number, last):
        """What a server answers to a probe whose source has taken commands up to the last one."""
        if number > last + 1:
            return self.refusal(9, "Gap")
        if number > last:
            return self.refusal(12, "Future")
        return self.taken(number, number + 1, how="again") if number > last - 16 else self.refusal(10, "OldNumber")

    def answers(self, last):
        """Answers all probes that are sent. Gives how many rounds there were."""
        for round in range(20):
            probes = [json.loads(line) for line in self.core.to_send().splitlines()]
            if not (probes and probes[0]["base"] == UNREACHED):
                self.rest = probes
                return round
            self.comes(*[self.answer_for(probe["n"], last) for probe in probes])

    def test_it_is_found_in_a_few_rounds(self):
        for last in (0, 1, 2, 3, 4, 14, 15, 16, 17, 100, 2_500, 2**20 + 7, 2**52 + 5):
            self.begin({})
            self.core.edit("d", [{"insert": "x"}], 1, Answer())
            rounds = self.answers(last)
            self.assertEqual(self.rest, [self.edit(last + 1)])
            self.assertLessEqual(rounds, 14 if last > 2**21 else 6)

    def test_a_new_source_isnt_asked_for(self):
        self.begin()
        self.core.edit("d", [{"insert": "x"}], 1, Answer())
        self.sends(self.edit(1))

    def test_where_there_is_no_document_it_is_the_first(self):
        self.core.create("d", [], Answer())
        self.comes(*[self.refusal(6, "NoDocument")] * len(self.core.to_send().splitlines()))
        self.sends({"do": "create", "doc": "d", "n": 1, "ops": []})

    def test_of_a_deleted_document_it_is_the_one_that_the_refusal_shows(self):
        self.core.create("d", [], Answer())
        for number in range(60):
            probes = [json.loads(line)["n"] for line in self.core.to_send().splitlines()]
            if len(probes) == 1:
                break
            answers = {True: self.refusal(10, "OldNumber"), False: self.refusal(9, "Gap"), None: self.refusal(40, "Deleted")}
            self.comes(*[answers[None if n == 22 else n < 22] for n in probes])
        self.assertEqual(probes, [22])

    def test_the_first_command_goes_alone_and_then_up_to_sixteen(self):
        answers = [Answer() for _ in range(20)]
        for answer in answers:
            self.core.edit("d", [{"insert": "x"}], 1, answer)
        self.answers(30)
        self.assertEqual(self.rest, [self.edit(31)])
        self.comes(self.taken(31, 50))
        self.sends(*[self.edit(n) for n in range(32, 48)])

    def test_a_number_that_an_earlier_run_used_meanwhile_is_asked_for_again(self):
        answer = Answer()
        self.core.edit("d", [{"insert": "x"}], 1, answer)
        self.answers(4)
        self.comes(self.taken(5, 9, how="again"))  # the last edit of that run came late
        self.answers(5)
        self.assertEqual((self.rest, answer.given), ([self.edit(6)], []))
        self.comes(self.taken(6, 10))
        self.assertEqual(answer.only, Taken(10))

    def test_a_likely_number_is_asked_for_first(self):
        for likely in (1, 3, 25, 30, 31, 32, 40, 2**40):
            self.begin({"d": likely})
            self.assertEqual(self.core.likely_numbers(), {"d": likely})
            one, two = Answer(), Answer()
            self.core.edit("d", [{"insert": "x"}], 1, one)
            self.core.edit("d", [{"insert": "y"}], 1, two)
            rounds = self.answers(30)
            self.assertTrue(rounds == 1 if likely == 31 else rounds < 14)
            self.assertEqual(self.rest, [self.edit(31)])
            self.comes(self.taken(31, 50))
            self.sends(self.edit(32, text="y"))
            self.comes(self.taken(32, 51))
            self.assertEqual((one.only, two.only), (Taken(50), Taken(51)))
            self.assertEqual(self.core.likely_numbers(), {"d": 33})

    def test_a_name_that_two_use_at_a_time_is_told_and_its_number_asked_for(self):
        one, two, three = Answer(), Answer(), Answer()
        self.core.edit("d", [{"insert": "x"}], 1, one)
        self.answers(6)
        self.comes(self.taken(7, 20))
        self.core.edit("d", [{"insert": "y"}], 1, two)
        self.core.to_send()
        with self.assertLogs("richd", "WARNING"):
            self.comes(self.taken(8, 21, how="again"))
        self.assertIsInstance(two.only, Unexpected)
        self.core.edit("d", [{"insert": "z"}], 1, three)
        self.answers(9)
        self.assertEqual(self.rest, [self.edit(10, text="z")])

    def test_a_cut_while_it_is_asked_for(self):
        answer = Answer()
        self.core.edit("d", [{"insert": "x"}], 1, answer)
        probes = self.core.to_send()
        self.comes(self.refusal(10, "OldNumber"))
        self.core.cut()
        self.greet()
        self.assertEqual(self.core.to_send(), b"".join(probes.splitlines(keepends=True)[1:]))
        self.core.fail(Closed("closed"))
        self.assertIsInstance(answer.only, Closed)

    def test_where_the_store_failed_it_is_told_and_asked_for_again(self):
        one, two = Answer(), Answer()
        self.core.edit("d", [{"insert": "x"}], 1, one)
        self.core.edit("d", [{"insert": "y"}], 1, two, waits=True)
        self.comes(*[self.refusal(21, "StoreFailed")] * len(self.core.to_send().splitlines()))
        self.assertEqual((one.only.code, two.given), (21, []))
        self.sends()
        self.core.cut()
        self.greet()
        self.answers(4)
        self.assertEqual(self.rest, [self.edit(5, text="y")])

    def test_the_next_number_is_told(self):
        one, two, three = Answer(), Answer(), Answer()
        self.core.next_number("d", one)
        self.answers(4)
        self.assertEqual((one.only, self.rest), (5, []))
        self.core.edit("d", [{"insert": "x"}], 1, Answer())
        self.core.next_number("d", two)
        self.sends(self.edit(5))
        self.assertEqual(two.given, [])
        self.comes(self.taken(5, 9))
        self.core.next_number("d", three)
        self.assertEqual((two.only, three.only), (6, 6))
        self.sends()

    def test_commands_whose_numbers_are_given(self):
        answers = [Answer() for _ in range(4)]
        self.core.edit("d", [{"insert": "x"}], 1, answers[0], number=5)
        self.core.edit("d", [{"insert": "y"}], 1, answers[1], number=6)
        self.core.edit("d", [{"insert": "z"}], 1, answers[2])
        self.sends(self.edit(5), self.edit(6, text="y"))
        self.comes(self.taken(5, 8, how="again"), self.taken(6, 9))
        self.assertEqual((answers[0].only, answers[1].only), (Taken(8, again=True), Taken(9)))
        self.sends(self.edit(7, text="z"))
        self.core.edit("d", [{"insert": "a"}], 1, answers[3], number=40)
        self.sends()
        self.comes(self.taken(7, 10))
        self.sends(self.edit(40, text="a"))
        self.comes(self.refusal(9, "Gap"))
        self.assertEqual((answers[2].only, answers[3].only.name), (Taken(10), "Gap"))
        self.assertEqual(self.core.likely_numbers(), {"d": 8})
        with self.assertRaises(ValueError):
            self.core.undo("d", Answer(), number=0)

    def test_what_wasnt_sent_is_taken_back(self):
        self.begin()
        self.core.cut()
        one, two, read = (self.core.edit("d", [{"insert": text}], 1, Answer()) for text in "xyz")
        read = self.core.fetch("d", None, Answer())
        self.assertTrue(self.core.take_back(one))
        self.assertTrue(self.core.take_back(read))
        self.assertFalse(self.core.take_back(one))
        self.greet()
        self.sends(self.edit(1, text="y"), self.edit(2, text="z"))
        self.assertFalse(self.core.take_back(two))


class Followers(CoreTest):
    def test_after_a_cut_it_follows_on_behind_what_it_was_told(self):
        follower = Told(1)
        self.core.follow("d", follower)
        self.core.to_send()
        self.comes({"doc": "d", "ok": "subscribed", "rev": 1}, self.news(2), self.news(3))
        self.core.cut()
        self.greet()
        self.sends({"do": "subscribe", "doc": "d", "rev": 3})
        self.comes({"doc": "d", "ok": "subscribed", "rev": 3}, self.news(4))
        self.assertEqual([change.rev for change in follower.told], [2, 3, 4])

    def test_two_followers_share_a_subscription_and_each_is_told_once(self):
        ahead, behind = Told(5), Told(2)
        self.core.follow("d", ahead)
        self.comes({"doc": "d", "ok": "subscribed", "rev": 5}, self.news(6))
        self.core.follow("d", behind)
        self.sends({"do": "subscribe", "doc": "d", "rev": 5}, {"do": "subscribe", "doc": "d", "rev": 2})
        self.comes(self.news(7), {"doc": "d", "ok": "subscribed", "rev": 2}, *[self.news(rev) for rev in range(3, 9)])
        self.assertEqual([change.rev for change in ahead.told], [6, 7, 8])
        self.assertEqual([change.rev for change in behind.told], [3, 4, 5, 6, 7, 8])
        self.core.unfollow("d", ahead)
        self.sends()
        self.core.unfollow("d", behind)
        self.sends({"do": "unsubscribe", "doc": "d"})

    def test_one_that_is_too_old_ends_and_the_other_follows_on(self):
        ahead, behind = Told(5), Told(2)
        self.core.follow("d", ahead)
        self.core.follow("d", behind)
        self.core.to_send()
        self.comes({"doc": "d", "ok": "subscribed", "rev": 5}, self.refusal(13, "TooOld"))
        self.assertEqual(behind.told[0].code, 13)
        self.sends({"do": "subscribe", "doc": "d", "rev": 5})
        self.comes({"doc": "d", "ok": "subscribed", "rev": 5}, self.news(6))
        self.assertEqual([change.rev for change in ahead.told], [6])

    def ended(self, *revisions):
        """Followers whose subscription has ended, so that the server was asked why."""
        followers = [Told(rev) for rev in revisions]
        for follower in followers:
            self.core.follow("d", follower)
        self.core.to_send()
        self.comes(*[{"doc": "d", "ok": "subscribed", "rev": 1}] * len(followers), {"doc": "d", "ended": 13})
        self.sends({"do": "since", "doc": "d", "rev": UNREACHED})
        return followers

    def test_it_ends_where_a_revision_is_no_longer_held(self):
        (follower,) = self.ended(1)
        self.assertEqual(follower.told, [])
        self.comes(self.refusal(12, "Future"))
        self.assertEqual(follower.told[0].name, "TooOld")

    def test_it_ends_where_the_document_is_deleted(self):
        first, second = self.ended(3, 2)
        self.comes(self.refusal(40, "Deleted"))
        self.assertEqual([told.code for told in first.told + second.told], [40, 40])
        self.sends()

    def test_one_that_ends_meanwhile_is_told_by_its_end_alone(self):
        first, second = self.ended(3, 2)
        self.core.unfollow("d", first)
        self.core.cut()
        self.greet()
        self.sends({"do": "since", "doc": "d", "rev": UNREACHED})
        self.core.fail(Closed("closed"))
        self.assertEqual(first.told, [])
        self.assertIsInstance(second.told[0], Closed)

    def test_who_follows_anew_while_it_is_asked_isnt_told_the_end(self):
        (old,), new = self.ended(1), Told(9)
        self.core.follow("d", new)
        self.sends({"do": "subscribe", "doc": "d", "rev": 9})
        self.comes(self.refusal(40, "Deleted"), {"doc": "d", "ok": "subscribed", "rev": 9}, self.news(10))
        self.assertEqual((old.told[0].code, [change.rev for change in new.told]), (40, [10]))


class Drafts(CoreTest):
    """A document that is typed into."""

    def setUp(self):
        super().setUp()
        self.draft = Draft(self.core, "d", Contents(1, [{"insert": "Hello world"}]))
        self.changes, self.lost = [], []
        self.draft.on_change(self.changes.append)
        self.draft.on_reset(self.lost.append)
        self.sends({"do": "subscribe", "doc": "d", "rev": 1})
        self.comes({"doc": "d", "ok": "subscribed", "rev": 1})

    def sends_edit(self, n, base, *ops):
        self.sends({"do": "edit", "doc": "d", "n": n, "base": base, "ops": list(ops)})

    def test_one_edit_is_on_its_way_and_the_rest_is_composed(self):
        self.draft.apply([{"retain": 11}, {"insert": "!"}])
        self.sends_edit(1, 1, {"retain": 11}, {"insert": "!"})
        self.draft.apply([{"retain": 12}, {"insert": "a"}])
        self.draft.apply([{"retain": 13}, {"insert": "b"}])
        self.sends()
        self.assertEqual(self.draft.text, "Hello world!ab")
        self.comes(self.taken(1, 2))
        self.sends_edit(2, 2, {"retain": 12}, {"insert": "ab"})
        self.assertFalse(self.draft.is_settled)
        self.comes(self.news(2, {"retain": 11}, {"insert": "!"}), self.taken(2, 3))
        self.assertTrue(self.draft.is_settled)
        self.assertEqual((self.draft.text, self.draft.revision, self.changes), ("Hello world!ab", 3, []))

    def test_what_others_did_is_moved_past_both(self):
        self.draft.apply([{"retain": 11}, {"insert": "!"}])
        self.draft.apply([{"insert": "Oh. "}])
        self.core.to_send()
        # Somebody put "> " in front, at revision 2, before the edit made revision 3.
        self.comes(self.taken(1, 3), self.news(2, {"insert": "> "}))
        self.assertEqual(self.draft.text, "> Oh. Hello world!")
        self.assertEqual(self.changes, [[{"insert": "> "}]])
        self.sends_edit(2, 3, {"retain": 2}, {"insert": "Oh. "})
        self.comes(self.news(3, {"retain": 13}, {"insert": "!"}), self.taken(2, 4), self.news(4, {"retain": 2}, {"insert": "Oh. "}))
        self.assertEqual((self.draft.text, self.draft.revision), ("> Oh. Hello world!", 4))

    def test_after_a_cut_the_edit_is_sent_as_it_was(self):
        self.draft.apply([{"retain": 11}, {"insert": "!"}])
        self.core.to_send()
        self.draft.apply([{"insert": "a"}])
        self.core.cut()
        self.greet()
        self.sends(
            {"do": "edit", "doc": "d", "n": 1, "base": 1, "ops": [{"retain": 11}, {"insert": "!"}]},
            {"do": "subscribe", "doc": "d", "rev": 1},
        )
        # It had been taken as revision 2, and somebody deleted the first word since.
        self.comes(
            self.taken(1, 2, how="again"),
            {"doc": "d", "ok": "subscribed", "rev": 1},
            self.news(2, {"retain": 11}, {"insert": "!"}),
            self.news(3, {"delete": 6}),
        )
        self.sends_edit(2, 2, {"insert": "a"})
        self.comes(self.taken(2, 4))
        self.assertEqual(self.draft.text, "aworld!")
        self.assertTrue(self.draft.is_settled)

    def fetched_anew(self, *ops, rev=9):
        """The server was started anew, and holds revision 1 no longer: so the document is fetched."""
        self.core.cut()
        self.greet()
        self.core.to_send()
        self.comes(self.refusal(13, "TooOld"), self.refusal(13, "TooOld"))
        self.sends({"do": "unsubscribe", "doc": "d"}, {"do": "fetch", "doc": "d"})
        self.comes({"doc": "d", "ok": "unsubscribed"}, {"doc": "d", "ok": "doc", "ops": list(ops), "rev": rev})

    def test_where_nothing_that_it_knows_is_held_what_was_typed_is_moved_to_what_is_fetched(self):
        moved = []
        self.draft.on_rebase(moved.append)
        bold = {"bold": True}
        self.draft.apply([{"retain": 6}, {"retain": 5, "attributes": bold}, {"insert": "!"}])
        self.core.to_send()
        self.draft.apply([{"delete": 2}, {"insert": "Je"}])
        self.fetched_anew({"insert": "Oh, Hello big world"})
        typed = [{"retain": 4}, {"insert": "Je"}, {"delete": 2}, {"retain": 8}, {"retain": 5, "attributes": bold}, {"insert": "!"}]
        self.sends({"do": "subscribe", "doc": "d", "rev": 9}, {"do": "edit", "doc": "d", "n": 1, "base": 9, "ops": typed})
        self.assertEqual((self.draft.text, self.draft.revision), ("Oh, Jello big world!", 9))
        self.assertEqual((self.changes, moved, self.lost), ([[{"insert": "Oh, "}, {"retain": 5}, {"insert": " big"}]], [typed], []))
        self.comes({"doc": "d", "ok": "subscribed", "rev": 9}, self.taken(1, 10))
        self.assertTrue(self.draft.is_settled)

    def test_what_was_taken_isnt_moved(self):
        self.draft.apply([{"insert": "Oh. "}])
        self.core.to_send()
        self.draft.apply([{"retain": 4}, {"insert": "> "}])
        # A subscription that has fallen behind ends, with the edit taken, and others' revisions before it that it doesn't know.
        self.comes({"doc": "d", "ended": 13}, self.taken(1, 5))
        self.sends({"do": "since", "doc": "d", "rev": UNREACHED})
        self.comes(self.refusal(12, "Future"))
        self.sends({"do": "fetch", "doc": "d"})
        self.comes({"doc": "d", "ok": "doc", "ops": [{"insert": "Oh. Hello world!"}], "rev": 5})
        self.assertEqual((self.draft.text, self.changes), ("Oh. > Hello world!", [[{"retain": 17}, {"insert": "!"}]]))
        self.sends({"do": "subscribe", "doc": "d", "rev": 5}, {"do": "edit", "doc": "d", "n": 2, "base": 5, "ops": [{"retain": 4}, {"insert": "> "}]})

    def test_an_edit_that_is_refused_after_each_move_is_lost_in_the_end(self):
        self.draft.apply([{"insert": "a"}])
        for rev in range(9, 15):
            self.fetched_anew({"insert": "Hello world"}, rev=rev)
        self.assertEqual((self.draft.text, self.lost), ("Hello world", [[{"insert": "a"}]]))
        with self.assertRaises(Refused) as told:
            self.draft.raise_fault()
        self.assertEqual((told.exception.code, told.exception.lost), (13, [{"insert": "a"}]))

    def test_after_its_end_nothing_is_sent_and_nothing_comes(self):
        self.draft.apply([{"insert": "a"}])
        self.draft.apply([{"insert": "b"}])
        self.draft.close()
        self.core.to_send()
        self.comes(self.taken(1, 2), {"doc": "d", "ok": "unsubscribed"})
        self.sends()
        with self.assertRaises(Closed):
            self.draft.apply([{"insert": "c"}])

    def test_an_edit_whose_base_is_no_longer_held_is_sent_on_a_newer_revision(self):
        self.draft.apply([{"retain": 11}, {"insert": "!"}])
        self.core.to_send()
        self.comes(self.news(2, {"insert": "> "}))
        self.core.cut()
        self.greet()
        self.sends(
            {"do": "edit", "doc": "d", "n": 1, "base": 1, "ops": [{"retain": 11}, {"insert": "!"}]},
            {"do": "subscribe", "doc": "d", "rev": 2},
        )
        # The server was started anew, and holds revision 1 no longer, but it holds revision 2.
        self.comes(self.refusal(13, "TooOld"))
        self.sends_edit(1, 2, {"retain": 13}, {"insert": "!"})
        self.comes({"doc": "d", "ok": "subscribed", "rev": 2}, self.taken(1, 3))
        self.assertEqual((self.draft.text, self.draft.revision, self.lost), ("> Hello world!", 3, []))

    def test_a_refused_edit_is_told_and_the_document_fetched(self):
        self.draft.apply([{"insert": "heavy"}])
        self.core.to_send()
        self.comes(self.refusal(16, "TooHeavy"))
        self.sends({"do": "unsubscribe", "doc": "d"}, {"do": "fetch", "doc": "d"})
        self.comes({"doc": "d", "ok": "unsubscribed"}, {"doc": "d", "ok": "doc", "ops": [{"insert": "Hello world"}], "rev": 1})
        self.assertEqual(self.draft.text, "Hello world")
        self.assertEqual(self.lost, [[{"insert": "heavy"}]])
        with self.assertRaises(Refused):
            self.draft.raise_fault()
        self.draft.raise_fault()

    def test_a_deletion_ends_it(self):
        self.draft.apply([{"insert": "a"}])
        self.sends_edit(1, 1, {"insert": "a"})
        ends = []
        self.draft.on_end(ends.append)
        self.comes({"doc": "d", "ended": 13}, self.refusal(40, "Deleted"))
        self.sends({"do": "since", "doc": "d", "rev": UNREACHED}, {"do": "fetch", "doc": "d"})
        self.comes(self.refusal(40, "Deleted"), self.refusal(40, "Deleted"))
        with self.assertRaises(Refused) as told:
            self.draft.raise_fault()
        self.assertEqual((told.exception.code, told.exception.lost), (40, [{"insert": "a"}]))
        self.assertEqual([end.code for end in ends], [40])
        with self.assertRaises(Refused):
            self.draft.apply([{"insert": "b"}])

    def test_where_the_store_failed_it_waits_for_the_server(self):
        self.draft.apply([{"insert": "a"}])
        self.core.to_send()
        self.comes(self.refusal(21, "StoreFailed"))
        self.assertFalse(self.draft.is_settled)
        self.core.cut()
        self.greet()
        self.sends(
            {"do": "edit", "doc": "d", "n": 1, "base": 1, "ops": [{"insert": "a"}]}, {"do": "subscribe", "doc": "d", "rev": 1}
        )
        self.comes(self.taken(1, 2))
        self.assertTrue(self.draft.is_settled)

    def test_a_long_text_goes_in_parts(self):
        self.draft.apply([{"retain": 5}, {"insert": "x" * 100_000}])
        taken = 0
        for n in range(1, 9):
            lines = self.core.to_send().splitlines()
            if not lines:
                break
            (line,) = lines
            self.assertLess(len(line), 65_536)
            self.comes(self.taken(n, n + 1))
            taken = n
        self.assertTrue(self.draft.is_settled)
        self.assertEqual(taken, 3)

    def test_what_reaches_past_the_end_changes_nothing(self):
        for ops in ([{"retain": 12}, {"insert": "x"}], [{"delete": 12}], [{"insert": "\udc00"}], [{"retain": 5}, {"inserted": "x"}]):
            with self.assertRaises(ValueError):
                self.draft.apply(ops)
        self.assertEqual(self.draft.text, "Hello world")
        self.sends()

    def test_what_no_server_takes_is_refused_at_once_and_takes_nothing_along(self):
        self.draft.apply([{"insert": "kept "}])
        self.core.to_send()
        wrong = [
            {},
            None,
            5,
            {"insert": "x", "retain": 1},
            {"insert": "x", "id": 1},
            {"insert": 5},
            {"insert": None},
            {"insert": {"image": "a", "alt": "b"}},
            {"insert": {"mention": {"id": 1}}},
            {"insert": {1: "x"}},
            {"insert": {"image": "A" * 70_000}},
            {"insert": "x", "attributes": {"height": 1.5}},
            {"insert": "x", "attributes": {"link": "\ud83d"}},
            {"insert": "x", "attributes": {"": True}},
            {"insert": "x", "attributes": "bold"},
            {"retain": 1, "attributes": {"link": "A" * 70_000}},
            {"retain": 1, "attributes": {"n" * 65: True}},
            {"retain": -1},
            {"retain": 1.0},
            {"retain": True},
            {"delete": "1"},
            {"delete": 1, "attributes": {"bold": True}},
        ]
        for operation in wrong:
            with self.subTest(repr(operation)[:60]), self.assertRaises(ValueError):
                self.draft.apply([{"insert": "not shown"}, operation])
        self.draft.apply([{"insert": "x", "attributes": {"bold": None}}, {"retain": 1, "attributes": {"bold": None}}])
        self.comes(self.taken(1, 2))
        self.sends({"do": "edit", "doc": "d", "n": 2, "base": 2, "ops": [{"insert": "x"}, {"retain": 1, "attributes": {"bold": None}}]})
        self.assertEqual(self.draft.text, "xkept Hello world")

    def test_whoever_typed_read_or_was_told_something_cant_change_the_document_by_it(self):
        told, other = [], Told(1)
        self.core.follow("d", other)
        self.core.to_send()
        self.draft.on_change(told.append)
        ops = [{"insert": "typed ", "attributes": {"bold": True}}]
        self.draft.apply(ops)
        self.comes(self.taken(1, 2), self.news(2, *ops), self.news(3, {"insert": {"image": "a"}, "attributes": {"width": 1}}))
        expected = self.draft.contents
        for operation in [*ops, *told[0], *other.told[-1].ops, *self.draft.contents]:
            for value in operation.values():
                if isinstance(value, dict):
                    value.clear()
            operation.clear()
        self.assertEqual(self.draft.contents, expected)
        self.assertEqual(expected[0], {"insert": {"image": "a"}, "attributes": {"width": 1}})


if __name__ == "__main__":
    unittest.main()
