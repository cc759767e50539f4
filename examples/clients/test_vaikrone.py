#!/usr/bin/env python3
"""The lines of the program as methods, beside a scan of a plain list.

    VAIKRONE=PROGRAM python3 examples/clients/test_vaikrone.py      without VAIKRONE the program that `rt run` built
"""

import io
import random
import select
import signal
import tempfile
import threading
import unittest
from contextlib import redirect_stderr
from pathlib import Path
from unittest import mock

import scan
import vaikrone
from vaikrone import Index, Refused

TURNS = 10000


def box_questions(draw, items):
    """Five questions, as `ask_all` takes them, each with the scan's answer."""
    box, point = scan.a_box(draw), scan.a_point(draw)
    limit = draw.choice([draw.randrange(-2, 400), 2**63 - 1])
    most = draw.choice([0, 1, 7, 2**64 - 1])
    return [
        (("hit", *scan.turned(draw, box)), scan.hit(items, box)),
        (("inside", *scan.turned(draw, box)), scan.inside(items, box)),
        (("at", *point), scan.at(items, point)),
        (("within", *point, limit), scan.within(items, point, limit)),
        (("near", *point, most), [(number, d) for number, _, d in scan.near(items, point, most)]),
    ]


class Turns:
    """The program and a list, which both take each change. An ID has one box, and may be there more than once."""

    def __init__(self, index, draw):
        self.index, self.draw, self.items, self.next = index, draw, [], 0

    def change(self):
        kinds = [self.remove, self.again, self.remove_at, self.pop, self.drain_inside, self.drain_hit]
        kinds += [self.insert] * 6 if len(self.items) < 120 else []
        kinds += [self.load] if self.draw.random() < 0.02 else []
        kind = self.draw.choice(kinds)
        kind()
        return kind.__name__

    def a_row(self):
        self.next += self.draw.randrange(1, 3)
        return self.next, scan.a_box(self.draw)

    def insert(self):
        self.items.append(self.a_row())
        number, box = self.items[-1]
        self.index.insert(number, scan.turned(self.draw, box))

    def again(self):
        if self.items:
            self.items.append(self.draw.choice(self.items))
            self.index.insert(*self.items[-1])

    def load(self):
        self.items = [self.a_row() for _ in range(self.draw.randrange(200))]
        self.index.load(self.items)

    def remove(self):
        number, box = self.draw.choice(self.items) if self.items else (1, (0, 0, 0, 0))
        was_there = (number, box) in self.items
        assert self.index.remove(number, scan.turned(self.draw, box)) == was_there
        assert not self.index.remove(self.next + 1, box)
        if was_there:
            self.items.remove((number, box))

    def take(self, numbers):
        for number in numbers:
            self.items.remove(next(item for item in self.items if item[0] == number))

    def remove_at(self):
        point = scan.a_point(self.draw)
        found, taken = scan.at(self.items, point), self.index.remove_at(point)
        assert taken in found or taken is None and not found, (taken, found)
        self.take([] if taken is None else [taken])

    def pop(self):
        point = scan.a_point(self.draw)
        first = [number for number, _, _ in scan.near(self.items, point, 1)]
        assert self.index.pop(point) == (first[0] if first else None)
        self.take(first)

    def drained(self, found, taken, most):
        assert len(taken) == min(most, len(found)) and taken == sorted(taken), (taken, found, most)
        for number in taken:
            found.remove(number)
        self.take(taken)

    def drain_inside(self):
        box, most = scan.a_box(self.draw), self.draw.randrange(4)
        self.drained(scan.inside(self.items, box), self.index.drain_inside(box, most), most)

    def drain_hit(self):
        box, most = scan.a_box(self.draw), self.draw.randrange(4)
        self.drained(scan.hit(self.items, box), self.index.drain_hit(box, most), most)


class OfLines(unittest.TestCase):
    def test_turns_as_a_scan(self):
        draw = random.Random(3)
        with Index() as index:
            turns = Turns(index, draw)
            for turn in range(TURNS):
                kind = turns.change()
                asked = box_questions(draw, turns.items)
                self.assertEqual(index.ask_all(question for question, _ in asked), [answer for _, answer in asked], (turn, kind))
                self.assertEqual(len(index), len(turns.items), (turn, kind))

    def test_each_method_alone(self):
        draw = random.Random(4)
        with Index() as index:
            turns = Turns(index, draw)
            for turn in range(300):
                turns.change()
                box, point, items = scan.a_box(draw), scan.a_point(draw), turns.items
                self.assertEqual(index.hit(box), scan.hit(items, box), turn)
                self.assertEqual(index.inside(box), scan.inside(items, box), turn)
                self.assertEqual(index.at(point), scan.at(items, point), turn)
                self.assertEqual(index.within(point, 90), scan.within(items, point, 90), turn)
                self.assertEqual(index.near(point, 4), [(n, d) for n, _, d in scan.near(items, point, 4)], turn)

    def test_bad_numbers_lose_nothing(self):
        bad = [
            ("no whole number", lambda i: i.insert(2, (0.5, 0, 2, 2))),
            ("no whole number", lambda i: i.insert("2", (0, 0, 2, 2))),
            ("from 0 to", lambda i: i.insert(-1, (0, 0, 2, 2))),
            ("from 0 to", lambda i: i.insert(2**64, (0, 0, 2, 2))),
            ("from -2", lambda i: i.hit((0, 0, 2, 2**63))),
            ("from -2", lambda i: i.at((0, -(2**63) - 1))),
            ("4 numbers", lambda i: i.inside((1, 2, 3))),
            ("from 0 to", lambda i: i.near((0, 0), -1)),
            ("no whole number", lambda i: i.within((0, 0), None)),
            ("no whole number", lambda i: i.remove(1, (0, 0, 2, float("nan")))),
            ("no whole number", lambda i: i.load([(3, (0, 0, 1, 1)), (4, (0, 0, 1, "1"))])),
            ("no whole number", lambda i: i.ask_all([("insert", 5, 0, 0, 1, 1), ("hit", 0, 0, 1, 1.5)])),
        ]
        with Index() as index:
            index.insert(1, (0, 0, 2, 2))
            for words, call in bad:
                with self.assertRaisesRegex(ValueError, words):
                    call(index)
                self.assertEqual(index.ask_all([("hit", 0, 0, 9, 9), ("size",)]), [[1], 1], words)

    def test_many_at_once(self):
        # Each answer has 2,000 IDs: more than pipes hold, in both directions.
        rows = [(number, (0, 0, 1, 1)) for number in range(2000)]
        with Index() as index:
            index.load(rows)
            answers = index.ask_all([("hit", 1, 1, 2, 2)] * 500 + [("size",)] + [("at", 5, 5)] * 5000)
            self.assertEqual(answers, [list(range(2000))] * 500 + [2000] + [[]] * 5000)

    def test_an_end_is_told(self):
        index = Index()
        index.insert(1, (0, 0, 2, 2))
        index.process.kill()
        for _ in range(2):
            with self.assertRaises(Refused) as told:
                index.hit((0, 0, 2, 2))
            self.assertEqual(told.exception.args, ("the program has ended", -signal.SIGKILL))
        with Index() as closed:
            pass
        with self.assertRaises(Refused):
            closed.load([(1, (0, 0, 1, 1))])

    def test_an_end_amid_many_is_told(self):
        rows = [(number, (0, 0, 1, 1)) for number in range(1000)]
        for turn in range(20):
            index = Index()
            index.load(rows)
            killer = threading.Timer(turn / 1000, index.process.kill)
            killer.start()
            with self.assertRaises(Refused, msg=turn):
                while True:
                    answers = index.ask_all([("hit", 0, 0, 1, 1)] * 300)
                    self.assertTrue(all(len(answer) == 1000 for answer in answers), turn)
            killer.join()
            self.assertEqual(index.process.returncode, -signal.SIGKILL, turn)

    def test_the_beginning_of_an_answer_is_none(self):
        with tempfile.TemporaryDirectory() as room:
            program = Path(room, "program")
            program.write_text("#!/bin/sh\nread line\nprintf '12 3'\n")
            program.chmod(0o755)
            with self.assertRaisesRegex(Refused, "the program has ended"):
                Index(str(program)).at((1, 1))

    def test_what_breaks_off_ends_the_process(self):
        def interrupted(index):
            select.select([index.process.stdout], [], [])
            raise KeyboardInterrupt

        index = Index()
        with mock.patch.object(Index, "answer", interrupted), self.assertRaises(KeyboardInterrupt):
            index.ask_all([("hit", 0, 0, 1, 1)])
        with self.assertRaises(Refused):
            len(index)

    def test_long_loads_tell_how_far_they_are(self):
        rows, told = [(number, (0, 0, 1, 1)) for number in range(50)], []
        with Index() as index, mock.patch.object(vaikrone, "STEP", 20):
            index.load(rows, lambda *words: told.append(words))
            self.assertEqual(told, [("prepared", 20), ("prepared", 40), ("sent", 20), ("sent", 40), ("sent", 50)])
            clock = mock.Mock(side_effect=[0, 0.5, 1.25, 1.25, 1.5, 2, 2.5, 2.5])
            with mock.patch.object(vaikrone, "monotonic", clock), redirect_stderr(io.StringIO()) as said:
                index.load(rows)
            self.assertEqual(said.getvalue(), "load: 40 rows prepared, 1 s\nload: 50 rows sent, 2 s\n")
            self.assertEqual(len(index), 50)


if __name__ == "__main__":
    unittest.main()
