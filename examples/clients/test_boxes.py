#!/usr/bin/env python3
"""The index by ID beside a dict and a scan, and its journal under a hundred kills.

    VAIKRONE=PROGRAM python3 examples/clients/test_boxes.py         without VAIKRONE the program that `rt run` built
"""

import os
import random
import signal
import subprocess
import sys
import tempfile
import time
import unittest
from pathlib import Path
from unittest import mock

import scan
from boxes import Boxes
from journal import HEAD, Journal
from vaikrone import Refused

TURNS = 10000
KILLS = 100


def rows(table, numbers):
    return [(number, table[number]) for number in numbers]


class Turns:
    """Boxes and a dict, which both take each change."""

    def __init__(self, boxes, draw):
        self.boxes, self.draw, self.table = boxes, draw, {}

    def change(self):
        kinds = [self.insert] * 7 + [self.move] * 3 + [self.remove] * 2 + [self.pop, self.remove_at, self.drain]
        kinds += [self.many, self.load] if self.draw.random() < 0.02 else []
        kind = self.draw.choice(kinds)
        kind()
        return kind.__name__

    def an_id(self, there):
        """One that is there, or one that is not; None where there is none."""
        found = sorted(self.table) if there else [number for number in range(100) if number not in self.table]
        return self.draw.choice(found) if found else None

    def insert(self):
        number = self.an_id(there=False)
        if number is not None:
            self.table[number] = scan.a_box(self.draw)
            self.boxes.insert(number, scan.turned(self.draw, self.table[number]))

    def move(self):
        number = self.an_id(there=True)
        if number is not None:
            self.table[number] = scan.a_box(self.draw)
            self.boxes.move(number, scan.turned(self.draw, self.table[number]))

    def remove(self):
        number = self.an_id(there=True)
        if number is not None:
            assert self.boxes.remove(number) == self.table.pop(number)

    def pop(self):
        point = scan.a_point(self.draw)
        first = [row[:2] for row in scan.near(self.table.items(), point, 1)]
        assert self.boxes.pop(point) == (first[0] if first else None)
        self.take(first)

    def remove_at(self):
        point = scan.a_point(self.draw)
        taken = self.boxes.remove_at(point)
        found = rows(self.table, scan.at(self.table.items(), point))
        assert taken in found or taken is None and not found, (taken, found)
        self.take([taken] if taken else [])

    def drain(self):
        box, most = scan.a_box(self.draw), self.draw.randrange(4)
        name = self.draw.choice(["inside", "hit"])
        found = rows(self.table, getattr(scan, name)(self.table.items(), box))[:most]
        assert getattr(self.boxes, f"drain_{name}")(box, most) == found
        self.take(found)

    def take(self, taken):
        for number, box in taken:
            assert self.table.pop(number) == box

    def many(self):
        added = {number: scan.a_box(self.draw) for number in range(100, 140) if number not in self.table}
        self.boxes.insert_all(added.items())
        assert self.boxes.remove_all(list(added)[::2]) == list(added.items())[::2]
        self.table |= dict(list(added.items())[1::2])

    def load(self):
        self.table = {number: scan.a_box(self.draw) for number in range(self.draw.randrange(140))}
        self.boxes.load(self.table.items())


class ById(unittest.TestCase):
    def agrees(self, boxes, table, draw, told):
        box, point, items = scan.a_box(draw), scan.a_point(draw), table.items()
        self.assertEqual(boxes.hit(box), rows(table, scan.hit(items, box)), told)
        self.assertEqual(boxes.inside(box), rows(table, scan.inside(items, box)), told)
        self.assertEqual(boxes.at(point), rows(table, scan.at(items, point)), told)
        self.assertEqual(boxes.within(point, 90), rows(table, scan.within(items, point, 90)), told)
        every = scan.near(items, point, len(table))
        most, limit, part = draw.randrange(9), draw.randrange(2000), draw.randrange(1, 9)
        self.assertEqual(boxes.near(point, most), every[:most], told)
        self.assertEqual(boxes.near(point, most, limit), [row for row in every if row[2] <= limit][:most], told)
        test = lambda number, box: number % part == 0 and box[0] <= point[0]
        self.assertEqual(boxes.near(point, most, test=test), [row for row in every if test(*row[:2])][:most], told)
        self.assertEqual(boxes.ask_all([("near", *point, most), ("hit", *box)]), [every[:most], boxes.hit(box)], told)
        self.assertEqual(len(boxes), len(table), told)

    def test_turns_as_a_scan(self):
        draw = random.Random(5)
        with Boxes() as boxes:
            turns = Turns(boxes, draw)
            for turn in range(TURNS):
                kind = turns.change()
                self.agrees(boxes, turns.table, draw, (turn, kind))
                if turn % 100 == 0:
                    ordered = sorted(turns.table)
                    met = [(a, b) for a in ordered for b in ordered if a < b and scan.meets(turns.table[a], turns.table[b])]
                    self.assertEqual(boxes.pairs(), met, turn)

    def test_it_gives_its_ids(self):
        with Boxes() as boxes:
            boxes.insert_all((number, (0, 0, 1, 1)) for number in (7, 0, 2**64 - 1))
            self.assertEqual(sorted(boxes), [0, 7, 2**64 - 1])
            with self.assertRaises(RuntimeError):
                for number in boxes:
                    boxes.remove(number)
            self.assertEqual(len(boxes), 2)

    def test_refused_changes_change_nothing(self):
        refused = [
            (ValueError, lambda b: b.insert(7, (0, 0, 1, 1))),
            (ValueError, lambda b: b.insert(8, (0, 0, 1, 0.5))),
            (ValueError, lambda b: b.insert_all([(8, (0, 0, 1, 1)), (8, (0, 0, 1, 1))])),
            (ValueError, lambda b: b.insert_all([(8, (0, 0, 1, 1)), (9, (0, 0, 1, 2**63))])),
            (ValueError, lambda b: b.move(7, (0, 0, 1, "1"))),
            (KeyError, lambda b: b.move(8, (0, 0, 1, 1))),
            (KeyError, lambda b: b.remove(8)),
            (KeyError, lambda b: b.remove_all([7, 8])),
            (ValueError, lambda b: b.remove(7.0)),
            (ValueError, lambda b: b.ask_all([("hit", 0, 0, 1, 1), ("insert", 8, 0, 0, 1, 1)])),
            (ValueError, lambda b: b.load([(1, (0, 0, 1, 1)), (1, (0, 0, 1, 1))])),
        ]
        with tempfile.TemporaryDirectory() as room, Boxes(f"{room}/j") as boxes:
            boxes.insert(7, (2, 2, 0, 0))
            for kind, call in refused:
                with self.assertRaises(kind):
                    call(boxes)
                self.assertEqual(boxes.hit((-9, -9, 9, 9)), [(7, (0, 0, 2, 2))])
                self.assertEqual(Path(f"{room}/j").read_text(), HEAD + "put 7 0 0 2 2\n")


class OfTheJournal(unittest.TestCase):
    def setUp(self):
        self.room = tempfile.TemporaryDirectory()
        self.addCleanup(self.room.cleanup)
        self.path = f"{self.room.name}/journal"

    def test_a_restart_replays(self):
        draw, table = random.Random(6), {}
        for turn in range(40):
            with Boxes(self.path, sync=turn % 2 == 0) as boxes:
                self.assertEqual(boxes.boxes, table, turn)
                self.assertEqual(boxes.hit((-(2**63), -(2**63), 2**63 - 1, 2**63 - 1)), sorted(table.items()), turn)
                turns = Turns(boxes, draw)
                turns.table = table
                for _ in range(30):
                    turns.change()
                table = turns.table
        self.assertLess(len(Path(self.path).read_text().splitlines()), 3 * len(table) + 200)

    def test_a_torn_last_line_is_dropped(self):
        with Boxes(self.path) as boxes:
            boxes.insert_all([(1, (0, 0, 1, 1)), (22, (-5, -6, 7, 8))])
            boxes.move(1, (3, 3, 4, 4))
        whole, head = Path(self.path).read_bytes(), len(HEAD)
        states = [{}, {1: (0, 0, 1, 1)}, {1: (0, 0, 1, 1), 22: (-5, -6, 7, 8)}, {1: (3, 3, 4, 4), 22: (-5, -6, 7, 8)}]
        for end in range(head, len(whole) + 1):
            Path(self.path).write_bytes(whole[:end])
            with Boxes(self.path) as boxes:
                held = whole[head:end].count(b"\n")
                self.assertEqual(boxes.boxes, states[held], end)
                boxes.insert(5, (9, 9, 9, 9))
            with Boxes(self.path) as boxes:
                self.assertEqual(boxes.boxes, {**states[held], 5: (9, 9, 9, 9)}, end)

    def test_other_files_stay_as_they_are(self):
        for text in ("", "1,0,0,2,2", HEAD[:-1], HEAD + "put 1 0 0 1\nput 2 0 0 1 1\n", HEAD + "remove 1\n", HEAD + "put 1 0 0 1 x\n"):
            Path(self.path).write_text(text)
            with self.assertRaises(ValueError):
                Boxes(self.path)
            self.assertEqual(Path(self.path).read_text(), text)

    def test_two_at_once_are_refused(self):
        with Boxes(self.path), self.assertRaises(BlockingIOError):
            Boxes(self.path)
        Boxes(self.path).close()

    def test_a_full_disk_changes_nothing(self):
        with Boxes(self.path) as boxes:
            boxes.insert(1, (0, 0, 1, 1))
            text = Path(self.path).read_text()
            real = boxes.journal.file
            boxes.journal.file = mock.Mock(wraps=real, write=lambda data: real.write(data[:5]))
            with self.assertRaises(OSError):
                boxes.insert(2, (0, 0, 1, 1))
            boxes.journal.file = real
            self.assertEqual(Path(self.path).read_text(), text)
            self.assertEqual(boxes.hit((0, 0, 1, 1)), [(1, (0, 0, 1, 1))])
            boxes.insert(3, (0, 0, 1, 1))
        with Boxes(self.path) as boxes:
            self.assertEqual(sorted(boxes.boxes), [1, 3])

    def test_an_ended_program_is_told_and_replayed(self):
        with Boxes(self.path) as boxes:
            boxes.insert(1, (0, 0, 1, 1))
            boxes.index.process.kill()
            with self.assertRaises(Refused):
                boxes.insert(2, (0, 0, 1, 1))
        with Boxes(self.path) as boxes:
            self.assertEqual(boxes.at((1, 1))[0], (1, (0, 0, 1, 1)))

    def test_a_hundred_kills(self):
        draw, table, answered = random.Random(7), {}, 0
        for kill in range(KILLS):
            changes = drawn_changes(draw, table, 3000)
            held = killed_run(self.path, changes, draw.uniform(0, 0.3), kill)
            answered += held
            states = [table]
            for change in changes[: held + 1]:
                states.append(after(states[-1], change))
            with Boxes(self.path) as boxes:
                # What was answered is there; the change that was in hand may be.
                self.assertIn(boxes.boxes, states[held:], (kill, held))
                table = dict(boxes.boxes)
                self.assertEqual(boxes.hit((-1000, -1000, 1000, 1000)), sorted(table.items()), kill)
        self.assertGreater(answered, 10 * KILLS)


def drawn_changes(draw, table, count):
    """So many changes that the command takes one after the other, from a table on."""
    changes, there = [], set(table)
    for _ in range(count):
        number, box = draw.randrange(60), [draw.randrange(-500, 500) for _ in range(4)]
        if number not in there:
            changes.append(("insert", number, *box))
            there.add(number)
        elif draw.random() < 0.5:
            changes.append(("move", number, *box))
        else:
            changes.append(("remove", number))
            there.remove(number)
    return changes


def after(table, change):
    word, number, *box = change
    if word == "remove":
        return {key: value for key, value in table.items() if key != number}
    x1, y1, x2, y2 = box
    return {**table, number: (min(x1, x2), min(y1, y2), max(x1, x2), max(y1, y2))}


def killed_run(path, changes, seconds, kill):
    """Sends changes to the command, and kills it, or its program, after so long. Returns how many were answered."""
    clients = os.path.dirname(os.path.abspath(__file__))
    words = [sys.executable, "-m", "vaikrone", "--journal", path]
    with tempfile.TemporaryFile("w+") as lines, tempfile.TemporaryFile("w+") as answers:
        lines.writelines(" ".join(map(str, change)) + "\n" for change in changes)
        lines.seek(0)
        pipes = {"stdin": lines, "stdout": answers, "stderr": subprocess.DEVNULL}
        with subprocess.Popen(words, cwd=clients, **pipes) as process:
            # Half of the kills come at any time since the start, half once the first answer is there.
            while kill % 2 and process.poll() is None and os.fstat(answers.fileno()).st_size == 0:
                time.sleep(0.001)
            time.sleep(seconds)
            children = Path(f"/proc/{process.pid}/task/{process.pid}/children").read_text().split()
            os.kill(int(children[0]) if children and kill % 5 == 4 else process.pid, signal.SIGKILL)
        answers.seek(0)
        whole = answers.read().split("\n")[:-1]
    assert "error" not in "".join(whole), (kill, whole)
    return len(whole)


if __name__ == "__main__":
    unittest.main()
