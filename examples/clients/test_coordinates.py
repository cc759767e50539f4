#!/usr/bin/env python3
"""The examples of docs/COORDINATES.md, and what its words say, beside scans.

    VAIKRONE=PROGRAM python3 examples/clients/test_coordinates.py   without VAIKRONE the program that `rt run` built
"""

import doctest
import random
import unittest
from pathlib import Path

from boxes import Boxes
from degrees import SCALE
from sphere import box_of, metres, nearest, on_sphere, within

PAGE = Path(__file__).resolve().parents[2] / "docs/COORDINATES.md"


class OfThePage(unittest.TestCase):
    def test_its_examples(self):
        test = doctest.DocTestParser().get_doctest(PAGE.read_text(), {}, PAGE.name, str(PAGE), 0)
        said, runner = [], doctest.DocTestRunner()
        runner.run(test, out=said.append, clear_globs=False)
        for name in ("index", "places", "parts"):
            test.globs[name].close()
        self.assertFalse(said, "".join(said))
        self.assertGreater(runner.tries, 25)

    def test_its_size(self):
        self.assertLessEqual(len(PAGE.read_bytes()), 5 * 1024)

    def test_a_step_on_a_meridian(self):
        self.assertAlmostEqual(metres((0, 0), (0, 1)) / SCALE, 0.011, places=3)

    def test_doubled_coordinates_leave_out_what_touches(self):
        draw = random.Random(8)
        items = [(number, tuple(draw.randrange(12) for _ in range(4))) for number in range(100)]
        with Boxes() as boxes:
            boxes.insert_all((number, tuple(2 * part for part in box)) for number, box in items)
            for turn in range(300):
                x, y = draw.randrange(12), draw.randrange(12)
                box = (x, y, x + draw.randrange(1, 4), y + draw.randrange(1, 4))
                over = [
                    number
                    for number, (x1, y1, x2, y2) in items
                    if min(x1, x2) < box[2] and box[0] < max(x1, x2) and min(y1, y2) < box[3] and box[1] < max(y1, y2)
                ]
                asked = (2 * box[0] + 1, 2 * box[1] + 1, 2 * box[2] - 1, 2 * box[3] - 1)
                self.assertEqual([number for number, _ in boxes.hit(asked)], over, (turn, box))


def a_place(draw):
    """Often near a pole or the 180th meridian, and on a grid, so that some are equal."""
    x = draw.choice([draw.uniform(-180, 180), draw.uniform(179, 180), draw.uniform(-180, -179), 180, -180])
    y = draw.choice([draw.uniform(-90, 90), draw.uniform(88, 90), draw.uniform(-90, -88), 90, -90, 0])
    return round(x, draw.randrange(8)), round(y, draw.randrange(8))


class OfTheSphere(unittest.TestCase):
    def setUp(self):
        self.draw = random.Random(9)
        self.places = {number: a_place(self.draw) for number in range(2000)}

    def by_scan(self, here):
        return sorted((metres(here, place), number) for number, place in self.places.items())

    def test_within_and_nearest_as_a_scan(self):
        with Boxes() as boxes:
            boxes.load((number, box_of(place)) for number, place in self.places.items())
            for turn in range(300):
                here, reach = a_place(self.draw), 10 ** self.draw.uniform(2, 7.4)
                scanned = self.by_scan(here)
                self.assertEqual(within(boxes, here, reach), [(n, m) for m, n in scanned if m <= reach], (turn, here, reach))
                most = self.draw.randrange(30)
                self.assertEqual(nearest(boxes, here, most), [(n, m) for m, n in scanned[:most]], (turn, here, most))

    def test_a_shorter_chord_is_a_shorter_way(self):
        points = {number: on_sphere(place) for number, place in self.places.items()}
        for turn in range(100):
            here = a_place(self.draw)
            at = on_sphere(here)
            squares = {number: sum((a - b) ** 2 for a, b in zip(at, point)) for number, point in points.items()}
            self.assertLess(max(squares.values()), 2**63)
            ways = [metres(here, self.places[number]) for number in sorted(points, key=squares.get)]
            worst = max(before - way for before, way in zip(ways, ways[1:]) if way < 19e6)
            self.assertLess(worst, 0.5, (turn, here))


if __name__ == "__main__":
    unittest.main()
