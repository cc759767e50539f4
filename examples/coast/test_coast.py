#!/usr/bin/env python3
"""Compares what the rows of polygons and of the coast expect with exact fractions, by a ray that meets no corner.

The rows stand in crates/rstar_uses/src/polygons/, and the gate asks the proved code for them.
"""

import re
import unittest
from fractions import Fraction
from pathlib import Path

HERE = Path(__file__).parent
ROWS = HERE.parent.parent / "crates/rstar_uses/src/polygons"
PAIR = r"\[\s*([^][,]+),\s*([^][,]+?),?\s*\]"


def number(text):
    ends = {"i64::MIN": -(2**63), "i64::MAX": 2**63 - 1}
    end = re.fullmatch(r"(i64::M\w\w)(?: ([-+] \d+))?", text)
    return ends[end[1]] + int((end[2] or "0").replace(" ", "")) if end else int(text.replace("_", ""))


def points(text):
    return [(number(x), number(y)) for x, y in re.findall(PAIR, text)]


def constant(source, name):
    """What stands between the outer brackets of a constant."""
    return re.search(rf"const {name}: [^=]*= \[\n?(.*?)\];", source, re.S)[1]


def questions(source):
    """The points that are asked for, each with the numbers of the polygons that contain it."""
    for x, y, numbers in re.findall(PAIR + r",\s*&\[([^]]*)\]", constant(source, "QUESTIONS")):
        yield (number(x), number(y)), [int(n) for n in numbers.split(",") if n.strip()]


def cross(a, b):
    return a[0] * b[1] - a[1] * b[0]


def apart(a, b):
    return a[0] - b[0], a[1] - b[1]


def is_on(p, a, b):
    to_a, to_b = apart(a, p), apart(b, p)
    return cross(to_a, to_b) == 0 and to_a[0] * to_b[0] <= 0 and to_a[1] * to_b[1] <= 0


def is_met(p, way, a, b):
    """Whether the ray from p meets an edge, neither of whose ends is on the ray's line."""
    if (cross(way, apart(a, p)) > 0) == (cross(way, apart(b, p)) > 0):
        return False
    return Fraction(cross(apart(a, p), apart(b, a)), cross(way, apart(b, a))) > 0


def contains(corners, p):
    edges = list(zip(corners, corners[1:] + corners[:1]))
    if any(is_on(p, a, b) for a, b in edges):
        return True
    ways = ((1, slope) for slope in range(2, len(corners) + 3))
    way = next(way for way in ways if all(cross(way, apart(corner, p)) for corner in corners))
    return sum(is_met(p, way, a, b) for a, b in edges) % 2 == 1


class Coast(unittest.TestCase):
    def compare(self, shapes, source):
        asked = list(questions(source))
        self.assertGreater(len(asked), 20)
        for point, numbers in asked:
            with self.subTest(point=point):
                self.assertEqual([n for n, shape in enumerate(shapes, 1) if contains(shape, point)], numbers)

    def test_shapes(self):
        source = (ROWS / "shapes.rt").read_text()
        names = re.findall(r"&(\w+)", constant(source, "SHAPES"))
        self.compare([points(constant(source, name)) for name in names], source)

    def test_coast(self):
        source = (ROWS / "coast.rt").read_text()
        coast = points(constant(source, "SHIKOKU"))
        lines = (HERE / "shikoku.csv").read_text().splitlines()
        self.assertEqual(coast, [tuple(map(int, line.split(","))) for line in lines])
        self.compare([coast], source)


if __name__ == "__main__":
    unittest.main()
