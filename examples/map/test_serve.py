#!/usr/bin/env python3
"""The map's answers beside a scan of islands.csv, and the parents that a question reaches.

    VAIKRONE=PROGRAM python3 examples/map/test_serve.py             without VAIKRONE the program that `rt run` built
"""

import json
import random
import subprocess
import sys
import unittest
from http.client import HTTPConnection
from pathlib import Path

HERE = Path(__file__).resolve().parent
sys.path.append(str(HERE.parent / "clients"))

import scan


def lies_in(point, box):
    return box[0] <= point[0] <= box[2] and box[1] <= point[1] <= box[3]


class OfTheMap(unittest.TestCase):
    @classmethod
    def setUpClass(cls):
        words = [sys.executable, str(HERE / "serve.py"), "--port", "0"]
        cls.server = subprocess.Popen(words, stdout=subprocess.PIPE, text=True)
        cls.host = cls.server.stdout.readline().strip().removeprefix("http://").rstrip("/")
        lines = (HERE / "islands.csv").read_text().splitlines()
        cls.rows = [(number, tuple(box)) for number, *box in (map(int, line.split(",")) for line in lines)]
        cls.middles = [(n, ((x1 + x2) // 2, (y1 + y2) // 2)) for n, (x1, y1, x2, y2) in cls.rows]

    @classmethod
    def tearDownClass(cls):
        cls.server.terminate()
        cls.server.wait()
        cls.server.stdout.close()

    def call(self, path, words=None, status=200):
        connection = HTTPConnection(self.host)
        connection.request("GET" if words is None else "POST", path, words and json.dumps(words))
        reply = connection.getresponse()
        self.assertEqual(reply.status, status, (path, words))
        text = reply.read().decode()
        connection.close()
        return text if path == "/" else json.loads(text)

    def test_boxes(self):
        self.assertEqual(self.call("/boxes")["rows"][: len(self.rows)], [[number, list(box)] for number, box in self.rows])
        draw = random.Random(10)
        for turn in range(50):
            x, y = draw.randrange(-18 * 10**8, 18 * 10**8), draw.randrange(-9 * 10**8, 9 * 10**8)
            box = (x, y, x + draw.randrange(4 * 10**8), y + draw.randrange(2 * 10**8))
            answer = self.call("/boxes", ["hit", *box])["answer"]
            self.assertEqual([number for number, _ in answer if number < 10**6], scan.hit(self.rows, box), turn)
            answer = self.call("/boxes", ["near", x, y, 7])["answer"]
            self.assertEqual([(n, tuple(b), d) for n, b, d in answer], scan.near(self.rows, (x, y), 7), turn)

    def test_an_insertion(self):
        self.assertEqual(self.call("/boxes", ["insert", 10**6, 5, 5, 6, 6])["answer"], "ok")
        self.assertEqual(self.call("/boxes", ["hit", 6, 6, 7, 7])["answer"], [[10**6, [5, 5, 6, 6]]])
        self.assertIn([10**6, [5, 5, 6, 6]], self.call("/boxes")["rows"])
        self.call("/boxes", ["remove", 10**6])

    def test_points_and_their_parents(self):
        state = self.call("/points")
        self.assertEqual([(number, tuple(box[:2])) for number, box in state["rows"]], self.middles)
        parents, height = state["parents"], state["parents"][0][0]
        self.assertEqual(sum(level == height for level, _ in parents), 1)
        for words in (["hit", -130000000, 350000000, 300000000, 600000000], ["near", 100000000, 560000000, 40]):
            said = self.call("/points", words)
            reached = [parents[k] for k in said["reached"]]
            self.assertTrue(0 < len(reached) < len(parents) / 5, words)
            for number, box, *_ in said["answer"]:
                levels = {level for level, parent in reached if lies_in(box, parent)}
                self.assertEqual(levels, set(range(1, height + 1)), (words, number))
        for level, parent in parents:
            self.assertTrue(any(lies_in(point, parent) for _, point in self.middles), (level, parent))

    def test_a_point_more_is_packed(self):
        before = self.call("/points")["parents"][0][1]
        self.call("/points", ["insert", 10**6, 0, -900000000, 0, -900000000])
        after = self.call("/points")["parents"][0][1]
        self.assertEqual(after, [before[0], -900000000, *before[2:]])
        self.call("/points", ["remove", 10**6])
        self.assertEqual(self.call("/points")["parents"][0][1], before)

    def test_bad_questions_end_nothing(self):
        for words in (["fly"], [], ["hit", 1, 2, 3], ["hit", 0.5, 0, 1, 1], ["remove", 10**7], {"hit": 1}, 5):
            self.assertIn("error", self.call("/boxes", words, 400))
        self.call("/other", status=404)
        self.call("/other", ["size"], 400)
        self.assertEqual(self.call("/boxes", ["size"])["answer"], len(self.rows))

    def test_the_page_is_one_file(self):
        page = self.call("/")
        self.assertIn("<canvas", page)
        self.assertNotRegex(page, r"(src|href)=|https?://|@import|url\(")


if __name__ == "__main__":
    unittest.main()
