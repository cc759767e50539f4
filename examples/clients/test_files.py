#!/usr/bin/env python3
"""Degrees, CSV, GeoJSON and the command.

    VAIKRONE=PROGRAM python3 examples/clients/test_files.py         without VAIKRONE the program that `rt run` built
"""

import json
import os
import re
import subprocess
import sys
import tempfile
import unittest
from pathlib import Path

from degrees import Degrees, Whole, scaled
from files import read

HERE = os.path.dirname(os.path.abspath(__file__))


def command(*words, given=""):
    """What the command prints, line by line, its errors, and its status."""
    ran = subprocess.run(
        [sys.executable, "-m", "vaikrone", *words], cwd=HERE, input=given, capture_output=True, text=True
    )
    return ran.stdout.splitlines(), ran.stderr, ran.returncode


class WithFiles(unittest.TestCase):
    def setUp(self):
        self.room = tempfile.TemporaryDirectory()
        self.addCleanup(self.room.cleanup)

    def file(self, name, text):
        path = Path(self.room.name, name)
        path.write_text(text)
        return str(path)

    def feature(self, **parts):
        return self.file("one.geojson", json.dumps({"type": "FeatureCollection", "features": [{"type": "Feature", **parts}]}))


class OfDegrees(unittest.TestCase):
    def test_scaled(self):
        for text, wanted in [
            ("11.5", 115000000), ("-180", -1800000000), ("0.0000001", 1), ("1e-7", 1), (48.1, 481000000),
            ("0.00000005", 0), ("0.00000015", 2), ("179.99999999999999999999", 1800000000),
        ]:  # fmt: skip
            self.assertEqual(scaled(text), wanted, text)

    def test_boxes_go_outward(self):
        self.assertEqual(Degrees.box(["0.00000001", "-0.00000001", "1.00000001", "-1.00000001"]), (0, -10000001, 10000001, 0))
        self.assertEqual(Degrees.box(["1.5", "2", "-1.5", "-2"]), (-15000000, -20000000, 15000000, 20000000))

    def test_what_is_no_number(self):
        for text in ("", "x", "nan", "inf", "1e99", "1,5", None):
            with self.assertRaisesRegex(ValueError, "is no number of degrees"):
                scaled(text)
        for text in ("", "0.5", "5.0", None, 1.0):
            with self.assertRaisesRegex(ValueError, "is no whole number"):
                Whole.point([text])


class OfCsv(WithFiles):
    def test_with_and_without_a_heading(self):
        wanted = [(7, (0, 0, 2, 2)), (8, (4, 4, 2, 2))]
        for text in ("7,0,0,2,2\n8,4,4,2,2\n", "id,x1,y1,x2,y2\r\n7,0,0,2,2\r\n\r\n8, 4, 4, 2, 2", "\ufeffID,a,b,c,d\n7,0,0,2,2\n8,4,4,2,2\n"):
            self.assertEqual(read(self.file("a.csv", text)), wanted, text)

    def test_degrees(self):
        self.assertEqual(read(self.file("a.csv", "1,-0.5,10,0.5,11\n"), Degrees), [(1, (-5000000, 100000000, 5000000, 110000000))])

    def test_faults_have_their_line(self):
        for text, fault in [
            ("1,0,0,1,1\n2,0,0,1\n", "line 2: ID,X1,Y1,X2,Y2 is wanted, and not 2,0,0,1"),
            ("id,a,b,c,d\n1,0,0,1,0.5\n", "line 2: '0.5' is no whole number"),
            ("1,0,0,1,1\nx,0,0,1,1\n", "line 2: 'x' is no whole number"),
        ]:
            with self.assertRaises(ValueError) as told:
                read(self.file("a.csv", text))
            self.assertTrue(str(told.exception).endswith(fault), told.exception)


class OfGeoJson(WithFiles):
    def test_boxes(self):
        polygon = {"type": "Polygon", "coordinates": [[[11.25, 48], [11.75, 48.5], [11.5, 47.5], [11.25, 48]]]}
        both = {"type": "GeometryCollection", "geometries": [polygon, {"type": "Point", "coordinates": [12, 48, 500]}]}
        outline = (112500000, 475000000, 117500000, 485000000)
        for parts, wanted in [
            ({"id": 5, "geometry": polygon}, (5, outline)),
            ({"properties": {"id": "6"}, "geometry": polygon}, (6, outline)),
            ({"properties": None, "geometry": both}, (0, (112500000, 475000000, 120000000, 485000000))),
            ({"bbox": [1, 2, 3, 4], "geometry": polygon}, (0, (10000000, 20000000, 30000000, 40000000))),
            ({"bbox": [1, 2, -9, 3, 4, 9], "geometry": None}, (0, (10000000, 20000000, 30000000, 40000000))),
        ]:
            self.assertEqual(read(self.feature(**parts), Degrees), [wanted], parts)
        self.assertEqual(read(self.file("p.json", json.dumps(polygon)), Degrees), [(0, outline)])

    def test_faults_have_their_feature(self):
        for parts, fault in [
            ({"bbox": [170, 0, -170, 1]}, "feature 0: the box from 170 to -170 goes over the 180th meridian"),
            ({"geometry": None}, "feature 0: there are no coordinates"),
            ({"id": "a", "bbox": [0, 0, 1, 1]}, "feature 0: 'a' is no whole number"),
            ({"geometry": {"type": "Point", "coordinates": ["x", 1]}}, "feature 0: 'x' is no number of degrees"),
            ({"geometry": {"type": "Point", "coordinates": [1]}}, "feature 0: list index out of range"),
            ({"bbox": [1, 2, 3, 4, 5]}, "feature 0: a box has 4 numbers, or 6 with heights, and not 5"),
        ]:
            with self.assertRaises(ValueError) as told:
                read(self.feature(**parts), Degrees)
            self.assertIn(fault, str(told.exception))


    def test_what_is_no_such_file(self):
        for name, text in [
            ("a.json", "{"),
            ("a.json", '[{"bbox": [1, 2, 3, 4]}]'),
            ("a.json", '{"features": null}'),
            ("a.json", '{"coordinates": ' + 9999 * "[" + 9999 * "]" + "}"),
            ("a.json", '{"id": "\udcff"}'),
            ("a.csv", "1,0,0,1,\udcff\n"),
            ("a.CSV", "1,0,0,1," + 200000 * "1" + "\n"),
        ]:
            path = Path(self.room.name, name)
            path.write_text(text, errors="surrogateescape")
            with self.assertRaisesRegex(ValueError, re.escape(f"{path}: ")):
                read(path)

    def test_marks_and_endings_of_others(self):
        self.assertEqual(read(self.file("a.JSON", '\ufeff{"bbox": [1, 2, 3, 4]}')), [(0, (1, 2, 3, 4))])


class OfTheCommand(WithFiles):
    def test_each_word(self):
        said, errors, status = command(
            given="""insert 7 0 0 2 2
                insert 8 4 4 2 2
                in 0 0 4 4
                hit 4 4 5 5
                at 2 2
                within 5 5 2
                near 9 9 1
                near-within 9 9 5 50

                pairs
                move 8 6 6 7 7
                pairs
                size
                removeat 1 1
                pop 0 0
                insert 9 0 0 1 1
                insert 10 0 0 1 1
                drain in 0 0 1 1 1
                drain hit 0 0 0 0 9
                insert 11 0 0 1 1
                remove 11
                pop 0 0"""
        )
        wanted = """"ok" "ok" [[7,[0,0,2,2]],[8,[2,2,4,4]]] [[8,[2,2,4,4]]] [[7,[0,0,2,2]],[8,[2,2,4,4]]] [[8,[2,2,4,4]]]
            [[8,[2,2,4,4],50]] [[8,[2,2,4,4],50]] [[7,8]] "ok" [] 2 [7,[0,0,2,2]] [8,[6,6,7,7]] "ok" "ok" [[9,[0,0,1,1]]]
            [[10,[0,0,1,1]]] "ok" [0,0,1,1] null"""
        self.assertEqual([json.loads(line) for line in said], [json.loads(word) for word in wanted.split()])
        self.assertEqual((errors, status), ("", 0))

    def test_a_bad_line_loses_nothing(self):
        said, _, status = command(given="insert 7 0 0 2 2\ninsert 7 0 0 1 1\nmove 8 0 0 1 1\nhit 0.5 0 1 1\nhit 1\nfly\nsize\n")
        self.assertEqual(said[0], '"ok"')
        for line, fault in zip(said[1:], ("the ID 7 is there", "8 is not", "'0.5' is no whole", "4 numbers", "'fly' is none")):
            self.assertIn(fault, json.loads(line)["error"])
        self.assertEqual((said[6], status), ("1", 1))

    def test_files_and_a_journal(self):
        boxes, journal = self.file("a.csv", "1,-0.5,10,0.5,11\n2,20,20,21,21\n"), f"{self.room.name}/j"
        self.assertEqual(command("--load", boxes, "--degrees", "--journal", journal, "hit", "0", "10.5", "0", "10.5")[0], ["[[1, [-0.5, 10.0, 0.5, 11.0]]]"])
        self.assertEqual(command("--degrees", "--journal", journal, "near", "1.5", "11", "1")[0], ["[[1, [-0.5, 10.0, 0.5, 11.0], 1.0]]"])
        self.assertEqual(command("--degrees", "--journal", journal, "--sync", "move", "2", "-1", "-1", "-2", "-2")[0], ['"ok"'])
        self.assertEqual(command("--journal", journal, "at", "-15000000", "-15000000")[0], ["[[2, [-20000000, -20000000, -10000000, -10000000]]]"])

    def test_faults_of_files(self):
        for words in (["--load", "none.csv"], ["--program", "none"], ["--load", self.file("a.csv", "1,2\n")]):
            said, errors, status = command(*words, "size")
            self.assertEqual((said, status), ([], 2))
            self.assertTrue(errors.startswith("vaikrone: ") and errors.count("\n") == 1, errors)

    def test_help(self):
        said, _, status = command("--help")
        self.assertEqual(status, 0)
        self.assertIn("  near-within X Y COUNT SQUARE", said)


if __name__ == "__main__":
    unittest.main()
