#!/usr/bin/env python3
"""Times from Python: vaikrone beside rtree and shapely, which are Debian's python3-rtree and python3-shapely.

    export PYTHONPATH=bindings/python VAIKRONE_LIBRARY=out/library/librstar.so
    /usr/bin/python3 -W ignore bindings/bench/python.py

100,000 rectangles with sides up to 4,000 lie at random in a square of 2,000,000. They are asked 10,000 boxes with sides up to
20,000, and 10,000 points for 10 neighbours each. All take turns, for three rounds or as many as the argument says, and the
best time of each counts: of a question in microseconds, of the load in milliseconds. The numbers of hits and the distances
are compared.
"""

import random
import sys
from array import array
from itertools import chain, product
from time import perf_counter

import numpy
import rtree
import shapely
import shapely.geometry
import shapely.strtree
from vaikrone import Index

RECTANGLES, ASKED, K, SIDE = 100_000, 10_000, 10, 2_000_000
DRAW = random.Random(1).randrange


def drawn(count, side):
    lows = [(DRAW(SIDE), DRAW(SIDE)) for _ in range(count)]
    return [(x, y, x + DRAW(side), y + DRAW(side)) for x, y in lows]


BOXES, ASKED_BOXES = drawn(RECTANGLES, 4_000), drawn(ASKED, 20_000)
POINTS = [(DRAW(SIDE), DRAW(SIDE)) for _ in range(ASKED)]


def distances(ids, point):
    across = [[max(BOXES[n][k] - point[k], 0, point[k] - BOXES[n][k + 2]) for k in (0, 1)] for n in ids]
    return sorted(x * x + y * y for x, y in across)


class Vaikrone:
    boxes = array("q", chain.from_iterable(BOXES))
    asked = array("q", chain.from_iterable(ASKED_BOXES))
    points = array("q", chain.from_iterable(POINTS))

    def load(self):
        self.index = Index(self.boxes)

    def query(self):
        return [self.index.query(box) for box in ASKED_BOXES]

    def query_batch(self):
        return self.index.query_many(self.asked)

    def nearest(self):
        return [self.index.nearest(point, K)[0] for point in POINTS]

    def nearest_batch(self):
        return self.index.nearest_many(self.points, K)[0]


class FromTuples(Vaikrone):
    boxes, asked, points = BOXES, ASKED_BOXES, POINTS


class FromNumpy(Vaikrone):
    boxes, asked, points = numpy.array(BOXES), numpy.array(ASKED_BOXES), numpy.array(POINTS)


class Rtree:
    query_batch = nearest_batch = None

    def load(self):
        self.index = rtree.index.Index((n, box, None) for n, box in enumerate(BOXES))

    def query(self):
        return [list(self.index.intersection(box)) for box in ASKED_BOXES]

    def nearest(self):
        return [list(self.index.nearest(point * 2, K)) for point in POINTS]


class Shapely:
    query_batch = nearest = nearest_batch = None
    boxes = [shapely.geometry.box(*box) for box in BOXES]
    asked = [shapely.geometry.box(*box) for box in ASKED_BOXES]

    def load(self):
        self.index = shapely.strtree.STRtree(self.boxes)
        self.index.query(self.asked[0])  # the first question builds the tree

    def query(self):
        return [self.index.query(box) for box in self.asked]


TRIED = {
    "vaikrone, arrays of numpy": FromNumpy(),
    "vaikrone, buffers": Vaikrone(),
    "vaikrone, lists of tuples": FromTuples(),
    f"rtree {rtree.__version__}": Rtree(),
    f"shapely {shapely.__version__}, boxes made before": Shapely(),
}
CALLS = ("load", "query", "query_batch", "nearest", "nearest_batch")


def compared(name, answer):
    """What all answers to a call must have in common."""
    if name == "query_batch":
        offsets, ids = (numbers.tolist() for numbers in answer)
        answer = [ids[a:b] for a, b in zip(offsets, offsets[1:])]
    if name.startswith("query"):
        return [len(ids) for ids in answer]
    return [distances(ids, point)[:K] for ids, point in zip(answer, POINTS)]


def cell(name, taken):
    if taken is None:
        return "-"
    return f"{taken * 1e3:.1f} ms" if name == "load" else f"{taken / ASKED * 1e6:.2f} us"


def main(rounds=3):
    times, wanted = {}, {}
    for number in range(int(rounds)):
        for title, name in product(TRIED, CALLS):
            call = getattr(TRIED[title], name)
            if call is None:
                continue
            start = perf_counter()
            answer = call()
            taken = perf_counter() - start
            times[title, name] = min(taken, times.get((title, name), taken))
            if number == 0 and name != "load":
                found = compared(name, answer)
                assert wanted.setdefault(name[:5], found) == found, f"{title}: {name} answers something else"
    print(f"{'':36}" + "".join(f"{name.replace('_', ', '):>16}" for name in CALLS))
    for title in TRIED:
        print(f"{title:36}" + "".join(f"{cell(name, times.get((title, name))):>16}" for name in CALLS))
    print(f"{sum(wanted['query']) / ASKED:.1f} rectangles a box: the answers agree")


main(*sys.argv[1:])
