"""Random calls, each beside a plain scan. STEPS says how many; a failure tells its seed and its step."""

import copy
import os
import pickle
import unittest
from array import array
from itertools import chain
from random import Random

import scan
from vaikrone import Index

STEPS = int(os.environ.get("STEPS", 10000))
FAR = (-(2**63), -(2**62), 2**62, 2**63 - 1)
# Of each hundred steps so many are this call.
OFTEN = {
    "insert": 24, "remove": 12, "is_in": 8, "query": 10, "query_many": 5, "at": 5, "at_many": 3, "within": 5,
    "within_many": 3, "nearest": 7, "nearest_many": 4, "pop_nearest": 5, "drain": 3, "drain_near": 2,
    "all_items": 1.5, "pairs": 0.7, "pairs_with": 0.7, "load": 1, "copies": 0.5, "clear": 0.1,
}  # fmt: skip


class Differs(Exception):
    pass


def expect(got, wanted):
    if got != wanted:
        raise Differs(f"{got} is not {wanted}")


class Trial:
    def __init__(self, seed):
        self.random = Random(seed)
        self.index, self.items = Index(), []
        self.other, self.others = Index(), []

    def run(self, steps):
        names, weights = list(OFTEN), list(OFTEN.values())
        for step in range(steps):
            name = self.random.choices(names, weights)[0]
            self.asked = ()
            try:
                getattr(self, name)()
                expect(len(self.index), len(self.items))
            except Exception as error:
                raise AssertionError(f"step {step}: {name}{self.asked}: {error!r}") from error

    def coordinate(self):
        return self.random.choice(FAR) if self.random.random() < 0.01 else self.random.randrange(-60, 60)

    def point(self):
        return self.coordinate(), self.coordinate()

    def box(self, side=12):
        """Near corners mostly, in any order; coordinates are crowded, so that boxes touch and are equal."""
        x, y = self.point()
        across = [self.random.randrange(-side, side + 1) for _ in range(2)]
        far = [min(max(n + d, -(2**63)), 2**63 - 1) for n, d in zip((x, y), across)]
        return (x, y, *far)

    def id(self):
        return self.random.choice((self.random.randrange(30), 2**64 - 1 - self.random.randrange(3)))

    def predicate(self):
        return self.random.choice(("intersects", "contains"))

    def in_some_form(self, numbers):
        """The same whole numbers as a tuple, a list, an array, or floats where these are exact."""
        forms = [tuple, list, lambda n: array("q", n)]
        if all(abs(n) < 2**53 for n in numbers):
            forms.append(lambda n: list(map(float, n)))
        return self.random.choice(forms)(numbers)

    def in_some_rows(self, rows):
        flat = array("q", chain.from_iterable(rows))
        return self.random.choice((rows, iter(rows), flat, memoryview(flat)))

    def ask(self, *asked):
        self.asked = asked
        return asked

    def insert(self):
        number, box = self.ask(self.id(), self.box())
        if len(self.items) < 300:
            self.index.insert(number, self.in_some_form(box))
            self.items.append((number, scan.upright(box)))

    def remove(self):
        known = self.items and self.random.random() < 0.8
        number, box = self.ask(*(self.random.choice(self.items) if known else (self.id(), self.box())))
        item = number, scan.upright(box)
        expect(self.index.remove(number, self.in_some_form(box[2:] + box[:2])), item in self.items)
        if item in self.items:
            self.items.remove(item)

    def is_in(self):
        known = self.items and self.random.random() < 0.5
        number, box = self.ask(*(self.random.choice(self.items) if known else (self.id(), self.box())))
        expect((number, self.in_some_form(box)) in self.index, (number, scan.upright(box)) in self.items)

    def query(self):
        box, predicate = self.ask(self.box(80), self.predicate())
        got = self.index.query(self.in_some_form(box), predicate)
        expect(sorted(got.tolist()), scan.selected(self.items, box, predicate))

    def at(self):
        (point,) = self.ask(self.point())
        expect(sorted(self.index.at(self.in_some_form(point)).tolist()), scan.within(self.items, point, 0))

    def within(self):
        point, limit = self.ask(self.point(), self.random.choice((-1, 0, 50, 900, 2**63 - 1)))
        got = self.index.within(self.in_some_form(point), limit)
        expect(sorted(got.tolist()), scan.within(self.items, point, limit))

    def each(self, answer, wanted):
        offsets, ids = (numbers.tolist() for numbers in answer)
        expect((len(offsets), offsets[0], offsets[-1]), (len(wanted) + 1, 0, len(ids)))
        expect([sorted(ids[a:b]) for a, b in zip(offsets, offsets[1:])], wanted)

    def query_many(self):
        boxes, predicate = self.ask([self.box(40) for _ in range(self.random.randrange(6))], self.predicate())
        answer = self.index.query_many(self.in_some_rows(boxes), predicate)
        self.each(answer, [scan.selected(self.items, box, predicate) for box in boxes])

    def points(self):
        return [self.point() for _ in range(self.random.randrange(6))]

    def at_many(self):
        (points,) = self.ask(self.points())
        self.each(self.index.at_many(self.in_some_rows(points)), [scan.within(self.items, p, 0) for p in points])

    def within_many(self):
        points, limit = self.ask(self.points(), self.random.randrange(2000))
        answer = self.index.within_many(self.in_some_rows(points), limit)
        self.each(answer, [scan.within(self.items, p, limit) for p in points])

    def near(self, point, k, ids, distances):
        wanted = scan.neighbours(self.items, point)[:k]
        expect(list(zip(distances, ids)), [(distance, number) for distance, _, number in wanted])

    def nearest(self):
        point, k = self.ask(self.point(), self.random.choice((0, 1, 5, 1000)))
        ids, distances = self.index.nearest(self.in_some_form(point), k)
        self.near(point, k, ids.tolist(), distances.tolist())

    def nearest_many(self):
        points, k = self.ask(self.points(), self.random.choice((0, 1, 5, 1000)))
        ids, distances = map(memoryview, self.index.nearest_many(self.in_some_rows(points), k))
        each = min(k, len(self.items))
        expect((ids.nbytes, distances.nbytes), (8 * each * len(points),) * 2)
        ids, distances = array("Q", ids.tobytes()).tolist(), array("q", distances.tobytes()).tolist()
        for i, point in enumerate(points):
            own = slice(i * each, (i + 1) * each)
            self.near(point, k, ids[own], distances[own])

    def pop_nearest(self):
        (point,) = self.ask(self.point())
        got = self.index.pop_nearest(self.in_some_form(point))
        if got is None:
            return expect(self.items, [])
        number, box, distance = got
        expect((distance, box, number), min(scan.neighbours(self.items, point)))
        self.items.remove((number, box))

    def drain(self):
        box, predicate = self.ask(self.box(30), self.predicate())
        expect(sorted(self.index.drain(box, predicate).tolist()), scan.selected(self.items, box, predicate))
        holds = scan.intersects if predicate == "intersects" else scan.contains
        self.items = [item for item in self.items if not holds(scan.upright(box), item[1])]
        self.all_items()

    def drain_near(self):
        point, limit = self.ask(self.point(), self.random.choice((None, -1, 0, 50, 900)))
        form = self.in_some_form(point)
        got = self.index.drain_at(form) if limit is None else self.index.drain_within(form, limit)
        expect(sorted(got.tolist()), scan.within(self.items, point, limit or 0))
        self.items = [item for item in self.items if scan.distance(item[1], point) > (limit or 0)]
        self.all_items()

    def all_items(self):
        boxes, ids = self.index.items()
        flat = array("q", boxes.tobytes()).tolist()
        expect(sorted(zip(ids.tolist(), zip(*[iter(flat)] * 4))), sorted(self.items))

    def pairs(self):
        first, second = self.index.pairs()
        expect(sorted(tuple(sorted(pair)) for pair in zip(first.tolist(), second.tolist())), scan.pairs(self.items))

    def pairs_with(self):
        number, box = self.id(), self.box()
        self.other.insert(number, box)
        self.others.append((number, scan.upright(box)))
        here, there = self.index.pairs_with(self.other)
        expect(sorted(zip(here.tolist(), there.tolist())), scan.pairs_with(self.items, self.others))

    def load(self):
        rows = [(self.id(), self.box()) for _ in range(self.random.randrange(300))]
        ids = array("Q", [number for number, _ in rows])
        self.index.load(self.in_some_rows([box for _, box in rows]), self.random.choice((ids, ids.tolist())))
        self.items = [(number, scan.upright(box)) for number, box in rows]

    def copies(self):
        by_pickle = lambda index: pickle.loads(pickle.dumps(index))
        self.index = self.random.choice((copy.copy, copy.deepcopy, by_pickle))(self.index)
        self.all_items()

    def clear(self):
        self.index.clear()
        self.items = []


class Calls(unittest.TestCase):
    def test_beside_a_scan(self):
        for seed in range(4):
            with self.subTest(seed=seed):
                Trial(seed).run(STEPS // 4)
