"""Buffers and sequences that go in, answers that come out, and arguments that are refused."""

import copy
import ctypes
import gc
import pickle
import sys
import unittest
from array import array
from unittest import mock

from vaikrone import Index
from vaikrone._numbers import rows_of

try:
    import numpy
except ImportError:
    numpy = None

BOXES = [(0, 0, 2, 2), (5, 5, 9, 9), (-3, -3, -1, 4)]
FLAT = array("q", [n for box in BOXES for n in box])
IDS = [7, 2**64 - 1, 9]


def held(index):
    boxes, ids = index.items()
    return array("q", boxes.tobytes()).tolist(), ids.tolist()


class Forms(unittest.TestCase):
    def same(self, boxes, ids=None):
        wanted = sorted(zip(range(3) if ids is None else ids, BOXES))
        flat, numbers = held(Index(boxes, ids))
        self.assertEqual(sorted(zip(numbers, zip(*[iter(flat)] * 4))), sorted((int(n), box) for n, box in wanted))

    def test_boxes(self):
        read_only = memoryview(FLAT.tobytes()).cast("q")
        own = (ctypes.c_int64 * 12)(*FLAT)
        not_aligned = memoryview(bytearray(3) + FLAT.tobytes())[3:].cast("q")
        strided = memoryview(array("q", [n for x in FLAT for n in (x, 99)]))[::2]
        table = memoryview(FLAT.tobytes()).cast("q", (3, 4))
        for boxes in (BOXES, tuple(BOXES), iter(BOXES), [list(box) for box in BOXES], FLAT, memoryview(FLAT),
                      read_only, own, not_aligned, strided, table, array("b", FLAT), array("i", FLAT), array("d", FLAT),
                      (ctypes.c_int32 * 12)(*FLAT), (ctypes.c_double * 12)(*FLAT)):  # fmt: skip
            with self.subTest(form=type(boxes)):
                self.same(boxes)
        self.same([tuple(map(float, box)) for box in BOXES])
        self.assertEqual(len(Index([])), 0)
        self.assertEqual(len(Index(array("q"))), 0)

    def test_ids(self):
        for ids in (IDS, tuple(IDS), iter(IDS), array("Q", IDS), memoryview(array("Q", IDS).tobytes()).cast("Q")):
            index = Index(BOXES, ids)
            self.assertEqual(sorted(held(index)[1]), sorted(IDS))
        for ids in ([7, 8, 9], range(3), array("q", [7, 8, 9]), array("I", [7, 8, 9]), [7.0, 8.0, 9.0], None):
            self.same(BOXES, ids)

    def test_both_in_one_buffer(self):
        flat = array("q", FLAT)
        index = Index(flat, memoryview(flat)[:2].tolist() + [4])
        self.assertEqual(sorted(held(index)[1]), [0, 0, 4])
        view = memoryview(array("q", [0, 0, 2, 2, 5, 5, 9, 9]))
        flat, ids = held(Index(view, view[4:6]))
        self.assertEqual((sorted(flat), ids), (sorted(view), [5, 5]))

    @unittest.skipUnless(numpy, "numpy is not installed")
    def test_numpy(self):
        table = numpy.array(BOXES)
        read_only = table.copy()
        read_only.flags.writeable = False
        wide = numpy.zeros((3, 8), "q")
        wide[:, ::2] = table
        packed = numpy.zeros(3, [("name", "i1"), ("box", "i8", 4), ("as_floats", "f8", 4), ("id", "i8")])
        packed["box"], packed["as_floats"], packed["id"] = table, table, (7, 8, 9)
        self.same(packed["box"], packed["id"])
        for boxes in (table, table.ravel(), read_only, wide[:, ::2], numpy.asfortranarray(table), packed["as_floats"],
                      *(table.astype(kind) for kind in ("i1", "i4", "f2", "f4", "f8", ">i8", ">i2", ">f8")), list(table)):  # fmt: skip
            with self.subTest(form=getattr(boxes, "dtype", type(boxes))):
                self.same(boxes)
        self.same(table, numpy.array([7, 8, 9]))
        self.same(table, numpy.array(IDS, "Q"))
        self.assertEqual(len(Index(numpy.zeros((0, 4), "q"), numpy.zeros(0, "Q"))), 0)
        index = Index(table)
        self.assertEqual(index.query(table[1]).tolist(), [1])
        self.assertEqual(index.query(table[1].astype("f4")).tolist(), [1])
        self.assertTrue((numpy.uint64(1), table[1]) in index)
        self.assertEqual(index.nearest_many(table[:, :2], numpy.int32(2))[0].shape, (3, 2))
        self.assertEqual(index.nearest_many(table[:0, :2], 2)[0].shape, (0, 2))
        self.assertEqual(index.items()[0].shape, (3, 4))
        for answer in (index.query(table[0]), index.nearest((0, 0), 2)[1], index.items()[0], index.pairs()[0]):
            self.assertIsInstance(answer, numpy.ndarray)

    def test_buffers_stay_where_they_are(self):
        own = array("q", FLAT)
        for buffer in (own, memoryview(own), memoryview(own).toreadonly()):
            self.assertEqual(rows_of(buffer, "q", 4).address, own.buffer_info()[0])
        self.assertNotEqual(rows_of(memoryview(own)[::2], "q", 2).address, own.buffer_info()[0])

    @unittest.skipUnless(numpy, "numpy is not installed")
    def test_numpy_is_refused(self):
        table = numpy.array(BOXES)
        for error, boxes, ids in (
            (ValueError, table[:, :3], None),
            (ValueError, table + 0.5, None),
            (ValueError, numpy.full((1, 4), numpy.nan), None),
            (ValueError, numpy.full((1, 4), numpy.inf), None),
            (OverflowError, numpy.full((1, 4), 1e30), None),
            (OverflowError, numpy.full((1, 4), 2**63, "Q"), None),
            (ValueError, table.reshape(3, 2, 2), None),
            (TypeError, table.astype(bool), None),
            (TypeError, table.astype(object), None),
            (TypeError, table.astype("u1"), None),  # bytes look like it
            (OverflowError, table, numpy.array([1, 2, -3], ">i8")),
            (OverflowError, table, numpy.array([1, 2, -3])),
            (ValueError, table, numpy.arange(4)),
            (ValueError, table, table),
        ):
            with self.subTest(boxes=boxes, ids=ids), self.assertRaises(error):
                Index(boxes, ids)


class Answers(unittest.TestCase):
    def test_an_answer_is_the_callers_own(self):
        index = Index([(0, 0, n % 7, n % 5) for n in range(1000)])
        first = index.query((0, 0, 9, 9))
        index.query((6, 4, 9, 9))
        index.clear()
        self.assertEqual(sorted(first.tolist()), list(range(1000)))
        first[0] = 5
        self.assertEqual(first[0], 5)

    def test_answers_longer_than_the_room(self):
        for count in (63, 64, 65, 129, 20000):
            index = Index([(n % 7, n % 5, 9, 9) for n in range(count)])
            for _ in range(2):
                self.assertEqual(sorted(index.query((9, 9, 9, 9)).tolist()), list(range(count)))
            offsets, ids = index.query_many([(9, 9, 9, 9), (10, 9, 10, 9), (9, 9, 9, 9)])
            self.assertEqual(offsets.tolist(), [0, count, count, 2 * count])
            self.assertEqual(sorted(ids.tolist()), sorted([*range(count)] * 2))
            self.assertEqual(sorted(index.drain((9, 9, 9, 9)).tolist()), list(range(count)))
            self.assertEqual(len(index), 0)
        first, second = Index([(0, 0, 1, 1)] * 50).pairs()
        self.assertEqual((len(first), len(set(zip(first.tolist(), second.tolist())))), (1225, 1225))

    def test_representation(self):
        self.assertEqual(repr(Index(BOXES)), "<vaikrone.Index of 3 rectangles>")


class Refused(unittest.TestCase):
    def refuses(self, error, call, *arguments, **named):
        index = Index(BOXES, IDS)
        before = held(index)
        with self.subTest(call=call, arguments=arguments), self.assertRaises(error):
            getattr(index, call)(*arguments, **named)
        self.assertEqual(held(index), before)

    def test_boxes(self):
        for call, first in (("query", ()), ("drain", ()), ("insert", (1,)), ("remove", (1,))):
            for error, box in (
                (ValueError, (1, 2, 3)),
                (ValueError, (1, 2, 3, 4, 5)),
                (ValueError, ()),
                (ValueError, (1, 2, 3, 4.5)),
                (ValueError, (1, 2, 3, float("nan"))),
                (ValueError, (1, 2, 3, float("inf"))),
                (OverflowError, (1, 2, 3, 2**63)),
                (OverflowError, (1, 2, 3, -(2**63) - 1)),
                (OverflowError, (1, 2, 3, 1e30)),
                (TypeError, (1, 2, 3, "4")),
                (TypeError, (1, 2, 3, None)),
                (TypeError, "1234"),
                (TypeError, 7),
                (TypeError, None),
            ):
                self.refuses(error, call, *first, box)

    def test_points(self):
        for call, more in (("at", ()), ("within", (1,)), ("nearest", (1,)), ("pop_nearest", ())):
            self.refuses(ValueError, call, (1,), *more)
            self.refuses(ValueError, call, (1, 2, 3), *more)
            self.refuses(OverflowError, call, (2**63, 1), *more)
            self.refuses(TypeError, call, 7, *more)

    def test_numbers(self):
        large = (OverflowError, -1), (OverflowError, 2**64)
        for error, number in (*large, (ValueError, 1.5), (TypeError, "1"), (TypeError, None)):
            self.refuses(error, "insert", number, (1, 2, 3, 4))
            self.refuses(error, "remove", number, (1, 2, 3, 4))
            self.refuses(error, "__contains__", (number, (1, 2, 3, 4)))
            self.refuses(error, "nearest", (1, 2), number)
            self.refuses(error, "nearest_many", [(1, 2)], number)
        for error, number in ((OverflowError, 2**63), (ValueError, 0.5), (TypeError, None)):
            self.refuses(error, "within", (1, 2), number)
            self.refuses(error, "within_many", [(1, 2)], number)
        self.refuses(TypeError, "__contains__", 7)
        self.refuses(ValueError, "__contains__", (7,))

    def test_many(self):
        for error, boxes in (
            (ValueError, [(1, 2, 3, 4), (1, 2, 3)]),
            (ValueError, [(1, 2, 3), (1, 2, 3, 4, 5)]),
            (ValueError, [(1, 2, 3, 4.5)]),
            (OverflowError, [(1, 2, 3, 2**63)]),
            (TypeError, [1, 2, 3, 4]),
            (TypeError, [(1, 2, 3, "4")]),
            (TypeError, 7),
            (TypeError, b"\0" * 32),
            (ValueError, array("q", [1, 2, 3])),
            (ValueError, array("d", [1, 2, 3, 4.5])),
            (OverflowError, array("Q", [1, 2, 3, 2**63])),
            (ValueError, memoryview(array("q", range(8)).tobytes()).cast("q", (4, 2))),
        ):
            self.refuses(error, "load", boxes)
            self.refuses(error, "query_many", boxes)
        for error, points in (
            (ValueError, [(1, 2, 3)]),
            (ValueError, array("q", [1])),
            (TypeError, [1]),
            (OverflowError, [(1, 2**63)]),
        ):
            self.refuses(error, "at_many", points)
            self.refuses(error, "within_many", points, 1)
            self.refuses(error, "nearest_many", points, 1)
        for error, ids in (
            (ValueError, [1, 2]),
            (ValueError, range(4)),
            (ValueError, [1, 2, 3.5]),
            (OverflowError, [1, 2, -3]),
            (OverflowError, [1, 2, 2**64]),
            (OverflowError, array("q", [1, 2, -3])),
            (TypeError, [1, 2, "3"]),
            (TypeError, 3),
            (TypeError, b"123"),
        ):
            self.refuses(error, "load", BOXES, ids)

    def test_others(self):
        for call, more in (("query", ()), ("query_many", ()), ("drain", ())):
            self.refuses(ValueError, call, BOXES if call == "query_many" else BOXES[0], "within")
        self.refuses(TypeError, "pairs_with", [(1, 2, 3, 4)])
        with self.assertRaises(TypeError):
            Index(ids=[1])
        with self.assertRaises(TypeError):
            list(Index())


class Copies(unittest.TestCase):
    def test_an_empty_index(self):
        index = pickle.loads(pickle.dumps(Index()))
        self.assertEqual(len(index), 0)
        self.assertIsNone(index.pop_nearest((1, 2)))
        self.assertEqual(index.nearest((1, 2), 3)[0].tolist(), [])
        self.assertEqual(index.nearest_many([(1, 2)], 3)[0].tolist(), [[]] if numpy else [])
        self.assertEqual([numbers.tolist() for numbers in index.query_many([(1, 2, 3, 4)])], [[0, 0], []])
        self.assertEqual([numbers.tolist() for numbers in index.query_many([])], [[0], []])
        self.assertEqual([numbers.tolist() for numbers in index.pairs()], [[], []])
        self.assertEqual(held(index), ([], []))

    def test_a_copy_goes_its_own_way(self):
        index = Index(BOXES, IDS)
        other = pickle.loads(pickle.dumps(index))
        other.clear()
        self.assertEqual((len(index), len(other)), (3, 0))

    def test_a_pickle_needs_no_numpy(self):
        self.assertNotIn(b"numpy", pickle.dumps(Index(BOXES)))

    def test_a_class_of_ones_own(self):
        for again in (copy.copy, copy.deepcopy, *(lambda own, n=n: pickle.loads(pickle.dumps(own, n)) for n in range(6))):
            own = again(Own("a name"))
            self.assertEqual((repr(own), own.name, held(own)), ("<vaikrone.Own of 3 rectangles>", "a name", held(Index(BOXES))))

    def test_a_beginning_that_fails_ends_in_silence(self):
        class Fails(Index):
            def __init__(self):
                raise KeyError

        with mock.patch.object(sys, "unraisablehook") as told:
            self.assertRaises(KeyError, Fails)
            gc.collect()
        told.assert_not_called()

    def test_pairs_with_itself(self):
        here, there = Index([(0, 0, 2, 2), (2, 2, 4, 4)]).pairs_with(index := Index([(2, 2, 2, 2)]))
        self.assertEqual(sorted(zip(here.tolist(), there.tolist())), [(0, 0), (1, 0)])
        here, there = index.pairs_with(index)
        self.assertEqual((here.tolist(), there.tolist()), ([0], [0]))


class Own(Index):
    def __init__(self, name):
        super().__init__(BOXES)
        self.name = name
