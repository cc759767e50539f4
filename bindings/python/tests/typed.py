"""Calls that a type checker is to take."""

from array import array
from typing import Any

import numpy
from vaikrone import Index

table: numpy.ndarray[Any, Any] = numpy.array([(0, 0, 2, 2), (5, 5, 9, 9)])
index = Index(table, ids=range(2))
index.load(memoryview(array("q", range(8))), array("Q", [7, 8]))
index.query(table[0]), index.query([0.0, 0, 1, 1], "contains"), index.query_many(list(table))
index.at(table[0, :2]), index.nearest((1, 2), k=3), index.within(array("q", [1, 2]), 9.0)
index.insert(9, map(int, "0022"))
numbers: list[int] = index.drain((0, 0, 9, 9)).tolist()
found: bool = (7, table[0]) in index or index.remove(7, table[0])
copied: Index = Index(*index.items())
