"""The index itself."""

from __future__ import annotations

from array import array
from ctypes import c_bool, c_int64, c_size_t, c_uint64
from threading import RLock
from typing import TYPE_CHECKING, Any, Iterable

from ._library import Handle, calls, check
from ._numbers import SIGNED, UNSIGNED, Rows, address, apart, box_of, given, point_of, rows_of, within_bits, zeros

if TYPE_CHECKING:
    from ._numbers import Numbers

    Box = Iterable[float]
    Point = Iterable[float]
    Boxes = Numbers | memoryview | Iterable[Box]
    Points = Numbers | memoryview | Iterable[Point]
    IDs = Numbers | memoryview | Iterable[int]

_GREATEST = 2**63 - 1
_LONGEST_ROOM = 16384
_SELECT = {"intersects": calls.meeting, "contains": calls.inside}
_SELECT_EACH = {"intersects": calls.meeting_each, "contains": calls.inside_each}
_DRAIN = {"intersects": calls.drain_meeting, "contains": calls.drain_inside}


def _by(predicate: str, functions: dict[str, Any]) -> Any:
    if predicate not in functions:
        raise ValueError(f"predicate is one of {', '.join(functions)}, not {predicate!r}")
    return functions[predicate]


class _Handle(Handle):
    """It is cleared with its index, also where that begins again."""

    def __del__(self, clear: Any = calls.clear) -> None:
        clear(self)


def _restored(kind: type[Index], boxes: array[int], ids: array[int]) -> Index:
    index = kind.__new__(kind)
    Index.__init__(index, boxes, ids)
    return index


def _id(number: int) -> int:
    return within_bits(number, 0, 2**64 - 1)


def _distance(number: float) -> int:
    return within_bits(number, -(2**63), _GREATEST)


class Index:
    """Rectangles with IDs.

    A box is (min_x, min_y, max_x, max_y), or any two opposite corners. Its border belongs to it. Coordinates are whole
    numbers from -2**63 to 2**63 - 1, IDs from 0 to 2**64 - 1. IDs and boxes may stand many times. Distances are squared,
    and held at 2**63 - 1.

    Many boxes are an array of shape (n, 4), a buffer of 4 * n numbers, or an iterable of boxes. Buffers of 64-bit integers
    are read where they lie. Answers are arrays of numpy, or of the module array where numpy is not installed.

    A wrong argument raises TypeError, ValueError or OverflowError, refused memory MemoryError. Then the index is as it
    was. Threads may share an index: one call at a time goes on, and the others wait.

    >>> index = Index([(0, 0, 2, 2), (5, 5, 9, 9)], ids=[7, 8])
    >>> index
    <vaikrone.Index of 2 rectangles>
    >>> (8, (5, 5, 9, 9)) in index
    True
    """

    __slots__ = "_handle", "_lock", "_room", "__dict__", "__weakref__"  # so that __dict__ has what a subclass adds

    def __init__(self, boxes: Boxes | None = None, ids: IDs | None = None) -> None:
        """The rectangles of `boxes`, loaded at once, with the IDs of `ids`, or else 0, 1, 2 and so on."""
        self._handle = _Handle()
        self._lock = RLock()  # a finalizer or a signal may take it again, amid a call of the same thread
        self._room: array[int] | None = None  # for the next answer; a call that uses it leaves None to such a one
        if boxes is not None:
            self.load(boxes, ids)
        elif ids is not None:
            raise TypeError("IDs without boxes")

    def load(self, boxes: Boxes, ids: IDs | None = None) -> None:
        """Puts rectangles in the place of all that the index holds."""
        box_rows = rows_of(boxes, SIGNED, 4)
        id_rows = rows_of(array(UNSIGNED, range(box_rows.length)) if ids is None else ids, UNSIGNED, 1)
        if box_rows.length != id_rows.length:
            raise ValueError(f"{box_rows.length} boxes, but {id_rows.length} IDs")
        id_rows = apart(id_rows, box_rows)
        with self._lock:
            check(calls.load(self._handle, *box_rows[:2], *id_rows[:2]))

    def insert(self, id: int, box: Box) -> None:
        """One rectangle more."""
        number, packed = _id(id), box_of(box)
        with self._lock:
            check(calls.insert(self._handle, number, packed))

    def remove(self, id: int, box: Box) -> bool:
        """Takes one rectangle with this ID and this box out. False: there is none.

        >>> index = Index([(0, 0, 2, 2)])
        >>> index.remove(0, (0, 0, 2, 2)), index.remove(0, (0, 0, 2, 2))
        (True, False)
        """
        number, packed = _id(id), box_of(box)
        with self._lock:
            return bool(calls.remove(self._handle, number, packed))

    def __contains__(self, item: tuple[int, Box]) -> bool:
        """`(id, box) in index`: whether there is a rectangle with this ID and this box."""
        id, box = item
        number, packed = _id(id), box_of(box)
        with self._lock:
            return bool(calls.contains(self._handle, number, packed))

    def __len__(self) -> int:
        """The number of rectangles."""
        with self._lock:
            return int(calls.len(self._handle))

    def clear(self) -> None:
        """Takes all rectangles out."""
        with self._lock:
            calls.clear(self._handle)

    def items(self) -> tuple[Numbers, Numbers]:
        """The boxes and the IDs of all rectangles, so that `Index(*index.items())` is a copy.

        Each box has its lower corner first. Boxes are an array of shape (n, 4), or without numpy of 4 * n numbers.

        >>> index = Index([(2, 2, 0, 0)], ids=[7])
        >>> (7, (0, 0, 2, 2)) in Index(*index.items())
        True
        """
        room, found = 0, c_size_t(1)
        with self._lock:
            while found.value > room:
                room = calls.len(self._handle)
                boxes, ids = zeros(SIGNED, 4 * room), zeros(UNSIGNED, room)
                check(calls.items(self._handle, address(boxes), room, address(ids), room, found))
        count = found.value
        return given(boxes, 4 * count, count, 4), given(ids, count)

    def query(self, box: Box, predicate: str = "intersects") -> Numbers:
        """The IDs of the rectangles that the box intersects, touching included, or that it contains.

        A rectangle is contained also where it touches the border.

        >>> index = Index([(0, 0, 2, 2), (2, 2, 4, 4), (9, 9, 9, 9)])
        >>> sorted(index.query((2, 2, 5, 5)).tolist())
        [0, 1]
        >>> index.query((2, 2, 5, 5), predicate="contains").tolist()
        [1]
        """
        return self._ids(_by(predicate, _SELECT), box_of(box))

    def at(self, point: Point) -> Numbers:
        """The IDs of the rectangles that the point lies in, or on the border of.

        >>> Index([(0, 0, 2, 2), (5, 5, 9, 9)]).at((2, 1)).tolist()
        [0]
        """
        return self._ids(calls.at, point_of(point))

    def within(self, point: Point, squared_distance: float) -> Numbers:
        """The IDs of the rectangles whose squared distance from the point is at most this.

        >>> sorted(Index([(0, 0, 2, 2), (5, 5, 9, 9)]).within((2, 5), 9).tolist())
        [0, 1]
        """
        return self._ids(calls.within, point_of(point), _distance(squared_distance))

    def drain(self, box: Box, predicate: str = "intersects") -> Numbers:
        """Takes the rectangles out that `query` finds, and gives their IDs.

        >>> index = Index([(0, 0, 2, 2), (5, 5, 9, 9)])
        >>> index.drain((0, 0, 4, 4)).tolist(), len(index)
        ([0], 1)
        """
        return self._drained(_by(predicate, _DRAIN), box_of(box))

    def drain_at(self, point: Point) -> Numbers:
        """Takes the rectangles out that `at` finds, and gives their IDs.

        >>> index = Index([(0, 0, 2, 2), (5, 5, 9, 9)])
        >>> index.drain_at((2, 1)).tolist(), len(index)
        ([0], 1)
        """
        return self._drained(calls.drain_at, point_of(point))

    def drain_within(self, point: Point, squared_distance: float) -> Numbers:
        """Takes the rectangles out that `within` finds, and gives their IDs.

        >>> index = Index([(0, 0, 2, 2), (5, 5, 9, 9)])
        >>> index.drain_within((4, 4), 2).tolist(), len(index)
        ([1], 1)
        """
        return self._drained(calls.drain_within, point_of(point), _distance(squared_distance))

    def query_many(self, boxes: Boxes, predicate: str = "intersects") -> tuple[Numbers, Numbers]:
        """The same as `query` for many boxes at once: offsets and IDs.

        Those for box i are `ids[offsets[i]:offsets[i + 1]]`.

        >>> offsets, ids = Index([(0, 0, 2, 2), (5, 5, 9, 9)]).query_many([(6, 6, 7, 7), (3, 3, 4, 4), (1, 1, 2, 2)])
        >>> offsets.tolist(), ids.tolist()
        ([0, 1, 1, 2], [1, 0])
        """
        return self._ids_of_each(_by(predicate, _SELECT_EACH), rows_of(boxes, SIGNED, 4))

    def at_many(self, points: Points) -> tuple[Numbers, Numbers]:
        """The same as `at` for many points at once: offsets and IDs, as of `query_many`."""
        return self._ids_of_each(calls.at_each, rows_of(points, SIGNED, 2))

    def within_many(self, points: Points, squared_distance: float) -> tuple[Numbers, Numbers]:
        """The same as `within` for many points at once: offsets and IDs, as of `query_many`."""
        return self._ids_of_each(calls.within_each, rows_of(points, SIGNED, 2), _distance(squared_distance))

    def nearest(self, point: Point, k: int = 1) -> tuple[Numbers, Numbers]:
        """The IDs and the squared distances of the k rectangles nearest to the point, the nearest first.

        At equal distance the lesser lower corner comes first, then the lesser upper corner, then the lesser ID. They are
        fewer than k where the index holds fewer.

        >>> ids, squared_distances = Index([(0, 0, 2, 2), (5, 5, 9, 9)]).nearest((4, 4), 5)
        >>> ids.tolist(), squared_distances.tolist()
        ([1, 0], [2, 8])
        """
        packed, most, found = point_of(point), within_bits(k, 0, _GREATEST), c_size_t()
        with self._lock:
            room = min(most, calls.len(self._handle))
            ids, distances = zeros(UNSIGNED, room), zeros(SIGNED, room)
            check(calls.nearest(self._handle, packed, address(ids), room, address(distances), room, found))
        return given(ids, found.value), given(distances, found.value)

    def nearest_many(self, points: Points, k: int = 1) -> tuple[Numbers, Numbers]:
        """The same as `nearest` for n points at once, m for each: k, or the number of rectangles where that is less.

        Arrays of numpy have the shape (n, m). Without numpy, those of point i begin at i * m.
        """
        rows, most, found = rows_of(points, SIGNED, 2), within_bits(k, 0, _GREATEST), c_size_t()
        with self._lock:
            room = min(most, calls.len(self._handle))
            size = rows.length * room
            ids, distances = zeros(UNSIGNED, size), zeros(SIGNED, size)
            check(calls.nearest_each(self._handle, *rows[:2], room, address(ids), size, address(distances), size, found))
        shape = rows.length, found.value
        return given(ids, rows.length * found.value, *shape), given(distances, rows.length * found.value, *shape)

    def pop_nearest(self, point: Point) -> tuple[int, tuple[int, int, int, int], int] | None:
        """Takes the first rectangle out that `nearest` gives, and gives its ID, its box and its squared distance.

        None: there is no rectangle.

        >>> index = Index([(0, 0, 2, 2)])
        >>> index.pop_nearest((4, 4)), index.pop_nearest((4, 4))
        ((0, (0, 0, 2, 2), 8), None)
        """
        packed = point_of(point)
        number, box, distance, is_found = c_uint64(), zeros(SIGNED, 4), c_int64(), c_bool()
        with self._lock:
            check(calls.pop_nearest(self._handle, packed, number, address(box), distance, is_found))
        return (number.value, (box[0], box[1], box[2], box[3]), distance.value) if is_found else None

    def pairs(self) -> tuple[Numbers, Numbers]:
        """The pairs of rectangles that intersect, each once: the IDs of the first of each, and of the second.

        >>> first, second = Index([(0, 0, 2, 2), (2, 2, 4, 4), (9, 9, 9, 9)]).pairs()
        >>> sorted(first.tolist() + second.tolist())
        [0, 1]
        """
        with self._lock:
            return self._pairs(calls.pairs)

    def pairs_with(self, other: Index) -> tuple[Numbers, Numbers]:
        """The pairs of a rectangle of this index and one of another that it intersects: the IDs here, and there.

        >>> here, there = Index([(0, 0, 2, 2)], [7]).pairs_with(Index([(1, 1, 3, 3)], [8]))
        >>> here.tolist(), there.tolist()
        ([7], [8])
        """
        if not isinstance(other, Index):
            raise TypeError(f"an Index is needed, not {type(other).__name__}")
        if other is self:  # the library wants two handles
            other = Index(*self.items())
        one, two = sorted((self, other), key=id)  # in one order, so that two threads do not wait for each other
        with one._lock, two._lock:
            return self._pairs(calls.pairs_between, other._handle)

    def __repr__(self) -> str:
        return f"<vaikrone.{type(self).__name__} of {len(self)} rectangles>"

    def __reduce__(self) -> tuple[Any, ...]:
        """Pickles and copies by what the index holds, whether numpy is installed or not, and by its attributes."""
        boxes, ids = self.items()
        held = array(SIGNED, boxes.tobytes()), array(UNSIGNED, ids.tobytes())
        return _restored, (type(self), *held), self.__dict__

    def _ids(self, select: Any, *question: Any) -> Numbers:
        """The answer of one question. It is asked again where there are more IDs than room."""
        with self._lock:
            ids, self._room = self._room or zeros(UNSIGNED, 64), None
            while (count := select(self._handle, *question, address(ids), len(ids))) > len(ids):
                ids = zeros(UNSIGNED, max(count, min(2 * count, _LONGEST_ROOM)))
            if len(ids) <= _LONGEST_ROOM:
                self._room, ids = ids, ids[:count]
        return given(ids, count)

    def _drained(self, drain: Any, *question: Any) -> Numbers:
        """The answer of one drain. It is made before, and so no ID is lost where memory is refused."""
        found, room = c_size_t(), 0
        with self._lock:
            while True:
                ids = zeros(UNSIGNED, room)
                answer = given(ids, len(ids))
                if check(drain(self._handle, *question, address(ids), room, found)):
                    return answer if len(answer) == found.value else answer[: found.value]
                room = found.value

    def _ids_of_each(self, select: Any, rows: Rows, *more: Any) -> tuple[Numbers, Numbers]:
        offsets, ids = zeros(SIGNED, rows.length + 1), zeros(UNSIGNED, 8 * rows.length)
        with self._lock:
            question = self._handle, *rows[:2], *more, address(offsets), len(offsets)
            check(select(*question, address(ids), len(ids)))
            while offsets[-1] > len(ids):
                ids = zeros(UNSIGNED, offsets[-1])
                check(select(*question, address(ids), len(ids)))
        return given(offsets, rows.length + 1), given(ids, offsets[-1])

    def _pairs(self, join: Any, *other: Any) -> tuple[Numbers, Numbers]:
        room, found = max(64, calls.len(self._handle)), c_size_t()
        while True:
            first, second = zeros(UNSIGNED, room), zeros(UNSIGNED, room)
            check(join(self._handle, *other, address(first), room, address(second), room, found))
            if found.value <= room:
                return given(first, found.value), given(second, found.value)
            room = found.value
