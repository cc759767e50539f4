"""Whole numbers between Python and the library: each is looked at before the library sees it."""

from __future__ import annotations

from array import array
from ctypes import Structure, addressof, byref, c_int64, c_void_p, py_object, pythonapi, string_at
from itertools import chain
from numbers import Real
from operator import index
from struct import Struct, error, iter_unpack
from typing import TYPE_CHECKING, Any, Iterable, NamedTuple, Sequence

try:
    import numpy
except ImportError:
    numpy = None  # type: ignore[assignment]

if TYPE_CHECKING:
    Numbers = numpy.ndarray[Any, Any] | array[int]

SIGNED, UNSIGNED = "q", "Q"
_OTHERS = tuple("bhHiIlLqQefd")  # other numbers of buffers; bytes are none
_ZERO = {SIGNED: array(SIGNED, [0]), UNSIGNED: array(UNSIGNED, [0])}
_BOX, _POINT = Struct("4q"), Struct("2q")
_EMPTY = c_int64()  # the library takes no null pointer, so what is empty lies here


def whole(number: Any) -> int:
    """The integer that a number is, as 7 for 7.0."""
    if isinstance(number, float) or isinstance(number, Real) and not hasattr(number, "__index__"):
        if number % 1 != 0:
            raise ValueError(f"{number} is not a whole number")
        return int(number)
    return index(number)


def within_bits(number: Any, least: int, greatest: int) -> int:
    result = whole(number)
    if not least <= result <= greatest:
        raise OverflowError(f"{result} is not from {least} to {greatest}")
    return result


def box_of(box: Iterable[Any]) -> bytes:
    return _packed(_BOX, box, 4, "a box is four numbers: min_x, min_y, max_x, max_y")


def point_of(point: Iterable[Any]) -> bytes:
    return _packed(_POINT, point, 2, "a point is two numbers: x, y")


def _packed(form: Struct, values: Iterable[Any], width: int, message: str) -> bytes:
    """The bytes of a box or a point: the library reads them where they lie, which is at a multiple of eight."""
    values = tuple(values)
    try:
        return form.pack(*values)
    except error:  # a float that is whole, or what array refuses
        if len(values) != width:
            raise ValueError(message) from None
        return _array_of(SIGNED, values).tobytes()


class _PyBuffer(Structure):
    """Python's `Py_buffer`: ten words, of which the first is the address."""

    _fields_ = [("start", c_void_p), ("others", c_void_p * 9)]


def _start(view: memoryview) -> int:
    """Where the bytes of a view begin. They may be read-only. They stay there as long as the view is kept."""
    found = _PyBuffer()
    pythonapi.PyObject_GetBuffer(py_object(view), byref(found), 0)
    start: int = found.start
    pythonapi.PyBuffer_Release(byref(found))
    return start


class Rows(NamedTuple):
    """Rows of 64-bit integers in memory, and what keeps them there."""

    address: int
    length: int
    owner: object


def rows_of(values: Any, code: str, width: int) -> Rows:
    """Buffers stay where they are, unless they are strided, not aligned, or of another type."""
    try:
        view = memoryview(values)
    except TypeError:
        return _rows_in(memoryview(_array_of(code, _flat(values, width))), width)
    shape: Any = view.shape
    if not (view.ndim == 2 and shape[1] == width or view.ndim == 1 and shape[0] % width == 0):
        raise ValueError(f"an array of {width} numbers a row is needed, not one of shape {shape}")
    kind = view.format.lstrip("@=<")
    if view.itemsize != 8 or kind not in tuple("qlnQLN"):
        return _rows_in(memoryview(_converted(view, code)), width)
    if not view.c_contiguous:
        view = memoryview(array(code, view.tobytes()))
    rows = _rows_in(view, width)
    if rows.address % 8:
        rows = _rows_in(memoryview(array(code, view.tobytes())), width)
    if kind.islower() != code.islower() and rows.length and _least(view) < 0:
        raise OverflowError("a number is negative, or does not fit in 63 bits")
    return rows


def _rows_in(view: memoryview, width: int) -> Rows:
    if view.nbytes == 0:
        return Rows(addressof(_EMPTY), 0, None)
    return Rows(_start(view), view.nbytes // (8 * width), view)


def _flat(values: Iterable[Any], width: int) -> list[Any]:
    if width == 1:
        return list(values)
    rows = [tuple(row) for row in values]
    if any(len(row) != width for row in rows):
        raise ValueError(f"each row is {width} numbers")
    return list(chain.from_iterable(rows))


def _array_of(code: str, values: Sequence[Any]) -> array[int]:
    try:
        return array(code, values)
    except TypeError:  # a float that is whole, or what array refuses
        return array(code, map(whole, values))


def _converted(view: memoryview, code: str) -> array[int]:
    if view.format.lstrip("@=<>") not in _OTHERS:
        raise TypeError(f"a buffer of numbers is needed, not one of format {view.format!r}")
    return _array_of(code, [number for number, in iter_unpack(view.format, view.tobytes())])


def _least(view: memoryview) -> int:
    numbers = view.cast("B").cast(SIGNED)
    return int(numpy.min(numbers)) if numpy else min(numbers)


def apart(ids: Rows, boxes: Rows) -> Rows:
    """The IDs, copied where they overlap the boxes: two arrays of a call may not."""
    if ids.address >= boxes.address + 32 * boxes.length or boxes.address >= ids.address + 8 * ids.length:
        return ids
    return rows_of(array(UNSIGNED, string_at(ids.address, 8 * ids.length)), UNSIGNED, 1)


def zeros(code: str, count: int) -> array[int]:
    """An array that the library writes to; it has an address also where it is to hold nothing."""
    return _ZERO[code] * max(count, 1)


def address(numbers: array[int]) -> int:
    return numbers.buffer_info()[0]


def given(numbers: array[int], count: int, *shape: int) -> Numbers:
    """The first so many numbers, to the caller: as a numpy array where numpy is installed. None is copied."""
    del numbers[count:]
    if numpy is None:
        return numbers
    flat = numpy.frombuffer(numbers, numbers.typecode)
    return flat.reshape(shape) if shape else flat
