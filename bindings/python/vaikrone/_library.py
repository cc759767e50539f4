"""The functions of the library for C, as bindings/c/rstar.h says them."""

import os
from ctypes import CDLL, POINTER, Structure, c_bool, c_int32, c_int64, c_size_t, c_uint64, c_void_p, sizeof
from pathlib import Path
from types import SimpleNamespace


class Handle(Structure):
    _fields_ = [("is_made", c_bool), ("at", c_void_p)]


_HANDLE = POINTER(Handle)
_COUNT = POINTER(c_size_t)
_ARRAY = (c_void_p, c_size_t)
_SELECTION = (c_size_t, (c_void_p, *_ARRAY))
_DRAIN = (c_int32, (c_void_p, *_ARRAY, _COUNT))
_SELECTIONS = (c_int32, (*_ARRAY, *_ARRAY, *_ARRAY))
# What each function gives, and what it takes after its handle.
_FUNCTIONS = {
    "clear": (None, ()),
    "len": (c_size_t, ()),
    "load": (c_int32, (*_ARRAY, *_ARRAY)),
    "insert": (c_int32, (c_uint64, c_void_p)),
    "remove": (c_bool, (c_uint64, c_void_p)),
    "contains": (c_bool, (c_uint64, c_void_p)),
    "items": (c_int32, (*_ARRAY, *_ARRAY, _COUNT)),
    "meeting": _SELECTION,
    "inside": _SELECTION,
    "at": _SELECTION,
    "within": (c_size_t, (c_void_p, c_int64, *_ARRAY)),
    "meeting_each": _SELECTIONS,
    "inside_each": _SELECTIONS,
    "at_each": _SELECTIONS,
    "within_each": (c_int32, (*_ARRAY, c_int64, *_ARRAY, *_ARRAY)),
    "nearest": (c_int32, (c_void_p, *_ARRAY, *_ARRAY, _COUNT)),
    "nearest_each": (c_int32, (*_ARRAY, c_size_t, *_ARRAY, *_ARRAY, _COUNT)),
    "pairs": (c_int32, (*_ARRAY, *_ARRAY, _COUNT)),
    "pairs_between": (c_int32, (_HANDLE, *_ARRAY, *_ARRAY, _COUNT)),
    "drain_meeting": _DRAIN,
    "drain_inside": _DRAIN,
    "drain_at": _DRAIN,
    "drain_within": (c_int32, (c_void_p, c_int64, *_ARRAY, _COUNT)),
    "pop_nearest": (c_int32, (c_void_p, POINTER(c_uint64), c_void_p, POINTER(c_int64), POINTER(c_bool))),
}
_ERRORS = {
    1: (MemoryError, "memory was refused"),
    2: (OverflowError, "more rectangles than the index can hold"),
    3: (ValueError, "the lengths do not match"),
}


def _calls(path: str) -> SimpleNamespace:
    """Each function by its name without `rstar_index_`."""
    if sizeof(c_size_t) != 8:
        raise ImportError("vaikrone needs a system of 64 bits")
    try:
        library = CDLL(path)
    except OSError as error:
        raise ImportError(f"vaikrone finds no library: {error}") from error
    functions = {}
    for name, (answer, arguments) in _FUNCTIONS.items():
        functions[name] = getattr(library, "rstar_index_" + name)
        functions[name].restype, functions[name].argtypes = answer, (_HANDLE, *arguments)
    return SimpleNamespace(**functions)


def check(status: int) -> bool:
    """Raises what a status says. False: a drain had no room."""
    if status in _ERRORS:
        error, message = _ERRORS[status]
        raise error(message)
    return status == 0


calls = _calls(os.environ.get("VAIKRONE_LIBRARY") or str(Path(__file__).with_name("librstar.so")))
