"""The shared library: where it lies, its calls and what their statuses mean. Its one rule: each call is declared as `isearch.h` has it, with
the address of an array's values for a pointer to them."""

import ctypes
import os
import pathlib

DONE, NO_INDEX, PLACES, NO_MEMORY = 0, 1, 7, 9

MEANINGS = {
    1: "the index was closed",
    2: "the handle has an index already",
    3: "the rows are none, too long or too many: 1 to 65536 values a row, at most 16777216 rows and 134217728 values",
    4: "the segments are 1 to 16 and no more than a row has values, and a leaf has 1 to 65535 rows",
    5: "a query has as many values as a row",
    6: "k is 1 to 1024, and windows lie 1 to 512 apart, with (k - 1) * (2 * apart - 1) + 1 of at most 1024",
    7: "there are not as many places as are wanted",
    8: "the file is no saved index, or is not one of these rows: it has other lengths or counts, or a row does not lie where it says",
    9: "out of memory",
}


class MissingLibrary(ImportError):
    """The shared library is not there; the message says how it is built."""


class Slot(ctypes.Structure):
    """A handle of the library: zeroed, it has no index."""

    _fields_ = [("full", ctypes.c_bool), ("at", ctypes.c_void_p)]


class Settings(ctypes.Structure):
    """What an index depends on beside its rows."""

    _fields_ = [("length", ctypes.c_uint32), ("segments", ctypes.c_uint32), ("leaf", ctypes.c_uint32), ("bent", ctypes.c_bool)]


def _path():
    named = os.environ.get("ISEARCH_LIBRARY")
    return pathlib.Path(named) if named else pathlib.Path(__file__).with_name("libisearch.so")


def _load():
    path = _path()
    if not path.exists():
        raise MissingLibrary(
            f"{path} is not there. Build it once, where the toolchain is: run `bindings/python/build` in the repository, or name a "
            "library that is built elsewhere in the environment variable ISEARCH_LIBRARY."
        )
    library = ctypes.CDLL(str(path))
    slot, settings, size, at = ctypes.POINTER(Slot), ctypes.POINTER(Settings), ctypes.c_size_t, ctypes.c_void_p
    count, u32, u64 = ctypes.POINTER(ctypes.c_size_t), ctypes.c_uint32, ctypes.c_uint64
    calls = {
        "build": [slot, at, size, settings],
        "nearest": [slot, at, size, u32, at, size, at, size],
        "within": [slot, at, size, u64, at, size, at, size, count],
        "windows": [at, size, at, size, settings, u32, u32, at, size, at, size],
        "save": [slot, at, size, count],
        "load": [slot, at, size, u32, at, size],
        "share": [slot, slot],
        "free": [slot],
    }
    for name, types in calls.items():
        call = getattr(library, "isearch_" + name)
        call.argtypes, call.restype = types, None if name == "free" else ctypes.c_int32
    return library


_loaded = None


def library():
    """The library, loaded at the first use."""
    global _loaded
    if _loaded is None:
        _loaded = _load()
    return _loaded


def tell(status):
    """Raises what a status means, where it is not 0."""
    if status == DONE:
        return
    if status == NO_MEMORY:
        raise MemoryError(MEANINGS[status])
    raise ValueError(MEANINGS.get(status, f"status {status}"))
