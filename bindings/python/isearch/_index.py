"""An index over rows of a numpy array. Its rules: a handle of the library is in one call at a time, so each thread takes one of a pool; and
the library is given no array whose type and whose layout were not looked at, or that was not made here."""

import concurrent.futures
import ctypes
import threading

import numpy as np

from ._library import NO_INDEX, PLACES, Settings, Slot, library, tell

NO_DISTANCE = np.uint64(2**64 - 1)
"""What stands at a place for which there is no row."""

NO_NUMBER = np.uint32(2**32 - 1)
"""What stands at a place for which there is no row."""

_INT16 = np.dtype(np.int16)

RECIPE = (
    "values are 16-bit whole numbers (numpy.int16). Floats are made so by one scale for rows and queries alike, as "
    "isearch.scaled(rows) does: numpy.rint(rows * scale).astype(numpy.int16) with scale = 32767 / numpy.abs(rows).max(); "
    "a distance is then scale * scale times that of the floats, but for rounding"
)


def scaled(rows, scale=None):
    """Floats as 16-bit whole numbers, and the scale: `(values, scale)`.

    rows: an array of finite floats, of any shape. scale: that of the rows that queries are made for; by default the one by which the
    greatest absolute value becomes 32767. ValueError where a value is not finite, or does not fit at that scale.
    """
    rows = np.asarray(rows, dtype=np.float64)
    if not np.isfinite(rows).all():
        raise ValueError("a value is not finite")
    most = float(np.abs(rows).max()) if rows.size else 0.0
    if scale is None:
        scale = 32767 / most if most else 1.0
    values = np.rint(rows * scale)
    if rows.size and (values.max() > 32767 or values.min() < -32768):
        raise ValueError("a value does not fit 16 bits at this scale")
    return values.astype(np.int16), scale


def _whole(name, array, dimensions):
    """The array as it lies, where it is one of 16-bit values with so many dimensions and no gaps."""
    array = np.asarray(array)
    if array.dtype != _INT16:
        raise TypeError(f"{name}: {array.dtype} is not int16; {RECIPE}")
    if array.ndim not in dimensions:
        raise ValueError(f"{name}: an array of {array.ndim} dimensions; wanted {' or '.join(map(str, dimensions))}")
    if not array.flags.c_contiguous:
        raise ValueError(f"{name}: the array has gaps or another order; numpy.ascontiguousarray({name}) copies it without")
    if not array.flags.aligned:
        raise ValueError(f"{name}: values do not begin at even addresses; {name}.copy() does")
    return array


def _whole_number(name, value, low, high):
    """The value as a plain int from low to high."""
    try:
        number = value.__index__()
    except AttributeError:
        raise TypeError(f"{name} is a whole number") from None
    if not low <= number <= high:
        raise ValueError(f"{name} is {number}; wanted {low} to {high}")
    return number


def _settings(length, segments, leaf, bent):
    return Settings(
        _whole_number("the length of a row", length, 1, 65536),
        _whole_number("segments", segments, 1, 16),
        _whole_number("leaf", leaf, 1, 65535),
        bool(bent),
    )


class _Pool:
    """Handles of one index, each in one call at a time. The spare is in no call: another is shared from it where none is free."""

    def __init__(self, spare):
        self._spare, self._free, self._lock, self._open = spare, [], threading.Lock(), True

    def take(self):
        """A handle that is in no call. It is to be given back."""
        with self._lock:
            if not self._open:
                tell(NO_INDEX)
            if self._free:
                return self._free.pop()
            slot = Slot()
            tell(library().isearch_share(ctypes.byref(self._spare), ctypes.byref(slot)))
            return slot

    def give(self, slot):
        """Gives a handle back."""
        with self._lock:
            if self._open:
                self._free.append(slot)
            else:
                library().isearch_free(ctypes.byref(slot))

    def call(self, name, *words):
        """The status of a call by a handle of the pool."""
        slot = self.take()
        try:
            return getattr(library(), name)(ctypes.byref(slot), *words)
        finally:
            self.give(slot)

    def close(self):
        """Frees the handles that are in no call; each other one is freed when it is given back."""
        with self._lock:
            self._open = False
            for slot in [*self._free, self._spare]:
                library().isearch_free(ctypes.byref(slot))
            self._free.clear()


class Index:
    """An index over rows: exact searches for the nearest.

    rows: int16 of shape (count, length), without gaps; 1 to 16777216 rows of 1 to 65536 values, at most 134217728 values in all. They are
    copied once. segments: into how many a row is cut, 1 to 16; 16 means the length where that is less. leaf: the most rows of a leaf that
    can still be divided, 1 to 65535. bent: whether breakpoints lie closer the nearer they are to 0, as serves most data.

    TypeError where rows are of another type, ValueError where a number or a shape does not serve, MemoryError where memory runs out.
    Use it in a `with`, or call `close`; it is also closed when nothing refers to it any more.
    """

    def __init__(self, rows, segments=16, leaf=128, bent=True):
        rows = _whole("rows", rows, (2,))
        length = rows.shape[1]
        settings = _settings(length, min(16, length) if segments == 16 else segments, leaf, bent)
        spare = Slot()
        tell(library().isearch_build(ctypes.byref(spare), rows.ctypes.data, rows.size, ctypes.byref(settings)))
        self._keep(spare, rows)

    def _keep(self, spare, rows):
        self._pool, self._count, self._length = _Pool(spare), rows.shape[0], rows.shape[1]

    def save(self, path):
        """Writes the index without its rows to a file, some 5 bytes a row, which `Index.load` takes beside the same rows.

        path: where the file is to lie; what is there is written over. It is the file that the program's `isearch save` writes of the same
        rows, segments, leaf and breakpoints, and that its `--index` takes. OSError where the file cannot be written.
        """
        found, status = ctypes.c_size_t(8 * self._count + 65536), PLACES
        while status == PLACES:
            text = np.empty(found.value, np.uint8)
            status = self._pool.call("isearch_save", text.ctypes.data, text.size, ctypes.byref(found))
        tell(status)
        with open(path, "wb") as file:
            file.write(memoryview(text[: found.value]))

    @classmethod
    def load(cls, rows, path):
        """The index of a file that `save` wrote, over the rows that it was saved of; it takes about four fifths of the time of building.

        rows: int16 of shape (count, length), without gaps, as for `Index`; they are copied once. The file tells segments, leaf and
        breakpoints. Nothing of it is believed, so each row is tested: ValueError where it is no saved index, or one of other lengths or
        counts, or where a row does not lie where it says. A row that changed since, so little that it lies there still, is searched as it is
        now. OSError where the file cannot be read; other errors as of `Index`.
        """
        rows = _whole("rows", rows, (2,))
        length = _whole_number("the length of a row", rows.shape[1], 1, 65536)
        text = np.fromfile(path, np.uint8)
        spare = Slot()
        tell(library().isearch_load(ctypes.byref(spare), rows.ctypes.data, rows.size, length, text.ctypes.data, text.size))
        index = cls.__new__(cls)
        index._keep(spare, rows)
        return index

    def search(self, queries, k=1, threads=1):
        """The k nearest rows to each query: `(distances, numbers)`, uint64 and uint32 of shape (queries, k).

        queries: int16 of shape (queries, length), or (length,) for one. Distances are squared; nearer rows come first, of two as near the
        one with the smaller number. Where there are fewer than k rows, the places that are left have NO_DISTANCE and NO_NUMBER. k: 1 to
        1024. threads: how many threads of this process answer, each some of the queries.
        """
        queries = self._queries("queries", queries)
        k, threads = _whole_number("k", k, 1, 1024), _whole_number("threads", threads, 1, 1024)
        distances, numbers = np.empty((len(queries), k), np.uint64), np.empty((len(queries), k), np.uint32)
        if threads == 1 or len(queries) < 2:
            self._answer(queries, k, distances, numbers)
        else:
            self._answer_by(threads, queries, k, distances, numbers)
        return distances, numbers

    def _answer(self, queries, k, distances, numbers):
        words = distances.ctypes.data, distances.size, numbers.ctypes.data, numbers.size
        tell(self._pool.call("isearch_nearest", queries.ctypes.data, queries.size, k, *words))

    def _answer_by(self, threads, queries, k, distances, numbers):
        step = -(-len(queries) // (4 * threads))
        parts = [slice(first, first + step) for first in range(0, len(queries), step)]
        with concurrent.futures.ThreadPoolExecutor(threads) as team:
            for done in [team.submit(self._answer, queries[part], k, distances[part], numbers[part]) for part in parts]:
                done.result()

    def within(self, query, radius):
        """All rows whose squared distance to the query is at most the radius: `(distances, numbers)`, uint64 and uint32 of shape (found,).

        query: int16 of shape (length,). radius: a whole number from 0, squared as distances are. Nearer rows come first.
        """
        query = _whole("query", query, (1,))
        if query.size != self._length:
            raise ValueError(f"query: {query.size} values; a row has {self._length}")
        radius = _whole_number("radius", radius, 0, 2**64 - 1)
        found, status = ctypes.c_size_t(64), PLACES
        while status == PLACES:
            distances, numbers = np.empty(found.value, np.uint64), np.empty(found.value, np.uint32)
            words = distances.ctypes.data, distances.size, numbers.ctypes.data, numbers.size, ctypes.byref(found)
            status = self._pool.call("isearch_within", query.ctypes.data, query.size, radius, *words)
        tell(status)
        return distances[: found.value].copy(), numbers[: found.value].copy()

    @staticmethod
    def windows(series, queries, k=1, apart=1, segments=16, leaf=128, bent=True):
        """The k windows of one long series that are nearest to each query and begin at least `apart` values from one another.

        series: int16 of shape (values,), at most 16777216; its windows are all stretches as long as a query, and none is copied. queries:
        int16 of shape (queries, length), or (length,) for one. Returns `(distances, numbers)` of shape (queries, k); a number is the place
        where the window begins. apart: 1 to 512, where (k - 1) * (2 * apart - 1) + 1 is at most 1024. The other settings as for `Index`.
        The index of the windows is built for this call: give all queries of one length together.
        """
        series = _whole("series", series, (1,))
        queries = np.atleast_2d(_whole("queries", queries, (1, 2)))
        length = queries.shape[1]
        k, apart = _whole_number("k", k, 1, 1024), _whole_number("apart", apart, 1, 512)
        settings = _settings(length, min(16, length) if segments == 16 else segments, leaf, bent)
        distances, numbers = np.empty((len(queries), k), np.uint64), np.empty((len(queries), k), np.uint32)
        asked = series.ctypes.data, series.size, queries.ctypes.data, queries.size, ctypes.byref(settings), k, apart
        tell(library().isearch_windows(*asked, distances.ctypes.data, distances.size, numbers.ctypes.data, numbers.size))
        return distances, numbers

    def _queries(self, name, queries):
        queries = _whole(name, queries, (1, 2))
        if queries.ndim == 1:
            queries = queries[None]
        if queries.shape[1] != self._length:
            raise ValueError(f"{name}: {queries.shape[1]} values a query; a row has {self._length}")
        return queries

    def close(self):
        """Frees the index, once calls of other threads are done with it. After that a search is a ValueError."""
        self._pool.close()

    def __len__(self):
        """How many rows there are."""
        return self._count

    @property
    def length(self):
        """How many values a row has."""
        return self._length

    def __enter__(self):
        return self

    def __exit__(self, *what):
        self.close()

    def __del__(self):
        if hasattr(self, "_pool"):
            self.close()
