"""The nearest data series, exactly: searches over numpy arrays of 16-bit values.

An `Index` is built of rows once and then searched, by as many threads as are asked. Distances are squared Euclidean distances, whole and
exact. Values that are no 16-bit whole numbers are refused: `isearch.scaled` is one way to make them so.
"""

from ._index import NO_DISTANCE, NO_NUMBER, Index, scaled
from ._library import MissingLibrary

__all__ = ["Index", "MissingLibrary", "NO_DISTANCE", "NO_NUMBER", "scaled"]
