#!/usr/bin/python3
"""Draws each query over its nearest series, from two series files and the answers that isearch printed.

docs/plot.py DATA QUERIES ANSWERS OUT.png [--raw LENGTH] [--step STEP] [--first COUNT]

ANSWERS has what `isearch nearest` or `isearch range` wrote for DATA and QUERIES. With --raw both files have values alone, of
series of LENGTH values. With --step DATA is one long series of values alone, and ANSWERS are of `isearch windows` by that step. With
--first only the first COUNT queries are drawn. Packages (Debian): python3-matplotlib python3-numpy
"""
import argparse
import struct
import sys

import matplotlib
import numpy as np

matplotlib.use("Agg")
from matplotlib import pyplot

HEADER_BYTES = 16


def read_series(name, raw):
    """The values of a series file, as an array with a row a series."""
    content = open(name, "rb").read()
    start, length, count = 0, raw, len(content) // (2 * raw) if raw else 0
    if not raw:
        start, length, count = body_of(name, content)
    if len(content) != start + 2 * length * count:
        sys.exit(f"{name}: {len(content)} bytes, and not those of {count} series of {length} values")
    return np.frombuffer(content, "<i2", length * count, start).reshape(count, length)


def read_windows(name, length, step):
    """The windows of a long series of values alone, as an array with a row a window."""
    values = np.fromfile(name, "<i2")
    if len(values) < length:
        sys.exit(f"{name}: {len(values)} values, and not one window of {length}")
    return np.lib.stride_tricks.sliding_window_view(values, length)[::step]


def body_of(name, content):
    """Where the values of a file with a header begin, the length of a series, and the number of series."""
    if len(content) < HEADER_BYTES or content[:4] != b"ISER":
        sys.exit(f"{name}: no series file with a header; values alone need --raw LENGTH")
    version, narrow, middle, last = struct.unpack_from("<HHII", content, 4)
    if version == 1:
        return HEADER_BYTES, narrow, middle
    if version == 2:
        return HEADER_BYTES + 8 * last, middle, last
    sys.exit(f"{name}: version {version}")


def read_answers(name):
    """The answers of each query: pairs of its number and a list of rank, series, distance and, if there are labels, label."""
    found = []
    for line in open(name):
        words = line.split()
        if words[:1] == ["query"]:
            found.append((int(words[1]), []))
        elif words and words[0].isdigit():
            found[-1][1].append([int(word) for word in words])
    return found


def draw(axes, data, query, number, answers):
    """Draws one query over its answers, the nearest in the darkest colour."""
    colours = matplotlib.colormaps["viridis"](np.linspace(0.15, 0.9, max(1, len(answers))))
    for colour, (rank, series, distance, *label) in zip(colours, answers):
        text = f"{rank}: series {series}, distance {distance}" + "".join(f", label {word}" for word in label)
        axes.plot(data[series], color=colour, linewidth=1, label=text)
    axes.plot(query, color="black", linewidth=2, label=f"query {number}")
    axes.legend(fontsize="x-small", loc="best")
    axes.margins(x=0)


def main():
    parser = argparse.ArgumentParser(description=__doc__, formatter_class=argparse.RawDescriptionHelpFormatter)
    for word in ("DATA", "QUERIES", "ANSWERS", "OUT"):
        parser.add_argument(word)
    parser.add_argument("--raw", type=int, metavar="LENGTH")
    parser.add_argument("--step", type=int, metavar="STEP")
    parser.add_argument("--first", type=int, metavar="COUNT")
    words = parser.parse_args()
    queries = read_series(words.QUERIES, words.raw)
    data = read_windows(words.DATA, queries.shape[1], words.step) if words.step else read_series(words.DATA, words.raw)
    found = read_answers(words.ANSWERS)[: words.first]
    if not found:
        sys.exit(f"{words.ANSWERS}: no line begins with 'query'")
    figure, panels = pyplot.subplots(len(found), squeeze=False, figsize=(8, 3 * len(found)), layout="constrained")
    for axes, (number, answers) in zip(panels[:, 0], found):
        draw(axes, data, queries[number], number, answers)
    figure.savefig(words.OUT, dpi=80)


main()
