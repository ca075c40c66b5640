"""Measures the library and the package over it: speed.py PROGRAM [COUNT]. PROGRAM is ../c/speed.c, built; COUNT walks of 256 values are made.

Each number is the least of some rounds, by turns where two are compared. Nothing else should run meanwhile.
"""

import os
import subprocess
import sys
import tempfile
import time

import numpy as np

import isearch

LENGTH, QUERIES, K = 256, 200, 10

draw = np.random.default_rng(5)


def walks(count):
    """Walks by whole steps of at most 500, in 16 bits."""
    rows = np.empty((count, LENGTH), np.int16)
    for first in range(0, count, 20000):
        steps = draw.integers(-500, 501, (min(20000, count - first), LENGTH), np.int32)
        rows[first : first + len(steps)] = np.clip(np.cumsum(steps, axis=1), -32768, 32767)
    return rows


def seconds(call):
    begin = time.perf_counter()
    call()
    return time.perf_counter() - begin


def least(call, rounds=3):
    return min(seconds(call) for _ in range(rounds))


def printed(*words):
    return float(subprocess.run(words, check=True, capture_output=True, text=True).stdout)


def one_query(program, folder, count, rounds):
    """One query a call: `search` beside the call in C, which is the search by one worker and the tests of what it is given."""
    rows, queries = walks(count), walks(QUERIES)
    names = [os.path.join(folder, name) for name in ("few", "queries")]
    rows.tofile(names[0]), queries.tofile(names[1])
    in_c = printed(program, "search", names[0], str(LENGTH), names[1], str(K), str(rounds))
    with isearch.Index(rows) as index:
        own = np.mean([least(lambda: index.search(query, K), rounds) for query in queries]) * 1e6
    print(f"one query over {count} walks: {own:.1f} microseconds, {own - in_c:.1f} more than in C (wanted: at most 20)")


def by_threads(index, queries):
    """All queries by one thread and by four, by turns."""
    rounds = [[seconds(lambda: index.search(queries, K, threads=threads)) for threads in (1, 4)] for _ in range(5)]
    one, four = (min(times) for times in zip(*rounds))
    print(f"{len(queries)} queries: {one:.3f} seconds by one thread, {four:.3f} by four, a share of {four / one:.2f} (wanted: at most 0.33)")
    return one


def building(program, path):
    """Reading, building and writing an index, by the library and by the program; and building alone."""
    words = [program, "save", path, str(LENGTH)]
    run = lambda words: subprocess.run(words, check=True, stdout=subprocess.DEVNULL)
    print(f"building alone: {printed(program, 'build', path, str(LENGTH)):.2f} seconds")
    other = os.environ.get("ISEARCH", "")
    if not os.path.exists(other):
        print("passed over: the program's build, since isearch is not here")
        return
    theirs = [other, "save", path, "--raw", str(LENGTH), "--workers", "1", "--breaks", "bent", "--leaf", "128"]
    rounds = [[seconds(lambda: run(words)), seconds(lambda: run(theirs))] for _ in range(3)]
    own, program_s = (min(times) for times in zip(*rounds))
    print(f"read, built, written: {own:.2f} seconds, the program {program_s:.2f}, a share of {own / program_s:.2f} (wanted: at most 1.1)")


def peers(rows, queries, own):
    """What else answers from Python, by one thread: faiss flat over all rows, sklearn's ball tree over a tenth of them."""
    wide, asked = rows.astype(np.float32), queries.astype(np.float32)
    try:
        import faiss

        faiss.omp_set_num_threads(1)
        flat = faiss.IndexFlatL2(LENGTH)
        flat.add(wide)
        one_by_one = least(lambda: [flat.search(query[None], K) for query in asked[:40]], 2) * len(asked) / 40
        together = least(lambda: flat.search(asked, K), 2)
        print(f"faiss flat: {one_by_one / own:.1f} times as long, one query a call; {together / own:.1f} times, all together")
    except ImportError:
        print("passed over: faiss is not here")
    try:
        from sklearn.neighbors import NearestNeighbors

        few = len(rows) // 10
        tree = NearestNeighbors(n_neighbors=K, algorithm="ball_tree").fit(wide[:few])
        with isearch.Index(rows[:few]) as index:
            ours = least(lambda: index.search(queries, K))
        print(f"sklearn's ball tree over {few} walks: {seconds(lambda: tree.kneighbors(asked)) / ours:.1f} times as long")
    except ImportError:
        print("passed over: sklearn is not here")


def main(program, count=500000):
    with tempfile.TemporaryDirectory() as folder:
        one_query(program, folder, 1000, 50)
        rows, queries = walks(count), walks(QUERIES)
        path = os.path.join(folder, "rows")
        rows.tofile(path)
        building(program, path)
        with isearch.Index(rows) as index:
            own = by_threads(index, queries)
        peers(rows, queries, own)


if __name__ == "__main__":
    main(sys.argv[1], *map(int, sys.argv[2:]))
