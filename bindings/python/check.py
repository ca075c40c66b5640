"""Compares the package with numpy's plain answer on every kind of data, tries each refusal, and prints how long a search takes beside others.

It ends with 0 where all hold. A ratio is that of one thread's time: above 1 the index was faster.
"""

import os
import subprocess
import sys
import tempfile
import threading
import time

import numpy as np

import isearch

draw = np.random.default_rng(5)


def fitted(rows):
    """As loud as fits 16 bits."""
    return np.rint(rows * (32000 / np.abs(rows).max())).astype(np.int16)


def filtered(noise, pitch, damping):
    """Noise through a filter of the second order."""
    out = np.zeros_like(noise)
    a, b = 2 * damping * np.cos(pitch), -damping * damping
    for i in range(noise.shape[1]):
        out[:, i] = noise[:, i] + (a * out[:, i - 1] if i > 0 else 0) + (b * out[:, i - 2] if i > 1 else 0)
    return out


def noise(count, length):
    return draw.standard_normal((count, length))


def tremor(count, length):
    onset, loud, decay = draw.integers(0, length, (count, 1)), np.exp(draw.uniform(0, np.log(30), (count, 1))), draw.uniform(20, 120, (count, 1))
    since = np.arange(length) - onset
    shaken = noise(count, length) * (1 + loud * np.exp(-since / decay) * (since >= 0))
    return filtered(filtered(shaken, 1.0, 0.9), 1.5, 0.9)


KINDS = {
    "walks": lambda count, length: fitted(np.cumsum(noise(count, length), axis=1)),
    "noise": lambda count, length: fitted(noise(count, length)),
    "resonances": lambda count, length: fitted(filtered(noise(count, length), 1.0, 0.97)),
    "shrill ones": lambda count, length: fitted(filtered(noise(count, length), 2.6, 0.97)),
    "tremor": lambda count, length: fitted(tremor(count, length)),
    "equal rows": lambda count, length: np.full((count, length), 7, np.int16),
}


def plain(rows, query):
    """All pairs, nearer ones first, of two as near the one with the smaller number."""
    difference = rows.astype(np.int64) - query
    distances = (difference * difference).sum(axis=1).astype(np.uint64)
    order = np.lexsort((np.arange(len(rows)), distances))
    return distances[order], order.astype(np.uint32)


def same(what, found, wanted):
    for name, got, want in zip(("distances", "numbers"), found, wanted):
        if got.dtype != want.dtype or got.shape != want.shape or not (got == want).all():
            raise SystemExit(f"{what}: other {name}\n{got}\n{want}")


def compare(kind, make, count, length, k):
    data = make(count + 12, length)
    rows, queries = data[:count].copy(), data[count:].copy()
    wanted = [plain(rows, query) for query in queries]
    nearest = np.stack([d[:k] for d, _ in wanted]), np.stack([n[:k] for _, n in wanted])
    with isearch.Index(rows) as index:
        for threads in (1, 4):
            same(f"{kind}, {threads} threads", index.search(queries, k, threads=threads), nearest)
        radius = int(wanted[0][0][min(40, count - 1)])
        inside = int((wanted[0][0] <= np.uint64(radius)).sum())
        same(f"{kind}, within", index.within(queries[0], radius), (wanted[0][0][:inside], wanted[0][1][:inside]))
    few = isearch.Index(rows[:3])
    distances, numbers = few.search(queries[0], 5)
    assert (distances[0, 3:] == isearch.NO_DISTANCE).all() and (numbers[0, 3:] == isearch.NO_NUMBER).all(), kind


def refused(error, words, call, *args, **named):
    try:
        call(*args, **named)
    except error as told:
        assert words in str(told), (words, str(told))
        return
    raise SystemExit(f"{call.__name__}: no {error.__name__} ({words})")


def refusals():
    rows = KINDS["walks"](300, 32)
    index = isearch.Index(rows)
    refused(TypeError, "isearch.scaled", isearch.Index, rows.astype(float))
    refused(TypeError, "int16", isearch.Index, rows.astype(np.int32))
    refused(ValueError, "gaps", isearch.Index, rows[:, ::2])
    refused(ValueError, "even addresses", isearch.Index, np.frombuffer(b" " + rows.tobytes(), np.uint8)[1:].view(np.int16).reshape(rows.shape))
    refused(ValueError, "dimensions", isearch.Index, rows[0])
    refused(ValueError, "rows", isearch.Index, rows[:0].copy())
    refused(ValueError, "segments", isearch.Index, rows, segments=17)
    refused(ValueError, "leaf", isearch.Index, rows, leaf=0)
    refused(TypeError, "whole number", index.search, rows[:1], k=1.5)
    refused(ValueError, "k is 0", index.search, rows[:1], k=0)
    refused(ValueError, "k is 1025", index.search, rows[:1], k=1025)
    refused(ValueError, "values a query", index.search, rows[:1, :31].copy())
    refused(ValueError, "gaps", index.search, rows[:4, ::-1])
    index.close()
    refused(ValueError, "closed", index.search, rows[:1])
    index.close()
    values, scale = isearch.scaled(np.linspace(-1, 1, 64).reshape(2, 32))
    assert values.dtype == np.int16 and abs(int(values.max())) == 32767 and scale == 32767


def saved():
    """An index that was saved and loaded answers as before, and saves the same; a file that is not of these rows is refused."""
    rows = KINDS["walks"](500, 32)
    queries = (rows[::50] + np.int16(3)).copy()
    with tempfile.TemporaryDirectory() as folder:
        path, again = os.path.join(folder, "index"), os.path.join(folder, "again")
        for settings in ({}, {"segments": 7, "leaf": 3, "bent": False}):
            with isearch.Index(rows, **settings) as index:
                index.save(path)
                wanted = index.search(queries, 4)
            with isearch.Index.load(rows, path) as index:
                same("loaded", index.search(queries, 4, threads=3), wanted)
                same("loaded, within", index.within(queries[0], 10**6), isearch.Index(rows).within(queries[0], 10**6))
                index.save(again)
            with open(path, "rb") as first, open(again, "rb") as second:
                assert first.read() == second.read(), "saved again, another text"
        refused(ValueError, "closed", index.save, again)
        refused(ValueError, "not one of these rows", isearch.Index.load, rows[:499], path)
        refused(ValueError, "not one of these rows", isearch.Index.load, rows[:, :31].copy(), path)
        refused(ValueError, "not one of these rows", isearch.Index.load, rows[::-1].copy(), path)
        refused(TypeError, "int16", isearch.Index.load, rows.astype(float), path)
        refused(ValueError, "gaps", isearch.Index.load, rows[:, ::2], path)
        refused(FileNotFoundError, "absent", isearch.Index.load, rows, os.path.join(folder, "absent"))
        refused(FileNotFoundError, "absent", isearch.Index(rows).save, os.path.join(folder, "absent", "index"))
        for end in (0, 23, 100, -1):
            with open(path, "rb") as whole, open(again, "wb") as part:
                part.write(whole.read()[:end])
            refused(ValueError, "no saved index", isearch.Index.load, rows, again)


def shared():
    """Searches from many threads while the index is closed: each is right or told that it is closed."""
    data = KINDS["walks"](2100, 64)
    rows, queries = data[:2000].copy(), data[2000:].copy()
    index, wrong = isearch.Index(rows), []
    wanted = index.search(queries, 3)

    def ask():
        try:
            for _ in range(20):
                same("threads", index.search(queries, 3), wanted)
        except ValueError:
            pass
        except BaseException as told:
            wrong.append(told)

    team = [threading.Thread(target=ask) for _ in range(6)]
    for one in team:
        one.start()
    time.sleep(0.05)
    index.close()
    for one in team:
        one.join()
    assert not wrong, wrong


def windows():
    series = KINDS["walks"](1, 3000)[0].copy()
    queries = np.stack([series[i : i + 24] for i in (100, 900)]) + np.int16(3)
    rows = np.lib.stride_tricks.sliding_window_view(series, 24)
    distances, numbers = isearch.Index.windows(series, queries, k=4, apart=12)
    for i, query in enumerate(queries):
        chosen = []
        for distance, number in zip(*plain(rows, query)):
            if len(chosen) < 4 and all(abs(int(number) - n) >= 12 for _, n in chosen):
                chosen.append((int(distance), int(number)))
        assert list(zip(distances[i].tolist(), numbers[i].tolist())) == chosen, i


def program():
    """The program's text of the same search, and its index of the same rows, where the program is there."""
    path = os.environ.get("ISEARCH", "")
    if not os.path.exists(path):
        print("passed over: the program's text, since isearch is not here")
        return
    data = KINDS["walks"](1010, 48)
    rows, queries = data[:1000].copy(), data[1000:].copy()
    with tempfile.TemporaryDirectory() as folder:
        rows.tofile(os.path.join(folder, "rows")), queries.tofile(os.path.join(folder, "queries"))
        text = subprocess.run(
            [path, "nearest", "rows", "queries", "--raw", "48", "--k", "5"], cwd=folder, check=True, capture_output=True, text=True
        ).stdout
        isearch.Index(rows, segments=9, leaf=20).save(os.path.join(folder, "index"))
        words = [path, "save", "rows", "--raw", "48", "--segments", "9", "--leaf", "20", "--breaks", "bent"]
        index = subprocess.run(words, cwd=folder, check=True, capture_output=True).stdout
        with open(os.path.join(folder, "index"), "rb") as file:
            assert file.read() == index, "another index than the program's"
    lines = []
    for i, (distances, numbers) in enumerate(zip(*isearch.Index(rows).search(queries, 5))):
        lines += [f"query {i}"] + [f"{rank + 1} {n} {d}" for rank, (d, n) in enumerate(zip(distances, numbers))]
    assert text == "\n".join(lines) + "\n", "another text than the program's"


def least(call, rounds=3):
    times = []
    for _ in range(rounds):
        begin = time.perf_counter()
        call()
        times.append(time.perf_counter() - begin)
    return min(times)


def times():
    data = KINDS["walks"](20100, 256)
    rows, queries = data[:20000].copy(), data[20000:].copy()
    index = isearch.Index(rows)
    own = least(lambda: index.search(queries, 10))
    four = least(lambda: index.search(queries, 10, threads=4))
    print(f"ratio of four threads to one: {own / four:.2f}")
    wide = rows.astype(np.float32)
    norms = (wide * wide).sum(axis=1)
    print(f"ratio to numpy: {least(lambda: [np.argpartition(norms - 2 * (wide @ q), 10)[:10] for q in queries.astype(np.float32)]) / own:.2f}")
    try:
        import faiss

        faiss.omp_set_num_threads(1)
        flat = faiss.IndexFlatL2(256)
        flat.add(wide)
        print(f"ratio to faiss flat, all queries at once: {least(lambda: flat.search(queries.astype(np.float32), 10)) / own:.2f}")
    except ImportError:
        print("passed over: faiss is not here")
    try:
        from sklearn.neighbors import NearestNeighbors

        tree = NearestNeighbors(n_neighbors=10, algorithm="ball_tree").fit(wide)
        print(f"ratio to sklearn's ball tree: {least(lambda: tree.kneighbors(queries), 1) / own:.2f}")
    except ImportError:
        print("passed over: sklearn is not here")


def main():
    for kind, make in KINDS.items():
        for count, length, k in ((900, 64, 10), (700, 256, 1), (50, 5, 7)):
            compare(kind, make, count, length, k)
    refusals()
    saved()
    shared()
    windows()
    program()
    times()
    print("all right")


if __name__ == "__main__":
    sys.exit(main())
