#!/usr/bin/python3
"""Searches of all series of a file for the nearest by what Debian has for Python: faiss flat, scipy's cKDTree, sklearn's ball tree.

peers.py DATA QUERIES LENGTH K PEER

PEER is flat1, flat20 or flat200 (faiss, so many queries at once), kdtree or balltree. Its one rule: one thread, and each line printed is the microseconds of the processor a query. Answers go to the file
`answers`, as isearch writes them. The trees are of the rows where LENGTH is 16 at most, else of 16 means, whose bounds leave the rows
that are measured. faiss counts in float32: of the rows that it names the exact distances are written, in their order.
"""
import os
import sys
from time import process_time

os.environ.update(OMP_NUM_THREADS="1", OPENBLAS_NUM_THREADS="1")
import numpy as np

# After so many seconds no further query is asked of a tree; they are asked in such steps, so that those asked are spread over all.
SECONDS, STRIDE = 2, 37


def squared(rows, query):
    difference = rows.astype("i8") - query
    return np.einsum("ij,ij->i", difference, difference)


def text_of(i, numbers, distances):
    order = np.lexsort((numbers, distances))
    return f"query {i}\n" + "".join(f"{r + 1} {numbers[j]} {distances[j]}\n" for r, j in enumerate(order))


def told(name, begin, count):
    print(f"{name}: {(process_time() - begin) / count * 1e6:.1f}", flush=True)


def flat(batch, rows, queries, k):
    """Queries by faiss in batches; of small batches no more than 20 or two batches, since each takes as long."""
    import faiss

    faiss.omp_set_num_threads(1)
    begin = process_time()
    index = faiss.IndexFlatL2(rows.shape[1])
    for i in range(0, len(rows), 65536):
        index.add(rows[i : i + 65536].astype("f4"))
    told("faiss flat, build", begin, 1)
    asked = queries[: max(20, 2 * batch)].astype("f4")
    begin, found = process_time(), []
    for i in range(0, len(asked), batch):
        found.extend(index.search(asked[i : i + batch], k)[1])
    told(f"faiss flat, batches of {batch}", begin, len(found))
    return [text_of(i, numbers, squared(rows[numbers], query)) for i, (numbers, query) in enumerate(zip(found, queries.astype("i8")))]


def means_of(rows, segments):
    """The means of the segments, times the root of their length: their squared distance is no more than that of the rows."""
    length = rows.shape[1] // segments
    sums = [rows[i : i + 65536].reshape(-1, segments, length).sum(axis=2, dtype="i8") for i in range(0, len(rows), 65536)]
    return np.concatenate(sums) / np.sqrt(length)


def kdtree(points):
    from scipy.spatial import cKDTree

    tree = cKDTree(points)
    return (lambda point, k: tree.query(point, k)[1]), (lambda point, radius: tree.query_ball_point(point, radius))


def balltree(points):
    from sklearn.neighbors import BallTree

    tree = BallTree(points)
    return (lambda point, k: tree.query([point], k)[1][0]), (lambda point, radius: tree.query_radius([point], radius)[0])


def by_tree(name, make, rows, queries, k):
    """All queries by a tree: the nearest in it tell a limit, and the rows within that limit are measured."""
    segments = min(16, rows.shape[1])
    name += "" if segments == rows.shape[1] else " of 16 means"
    begin = process_time()
    nearest, within = make(means_of(rows, segments))
    told(f"{name}, build", begin, 1)
    points, texts, begin = means_of(queries, segments), [], process_time()
    for i in np.arange(len(queries)) * STRIDE % len(queries):
        query = queries[i].astype("i8")
        limit = squared(rows[nearest(points[i], k)], query).max()
        numbers = np.asarray(within(points[i], np.sqrt(limit) * (1 + 1e-9) + 1e-9), "i8")
        distances = squared(rows[numbers], query)
        best = np.lexsort((numbers, distances))[:k]
        texts.append(text_of(i, numbers[best], distances[best]))
        if process_time() - begin > SECONDS:
            break
    told(name, begin, len(texts))
    return texts


def main():
    data, asked, length, k, peer = sys.argv[1:]
    rows, queries = (np.fromfile(name, "<i2").reshape(-1, int(length)) for name in (data, asked))
    if peer.startswith("flat"):
        texts = flat(int(peer[4:]), rows, queries, int(k))
    else:
        name, make = {"kdtree": ("scipy cKDTree", kdtree), "balltree": ("sklearn ball tree", balltree)}[peer]
        texts = by_tree(name, make, rows, queries, int(k))
    with open("answers", "w") as out:
        out.writelines(texts)


main()
