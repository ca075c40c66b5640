"""A whole run by the flat index of faiss: reads a file of series, and finds the nearest of each query: flat.py DATA QUERIES LENGTH K THREADS."""
import sys

import faiss
import numpy

data, asked, length, k, threads = sys.argv[1:]
faiss.omp_set_num_threads(int(threads))
index = faiss.IndexFlatL2(int(length))
index.add(numpy.fromfile(data, "<i2").reshape(-1, int(length)).astype("float32"))
distances, numbers = index.search(numpy.fromfile(asked, "<i2").reshape(-1, int(length)).astype("float32"), int(k))
for row in numbers:
    print(*row)
