"""Times the flat index of faiss over values of a file, all queries at once: flat.py NAME DATA QUERIES LENGTH K THREADS."""
import sys
import time

import faiss
import numpy

name, data, asked, length, k, threads = sys.argv[1:]
faiss.omp_set_num_threads(int(threads))
rows = numpy.fromfile(data, "<i2").reshape(-1, int(length)).astype("float32")
queries = numpy.fromfile(asked, "<i2").reshape(-1, int(length)).astype("float32")
index = faiss.IndexFlatL2(int(length))
index.add(rows)
for _ in range(3):
    begin = time.perf_counter()
    distances, numbers = index.search(queries, int(k))
    micros = (time.perf_counter() - begin) * 1e6
    print(f"{name}, faiss flat by {threads}: {micros:.0f} ({int(numbers.sum())})")
