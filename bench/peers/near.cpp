// Searches by nanoflann's tree: near DATA QUERIES K SEGMENTS prints the microseconds a query, and writes the answers to the file
// `answers`, as isearch writes them. With as many segments as a row has values the tree is of the rows; else it is of their means, and
// each row that the means leave is measured. Its one rule: the answers are exact, by distances in whole numbers.
#include <algorithm>
#include <cmath>
#include <cstdint>
#include <cstdio>
#include <cstdlib>
#include <ctime>
#include <nanoflann.hpp>
#include <utility>
#include <vector>

#ifndef POINTS
#define POINTS 256
#endif
#ifndef SEGMENTS
#define SEGMENTS 16
#endif

// After so many seconds no further query is asked; they are asked in such steps, so that those that were asked are spread over all.
enum { SECONDS = 2, STRIDE = 37 };

struct Cloud {
    std::vector<double> values;
    size_t kdtree_get_point_count() const { return values.size() / SEGMENTS; }
    double kdtree_get_pt(size_t i, size_t j) const { return values[i * SEGMENTS + j]; }
    template <class B> bool kdtree_get_bbox(B &) const { return false; }
};
using Tree = nanoflann::KDTreeSingleIndexAdaptor<nanoflann::L2_Simple_Adaptor<double, Cloud>, Cloud, SEGMENTS, uint32_t>;
using Pair = std::pair<uint64_t, uint32_t>;

// The processor's time of this program in microseconds, so that work beside it counts little.
static double worked() { return (double)std::clock() * 1e6 / CLOCKS_PER_SEC; }

static std::vector<int16_t> values_of(const char *name) {
    FILE *f = fopen(name, "rb");
    if (!f) exit(1);
    fseek(f, 0, SEEK_END);
    std::vector<int16_t> values((size_t)ftell(f) / 2);
    rewind(f);
    if (fread(values.data(), 2, values.size(), f) != values.size()) exit(1);
    fclose(f);
    return values;
}

// The means of a row's segments, each times the root of its length: their squared distance is no more than that of the rows.
static void point_of(const int16_t *row, double *point) {
    constexpr int length = POINTS / SEGMENTS;
    for (int s = 0; s < SEGMENTS; s++) {
        int sum = 0;
        for (int i = 0; i < length; i++) sum += row[s * length + i];
        point[s] = sum / std::sqrt((double)length);
    }
}

// The squared distance, or more than the limit where it is more.
static uint64_t distance(const int16_t *x, const int16_t *q, uint64_t limit) {
    constexpr int block = POINTS < 32 ? POINTS : 32;
    uint64_t sum = 0;
    for (int i = 0; i < POINTS && sum <= limit; i += block) {
        uint64_t part = 0;
        for (int j = 0; j < block; j++) {
            int64_t d = x[i + j] - q[i + j];
            part += (uint64_t)(d * d);
        }
        sum += part;
    }
    return sum;
}

// The k smallest pairs of those numbers: their distances are measured up to the last so far.
static std::vector<Pair> nearest_of(const std::vector<uint32_t> &numbers, const int16_t *rows, const int16_t *query, size_t k) {
    std::vector<Pair> heap;
    for (uint32_t number : numbers) {
        uint64_t limit = heap.size() < k ? UINT64_MAX : heap.front().first;
        Pair pair(distance(rows + (size_t)number * POINTS, query, limit), number);
        if (heap.size() == k) {
            if (!(pair < heap.front())) continue;
            std::pop_heap(heap.begin(), heap.end());
            heap.pop_back();
        }
        heap.push_back(pair);
        std::push_heap(heap.begin(), heap.end());
    }
    std::sort_heap(heap.begin(), heap.end());
    return heap;
}

// The k nearest rows: those that are nearest by the tree tell a limit, and all within it are measured.
static std::vector<Pair> answer(const Tree &tree, const int16_t *rows, const int16_t *query, size_t k) {
    double point[SEGMENTS];
    point_of(query, point);
    std::vector<uint32_t> first(k);
    std::vector<double> far(k);
    first.resize(tree.knnSearch(point, k, first.data(), far.data()));
    double limit = (double)nearest_of(first, rows, query, k).back().first;
    std::vector<std::pair<uint32_t, double>> found;
    tree.radiusSearch(point, limit * (1 + 1e-9) + 1e-9, found, nanoflann::SearchParams(32, 0, true));
    std::vector<uint32_t> numbers;
    for (auto &pair : found) numbers.push_back(pair.first);
    return nearest_of(numbers, rows, query, k);
}

int main(int words, char **word) {
    if (words != 4) return 2;
    std::vector<int16_t> rows = values_of(word[1]), queries = values_of(word[2]);
    size_t k = strtoul(word[3], 0, 10), count = queries.size() / POINTS;
    double begin = worked();
    Cloud cloud;
    cloud.values.resize(rows.size() / POINTS * SEGMENTS);
    for (size_t i = 0; i < rows.size() / POINTS; i++) point_of(&rows[i * POINTS], &cloud.values[i * SEGMENTS]);
    Tree tree(SEGMENTS, cloud, nanoflann::KDTreeSingleIndexAdaptorParams(32));
    tree.buildIndex();
    const char *name = SEGMENTS == POINTS ? "nanoflann" : "nanoflann of 16 means";
    printf("%s, build: %.1f\n", name, worked() - begin);
    FILE *f = fopen("answers", "w");
    if (!f) return 1;
    double spent = 0;
    size_t asked = 0;
    for (; asked < count && spent < SECONDS * 1e6; asked++) {
        size_t i = asked * STRIDE % count;
        begin = worked();
        std::vector<Pair> found = answer(tree, rows.data(), &queries[i * POINTS], k);
        spent += worked() - begin;
        fprintf(f, "query %zu\n", i);
        for (size_t r = 0; r < found.size(); r++) fprintf(f, "%zu %u %llu\n", r + 1, found[r].second, (unsigned long long)found[r].first);
    }
    printf("%s: %.1f\n", name, spent / (double)asked);
    return fclose(f) != 0;
}
