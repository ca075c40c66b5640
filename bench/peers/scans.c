// Scans of all series of a file in plain C for the nearest: one query after another, and in batches whose queries share each block of
// rows while it is near the processor. scans DATA QUERIES K BATCH.. prints for each batch and loop the microseconds a query, of which the
// least counts, and writes answers to the file `answers`, as isearch writes them. At least 40 queries are asked, spread over all. Its one
// rule: what is given up is farther than the last so far.
enum { MOST = 64, TILE_BYTES = 16384, FEWEST = 40 };
#include <string.h>
#ifndef POINTS
#define POINTS 256
#endif
#if POINTS < 32
#define BLOCK POINTS
#else
#define BLOCK 32
#endif
#include "../scans.h"

#if POINTS >= 32
static inline uint64_t sum_of_sums(__m256i sums) {
    __m128i two = _mm_add_epi64(_mm256_castsi256_si128(sums), _mm256_extracti128_si256(sums, 1));
    return (uint64_t)_mm_extract_epi64(two, 0) + (uint64_t)_mm_extract_epi64(two, 1);
}

// The scan in sampled order, but that the sum is tested behind 1, 2, 4 .. lines only: in a batch no row waits for memory, so tests cost.
static inline int in_growing_steps(const int16_t *x, const int16_t *q, uint64_t limit, uint64_t *found) {
    __m256i sums = _mm256_setzero_si256(), zero = _mm256_setzero_si256();
    for (size_t l = 0, to = 1; l < POINTS / 32; to *= 2) {
        for (; l < to; l++) {
            __m256i parts = quarter_of_line(x + sampled_lines[l], q + sampled_lines[l]);
            sums = _mm256_add_epi64(sums, _mm256_add_epi64(_mm256_unpacklo_epi32(parts, zero), _mm256_unpackhi_epi32(parts, zero)));
        }
        if (4 * sum_of_sums(sums) > limit) return 0;
    }
    return in_blocks(x, q, limit, found);
}

// The squared differences of 16 values, added up in four parts. A difference is held in 16 bits without a sign.
static inline __m256i squares_of(const int16_t *x, const int16_t *q) {
    __m256i a = _mm256_loadu_si256((const void *)x), b = _mm256_loadu_si256((const void *)q), low = _mm256_set1_epi64x(0xffffffff);
    __m256i d = _mm256_sub_epi16(_mm256_max_epi16(a, b), _mm256_min_epi16(a, b));
    __m256i l = _mm256_mullo_epi16(d, d), h = _mm256_mulhi_epu16(d, d);
    __m256i one = _mm256_unpacklo_epi16(l, h), two = _mm256_unpackhi_epi16(l, h);
    __m256i even = _mm256_add_epi64(_mm256_and_si256(one, low), _mm256_and_si256(two, low));
    return _mm256_add_epi64(even, _mm256_add_epi64(_mm256_srli_epi64(one, 32), _mm256_srli_epi64(two, 32)));
}

// The distance itself in such steps, for values all over the range, whose differences do not fit 16 bits with a sign.
static inline int in_whole_squares(const int16_t *x, const int16_t *q, uint64_t limit, uint64_t *found) {
    __m256i sums = _mm256_setzero_si256();
    for (size_t l = 0, to = 1; l < POINTS / 32; to *= 2) {
        for (; l < to; l++) {
            size_t at = sampled_lines[l];
            sums = _mm256_add_epi64(sums, _mm256_add_epi64(squares_of(x + at, q + at), squares_of(x + at + 16, q + at + 16)));
        }
        *found = sum_of_sums(sums);
        if (*found > limit) return 0;
    }
    return 1;
}
#endif

// The processor's time of this program in microseconds, so that work beside it counts little.
static double worked(void) {
    struct timespec t;
    clock_gettime(CLOCK_PROCESS_CPUTIME_ID, &t);
    return t.tv_sec * 1e6 + t.tv_nsec / 1e3;
}

typedef struct {
    uint64_t distance[MOST], number[MOST];
    size_t held;
} best;

static int16_t *values_of(const char *name, size_t *series) {
    FILE *f = fopen(name, "rb");
    if (!f) exit(1);
    fseek(f, 0, SEEK_END);
    *series = (size_t)ftell(f) / 2 / POINTS;
    rewind(f);
    int16_t *values = room_for(*series);
    if (!values || fread(values, 2 * POINTS, *series, f) != *series) exit(1);
    fclose(f);
    return values;
}

// Offers a row to the list of the `rank` nearest: of two as near the one with the smaller number stands first.
static inline __attribute__((always_inline)) void offer(scan *within, best *list, size_t rank, const int16_t *row, size_t number, const int16_t *query) {
    uint64_t d, limit = list->held < rank ? UINT64_MAX : list->distance[rank - 1];
    if (!within(row, query, limit, &d) || (list->held == rank && d == limit)) return;
    size_t at = list->held < rank ? list->held++ : rank - 1;
    for (; at > 0 && list->distance[at - 1] > d; at--) {
        list->distance[at] = list->distance[at - 1];
        list->number[at] = list->number[at - 1];
    }
    list->distance[at] = d;
    list->number[at] = number;
}

static inline __attribute__((always_inline)) void search(
    scan *within, best *lists, size_t rank, const int16_t *values, size_t rows, const int16_t *queries, size_t count) {
    size_t tile = count == 1 ? rows : TILE_BYTES / (2 * POINTS);
    for (size_t from = 0; from < rows; from += tile) {
        size_t to = from + tile < rows ? from + tile : rows;
        for (size_t j = 0; j < count; j++)
            for (size_t i = from; i < to; i++) offer(within, &lists[j], rank, values + i * POINTS, i, queries + j * POINTS);
    }
}

// Times all queries in batches, by one of the loops.
static inline __attribute__((always_inline)) void time_batches(
    scan *within, best *lists, size_t rank, const int16_t *values, size_t rows, const int16_t *queries, size_t count, size_t batch) {
    for (size_t j = 0; j < count; j++) lists[j].held = 0;
    double begin = worked();
    for (size_t at = 0; at < count; at += batch)
        search(within, lists + at, rank, values, rows, queries + at * POINTS, at + batch < count ? batch : count - at);
    printf("C scan, batches of %zu: %.1f\n", batch, (worked() - begin) / (double)count);
}

static void written(const best *lists, size_t count, size_t stride) {
    FILE *f = fopen("answers", "w");
    if (!f) exit(1);
    for (size_t j = 0; j < count; j++) {
        fprintf(f, "query %zu\n", j * stride);
        for (size_t r = 0; r < lists[j].held; r++)
            fprintf(f, "%zu %llu %llu\n", r + 1, (unsigned long long)lists[j].number[r], (unsigned long long)lists[j].distance[r]);
    }
    if (fclose(f)) exit(1);
}

int main(int words, char **word) {
    if (words < 5) return 2;
    size_t rows, count, rank = strtoul(word[3], 0, 10);
    if (rank < 1 || rank > MOST) return 2;
    int16_t *values = values_of(word[1], &rows), *queries = values_of(word[2], &count), *chosen = room_for(count);
    best *lists = calloc(count, sizeof(best));
    if (!lists || !chosen) return 1;
#if POINTS >= 32
    sample_lines();
#endif
    for (int w = 4; w < words; w++) {
        size_t batch = strtoul(word[w], 0, 10), most = batch > FEWEST ? batch : FEWEST;
        size_t stride = count > most ? count / most : 1, asked = count > most ? most : count;
        for (size_t j = 0; j < asked; j++) memcpy(chosen + j * POINTS, queries + j * stride * POINTS, 2 * POINTS);
#if POINTS >= 32
        time_batches(in_sampled_order, lists, rank, values, rows, chosen, asked, batch);
        time_batches(in_growing_steps, lists, rank, values, rows, chosen, asked, batch);
        time_batches(in_whole_squares, lists, rank, values, rows, chosen, asked, batch);
#else
        time_batches(in_blocks, lists, rank, values, rows, chosen, asked, batch);
#endif
        written(lists, asked, stride);
    }
    return 0;
}
