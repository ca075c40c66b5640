// Scans of all series of a file in plain C for the nearest, with the last distance so far as the limit: the strongest that we
// know, and the plain one by blocks. baseline NAME DATA QUERIES K prints microseconds over all queries, and a checksum.
enum { ROUNDS = 3, MOST = 1024 };
#include <string.h>
#ifndef POINTS
#define POINTS 256
#endif
#if POINTS < 32
#define BLOCK POINTS
#else
#define BLOCK 32
#endif
#include "../nearest.h"

static size_t rows, count, rank;

static int16_t *values_of(const char *name, size_t *series) {
    FILE *f = fopen(name, "rb");
    if (!f) exit(1);
    fseek(f, 0, SEEK_END);
    *series = (size_t)ftell(f) / 2 / POINTS;
    rewind(f);
    int16_t *values = room_for(*series);
    if (!values || fread(values, 2 * POINTS, *series, f) != *series) exit(1);
    fclose(f);
    return values;
}

static void time_scan(const char *name, const char *how, scan *within, const int16_t *values, const int16_t *queries) {
    for (int round = 0; round < ROUNDS; round++) {
        uint64_t check = 0;
        double begin = now();
        for (size_t j = 0; j < count; j++) check += sum_nearest(within, values, rows, rank, queries + j * POINTS);
        printf("%s, C %s: %.0f (%llu)\n", name, how, now() - begin, (unsigned long long)check);
    }
}

int main(int words, char **word) {
    if (words != 5) return 2;
    rank = strtoul(word[4], 0, 10);
    if (rank < 1 || rank > MOST) return 2;
    int16_t *values = values_of(word[2], &rows), *queries = values_of(word[3], &count);
    time_scan(word[1], "by blocks", in_blocks, values, queries);
#if POINTS >= 32
    sample_lines();
    time_scan(word[1], "AVX2 in sampled order", in_sampled_order, values, queries);
#endif
    return 0;
}
