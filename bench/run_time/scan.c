// A whole run in plain C: reads a file of series by fread, and scans it for the nearest of each query, with the last distance so far as
// the limit, in the strongest order that we know. scan DATA QUERIES K prints a line a query: the sum of what it found.
enum { MOST = 1024 };
#include <string.h>
#ifndef POINTS
#define POINTS 256
#endif
#if POINTS < 32
#define BLOCK POINTS
#else
#define BLOCK 32
#endif
#include "../nearest.h"

// All series of a file, in large pages unless SMALL_PAGES is set.
static int16_t *values_of(const char *name, size_t *series) {
    FILE *f = fopen(name, "rb");
    if (!f) exit(1);
    fseek(f, 0, SEEK_END);
    *series = (size_t)ftell(f) / 2 / POINTS;
    rewind(f);
    int16_t *values = getenv("SMALL_PAGES") ? malloc(2 * POINTS * *series) : room_for(*series);
    if (!values || fread(values, 2 * POINTS, *series, f) != *series) exit(1);
    fclose(f);
    return values;
}

int main(int words, char **word) {
    if (words != 4) return 2;
    size_t rows, count, rank = strtoul(word[3], 0, 10);
    if (rank < 1 || rank > MOST) return 2;
    int16_t *values = values_of(word[1], &rows), *queries = values_of(word[2], &count);
    scan *within = in_blocks;
#if POINTS >= 32
    sample_lines();
    within = in_sampled_order;
#endif
    for (size_t j = 0; j < count; j++)
        printf("%llu\n", (unsigned long long)sum_nearest(within, values, rows, rank, queries + j * POINTS));
    return 0;
}
