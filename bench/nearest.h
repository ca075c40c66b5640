// The nearest of all rows by one of the loops of scans.h, with the last distance so far as the limit: for the programs beside,
// which say first also how many nearest they ask for at the most.
#include "scans.h"

// The sum of the distances and numbers of the `rank` nearest, of two as near the one with the smaller number.
static inline uint64_t sum_nearest(scan *within, const int16_t *values, size_t rows, size_t rank, const int16_t *q) {
    uint64_t distance[MOST], number[MOST];
    size_t held = 0;
    for (size_t i = 0; i < rows; i++) {
        uint64_t d;
        uint64_t limit = held < rank ? UINT64_MAX : distance[rank - 1];
        if (!within(values + i * POINTS, q, limit, &d) || (held == rank && d == limit)) continue;
        size_t at = held < rank ? held++ : rank - 1;
        for (; at > 0 && distance[at - 1] > d; at--) {
            distance[at] = distance[at - 1];
            number[at] = number[at - 1];
        }
        distance[at] = d;
        number[at] = i;
    }
    uint64_t sum = 0;
    for (size_t r = 0; r < held; r++) sum += distance[r] + number[r];
    return sum;
}
