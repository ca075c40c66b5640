// Scans of all walks in plain C with the radius of each query as the limit: tested at each value, once a
// block of 64 values, and by lanes in a sampled order. The radius is the distance of the tenth nearest walk. Prints for each the microseconds over all queries,
// and a checksum.
enum { ROWS = 100000, POINTS = 1024, QUERIES = 10, ROUNDS = 3, BLOCK = 64, RANK = 10 };

#include "../scans.h"

static uint64_t tenth(const int16_t *values, const int16_t *q) {
    uint64_t nearest[RANK];
    size_t held = 0;
    for (size_t i = 0; i < ROWS; i++) {
        uint64_t d;
        if (!in_blocks(values + i * POINTS, q, held < RANK ? UINT64_MAX : nearest[RANK - 1], &d)) continue;
        size_t at = held < RANK ? held++ : RANK - 1;
        for (; at > 0 && nearest[at - 1] > d; at--) nearest[at] = nearest[at - 1];
        nearest[at] = d;
    }
    return nearest[RANK - 1];
}

static void time_scan(const char *name, scan *within, const int16_t *values, const uint64_t *radius) {
    for (int round = 0; round < ROUNDS; round++) {
        uint64_t check = 0;
        double begin = now();
        for (size_t j = 0; j < QUERIES; j++) {
            const int16_t *q = values + (ROWS + j) * POINTS;
            for (size_t i = 0; i < ROWS; i++) {
                uint64_t d;
                if (within(values + i * POINTS, q, radius[j], &d)) check += d + i;
            }
        }
        printf("%s: %.0f (%llu)\n", name, now() - begin, (unsigned long long)check);
    }
}

int main(void) {
    int16_t *values = room_for(ROWS + QUERIES);
    if (!values) return 1;
    fill(values, ROWS + QUERIES);
    sample_lines();
    uint64_t radius[QUERIES];
    for (size_t j = 0; j < QUERIES; j++) radius[j] = tenth(values, values + (ROWS + j) * POINTS);
    time_scan("scan, tested at each value", at_each, values, radius);
    time_scan("scan, tested once a block", in_blocks, values, radius);
    time_scan("scan, AVX2 in sampled order", in_sampled_order, values, radius);
    free(values);
    return 0;
}
