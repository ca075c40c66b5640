// Scans of all walks in plain C for the ten nearest, with the tenth distance so far as the limit: tested at each value,
// once a block of 64 values, and by lanes in a sampled order. Prints for each the microseconds over all queries, and a checksum.
enum { ROWS = 500000, POINTS = 256, QUERIES = 20, ROUNDS = 3, BLOCK = 64, RANK = 10, MOST = RANK };

#include "../nearest.h"

static void time_scan(const char *name, scan *within, const int16_t *values) {
    for (int round = 0; round < ROUNDS; round++) {
        uint64_t check = 0;
        double begin = now();
        for (size_t j = 0; j < QUERIES; j++) check += sum_nearest(within, values, ROWS, RANK, values + (ROWS + j) * POINTS);
        printf("%s: %.0f (%llu)\n", name, now() - begin, (unsigned long long)check);
    }
}

int main(void) {
    int16_t *values = room_for(ROWS + QUERIES);
    if (!values) return 1;
    fill(values, ROWS + QUERIES);
    sample_lines();
    time_scan("C, tested at each value", at_each, values);
    time_scan("C, tested once a block", in_blocks, values);
    time_scan("C, AVX2 in sampled order", in_sampled_order, values);
    return 0;
}
