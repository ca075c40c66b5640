// The clock in microseconds, and walks: for the programs beside, which say first how many values a walk has.
#include <stdint.h>
#include <stdio.h>
#include <stdlib.h>
#include <sys/mman.h>
#include <time.h>

static double now(void) {
    struct timespec t;
    clock_gettime(CLOCK_MONOTONIC, &t);
    return t.tv_sec * 1e6 + t.tv_nsec / 1e3;
}

// Room for so many walks in large pages, where the system gives them.
static int16_t *room_for(size_t walks) {
    size_t page = 1 << 21, bytes = (sizeof(int16_t) * walks * POINTS + page - 1) / page * page;
    int16_t *values = aligned_alloc(page, bytes);
    if (values) madvise(values, bytes, MADV_HUGEPAGE);
    return values;
}

static void fill(int16_t *values, size_t walks) {
    uint64_t x = 7;
    for (size_t i = 0; i < walks; i++) {
        int value = 0;
        for (size_t k = 0; k < POINTS; k++) {
            x = x * 6364136223846793005u + 1442695040888963407u;
            value += (int)((x >> 33) % 201) - 100;
            value = value > 30000 ? 30000 : value < -30000 ? -30000 : value;
            values[i * POINTS + k] = (int16_t)value;
        }
    }
}
