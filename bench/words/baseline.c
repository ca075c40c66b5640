// Plain C loops that the words and bounds are compared with. Prints nanoseconds for each, and a checksum.
#include <stdint.h>
#include <stdio.h>
#include <stdlib.h>
#include <time.h>

enum { ROWS = 4096, LENGTH = 256, SEGMENTS = 16, TURNS = 20 };
static int16_t rows[ROWS][LENGTH];
static uint8_t words[ROWS][SEGMENTS];
static uint64_t costs[SEGMENTS][256];

static double now(void) {
    struct timespec t;
    clock_gettime(CLOCK_MONOTONIC, &t);
    return t.tv_sec * 1e9 + t.tv_nsec;
}

static void fill(void) {
    uint64_t x = 7;
    for (int i = 0; i < ROWS; i++) {
        int value = 0;
        for (int k = 0; k < LENGTH; k++) {
            x = x * 6364136223846793005u + 1442695040888963407u;
            value += (int)((x >> 33) % 201) - 100;
            value = value > 30000 ? 30000 : value < -30000 ? -30000 : value;
            rows[i][k] = (int16_t)value;
        }
    }
}

static int bent_at(int place) {
    int d = place - 128;
    return d * (64 + abs(d));
}

__attribute__((noinline)) static void full_word(const int16_t *row, const uint32_t *cuts, int bent, uint8_t *word) {
    for (int j = 0; j < SEGMENTS; j++) {
        int32_t length = (int32_t)(cuts[j + 1] - cuts[j]), sum = 0;
        for (uint32_t k = cuts[j]; k < cuts[j + 1]; k++) sum += row[k];
        if (bent) {
            uint32_t symbol = 0;
            for (uint32_t step = 128; step > 0; step /= 2)
                symbol += step * (length * bent_at((int)(symbol + step)) <= sum);
            word[j] = (uint8_t)symbol;
        } else {
            word[j] = (uint8_t)((uint32_t)((int64_t)sum + 32768 * (int64_t)length) / (256 * (uint32_t)length));
        }
    }
}

__attribute__((noinline)) static uint64_t distance(const int16_t *x, const int16_t *q) {
    uint64_t total = 0;
    for (int k = 0; k < LENGTH; k++) {
        int64_t d = (int64_t)x[k] - q[k];
        total += (uint64_t)(d * d);
    }
    return total;
}

__attribute__((noinline)) static uint64_t bound(const uint8_t *word) {
    uint64_t total = 0;
    for (int j = 0; j < SEGMENTS; j++) total += costs[j][word[j]];
    return total;
}

int main(void) {
    uint32_t cuts[SEGMENTS + 1];
    uint64_t check = 0;
    for (int j = 0; j <= SEGMENTS; j++) cuts[j] = (uint32_t)j * LENGTH / SEGMENTS;
    fill();
    for (int j = 0; j < SEGMENTS; j++)
        for (int s = 0; s < 256; s++) costs[j][s] = (uint64_t)(s * j);
    for (int bent = 0; bent < 2; bent++) {
        double begin = now();
        for (int turn = 0; turn < TURNS; turn++)
            for (int i = 0; i < ROWS; i++) {
                full_word(rows[i], cuts, bent, words[i]);
                check += words[i][turn % SEGMENTS];
            }
        printf("full word, %s: %.1f ns\n", bent ? "bent" : "flat", (now() - begin) / (TURNS * ROWS));
    }
    double begin = now();
    for (int turn = 0; turn < TURNS; turn++)
        for (int i = 0; i < ROWS; i++) check += distance(rows[i], rows[turn]);
    printf("distance: %.1f ns\n", (now() - begin) / (TURNS * ROWS));
    begin = now();
    for (int turn = 0; turn < TURNS; turn++)
        for (int i = 0; i < ROWS; i++) check += bound(words[i]);
    printf("bound of a full word: %.1f ns\n", (now() - begin) / (TURNS * ROWS));
    printf("check %llu\n", (unsigned long long)check);
    return 0;
}
