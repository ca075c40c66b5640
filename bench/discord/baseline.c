// The five discords of walks by a plain double loop: each walk is compared with the others in random order, and given up as
// soon as one is nearer than the fifth so far. A comparison is given up too, as soon as it is farther than the nearest.
#define POINTS 256
#define BLOCK 64
#include "../scans.h"
#define ROWS 20000
#define KEPT 5

static int16_t *values;
static uint32_t order[ROWS];
static uint64_t best[KEPT];
static uint32_t numbers[KEPT];

static void shuffle(void) {
    uint64_t x = 11;
    for (uint32_t i = 0; i < ROWS; i++) order[i] = i;
    for (uint32_t i = ROWS - 1; i > 0; i--) {
        x = x * 6364136223846793005u + 1442695040888963407u;
        uint32_t j = (uint32_t)((x >> 33) % (i + 1)), t = order[i];
        order[i] = order[j];
        order[j] = t;
    }
}

static void keep(uint32_t number, uint64_t distance) {
    int place = KEPT;
    while (place > 0 && (distance > best[place - 1] || (distance == best[place - 1] && number < numbers[place - 1]))) place--;
    for (int i = KEPT - 1; i > place; i--) {
        best[i] = best[i - 1];
        numbers[i] = numbers[i - 1];
    }
    if (place < KEPT) {
        best[place] = distance;
        numbers[place] = number;
    }
}

int main(void) {
    values = room_for(ROWS);
    fill(values, ROWS);
    shuffle();
    double start = now();
    for (int i = 0; i < KEPT; i++) {
        best[i] = 0;
        numbers[i] = UINT32_MAX;
    }
    for (uint32_t a = 0; a < ROWS; a++) {
        uint32_t s = order[a];
        uint64_t nearest = UINT64_MAX, found;
        int given_up = 0;
        for (uint32_t b = 0; b < ROWS && !given_up; b++) {
            uint32_t t = order[b];
            if (t == s || !in_blocks(values + (size_t)t * POINTS, values + (size_t)s * POINTS, nearest, &found)) continue;
            nearest = found;
            given_up = nearest < best[KEPT - 1];
        }
        if (!given_up) keep(s, nearest);
    }
    uint64_t sum = 0;
    for (int i = 0; i < KEPT; i++) sum += best[i] + numbers[i];
    printf("double loop: %.0f (%llu)\n", now() - start, (unsigned long long)sum);
    return 0;
}
