// Scans of all windows of one long walk in plain C for the 511 nearest, with the last distance so far as the limit: once a
// block of 64 values, and by lanes in a sampled order. Of the 511, three windows are chosen that lie 128 apart. Prints for
// each the microseconds over all queries, and a checksum of the windows chosen.
enum { LENGTH = 2000000, POINTS = 256, QUERIES = 20, ROUNDS = 2, BLOCK = 64, RANK = 511, CHOSEN = 3, APART = 128 };

#include "../scans.h"

typedef struct { uint64_t distance, number; } pair;

static int is_before(pair a, pair b) {
    return a.distance < b.distance || (a.distance == b.distance && a.number < b.number);
}

// Puts a pair in place of the last of a heap whose last pair stands first.
static void replace_last(pair *heap, size_t held, pair p) {
    size_t at = 0;
    for (;;) {
        size_t next = 2 * at + 1;
        if (next >= held) break;
        if (next + 1 < held && is_before(heap[next], heap[next + 1])) next++;
        if (!is_before(p, heap[next])) break;
        heap[at] = heap[next];
        at = next;
    }
    heap[at] = p;
}

static void push(pair *heap, size_t held, pair p) {
    size_t at = held;
    while (at > 0 && is_before(heap[(at - 1) / 2], p)) {
        heap[at] = heap[(at - 1) / 2];
        at = (at - 1) / 2;
    }
    heap[at] = p;
}

static int by_rank(const void *a, const void *b) {
    const pair *p = a, *q = b;
    return is_before(*p, *q) ? -1 : is_before(*q, *p);
}

// The sum of the distances and numbers of the windows that are chosen from the nearest.
static uint64_t sum_chosen(scan *within, const int16_t *values, const int16_t *q) {
    pair heap[RANK], chosen[CHOSEN];
    size_t held = 0, count = 0;
    for (size_t i = 0; i + POINTS <= LENGTH; i++) {
        uint64_t d;
        uint64_t limit = held < RANK ? UINT64_MAX : heap[0].distance;
        if (!within(values + i, q, limit, &d)) continue;
        pair p = {d, i};
        if (held < RANK) push(heap, held++, p);
        else if (is_before(p, heap[0])) replace_last(heap, held, p);
    }
    qsort(heap, held, sizeof(pair), by_rank);
    uint64_t sum = 0;
    for (size_t r = 0; r < held && count < CHOSEN; r++) {
        int apart = 1;
        for (size_t c = 0; c < count; c++) {
            uint64_t a = chosen[c].number, b = heap[r].number;
            apart &= (a > b ? a - b : b - a) >= APART;
        }
        if (apart) {
            chosen[count++] = heap[r];
            sum += heap[r].distance + heap[r].number;
        }
    }
    return sum;
}

static void time_scan(const char *name, scan *within, const int16_t *values, const int16_t *queries) {
    for (int round = 0; round < ROUNDS; round++) {
        uint64_t check = 0;
        double begin = now();
        for (size_t j = 0; j < QUERIES; j++) check += sum_chosen(within, values, queries + j * POINTS);
        printf("%s: %.0f (%llu)\n", name, now() - begin, (unsigned long long)check);
    }
}

// One walk of so many values, which goes on from the state.
static uint64_t walk_on(uint64_t x, int16_t *values, size_t count) {
    int value = 0;
    for (size_t k = 0; k < count; k++) {
        x = x * 6364136223846793005u + 1442695040888963407u;
        value += (int)((x >> 33) % 201) - 100;
        value = value > 30000 ? 30000 : value < -30000 ? -30000 : value;
        values[k] = (int16_t)value;
    }
    return x;
}

int main(void) {
    int16_t *values = room_for(LENGTH / POINTS + 1), *queries = room_for(QUERIES);
    if (!values || !queries) return 1;
    walk_on(walk_on(7, values, LENGTH), queries, QUERIES * POINTS);
    sample_lines();
    time_scan("C, tested once a block", in_blocks, values, queries);
    time_scan("C, AVX2 in sampled order", in_sampled_order, values, queries);
    return 0;
}
