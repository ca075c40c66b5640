// The same kernel in plain C, a simpler one without near blocks, and a plain loop that tests the limit at each value; and a scan
// for the ten nearest by lanes in a sampled order. Prints for each the microseconds of a pass over all rows, and a checksum.
enum { ROWS = 200000, POINTS = 256, ROUNDS = 5, BLOCK = 64, FIRST = 32, RANK = 10 };

#include "../scans.h"

static const uint64_t NONE = UINT64_MAX;

static void scatter(int16_t *values) {
    uint64_t x = 7;
    for (size_t i = 0; i < (size_t)ROWS * POINTS; i++) {
        x = x * 6364136223846793005u + 1442695040888963407u;
        values[i] = (int16_t)(x >> 48);
    }
}

// The limit is tested once a block of 64 values.
__attribute__((noinline)) static int all_alike(const int16_t *x, const int16_t *q, size_t n, uint64_t limit, uint64_t *found) {
    uint64_t sum = 0;
    size_t i = 0;
    for (; i + BLOCK <= n; i += BLOCK) {
        uint64_t block = 0;
        for (size_t k = 0; k < BLOCK; k++) block += square(x[i + k], q[i + k]);
        sum += block;
        if (sum > limit) return 0;
    }
    for (; i < n; i++) sum += square(x[i], q[i]);
    *found = sum;
    return sum <= limit;
}

static inline __m128i differences(const int16_t *x, const int16_t *q) {
    __m128i a = _mm_loadu_si128((const void *)x), b = _mm_loadu_si128((const void *)q);
    return _mm_sub_epi16(_mm_max_epi16(a, b), _mm_min_epi16(a, b));
}

static inline uint64_t block(const int16_t *x, const int16_t *q, size_t n, int *near) {
    if (*near) {
        __m128i zero = _mm_setzero_si128(), bits = zero, sums = zero;
        for (size_t i = 0; i < n; i += 16) {
            __m128i a = differences(x + i, q + i), b = differences(x + i + 8, q + i + 8);
            __m128i pairs = _mm_add_epi32(_mm_madd_epi16(a, a), _mm_madd_epi16(b, b));
            bits = _mm_or_si128(bits, _mm_or_si128(a, b));
            sums = _mm_add_epi64(sums, _mm_add_epi64(_mm_unpacklo_epi32(pairs, zero), _mm_unpackhi_epi32(pairs, zero)));
        }
        if (_mm_testz_si128(bits, _mm_set1_epi16(INT16_MIN))) return (uint64_t)_mm_extract_epi64(sums, 0) + (uint64_t)_mm_extract_epi64(sums, 1);
        *near = 0;
    }
    uint64_t sum = 0;
    for (size_t k = 0; k < n; k++) sum += square(x[k], q[k]);
    return sum;
}

// The same kernel: near blocks until one is far, and the limit tested after 32 values and then once a block.
__attribute__((noinline)) static int near_and_far(const int16_t *x, const int16_t *q, size_t n, uint64_t limit, uint64_t *found) {
    int near = 1;
    uint64_t sum = block(x, q, FIRST, &near);
    if (sum > limit) return 0;
    size_t i = FIRST;
    for (; i + BLOCK <= n; i += BLOCK) {
        sum += block(x + i, q + i, BLOCK, &near);
        if (sum > limit) return 0;
    }
    sum += block(x + i, q + i, n - i, &near);
    *found = sum;
    return sum <= limit;
}

// The limit is tested at each value.
__attribute__((noinline)) static int value_by_value(const int16_t *x, const int16_t *q, size_t n, uint64_t limit, uint64_t *found) {
    uint64_t sum = 0;
    for (size_t i = 0; i < n; i++) {
        sum += square(x[i], q[i]);
        if (sum > limit) return 0;
    }
    *found = sum;
    return 1;
}

typedef int kernel(const int16_t *, const int16_t *, size_t, uint64_t, uint64_t *);

static void pass(const char *name, const char *kind, kernel *within, const int16_t *values, size_t n, uint64_t limit) {
    size_t rows = ROWS * POINTS / n;
    double begin = now();
    uint64_t check = 0;
    for (size_t i = 1; i < rows; i++) {
        uint64_t found;
        check += within(values + i * n, values, n, limit, &found) ? found : 1;
    }
    printf("%s, %zu of %zu, limit %llu%s: %.0f (%llu)\n", name, rows, n, (unsigned long long)limit, kind, now() - begin, (unsigned long long)check);
}

// Scans all rows for the ten nearest to the first, with the tenth distance so far as the limit.
static void scan_all(const char *kind, const int16_t *values) {
    double begin = now();
    uint64_t distance[RANK];
    size_t held = 0;
    for (size_t i = 1; i < ROWS; i++) {
        uint64_t d, limit = held < RANK ? NONE : distance[RANK - 1];
        if (!in_sampled_order(values + i * POINTS, values, limit, &d) || (held == RANK && d == limit)) continue;
        size_t at = held < RANK ? held++ : RANK - 1;
        for (; at > 0 && distance[at - 1] > d; at--) distance[at] = distance[at - 1];
        distance[at] = d;
    }
    uint64_t sum = 0;
    for (size_t r = 0; r < held; r++) sum += distance[r];
    printf("C AVX2 in sampled order, %d of %d, scan%s: %.0f (%llu)\n", ROWS, POINTS, kind, now() - begin, (unsigned long long)sum);
}

int main(void) {
    int16_t *values = room_for(ROWS);
    if (!values) return 1;
    fill(values, ROWS);
    uint64_t limits[] = {NONE, 100000000, 1000000};
    for (int l = 0; l < 3; l++)
        for (int round = 0; round < ROUNDS; round++)
            for (size_t n = POINTS; n <= 4 * POINTS; n *= 4) {
                pass("C near and far", "", near_and_far, values, n, limits[l]);
                pass("C in blocks", "", all_alike, values, n, limits[l]);
                pass("C value by value", "", value_by_value, values, n, limits[l]);
            }
    sample_lines();
    for (int round = 0; round < ROUNDS; round++) scan_all("", values);
    scatter(values);
    for (int round = 0; round < ROUNDS; round++) scan_all(" and scattered", values);
    for (int round = 0; round < ROUNDS; round++) {
        pass("C near and far", " and scattered", near_and_far, values, POINTS, NONE);
        pass("C in blocks", " and scattered", all_alike, values, POINTS, NONE);
        pass("C value by value", " and scattered", value_by_value, values, POINTS, NONE);
    }
    free(values);
    return 0;
}
