// Codes of rows in plain C with intrinsics: coding 200,000 rows of 256 values, and testing all rows by their codes for one query and for
// four at once, over the same layout. Prints for each the microseconds of a pass, and a checksum.
enum { ROWS = 200000, POINTS = 256, ROUNDS = 5, BLOCK = 64 };

#include "../scans.h"

static double root(double n) {
    __m128d v = _mm_set_sd(n);
    return _mm_cvtsd_f64(_mm_sqrt_sd(v, v));
}

typedef struct { uint16_t words[64]; uint16_t step, low; uint32_t rest; uint64_t squares; } block;

static void scatter(int16_t *values, size_t count) {
    uint64_t x = 7;
    for (size_t i = 0; i < count; i++) {
        x = x * 6364136223846793005u + 1442695040888963407u;
        values[i] = (int16_t)(x >> 48);
    }
}

static void code(const int16_t *v, block *b) {
    int least = 32767, greatest = -32768, codes[POINTS];
    for (int i = 0; i < POINTS; i++) {
        least = v[i] < least ? v[i] : least;
        greatest = v[i] > greatest ? v[i] : greatest;
    }
    int step = (greatest - least) / 16 + 1;
    uint32_t part = 268435456u / step + 1, lost = 0;
    uint64_t squares = 0;
    for (int i = 0; i < POINTS; i++) {
        codes[i] = ((uint32_t)(v[i] - least) * part) >> 28;
        int shown = least + step * codes[i] + step / 2, left = v[i] - shown;
        squares += (uint32_t)(shown * shown);
        lost += left * left;
    }
    for (int j = 0; j < 64; j++) b->words[j] = codes[j] | codes[64 + j] << 4 | codes[128 + j] << 8 | codes[192 + j] << 12;
    b->step = step;
    b->low = least + 32768;
    b->squares = squares;
    b->rest = (uint32_t)root(4.0 * lost);
    while ((uint64_t)b->rest * b->rest < 4 * (uint64_t)lost) b->rest++;
}

#define MADD(codes, place) _mm256_madd_epi16(codes, _mm256_loadu_si256((const void *)(place)))

static inline int32_t total(__m256i sums) {
    __m128i t = _mm_add_epi32(_mm256_castsi256_si128(sums), _mm256_extracti128_si256(sums, 1));
    t = _mm_add_epi32(t, _mm_shuffle_epi32(t, 0x4e));
    return _mm_cvtsi128_si32(_mm_add_epi32(t, _mm_shuffle_epi32(t, 0xb1)));
}

static inline void dots(const block *b, const int16_t *const *q, int count, int32_t *found) {
    __m256i low = _mm256_set1_epi16(15), sums[4];
    for (int i = 0; i < count; i++) sums[i] = _mm256_setzero_si256();
    for (int g = 0; g < 64; g += 16) {
        __m256i w = _mm256_loadu_si256((const void *)(b->words + g));
        __m256i first = _mm256_and_si256(w, low), second = _mm256_and_si256(_mm256_srli_epi16(w, 4), low);
        __m256i third = _mm256_and_si256(_mm256_srli_epi16(w, 8), low), fourth = _mm256_srli_epi16(w, 12);
        for (int i = 0; i < count; i++) {
            __m256i two = _mm256_add_epi32(MADD(first, q[i] + g), MADD(second, q[i] + 64 + g));
            __m256i more = _mm256_add_epi32(MADD(third, q[i] + 128 + g), MADD(fourth, q[i] + 192 + g));
            sums[i] = _mm256_add_epi32(sums[i], _mm256_add_epi32(two, more));
        }
    }
    for (int i = 0; i < count; i++) found[i] = total(sums[i]);
}

static inline int near(const block *b, int32_t dot, int64_t sum, int64_t own, uint64_t length) {
    int64_t center = (int64_t)b->low + b->step / 2 - 32768;
    uint64_t far = (int64_t)b->squares + own - 2 * (b->step * (int64_t)dot + center * sum);
    uint64_t allowed = length + b->rest + 1;
    return 4 * far < allowed * allowed;
}

__attribute__((noinline)) static uint64_t pass(const block *codes, const int16_t *values, int count, uint64_t limit) {
    const int16_t *q[4];
    int64_t sum[4] = {0}, own[4] = {0};
    uint64_t check = 0, length = (uint64_t)root(4.0 * (double)limit + 3);
    for (int i = 0; i < count; i++) {
        q[i] = values + i * POINTS;
        for (int j = 0; j < POINTS; j++) sum[i] += q[i][j], own[i] += q[i][j] * (int64_t)q[i][j];
    }
    for (size_t r = 0; r < ROWS; r++) {
        int32_t found[4];
        if (count == 1) dots(codes + r, q, 1, found);
        else dots(codes + r, q, 4, found);
        for (int i = 0; i < count; i++) check += near(codes + r, found[i], sum[i], own[i], length);
    }
    return check;
}

int main(void) {
    int16_t *values = malloc(2ul * ROWS * POINTS);
    block *codes = malloc(sizeof(block) * ROWS), *same = malloc(sizeof(block) * ROWS);
    scatter(values, (size_t)ROWS * POINTS);
    for (int round = 0; round < ROUNDS; round++) {
        double begin = now();
        for (size_t r = 0; r < ROWS; r++) code(values + r * POINTS, codes + r);
        printf("coding in C: %.0f (0)\n", now() - begin);
        for (size_t r = 0; r < ROWS; r++) same[r] = codes[4];
        for (int count = 1; count <= 4; count += 3) {
            begin = now();
            uint64_t check = pass(same, values, count, 1000000000);
            printf("%s in C: %.0f (%llu)\n", count == 1 ? "one query" : "four queries at once", now() - begin, (unsigned long long)check);
        }
    }
}
