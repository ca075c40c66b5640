// Three loops that give a walk up as soon as it is farther than a limit: for the programs beside, which say first how many
// values a walk and a block have, a multiple of 32 each. The last is the strongest that we know: lanes of AVX2, and the
// values of a walk taken in a sampled order.
#include "walks.h"
#include <immintrin.h>

static inline uint32_t square(int16_t a, int16_t b) {
    int32_t d = (int32_t)a - b;
    return (uint32_t)d * (uint32_t)d;
}

__attribute__((noinline)) static int in_blocks(const int16_t *x, const int16_t *q, uint64_t limit, uint64_t *found) {
    uint64_t sum = 0;
    for (size_t i = 0; i < POINTS; i += BLOCK) {
        uint64_t block = 0;
        for (size_t k = 0; k < BLOCK; k++) block += square(x[i + k], q[i + k]);
        sum += block;
        if (sum > limit) return 0;
    }
    *found = sum;
    return 1;
}

__attribute__((noinline)) static int at_each(const int16_t *x, const int16_t *q, uint64_t limit, uint64_t *found) {
    uint64_t sum = 0;
    for (size_t k = 0; k < POINTS; k++) {
        sum += square(x[k], q[k]);
        if (sum > limit) return 0;
    }
    *found = sum;
    return 1;
}

// Not more than a quarter of the squared distance of two lines of 32 values, in eight parts: differences are held within
// 16 bits, and each sum of two squares is divided by 4 and rounded down, so that no part overflows.
static inline __m256i quarter_of_line(const int16_t *x, const int16_t *q) {
    __m256i a = _mm256_subs_epi16(_mm256_loadu_si256((const void *)x), _mm256_loadu_si256((const void *)q));
    __m256i b = _mm256_subs_epi16(_mm256_loadu_si256((const void *)(x + 16)), _mm256_loadu_si256((const void *)(q + 16)));
    a = _mm256_srli_epi32(_mm256_madd_epi16(a, a), 2);
    b = _mm256_srli_epi32(_mm256_madd_epi16(b, b), 2);
    return _mm256_add_epi32(a, b);
}

static inline uint64_t sum_of_parts(__m256i parts) {
    __m256i zero = _mm256_setzero_si256();
    __m256i sums = _mm256_add_epi64(_mm256_unpacklo_epi32(parts, zero), _mm256_unpackhi_epi32(parts, zero));
    __m128i two = _mm_add_epi64(_mm256_castsi256_si128(sums), _mm256_extracti128_si256(sums, 1));
    return (uint64_t)_mm_extract_epi64(two, 0) + (uint64_t)_mm_extract_epi64(two, 1);
}

// Line l of a walk, counted in the sampled order: the bits of the number reversed, from the end of the walk on. The number
// of lines has to be a power of two.
static inline size_t sampled_line(size_t l) {
    size_t place = 0;
    for (size_t n = 1; n < POINTS / 32; n *= 2) {
        place = 2 * place + (l & 1);
        l >>= 1;
    }
    return POINTS / 32 - 1 - place;
}

static size_t sampled_lines[POINTS / 32];

// Fills the table of the order. To be called before the scan below.
static void sample_lines(void) {
    for (size_t l = 0; l < POINTS / 32; l++) sampled_lines[l] = 32 * sampled_line(l);
}

// A lower bound is taken line by line in the sampled order; the distance itself only of a walk that is not given up.
__attribute__((noinline)) static int in_sampled_order(const int16_t *x, const int16_t *q, uint64_t limit, uint64_t *found) {
    uint64_t quarter = 0;
    for (size_t l = 0; l < POINTS / 32; l++) {
        quarter += sum_of_parts(quarter_of_line(x + sampled_lines[l], q + sampled_lines[l]));
        if (4 * quarter > limit) return 0;
    }
    return in_blocks(x, q, limit, found);
}

typedef int scan(const int16_t *, const int16_t *, uint64_t, uint64_t *);
