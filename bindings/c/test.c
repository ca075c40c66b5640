/* The calls of the library against a plain scan, from four threads at once, each with a handle of its own; each refusal; texts of indexes,
 * saved and loaded; and a thousand indexes built and freed. Run under the address, undefined-behaviour and thread sanitizers by ../try. It prints each thing that is wrong,
 * and ends with 0 where nothing is. */
#include "../isearch.h"
#include <pthread.h>
#include <stdio.h>
#include <stdlib.h>
#include <string.h>

enum { LENGTH = 48, ROWS = 700, QUERIES = 24, K = 9, ROUNDS = 6 };

static int16_t rows[ROWS][LENGTH], queries[QUERIES][LENGTH];
static uint64_t wanted_distances[QUERIES][K];
static uint32_t wanted_numbers[QUERIES][K];
static const isearch_settings SETTINGS = {.length = LENGTH, .segments = 16, .leaf = 20, .bent = true};

static uint64_t state = 9;

static int draw(int limit) {
    state = state * 6364136223846793005u + 1442695040888963407u;
    return (int)((state >> 33) % (uint64_t)limit);
}

static void walk(int16_t *row) {
    int at = 0;
    for (int i = 0; i < LENGTH; i++) row[i] = (int16_t)(at += draw(401) - 200);
}

static uint64_t distance(const int16_t *a, const int16_t *b) {
    uint64_t sum = 0;
    for (int i = 0; i < LENGTH; i++) {
        int64_t d = (int64_t)a[i] - b[i];
        sum += (uint64_t)(d * d);
    }
    return sum;
}

/* the k nearest by a plain scan */
static void scan(int q) {
    int held = 0;
    for (uint32_t r = 0; r < ROWS; r++) {
        uint64_t d = distance(rows[r], queries[q]);
        int at = held;
        while (at > 0 && wanted_distances[q][at - 1] > d) at--;
        if (at == K) continue;
        int last = held < K ? held++ : K - 1;
        memmove(&wanted_distances[q][at + 1], &wanted_distances[q][at], (size_t)(last - at) * sizeof(uint64_t));
        memmove(&wanted_numbers[q][at + 1], &wanted_numbers[q][at], (size_t)(last - at) * sizeof(uint32_t));
        wanted_distances[q][at] = d;
        wanted_numbers[q][at] = r;
    }
}

static long wrong(const char *what, int32_t status, int32_t want) {
    if (status == want) return 0;
    fprintf(stderr, "%s: status %d, wanted %d\n", what, (int)status, (int)want);
    return 1;
}

static void *search(void *handle) {
    uint64_t distances[QUERIES][K];
    uint32_t numbers[QUERIES][K];
    long bad = 0;
    for (int round = 0; round < ROUNDS; round++) {
        bad += wrong("nearest", isearch_nearest(handle, queries[0], QUERIES * LENGTH, K, distances[0], QUERIES * K, numbers[0], QUERIES * K), 0);
        bad += memcmp(distances, wanted_distances, sizeof distances) != 0;
        bad += memcmp(numbers, wanted_numbers, sizeof numbers) != 0;
    }
    isearch_free(handle);
    return (void *)bad;
}

static long threads(void) {
    isearch_index first = {0}, own[4] = {{0}};
    pthread_t thread[4];
    long bad = wrong("build", isearch_build(&first, rows[0], ROWS * LENGTH, &SETTINGS), 0);
    for (int i = 0; i < 4; i++) bad += wrong("share", isearch_share(&first, &own[i]), 0);
    isearch_free(&first);
    for (int i = 0; i < 4; i++) pthread_create(&thread[i], NULL, search, &own[i]);
    for (int i = 0; i < 4; i++) {
        void *found;
        pthread_join(thread[i], &found);
        bad += (long)found;
    }
    return bad;
}

static long refusals(void) {
    isearch_index none = {0}, one = {0}, other = {0};
    uint64_t d[2 * K] = {7};
    uint32_t n[2 * K] = {7};
    isearch_settings s = SETTINGS;
    const int16_t *q = queries[0];
    long bad = 0;
    bad += wrong("nearest of none", isearch_nearest(&none, q, LENGTH, K, d, K, n, K), ISEARCH_NO_INDEX);
    bad += wrong("share of none", isearch_share(&none, &other), ISEARCH_NO_INDEX);
    bad += wrong("no rows", isearch_build(&one, rows[0], 0, &s), ISEARCH_WRONG_ROWS);
    bad += wrong("a part of a row", isearch_build(&one, rows[0], LENGTH + 1, &s), ISEARCH_WRONG_ROWS);
    s.length = 0;
    bad += wrong("rows of nothing", isearch_build(&one, rows[0], LENGTH, &s), ISEARCH_WRONG_ROWS);
    s.length = 65537;
    bad += wrong("rows too long", isearch_build(&one, rows[0], LENGTH, &s), ISEARCH_WRONG_ROWS);
    s = SETTINGS, s.segments = 17;
    bad += wrong("17 segments", isearch_build(&one, rows[0], LENGTH, &s), ISEARCH_WRONG_SETTINGS);
    s.segments = 0;
    bad += wrong("no segments", isearch_build(&one, rows[0], LENGTH, &s), ISEARCH_WRONG_SETTINGS);
    s = SETTINGS, s.length = 8;
    bad += wrong("more segments than values", isearch_build(&one, rows[0], 8, &s), ISEARCH_WRONG_SETTINGS);
    s = SETTINGS, s.leaf = 0;
    bad += wrong("leaves of nothing", isearch_build(&one, rows[0], LENGTH, &s), ISEARCH_WRONG_SETTINGS);
    bad += wrong("null rows", isearch_build(&one, NULL, LENGTH, &SETTINGS), ISEARCH_NULL);
    bad += wrong("null handle", isearch_build(NULL, rows[0], LENGTH, &SETTINGS), ISEARCH_NULL);
    bad += wrong("build", isearch_build(&one, rows[0], 2 * LENGTH, &SETTINGS), 0);
    bad += wrong("build twice", isearch_build(&one, rows[0], LENGTH, &SETTINGS), ISEARCH_HAS_INDEX);
    bad += wrong("k of 0", isearch_nearest(&one, q, LENGTH, 0, d, 0, n, 0), ISEARCH_WRONG_COUNT);
    bad += wrong("k of 1025", isearch_nearest(&one, q, LENGTH, 1025, d, K, n, K), ISEARCH_WRONG_COUNT);
    bad += wrong("a short query", isearch_nearest(&one, q, LENGTH - 1, K, d, K, n, K), ISEARCH_WRONG_QUERIES);
    bad += wrong("few distances", isearch_nearest(&one, q, LENGTH, K, d, K - 1, n, K), ISEARCH_WRONG_PLACES);
    bad += wrong("many numbers", isearch_nearest(&one, q, LENGTH, K, d, K, n, K + 1), ISEARCH_WRONG_PLACES);
    bad += wrong("null distances", isearch_nearest(&one, q, LENGTH, K, NULL, K, n, K), ISEARCH_NULL);
    bad += d[0] != 7 || n[0] != 7;
    bad += wrong("no queries", isearch_nearest(&one, q, 0, K, d, 0, n, 0), 0);
    bad += wrong("more than there are", isearch_nearest(&one, q, LENGTH, K, d, K, n, K), 0);
    for (int i = 2; i < K; i++) bad += d[i] != ISEARCH_NO_DISTANCE || n[i] != ISEARCH_NO_NUMBER;
    size_t found = 99;
    d[0] = 7;
    bad += wrong("within a part of a query", isearch_within(&one, q, LENGTH - 1, 0, d, K, n, K, &found), ISEARCH_WRONG_QUERIES);
    bad += wrong("few places within", isearch_within(&one, q, LENGTH, UINT64_MAX, d, 1, n, K, &found), ISEARCH_WRONG_PLACES);
    bad += found != 2 || d[0] != 7;
    bad += wrong("all within", isearch_within(&one, q, LENGTH, UINT64_MAX, d, K, n, K, &found), 0);
    bad += found != 2 || n[0] + n[1] != 1 || d[0] > d[1] || d[0] != distance(rows[n[0]], q) || d[1] != distance(rows[n[1]], q);
    bad += wrong("none within", isearch_within(&one, q, LENGTH, 0, d, K, n, K, &found), 0);
    bad += found != 0;
    bad += wrong("share", isearch_share(&one, &other), 0);
    bad += wrong("share twice", isearch_share(&one, &other), ISEARCH_HAS_INDEX);
    bad += wrong("share with itself", isearch_share(&one, &one), ISEARCH_HAS_INDEX);
    isearch_free(&one);
    bad += wrong("the other is whole", isearch_nearest(&other, q, LENGTH, K, d, K, n, K), 0);
    isearch_free(&other);
    bad += wrong("freed", isearch_nearest(&other, q, LENGTH, K, d, K, n, K), ISEARCH_NO_INDEX);
    isearch_free(&other);
    return bad;
}

/* windows of the rows as one series: the first is the query's own, and the next lie apart */
static long windows(void) {
    uint64_t d[6];
    uint32_t n[6];
    long bad = wrong("windows", isearch_windows(rows[0], 4 * LENGTH, rows[0], LENGTH, &SETTINGS, 6, 30, d, 6, n, 6), 0);
    bad += d[0] != 0 || n[0] != 0;
    for (int i = 0; i < 6 && n[i] != ISEARCH_NO_NUMBER; i++) {
        bad += d[i] != distance(rows[0] + n[i], rows[0]) || (i > 0 && d[i] < d[i - 1]);
        for (int j = 0; j < i; j++) bad += abs((int)n[i] - (int)n[j]) < 30;
    }
    bad += wrong("no windows", isearch_windows(rows[0], LENGTH - 1, rows[0], LENGTH, &SETTINGS, 2, 1, d, 2, n, 2), 0);
    bad += n[0] != ISEARCH_NO_NUMBER || d[1] != ISEARCH_NO_DISTANCE;
    bad += wrong("too far apart", isearch_windows(rows[0], 4 * LENGTH, rows[0], LENGTH, &SETTINGS, 1, 513, d, 1, n, 1), ISEARCH_WRONG_COUNT);
    bad += wrong("too many apart", isearch_windows(rows[0], 4 * LENGTH, rows[0], LENGTH, &SETTINGS, 3, 512, d, 3, n, 3), ISEARCH_WRONG_COUNT);
    return bad;
}

/* The text of a handle's index, with its length. */
static uint8_t *saved(isearch_index *index, size_t *bytes, long *bad) {
    uint8_t none = 7;
    *bytes = 99;
    *bad += wrong("a text in no places", isearch_save(index, &none, 0, bytes), ISEARCH_WRONG_PLACES);
    uint8_t *text = malloc(*bytes + 1);
    memset(text, 7, *bytes + 1);
    size_t told = 99;
    *bad += wrong("a text in few places", isearch_save(index, text, *bytes - 1, &told), ISEARCH_WRONG_PLACES);
    *bad += none != 7 || told != *bytes || text[0] != 7;
    *bad += wrong("a text", isearch_save(index, text, *bytes + 1, &told), 0);
    *bad += told != *bytes || text[*bytes] != 7;
    return text;
}

/* What a text is loaded as: as good as the index that it was saved of, and saved again the same. */
static long loaded(const uint8_t *text, size_t bytes) {
    isearch_index index = {0};
    uint64_t distances[QUERIES][K];
    uint32_t numbers[QUERIES][K];
    size_t again_bytes;
    long bad = wrong("load", isearch_load(&index, rows[0], ROWS * LENGTH, LENGTH, text, bytes), 0);
    bad += wrong("load twice", isearch_load(&index, rows[0], ROWS * LENGTH, LENGTH, text, bytes), ISEARCH_HAS_INDEX);
    bad += wrong("nearest", isearch_nearest(&index, queries[0], QUERIES * LENGTH, K, distances[0], QUERIES * K, numbers[0], QUERIES * K), 0);
    bad += memcmp(distances, wanted_distances, sizeof distances) != 0;
    bad += memcmp(numbers, wanted_numbers, sizeof numbers) != 0;
    uint8_t *again = saved(&index, &again_bytes, &bad);
    bad += again_bytes != bytes || memcmp(again, text, bytes) != 0;
    free(again);
    isearch_free(&index);
    return bad;
}

/* Texts that are not loaded, and the handle that is left without an index. */
static long unloaded(uint8_t *text, size_t bytes) {
    static int16_t others[ROWS][LENGTH];
    isearch_index index = {0};
    size_t found = 99;
    const int32_t no = ISEARCH_WRONG_TEXT;
    long bad = wrong("no text", isearch_load(&index, rows[0], ROWS * LENGTH, LENGTH, text, 0), no);
    for (size_t cut = 1; cut < bytes; cut += 97) bad += wrong("a part", isearch_load(&index, rows[0], ROWS * LENGTH, LENGTH, text, cut), no);
    text[bytes] = 0;
    bad += wrong("a byte more", isearch_load(&index, rows[0], ROWS * LENGTH, LENGTH, text, bytes + 1), no);
    bad += wrong("a row less", isearch_load(&index, rows[0], (ROWS - 1) * LENGTH, LENGTH, text, bytes), no);
    bad += wrong("half as long", isearch_load(&index, rows[0], ROWS * LENGTH, LENGTH / 2, text, bytes), no);
    for (int i = 0; i < ROWS; i++) memcpy(others[i], rows[ROWS - 1 - i], sizeof others[i]);
    bad += wrong("other rows", isearch_load(&index, others[0], ROWS * LENGTH, LENGTH, text, bytes), no);
    for (size_t at = 0; at < 24; at++) {
        if (at == 16 || at == 17) continue; /* another leaf size, under which the same tree is an index too */
        text[at] ^= 0x80;
        bad += wrong("another head", isearch_load(&index, rows[0], ROWS * LENGTH, LENGTH, text, bytes), no);
        text[at] ^= 0x80;
    }
    bad += wrong("no rows", isearch_load(&index, rows[0], 0, LENGTH, text, bytes), ISEARCH_WRONG_ROWS);
    bad += wrong("rows of nothing", isearch_load(&index, rows[0], LENGTH, 0, text, bytes), ISEARCH_WRONG_ROWS);
    bad += wrong("a part of a row", isearch_load(&index, rows[0], LENGTH + 1, LENGTH, text, bytes), ISEARCH_WRONG_ROWS);
    bad += wrong("null rows", isearch_load(&index, NULL, LENGTH, LENGTH, text, bytes), ISEARCH_NULL);
    bad += wrong("null text", isearch_load(&index, rows[0], LENGTH, LENGTH, NULL, bytes), ISEARCH_NULL);
    bad += wrong("save of none", isearch_save(&index, text, 0, &found), ISEARCH_NO_INDEX);
    bad += wrong("save in null", isearch_save(&index, NULL, 0, &found), ISEARCH_NULL);
    bad += index.full || found != 99;
    return bad;
}

static long texts(void) {
    isearch_index index = {0};
    size_t bytes;
    long bad = wrong("build", isearch_build(&index, rows[0], ROWS * LENGTH, &SETTINGS), 0);
    uint8_t *text = saved(&index, &bytes, &bad);
    isearch_free(&index);
    bad += loaded(text, bytes) + unloaded(text, bytes);
    free(text);
    return bad;
}

static long thousand(void) {
    long bad = 0;
    for (int i = 0; i < 1000; i++) {
        isearch_index one = {0}, two = {0};
        bad += isearch_build(&one, rows[0], 40 * LENGTH, &SETTINGS) != 0;
        bad += isearch_share(&one, &two) != 0;
        isearch_free(i % 2 ? &one : &two);
        isearch_free(i % 2 ? &two : &one);
    }
    if (bad) fprintf(stderr, "a thousand: %ld calls failed\n", bad);
    return bad;
}

int main(void) {
    for (int i = 0; i < ROWS; i++) walk(rows[i]);
    for (int i = 0; i < QUERIES; i++) walk(queries[i]);
    for (int i = 0; i < QUERIES; i++) scan(i);
    long bad = threads() + refusals() + windows() + texts() + thousand();
    printf(bad ? "%ld wrong\n" : "all right\n", bad);
    return bad != 0;
}
