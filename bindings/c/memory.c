/* Want of memory: each request of each call is refused in turn. The call answers so and writes nothing, handles have what they had, and what
 * was taken is freed, as the address sanitizer tells. It is linked with -Wl,--wrap=malloc,--wrap=realloc (../try), prints each thing that
 * is wrong, and ends with 0 where nothing is. */
#include "../isearch.h"
#include <stdio.h>
#include <stdlib.h>
#include <string.h>

enum { LENGTH = 32, ROWS = 200, K = 5, MOST = 100000 };

void *__real_malloc(size_t size);
void *__real_realloc(void *old, size_t size);

/* how many requests are granted before one is refused, where that is not below 0; and whether one was */
static long granted = -1;
static int refused;

static int refuses(void) {
    if (granted < 0) return 0;
    if (granted-- > 0) return 0;
    refused = 1;
    return 1;
}

void *__wrap_malloc(size_t size) { return refuses() ? NULL : __real_malloc(size); }
void *__wrap_realloc(void *old, size_t size) { return refuses() ? NULL : __real_realloc(old, size); }

static int16_t rows[ROWS][LENGTH];
static uint64_t d[ROWS], wanted_d[K];
static uint32_t n[ROWS], wanted_n[K];
static uint8_t text[1 << 20];
static size_t found, bytes;
static isearch_index whole, empty;
static const isearch_settings SETTINGS = {.length = LENGTH, .segments = 8, .leaf = 8, .bent = true};

static int32_t build(void) { return isearch_build(&empty, rows[0], ROWS * LENGTH, &SETTINGS); }
static int32_t nearest(void) { return isearch_nearest(&whole, rows[3], LENGTH, K, d, K, n, K); }
static int32_t within(void) { return isearch_within(&whole, rows[3], LENGTH, UINT64_MAX, d, ROWS, n, ROWS, &found); }
static int32_t windows(void) { return isearch_windows(rows[0], 9 * LENGTH, rows[3], LENGTH, &SETTINGS, K, 8, d, K, n, K); }
static int32_t share(void) { return isearch_share(&whole, &empty); }
static int32_t save(void) { return isearch_save(&whole, text, sizeof text, &found); }
static int32_t load(void) { return isearch_load(&empty, rows[0], ROWS * LENGTH, LENGTH, text, bytes); }

static const struct {
    const char *name;
    int32_t (*call)(void);
} CALLS[] = {{"build", build}, {"nearest", nearest}, {"within", within}, {"windows", windows},
             {"share", share}, {"save", save},       {"load", load}};

/* Whether the handle with an index still has it whole. */
static int is_whole(void) {
    uint64_t ds[K];
    uint32_t ns[K];
    return isearch_nearest(&whole, rows[3], LENGTH, K, ds, K, ns, K) == 0 && !memcmp(ds, wanted_d, sizeof ds) && !memcmp(ns, wanted_n, sizeof ns);
}

/* Refuses the first request of a call, then the second, and so on, until none is left to refuse. */
static long each(const char *name, int32_t (*call)(void)) {
    long bad = 0;
    for (long first = 0; first < MOST; first++) {
        d[0] = 7, n[0] = 7, found = 77, refused = 0, granted = first;
        int32_t status = call();
        granted = -1;
        if (!refused) {
            if (status != 0 || first == 0) bad++, fprintf(stderr, "%s: status %d after %ld requests\n", name, (int)status, first);
            isearch_free(&empty);
            return bad;
        }
        if (status != ISEARCH_NO_MEMORY || d[0] != 7 || n[0] != 7 || found != 77 || empty.full || !is_whole()) {
            bad++;
            fprintf(stderr, "%s: status %d where request %ld was refused, or something was written\n", name, (int)status, first);
            isearch_free(&empty);
        }
    }
    fprintf(stderr, "%s: more than %d requests\n", name, MOST);
    return bad + 1;
}

int main(void) {
    uint32_t state = 9;
    for (int i = 0; i < ROWS; i++)
        for (int j = 0; j < LENGTH; j++) rows[i][j] = (int16_t)((state = state * 1664525u + 1013904223u) >> 20);
    long bad = isearch_build(&whole, rows[0], ROWS * LENGTH, &SETTINGS) != 0;
    bad += isearch_nearest(&whole, rows[3], LENGTH, K, wanted_d, K, wanted_n, K) != 0;
    bad += isearch_save(&whole, text, sizeof text, &bytes) != 0;
    for (size_t i = 0; i < sizeof CALLS / sizeof CALLS[0]; i++) bad += each(CALLS[i].name, CALLS[i].call);
    isearch_free(&whole);
    printf(bad ? "%ld wrong\n" : "all right\n", bad);
    return bad != 0;
}
