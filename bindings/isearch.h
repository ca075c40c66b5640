/* isearch: the nearest data series, exactly.
 *
 * A handle has an index over rows of 16-bit values, each of one length. One thread at a time may use a handle; for another thread take a
 * handle of its own by isearch_share. What a handle has lasts until the last of those that share it is freed.
 *
 * What the caller owes, and nothing tests:
 *  - a handle is zeroed before its first use ("isearch_index index = {0};"), is changed by these calls alone, and may be moved but not
 *    copied: of two copies one frees what the other has;
 *  - a pointer and the count behind it are those of memory that is there, aligned for its type, and no two of them that a call writes, or
 *    of which it writes one, overlap;
 *  - no call is made from a signal handler, or in the forked child of a process with threads;
 *  - malloc, realloc and free are those of one allocator, which aligns as C asks.
 *
 * A null pointer is tested here, in this header, before the library is called; ISEARCH_NO_TESTS leaves that out.
 */
#ifndef ISEARCH_H
#define ISEARCH_H

#include <stdbool.h>
#include <stddef.h>
#include <stdint.h>

#ifdef __cplusplus
extern "C" {
#endif

/* How a call ended. But for ISEARCH_DONE it wrote nothing but what is said at the call, and each handle has what it had. */
enum {
    ISEARCH_DONE = 0,           /* it did what was asked */
    ISEARCH_NO_INDEX = 1,       /* the handle has no index: it was never given one, or was freed */
    ISEARCH_HAS_INDEX = 2,      /* the handle that is to be given an index has one */
    ISEARCH_WRONG_ROWS = 3,     /* no rows, rows of no values or of more than 65536, values that are no whole number of rows, more than
                                   16777216 rows, or more than 134217728 values */
    ISEARCH_WRONG_SETTINGS = 4, /* no segments, more than 16 or more than a row has values, or a leaf size of 0 or above 65535 */
    ISEARCH_WRONG_QUERIES = 5,  /* values that are no whole number of queries as long as a row */
    ISEARCH_WRONG_COUNT = 6,    /* k is 0 or above 1024, or windows are to lie apart as isearch_windows does not take it */
    ISEARCH_WRONG_PLACES = 7,   /* not as many places for distances, for numbers or for a text as are wanted */
    ISEARCH_WRONG_TEXT = 8,     /* bytes that are not the text of an index that fits the rows */
    ISEARCH_NO_MEMORY = 9,      /* memory ran out */
    ISEARCH_NULL = 10           /* a pointer is null (this header's answer, not the library's) */
};

/* What stands at a place for which there is no row: the greatest numbers. */
#define ISEARCH_NO_DISTANCE UINT64_MAX
#define ISEARCH_NO_NUMBER UINT32_MAX

/* A handle. */
typedef struct {
    bool full; /* whether it has an index */
    void *at;
} isearch_index;

/* What an index depends on beside its rows. 16 segments, leaves of 128 and bent breakpoints serve most data. */
typedef struct {
    uint32_t length;   /* how many values a row has, 1 to 65536 */
    uint32_t segments; /* into how many segments a row is cut, 1 to 16 and at most its length */
    uint32_t leaf;     /* the most rows of a leaf that can still be divided, 1 to 65535 */
    bool bent;         /* whether breakpoints lie closer the nearer they are to 0; else they lie 256 apart */
} isearch_settings;

/* Builds an index of rows, one behind another, in a handle that has none. The rows are copied, once. */
int32_t isearch_build(isearch_index *index, const int16_t *rows, size_t values, const isearch_settings *settings);

/* For each query, as long as a row, the k nearest rows: squared distances and numbers from 0, nearer ones first, of two as near the one
 * with the smaller number. There are k places for each query; those for which there is no row have the greatest numbers. */
int32_t isearch_nearest(isearch_index *index, const int16_t *queries, size_t values, uint32_t k,
                        uint64_t *distances, size_t distance_places, uint32_t *numbers, size_t number_places);

/* All rows whose squared distance to a query, as long as a row, is at most the radius: at the first places, nearer ones first, of two as
 * near the one with the smaller number; found tells how many. Where there are fewer places than rows, ISEARCH_WRONG_PLACES tells how many
 * are wanted, and nothing else is written. */
int32_t isearch_within(isearch_index *index, const int16_t *query, size_t values, uint64_t radius,
                       uint64_t *distances, size_t distance_places, uint32_t *numbers, size_t number_places, size_t *found);

/* For each query, as long as a window, the k windows of a series that are nearest and begin at least `apart` values from one another, 1 to
 * 512, where (k - 1) * (2 * apart - 1) + 1 is at most 1024; a number is the place where a window begins. The settings' length is that of a
 * window; the series has at most 16777216 values. No window is copied; the index of the windows lasts as long as the call. */
int32_t isearch_windows(const int16_t *series, size_t values, const int16_t *queries, size_t query_values,
                        const isearch_settings *settings, uint32_t k, uint32_t apart,
                        uint64_t *distances, size_t distance_places, uint32_t *numbers, size_t number_places);

/* Writes the text of an index, some 5 bytes a row, at the first places; found tells how many bytes it has. It is the text that the program
 * `isearch save` writes of the same rows and settings. Where there are fewer places than bytes, ISEARCH_WRONG_PLACES tells how many are
 * wanted, and nothing else is written; there may be no places. The rows are not in the text. */
int32_t isearch_save(isearch_index *index, uint8_t *text, size_t places, size_t *found);

/* Makes an index of a text that isearch_save wrote, and of the rows that it was an index of, of so many values each, in a handle that has
 * none. The rows are copied, once. The text tells the settings. Nothing of it is believed: ISEARCH_WRONG_TEXT says that it is no text of an
 * index, or one of other lengths or counts, or that a row does not lie where the text says. A row that changed since, within its leaf's
 * word, passes, and is searched as it is now. */
int32_t isearch_load(isearch_index *index, const int16_t *rows, size_t values, uint32_t length, const uint8_t *text, size_t bytes);

/* Gives a handle that has no index a share of another's, for another thread: nothing is copied. */
int32_t isearch_share(isearch_index *index, isearch_index *other);

/* Frees what a handle has, if anything; then it may be given an index again. */
void isearch_free(isearch_index *index);

#ifndef ISEARCH_NO_TESTS
/* The same calls, which answer ISEARCH_NULL where a pointer is null, also one for which the count is 0. */
static inline int32_t isearch_build_tested(isearch_index *index, const int16_t *rows, size_t values, const isearch_settings *settings) {
    return index && rows && settings ? isearch_build(index, rows, values, settings) : ISEARCH_NULL;
}

static inline int32_t isearch_nearest_tested(isearch_index *index, const int16_t *queries, size_t values, uint32_t k,
                                             uint64_t *distances, size_t distance_places, uint32_t *numbers, size_t number_places) {
    return index && queries && distances && numbers
        ? isearch_nearest(index, queries, values, k, distances, distance_places, numbers, number_places) : ISEARCH_NULL;
}

static inline int32_t isearch_within_tested(isearch_index *index, const int16_t *query, size_t values, uint64_t radius,
                                            uint64_t *distances, size_t distance_places, uint32_t *numbers, size_t number_places,
                                            size_t *found) {
    return index && query && distances && numbers && found
        ? isearch_within(index, query, values, radius, distances, distance_places, numbers, number_places, found) : ISEARCH_NULL;
}

static inline int32_t isearch_windows_tested(const int16_t *series, size_t values, const int16_t *queries, size_t query_values,
                                             const isearch_settings *settings, uint32_t k, uint32_t apart,
                                             uint64_t *distances, size_t distance_places, uint32_t *numbers, size_t number_places) {
    return series && queries && settings && distances && numbers
        ? isearch_windows(series, values, queries, query_values, settings, k, apart, distances, distance_places, numbers, number_places)
        : ISEARCH_NULL;
}

static inline int32_t isearch_save_tested(isearch_index *index, uint8_t *text, size_t places, size_t *found) {
    return index && text && found ? isearch_save(index, text, places, found) : ISEARCH_NULL;
}

static inline int32_t isearch_load_tested(isearch_index *index, const int16_t *rows, size_t values, uint32_t length,
                                          const uint8_t *text, size_t bytes) {
    return index && rows && text ? isearch_load(index, rows, values, length, text, bytes) : ISEARCH_NULL;
}

static inline int32_t isearch_share_tested(isearch_index *index, isearch_index *other) {
    if (!index || !other) return ISEARCH_NULL;
    if (index == other) return index->full ? ISEARCH_HAS_INDEX : ISEARCH_NO_INDEX;
    return isearch_share(index, other);
}

static inline void isearch_free_tested(isearch_index *index) {
    if (index) isearch_free(index);
}

#define isearch_build isearch_build_tested
#define isearch_nearest isearch_nearest_tested
#define isearch_within isearch_within_tested
#define isearch_windows isearch_windows_tested
#define isearch_save isearch_save_tested
#define isearch_load isearch_load_tested
#define isearch_share isearch_share_tested
#define isearch_free isearch_free_tested
#endif

#ifdef __cplusplus
}
#endif

#endif
