/* Times of calls in C, for ../speed: speed build|save|search ROWS LENGTH [QUERIES K ROUNDS]. ROWS and QUERIES are files of values alone.
 * `build` prints the seconds of isearch_build. `save` reads, builds and writes the text of the index, as `isearch save --workers 1` does.
 * `search` prints the microseconds of isearch_nearest for one query: of each query the least of some rounds, and of these the mean. */
#include "../isearch.h"
#include <stdio.h>
#include <stdlib.h>
#include <string.h>
#include <time.h>

static double now(void) {
    struct timespec at;
    clock_gettime(CLOCK_MONOTONIC, &at);
    return (double)at.tv_sec + (double)at.tv_nsec * 1e-9;
}

static int16_t *values_of(const char *name, size_t *values) {
    FILE *file = fopen(name, "rb");
    if (!file || fseek(file, 0, SEEK_END)) exit(2);
    *values = (size_t)ftell(file) / 2;
    rewind(file);
    int16_t *read = malloc(*values * 2 + 2);
    if (!read || fread(read, 2, *values, file) != *values) exit(2);
    fclose(file);
    return read;
}

static int save(isearch_index *index) {
    uint8_t none;
    size_t bytes;
    if (isearch_save(index, &none, 0, &bytes) != ISEARCH_WRONG_PLACES) return 1;
    uint8_t *text = malloc(bytes);
    if (!text || isearch_save(index, text, bytes, &bytes)) return 1;
    return fwrite(text, 1, bytes, stdout) != bytes;
}

static int search(isearch_index *index, const int16_t *queries, size_t count, size_t length, uint32_t k, int rounds) {
    uint64_t *distances = malloc(k * sizeof *distances);
    uint32_t *numbers = malloc(k * sizeof *numbers);
    double total = 0;
    for (size_t q = 0; q < count; q++) {
        double least = 1e9;
        for (int round = 0; round < rounds; round++) {
            double begin = now();
            if (isearch_nearest(index, queries + q * length, length, k, distances, k, numbers, k)) return 1;
            double took = now() - begin;
            if (took < least) least = took;
        }
        total += least;
    }
    printf("%.3f\n", total / (double)count * 1e6);
    return 0;
}

int main(int words, char **word) {
    if (words < 4) return 2;
    size_t values;
    uint32_t length = (uint32_t)atoi(word[3]);
    int16_t *rows = values_of(word[2], &values);
    isearch_index index = {0};
    isearch_settings settings = {.length = length, .segments = length < 16 ? length : 16, .leaf = 128, .bent = true};
    double begin = now();
    if (isearch_build(&index, rows, values, &settings)) return 1;
    if (!strcmp(word[1], "build")) printf("%.6f\n", now() - begin);
    if (!strcmp(word[1], "save")) return save(&index);
    if (strcmp(word[1], "search") || words < 7) return 0;
    size_t query_values;
    int16_t *queries = values_of(word[4], &query_values);
    return search(&index, queries, query_values / length, length, (uint32_t)atoi(word[5]), atoi(word[6]));
}
