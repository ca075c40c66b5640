/* The nearest rows to a query, and how an error is told. Build: see ../try, or
 *   cc -O2 example.c libisearch_c.a liblibc_c.a -o example
 */
#include "../isearch.h"
#include <stdio.h>

static const char *told(int32_t status) {
    static const char *const texts[] = {"done", "no index", "has an index", "wrong rows", "wrong settings", "wrong queries",
                                        "wrong count", "wrong places", "wrong text", "out of memory", "null pointer"};
    return status >= 0 && status <= 10 ? texts[status] : "?";
}

int main(void) {
    static const int16_t rows[4][4] = {{1, 1, 1, 3}, {9, 9, 9, 9}, {-9, -9, -9, -9}, {7, 7, 7, 7}};
    static const int16_t query[4] = {1, 1, 1, 1};
    const isearch_settings settings = {.length = 4, .segments = 4, .leaf = 2, .bent = true};
    isearch_index index = {0};
    uint64_t distances[5];
    uint32_t numbers[5];

    int32_t status = isearch_build(&index, rows[0], 16, &settings);
    if (status != ISEARCH_DONE) {
        fprintf(stderr, "build: %s\n", told(status));
        return 1;
    }
    status = isearch_nearest(&index, query, 4, 5, distances, 5, numbers, 5);
    for (int i = 0; status == ISEARCH_DONE && i < 5; i++) {
        if (numbers[i] == ISEARCH_NO_NUMBER) printf("%d -\n", i + 1);
        else printf("%d %u %llu\n", i + 1, (unsigned)numbers[i], (unsigned long long)distances[i]);
    }
    isearch_free(&index);
    printf("after free: %s\n", told(isearch_nearest(&index, query, 4, 5, distances, 5, numbers, 5)));
    return status;
}
