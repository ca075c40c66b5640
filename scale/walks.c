// Random walks as a series file: walks FORM COUNT LENGTH SEED, where FORM is raw, 1 or 2. The labels of form 2 are great numbers.
#include <stdint.h>
#include <stdio.h>
#include <stdlib.h>
#include <string.h>

static void put(uint64_t number, int bytes) {
    for (int i = 0; i < bytes; i++) putchar((int)(number >> 8 * i & 255));
}

int main(int words, char **word) {
    if (words != 5) return fprintf(stderr, "walks: the words are FORM COUNT LENGTH SEED\n"), 2;
    uint64_t count = strtoull(word[2], 0, 10), length = strtoull(word[3], 0, 10), x = strtoull(word[4], 0, 10);
    int version = atoi(word[1]);
    if (version) fputs("ISER", stdout), put((uint64_t)version, 2);
    if (version == 1) put(length, 2), put(count, 4), put(0, 4);
    if (version == 2) put(0, 2), put(length, 4), put(count, 4);
    for (uint64_t i = 0; version == 2 && i < count; i++) put(UINT64_MAX - 3 * i, 8);
    for (uint64_t i = 0; i < count; i++) {
        int value = 0;
        for (uint64_t k = 0; k < length; k++) {
            x = x * 6364136223846793005u + 1442695040888963407u;
            value += (int)((x >> 33) % 201) - 100;
            value = value > 30000 ? 30000 : value < -30000 ? -30000 : value;
            put((uint64_t)value, 2);
        }
    }
    return fflush(stdout) || ferror(stdout);
}
