// Makes a series file of walks, or reads one by fread in pieces and copies the values. Prints milliseconds and a checksum.
#include <stdint.h>
#include <stdio.h>
#include <stdlib.h>
#include <string.h>
#include <time.h>

enum { COUNT = 390625, LENGTH = 256, PIECE = 65536, HEADER = 16 };

static double now(void) {
    struct timespec t;
    clock_gettime(CLOCK_MONOTONIC, &t);
    return t.tv_sec * 1e3 + t.tv_nsec / 1e6;
}

static int make(const char *name) {
    FILE *file = fopen(name, "wb");
    if (!file) return 1;
    uint16_t version = 1, length = LENGTH;
    uint32_t count = COUNT, reserved = 0;
    fwrite("ISER", 1, 4, file);
    fwrite(&version, 2, 1, file);
    fwrite(&length, 2, 1, file);
    fwrite(&count, 4, 1, file);
    fwrite(&reserved, 4, 1, file);
    uint64_t x = 7;
    for (int i = 0; i < COUNT; i++) {
        int16_t row[LENGTH];
        int value = 0;
        for (int k = 0; k < LENGTH; k++) {
            x = x * 6364136223846793005u + 1442695040888963407u;
            value += (int)((x >> 33) % 201) - 100;
            value = value > 30000 ? 30000 : value < -30000 ? -30000 : value;
            row[k] = (int16_t)value;
        }
        fwrite(row, 2, LENGTH, file);
    }
    return fclose(file) != 0;
}

static int read_file(const char *name) {
    double begin = now();
    FILE *file = fopen(name, "rb");
    char *piece = malloc(PIECE);
    if (!file || !piece || fread(piece, 1, HEADER, file) != HEADER) return 1;
    uint32_t count;
    uint16_t length;
    memcpy(&length, piece + 6, 2);
    memcpy(&count, piece + 8, 4);
    size_t room = 0, used = 0;
    int16_t *values = NULL;
    for (;;) {
        size_t got = fread(piece, 1, PIECE, file);
        if (got == 0) break;
        if (used + got > room) {
            room = room ? 2 * room : PIECE;
            values = realloc(values, room);
            if (!values) return 1;
        }
        memcpy((char *)values + used, piece, got);
        used += got;
    }
    fclose(file);
    double end = now();
    long check = 0;
    for (size_t i = 0; i < used / 2; i += 997) check += values[i];
    printf("%u series of %u: %.1f ms, checksum %ld\n", count, length, end - begin, check);
    free(values);
    free(piece);
    return 0;
}

int main(int argc, char **argv) {
    if (argc != 3) return 2;
    return strcmp(argv[1], "make") == 0 ? make(argv[2]) : read_file(argv[2]);
}
