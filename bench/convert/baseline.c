// Reads a series file of version 1 and writes it to the standard output as one of version 2, with numbers as labels.
#include <stdint.h>
#include <stdio.h>
#include <stdlib.h>
#include <string.h>

enum { HEADER = 16 };

int main(int argc, char **argv) {
    if (argc != 2) return 2;
    FILE *file = fopen(argv[1], "rb");
    char header[HEADER];
    if (!file || fread(header, 1, HEADER, file) != HEADER) return 1;
    uint16_t length;
    uint32_t count;
    memcpy(&length, header + 6, 2);
    memcpy(&count, header + 8, 4);
    size_t values = (size_t)count * length;
    int16_t *rows = malloc(2 * values + 1);
    if (!rows || fread(rows, 2, values, file) != values) return 1;
    fclose(file);
    uint16_t version = 2, reserved = 0;
    uint32_t points = length;
    fwrite("ISER", 1, 4, stdout);
    fwrite(&version, 2, 1, stdout);
    fwrite(&reserved, 2, 1, stdout);
    fwrite(&points, 4, 1, stdout);
    fwrite(&count, 4, 1, stdout);
    for (uint64_t number = 0; number < count; number++) fwrite(&number, 8, 1, stdout);
    fwrite(rows, 2, values, stdout);
    free(rows);
    return fflush(stdout) != 0;
}
