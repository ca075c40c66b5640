// A plain scan of all series of a file of any size, which prints what isearch would print of it, were it to read so much:
// scan DATA QUERIES LENGTH STEP K RADIUS. LENGTH is that of files of values alone, or 0 where they have heads. STEP is 0, or DATA is
// one long series whose windows begin at each STEP values. K is 0 where all within RADIUS are wanted. For machines with the low byte first.
#include <fcntl.h>
#include <stdint.h>
#include <stdio.h>
#include <stdlib.h>
#include <string.h>
#include <sys/mman.h>
#include <sys/stat.h>

struct series { const uint8_t *labels; const int16_t *values; uint64_t length, count; };
struct pair { uint64_t distance, number; };
struct found { struct pair *pairs; uint64_t held, room; };

static void stop(const char *why) {
    fprintf(stderr, "scan: %s\n", why);
    exit(2);
}

// The series of a file, lent from the file itself.
static struct series series_of(const char *name, uint64_t length) {
    struct stat about;
    int file = open(name, O_RDONLY);
    if (file < 0 || fstat(file, &about)) stop(name);
    const uint8_t *bytes = mmap(0, (size_t)about.st_size, PROT_READ, MAP_PRIVATE, file, 0);
    if (bytes == MAP_FAILED) stop(name);
    if (length) return (struct series){0, (const int16_t *)bytes, length, (uint64_t)about.st_size / 2 / length};
    uint16_t version, length_1;
    uint32_t count, word_2;
    memcpy(&version, bytes + 4, 2), memcpy(&length_1, bytes + 6, 2), memcpy(&word_2, bytes + 8, 4);
    if (version == 1) return (struct series){0, (const int16_t *)(bytes + 16), length_1, word_2};
    memcpy(&count, bytes + 12, 4);
    return (struct series){bytes + 16, (const int16_t *)(bytes + 16 + 8 * (uint64_t)count), word_2, count};
}

// The distance, or a number that is not below the limit where that is not.
static uint64_t distance(const int16_t *a, const int16_t *b, uint64_t length, uint64_t limit) {
    uint64_t sum = 0;
    for (uint64_t i = 0; i < length && sum < limit; i += 32) {
        uint64_t end = i + 32 < length ? i + 32 : length, part = 0;
        for (uint64_t k = i; k < end; k++) {
            int32_t d = (int32_t)a[k] - b[k];
            part += (uint32_t)d * (uint32_t)d;
        }
        sum += part;
    }
    return sum;
}

// Keeps a pair behind all that are as near; with a k, the k nearest alone.
static void keep(struct found *found, struct pair pair, uint64_t k) {
    if (found->held == found->room) {
        found->room = found->room ? 2 * found->room : 16;
        found->pairs = realloc(found->pairs, found->room * sizeof(struct pair));
        if (!found->pairs) stop("out of memory");
    }
    uint64_t at = k && found->held == k ? k - 1 : found->held++;
    for (; at && found->pairs[at - 1].distance > pair.distance; at--) found->pairs[at] = found->pairs[at - 1];
    found->pairs[at] = pair;
}

int main(int words, char **word) {
    if (words != 7) stop("the words are DATA QUERIES LENGTH STEP K RADIUS");
    uint64_t number[4];
    for (int i = 0; i < 4; i++) number[i] = strtoull(word[3 + i], 0, 10);
    uint64_t step = number[1], k = number[2], radius = number[3];
    struct series queries = series_of(word[2], number[0]), data = series_of(word[1], step ? 1 : number[0]);
    uint64_t length = queries.length, stride = step ? step : length;
    uint64_t rows = !step ? data.count : data.count < length ? 0 : (data.count - length) / step + 1;
    struct found *found = calloc(queries.count + 1, sizeof(struct found));
    for (uint64_t i = 0; i < rows; i++)
        for (uint64_t q = 0; q < queries.count; q++) {
            struct found *f = found + q;
            uint64_t limit = !k ? radius + 1 : f->held < k ? UINT64_MAX : f->pairs[k - 1].distance;
            uint64_t d = distance(data.values + i * stride, queries.values + q * length, length, limit);
            if (d < limit) keep(f, (struct pair){d, i}, k);
        }
    for (uint64_t q = 0; q < queries.count; q++) {
        printf("query %llu\n", (unsigned long long)q);
        for (uint64_t r = 0; r < found[q].held; r++) {
            struct pair p = found[q].pairs[r];
            uint64_t label;
            printf("%llu %llu %llu", (unsigned long long)r + 1, (unsigned long long)p.number, (unsigned long long)p.distance);
            if (data.labels) memcpy(&label, data.labels + 8 * p.number, 8), printf(" %llu", (unsigned long long)label);
            putchar('\n');
        }
    }
    return fflush(stdout) || ferror(stdout);
}
