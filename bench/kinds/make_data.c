// Makes the collections that are searched: make_data KIND DATA QUERIES ROWS POINTS COUNT [SOUND [SOUND OF QUERIES]]. Both files
// hold 16-bit values, low byte first, series after series, COUNT series of them as queries.
#include <stdint.h>
#include <stdio.h>
#include <stdlib.h>
#include <string.h>
#include <math.h>

static uint64_t state = 7;

static uint32_t drawn(uint32_t below) {
    state = state * 6364136223846793005u + 1442695040888963407u;
    return (uint32_t)((state >> 33) % below);
}

static int16_t held(double value) {
    return (int16_t)(value > 32767 ? 32767 : value < -32768 ? -32768 : lrint(value));
}

// Sums of steps from -100 to 100.
static void walk(int16_t *to, size_t points) {
    int value = 0;
    for (size_t k = 0; k < points; k++) {
        value += (int)drawn(201) - 100;
        value = value > 30000 ? 30000 : value < -30000 ? -30000 : value;
        to[k] = (int16_t)value;
    }
}

// Sums of steps from -3 to 3 around 20000, as a log of a temperature has them.
static void level(int16_t *to, size_t points) {
    int value = 20000;
    for (size_t k = 0; k < points; k++) to[k] = (int16_t)(value += (int)drawn(7) - 3);
}

// What rings after noise: a filter of the second order of random damping, and of a random pitch, in radians a value, from 0.05 on.
static void ringing(int16_t *to, size_t points, double range) {
    double pitch = 0.05 + range * drawn(1000000) / 1e6, damping = 0.9 + 0.099 * drawn(1000000) / 1e6;
    double a = 2 * damping * cos(pitch), b = -damping * damping, one = 0, two = 0, gain = 2000 * (1 - damping) * 10;
    for (size_t k = 0; k < points + 200; k++) {
        double next = a * one + b * two + gain * (drawn(2001) / 1000.0 - 1);
        two = one;
        one = next;
        if (k >= 200) to[k - 200] = held(next);
    }
}

// Of 16, 32, 64 and 128 means a row, the bounds leave 59, 41, 14 and 0.6 in a hundred of such rows.
static void resonance(int16_t *to, size_t points) { ringing(to, points, 1.05); }

// Rings so high that four values in a row have a mean near 0: 64 means leave more than half of the rows.
static void shrill(int16_t *to, size_t points) { ringing(to, points, 2.5); }

// What stands for traces of tremors: a noise that swells at an onset and dies away, behind two filters of the second order, one behind
// the other. The loudest just fit.
static void tremor(int16_t *to, size_t points) {
    static const double pitch[2] = {1.0, 1.5};
    double height = exp(log(30) * drawn(1000000) / 1e6), fall = 20 + drawn(101), onset = drawn((uint32_t)points), state[2][2] = {{0}};
    for (size_t k = 0; k < points + 200; k++) {
        double since = (double)k - 200 - onset, next = drawn(2001) / 1000.0 - 1;
        if (since >= 0) next *= 1 + height * exp(-since / fall);
        for (int f = 0; f < 2; f++) {
            next += 2 * 0.9 * cos(pitch[f]) * state[f][0] - 0.81 * state[f][1];
            state[f][1] = state[f][0];
            state[f][0] = next;
        }
        if (k >= 200) to[k - 200] = held(220 * next);
    }
}

static void noise(int16_t *to, size_t points) {
    for (size_t k = 0; k < points; k++) to[k] = (int16_t)((int)drawn(65536) - 32768);
}

static void written(const char *name, const int16_t *values, size_t count) {
    FILE *f = fopen(name, "wb");
    if (!f || fwrite(values, 2, count, f) != count || fclose(f)) exit(1);
}

// Windows of a recording, by a step. Returns how many there are, at most so many.
static size_t windows(const char *sound, int16_t *to, size_t rows, size_t points, size_t step) {
    FILE *f = fopen(sound, "rb");
    if (!f) exit(1);
    fseek(f, 0, SEEK_END);
    size_t count = (size_t)ftell(f) / 2, made = 0;
    int16_t *values = malloc(2 * count);
    rewind(f);
    if (fread(values, 2, count, f) != count) exit(1);
    for (size_t at = 0; made < rows && at + points <= count; at += step, made++) memcpy(to + made * points, values + at, 2 * points);
    free(values);
    fclose(f);
    return made;
}

int main(int words, char **word) {
    if (words < 7) return 2;
    const char *kind = word[1];
    size_t rows = strtoul(word[4], 0, 10), points = strtoul(word[5], 0, 10), count = strtoul(word[6], 0, 10);
    int16_t *values = malloc(2 * (rows + count) * points), *queries = values + rows * points;
    if (!values) return 1;
    if (!strcmp(kind, "sound") || !strcmp(kind, "heart")) {
        if (words < 9) return 2;
        int sound = !strcmp(kind, "sound");
        rows = windows(word[7], values, rows, points, sound ? 64 : 1);
        queries = malloc(2 * count * points);
        count = windows(word[8], queries, count, points, sound ? 44100 : 100);
    } else {
        void (*make)(int16_t *, size_t) = !strcmp(kind, "resonances") ? resonance
            : !strcmp(kind, "shrill") ? shrill
            : !strcmp(kind, "tremor") ? tremor
            : !strcmp(kind, "noise") ? noise
            : !strcmp(kind, "level") ? level
                                     : walk;
        for (size_t i = 0; i < rows + count; i++) make(values + i * points, points);
    }
    if (!strcmp(kind, "members"))
        for (size_t j = 0; j < count; j++) {
            const int16_t *member = values + (size_t)drawn((uint32_t)rows) * points;
            for (size_t k = 0; k < points; k++) queries[j * points + k] = held(member[k] + (int)drawn(101) - 50);
        }
    written(word[2], values, rows * points);
    written(word[3], queries, count * points);
    return 0;
}
