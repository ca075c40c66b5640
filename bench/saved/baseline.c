// Reads all values of 500,000 walks of 256 once, as the sums of their segments of 16, which is the least that a check of words takes.
#define POINTS 256
#include "../walks.h"

#define ROWS 500000

int main(void) {
    int16_t *values = room_for(ROWS);
    if (!values) return 1;
    fill(values, ROWS);
    for (int round = 0; round < 3; round++) {
        double begin = now();
        uint64_t check = 0;
        for (size_t i = 0; i < ROWS; i++)
            for (size_t s = 0; s < 16; s++) {
                int sum = 0;
                for (size_t k = 0; k < 16; k++) sum += values[i * POINTS + s * 16 + k];
                check = check * 31 + (uint32_t)sum;
            }
        printf("C, reads once: %.0f (%llu)\n", now() - begin, (unsigned long long)check);
    }
    return 0;
}
