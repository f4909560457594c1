/* What dark.c and worn.c share: the clock, rows of noise, and medians. */
#include <stddef.h>
#include <stdint.h>
#include <stdlib.h>
#include <time.h>

static double now(void) {
    struct timespec t;
    clock_gettime(CLOCK_PROCESS_CPUTIME_ID, &t);
    return (double)t.tv_sec * 1e9 + (double)t.tv_nsec;
}

static int by_size(const void *a, const void *b) {
    double x = *(const double *)a, y = *(const double *)b;
    return (x > y) - (x < y);
}

static double median(double *times, int rounds) {
    qsort(times, (size_t)rounds, sizeof(double), by_size);
    return times[rounds / 2];
}

static uint32_t seed = 7;

static uint32_t next(void) {
    seed = seed * 1664525u + 1013904223u;
    return seed >> 8;
}

/* Noise, and above it, or at it, noise. */
static void draw(uint8_t *closed, uint8_t *input, size_t pixels) {
    for (size_t i = 0; i < pixels; i++) {
        input[i] = (uint8_t)next();
        closed[i] = (uint8_t)(input[i] + next() % (256u - input[i]));
    }
}
