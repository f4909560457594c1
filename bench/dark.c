/* What a row's dark residue costs: by the call without a band; by that with one, over all columns, over the columns that a
 * closing by extents of 15 leaves, and of a row outside the band; and in C, over all columns. All in turns. A line for each
 * width: the width, nanoseconds a row of these five, the ratios of the second, third and fourth to the first, and that of the
 * second to the fifth. A dash is where the band is empty.
 *
 *     dark [ROUNDS]
 *
 * Every answer of every way is compared with a plain loop's, also where a closed value is below the input's.
 */
#define _POSIX_C_SOURCE 199309L
#include <stdio.h>
#include <stdlib.h>

#include "dark.h"
#include "turns.h"

/* A turn is CALLS calls, over and over rows of PIXELS pixels together, but at most MOST rows; they fit the nearest cache.
 * A row is asked for as the middle one of a picture of ROWS rows, or as its first, which is outside the band. */
enum { PIXELS = 8192, MOST = 128, CALLS = 8192, ROWS = 1000, MIDDLE = ROWS / 2, EXTENT = 15 };
enum { BEFORE, ALL, BAND, OUTSIDE, IN_C, WAYS };

static uint8_t closed[PIXELS], input[PIXELS];

static size_t ask(int way, const uint8_t *a, const uint8_t *b, size_t width) {
    switch (way) {
    case BEFORE: return rt_row_before(a, width, b, width);
    case ALL: return rt_row_now(0, 0, 0, 0, MIDDLE, ROWS, a, width, b, width);
    case BAND: return rt_row_now(EXTENT, EXTENT, EXTENT, EXTENT, MIDDLE, ROWS, a, width, b, width);
    case OUTSIDE: return rt_row_now(EXTENT, EXTENT, EXTENT, EXTENT, 0, ROWS, a, width, b, width);
    default: return row_in_c(0, 0, 0, 0, MIDDLE, ROWS, a, width, b, width);
    }
}

/* The same by a plain loop. */
static size_t plain(int way, const uint8_t *a, const uint8_t *b, size_t width) {
    size_t edge = way == BAND || way == OUTSIDE ? 2 * EXTENT : 0, sum = 0;
    if (width <= 2 * edge) return REFUSED + 21;
    for (size_t x = edge; x < width - edge && way != OUTSIDE; x++) {
        if (a[x] < b[x]) return REFUSED + 16;
        sum += (size_t)(a[x] - b[x]);
    }
    return sum;
}

static void check(size_t width, size_t count) {
    for (int way = 0; way < WAYS; way++)
        for (size_t i = 0; i < count; i++) {
            const uint8_t *a = closed + i * width, *b = input + i * width;
            if (ask(way, a, b, width) == plain(way, a, b, width)) continue;
            fprintf(stderr, "a wrong answer of way %d at width %zu\n", way, width);
            exit(1);
        }
}

/* The answers as drawn, and then with a closed value below the input's in each row, at its start, its end or between. */
static void check_all(size_t width, size_t count) {
    static uint8_t kept[PIXELS];
    check(width, count);
    for (size_t i = 0; i < PIXELS; i++) kept[i] = closed[i];
    for (size_t i = 0; i < count; i++) {
        size_t x = i * width + (i % 3 == 0 ? 0 : i % 3 == 1 ? width - 1 : next() % width);
        if (input[x] > 0) closed[x] = (uint8_t)(input[x] - 1);
    }
    check(width, count);
    for (size_t i = 0; i < PIXELS; i++) closed[i] = kept[i];
}

/* Nanoseconds a row. The answers add up to something that is looked at, so that no call can be left out. */
static double turn(int way, size_t width, size_t count, size_t *sum) {
    *sum = 0;
    double begun = now();
    for (size_t call = 0, i = 0; call < CALLS; call++, i = i + 1 < count ? i + 1 : 0) {
        *sum += ask(way, closed + i * width, input + i * width, width);
    }
    return (now() - begun) / CALLS;
}

/* A way's ratio in one round: to the call before, and of the C the call's over all columns to it. */
static double ratio(int way, const double spent[WAYS]) {
    return way == IN_C ? spent[ALL] / spent[IN_C] : spent[way] / spent[BEFORE];
}

static void measure(size_t width, int rounds, double *times[WAYS], double *ratios[WAYS]) {
    size_t count = PIXELS / width < MOST ? PIXELS / width : MOST;
    check_all(width, count);
    for (int round = -1; round < rounds; round++) {
        double spent[WAYS];
        size_t sums[WAYS];
        for (int i = 0; i < WAYS; i++) {
            int way = (round + 1 + i) % WAYS;
            spent[way] = turn(way, width, count, &sums[way]);
        }
        if (sums[BEFORE] != sums[ALL] || sums[BEFORE] != sums[IN_C]) fprintf(stderr, "the ways differ\n"), exit(1);
        if (round < 0) continue;
        for (int way = 0; way < WAYS; way++) times[way][round] = spent[way], ratios[way][round] = ratio(way, spent);
    }
    printf("%zu", width);
    for (int i = 0; i < 2 * WAYS; i++) {
        int way = i % WAYS;
        if (i == WAYS + BEFORE) continue;
        if (width <= 4 * EXTENT && (way == BAND || way == OUTSIDE)) printf(" -");
        else printf(" %.4f", median(i < WAYS ? times[way] : ratios[way], rounds));
    }
    printf("\n");
}

int main(int argc, char **argv) {
    int rounds = argc > 1 ? atoi(argv[1]) : 41;
    static const size_t widths[] = {1, 7, 8, 16, 64, 256, 1024, 4096};
    double *times[WAYS], *ratios[WAYS];
    for (int way = 0; way < WAYS; way++) {
        times[way] = malloc(sizeof(double) * (size_t)rounds);
        ratios[way] = malloc(sizeof(double) * (size_t)rounds);
    }
    draw(closed, input, PIXELS);
    for (size_t i = 0; i < sizeof widths / sizeof *widths; i++) measure(widths[i], rounds, times, ratios);
    return 0;
}
