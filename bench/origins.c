/* What asking for origins costs: one dilation of a picture by a square window, row by row, by the calls that do not ask and by
 * those that do, in turns. A line for each: samples, picture, window, nanoseconds a pixel of both, and their ratio.
 *
 *     origins [ROUNDS]
 *
 * Both answers are compared, and so are their comparisons; the origins of the last row with a plain loop over the window.
 */
#define _POSIX_C_SOURCE 199309L
#include <stdint.h>
#include <stdio.h>
#include <stdlib.h>
#include <string.h>
#include <time.h>

enum { WIDTH = 1024, ROWS = 1024, WINDOW = 63 };

/* What origins.txt exports: a block is a pointer and then its length. */
typedef size_t plain(uint8_t kind, uint8_t extent, size_t width, size_t rows, const void *picture, size_t pixels, void *out,
                     size_t out_pixels, void *values, size_t cells, uint8_t *positions, size_t places, uint8_t *starts,
                     size_t start_count, uint8_t *lengths, size_t length_count);
typedef size_t asked(uint8_t kind, uint8_t extent, size_t width, size_t rows, const void *picture, size_t pixels, void *out,
                     size_t out_pixels, size_t *origin_rows, size_t row_count, uint16_t *origin_columns, size_t column_count,
                     void *values, size_t cells, uint8_t *positions, size_t places, uint16_t *columns, size_t column_places,
                     uint8_t *starts, size_t start_count, uint8_t *lengths, size_t length_count);
plain rt_grey_plain, rt_rate_plain;
asked rt_grey_asked, rt_rate_asked;

static uint8_t grey[WIDTH * ROWS], grey_out[2][WIDTH * ROWS], grey_values[WIDTH * WINDOW];
static float rate[WIDTH * ROWS], rate_out[2][WIDTH * ROWS], rate_values[WIDTH * WINDOW];
static uint8_t positions[WIDTH * WINDOW], starts[WIDTH], lengths[WIDTH];
static uint16_t columns[WIDTH * WINDOW], origin_columns[WIDTH];
static size_t origin_rows[WIDTH];

static double now(void) {
    struct timespec t;
    clock_gettime(CLOCK_PROCESS_CPUTIME_ID, &t);
    return (double)t.tv_sec * 1e9 + (double)t.tv_nsec;
}

static int by_size(const void *a, const void *b) {
    double x = *(const double *)a, y = *(const double *)b;
    return (x > y) - (x < y);
}

static uint32_t seed;

static uint32_t next(void) {
    seed = seed * 1664525u + 1013904223u;
    return seed >> 8;
}

/* Noise, or slow waves: a triangle across and one down. */
static void draw(int smooth) {
    seed = 7;
    for (size_t y = 0; y < ROWS; y++)
        for (size_t x = 0; x < WIDTH; x++) {
            size_t a = x % 256, b = y % 256;
            uint32_t v = smooth ? (uint32_t)((a < 128 ? a : 255 - a) + (b < 128 ? b : 255 - b)) : next() % 256;
            grey[y * WIDTH + x] = (uint8_t)v;
            rate[y * WIDTH + x] = (float)v / 4 + (smooth ? 0 : (float)(next() % 1000) / 4096);
        }
}

static size_t run(int floats, int ask, uint8_t extent) {
    size_t cells = (size_t)WIDTH * (2u * extent + 1);
    const void *picture = floats ? (void *)rate : (void *)grey;
    void *out = floats ? (void *)rate_out[ask] : (void *)grey_out[ask], *values = floats ? (void *)rate_values : (void *)grey_values;
    if (ask)
        return (floats ? rt_rate_asked : rt_grey_asked)(1, extent, WIDTH, ROWS, picture, WIDTH * ROWS, out, WIDTH * ROWS, origin_rows,
                                                        WIDTH, origin_columns, WIDTH, values, cells, positions, cells, columns, cells,
                                                        starts, WIDTH, lengths, WIDTH);
    return (floats ? rt_rate_plain : rt_grey_plain)(1, extent, WIDTH, ROWS, picture, WIDTH * ROWS, out, WIDTH * ROWS, values, cells,
                                                    positions, cells, starts, WIDTH, lengths, WIDTH);
}

static double value(int floats, size_t y, size_t x) { return floats ? (double)rate[y * WIDTH + x] : (double)grey[y * WIDTH + x]; }

/* The last row's origins, by a plain loop. */
static void check(int floats, uint8_t extent) {
    for (size_t x = 0; x < WIDTH; x++) {
        size_t from = x < extent ? 0 : x - extent, to = x + extent < WIDTH ? x + extent : WIDTH - 1, row = 0, column = 0;
        double most = -1;
        for (size_t y = ROWS - 1 - extent; y < ROWS; y++)
            for (size_t c = from; c <= to; c++)
                if (value(floats, y, c) >= most) most = value(floats, y, c), row = y, column = c;
        if (origin_rows[x] != row || origin_columns[x] != column) printf("a wrong origin in column %zu\n", x), exit(1);
    }
}

int main(int argc, char **argv) {
    int rounds = argc > 1 ? atoi(argv[1]) : 9;
    double *times[2] = {malloc(sizeof(double) * (size_t)rounds), malloc(sizeof(double) * (size_t)rounds)};
    double *ratios = malloc(sizeof(double) * (size_t)rounds);
    for (int floats = 0; floats < 2; floats++)
        for (int smooth = 0; smooth < 2; smooth++) {
            draw(smooth);
            for (int extent = 1; extent <= 31; extent = 2 * extent + 1) {
                size_t compared[2] = {0, 0};
                for (int round = -1; round < rounds; round++) {
                    double spent[2];
                    for (int turn = 0; turn < 2; turn++) {
                        int ask = (round + 1 + turn) % 2;
                        double begun = now();
                        compared[ask] = run(floats, ask, (uint8_t)extent);
                        spent[ask] = now() - begun;
                    }
                    if (round < 0) continue;
                    times[0][round] = spent[0], times[1][round] = spent[1], ratios[round] = spent[1] / spent[0];
                }
                size_t bytes = (size_t)WIDTH * ROWS * (floats ? 4 : 1);
                const void *a = floats ? (void *)rate_out[0] : (void *)grey_out[0], *b = floats ? (void *)rate_out[1] : (void *)grey_out[1];
                if (compared[0] != compared[1] || memcmp(a, b, bytes)) printf("the two ways differ\n"), exit(1);
                check(floats, (uint8_t)extent);
                qsort(times[0], (size_t)rounds, sizeof(double), by_size);
                qsort(times[1], (size_t)rounds, sizeof(double), by_size);
                qsort(ratios, (size_t)rounds, sizeof(double), by_size);
                double pixels = (double)WIDTH * ROWS;
                printf("%-5s %-6s %2d %6.2f %6.2f %5.3f\n", floats ? "float" : "grey", smooth ? "smooth" : "noise", 2 * extent + 1,
                       times[0][rounds / 2] / pixels, times[1][rounds / 2] / pixels, ratios[rounds / 2]);
                fflush(stdout);
            }
        }
    return 0;
}
