/* The methods of methods.h for grey bytes and for floats. */
#include "methods.h"

/* Written out at each call, so that the kind is a literal in every loop. */
#define ALWAYS static inline __attribute__((always_inline))

/* A grey row is taken as it is. */
ALWAYS int grey_taken(const uint8_t *row, uint8_t *work, size_t width)
{
    for (size_t x = 0; x < width; x++) work[x] = row[x];
    return 1;
}

/* A row of floats with each negative zero read as positive zero; whether all are finite. */
ALWAYS int rate_taken(const float *row, float *work, size_t width)
{
    int bad = 0;
    for (size_t x = 0; x < width; x++) {
        bad |= !(-3.4028234663852886e38f <= row[x] && row[x] <= 3.4028234663852886e38f);
        work[x] = row[x] + 0.0f;
    }
    return !bad;
}

/* A whole picture of grey bytes is read as it is. */
ALWAYS int grey_read(const uint8_t *picture, size_t count)
{
    (void)picture, (void)count;
    return 1;
}

ALWAYS uint32_t pattern(float x)
{
    uint32_t bits;
    __builtin_memcpy(&bits, &x, sizeof bits);
    return bits;
}

ALWAYS int is_finite(float x) { return (pattern(x) >> 23 & 0xff) != 0xff; }

/* A whole picture of floats is looked through, and stays as it is where all are finite and none is a negative zero. Else
 * each negative zero becomes a positive one, where all are finite: whether they are. */
ALWAYS int rate_read(float *picture, size_t count)
{
    int other = 0, bad = 0;
    for (size_t i = 0; i < count; i++) other |= !is_finite(picture[i]) || pattern(picture[i]) == 0x80000000u;
    if (!other) return 1;
    for (size_t i = 0; i < count; i++) bad |= !is_finite(picture[i]);
    if (bad) return 0;
    for (size_t i = 0; i < count; i++) picture[i] = picture[i] == 0 ? 0 : picture[i];
    return 1;
}

/* What a cell keeps of a row's number. */
ALWAYS uint8_t remainder_of(size_t step) { return (uint8_t)(step % 128); }

ALWAYS size_t smaller(size_t a, size_t b) { return a < b ? a : b; }

#define VALUE uint8_t
#define NAME(x) grey_##x
#define FIRST 0
#define LAST 255
#include "queue.h"
#include "herk.h"
#include "passes.h"
#undef VALUE
#undef NAME
#undef FIRST
#undef LAST

#define VALUE float
#define NAME(x) rate_##x
#define FIRST (-__builtin_inff())
#define LAST __builtin_inff()
#include "queue.h"
#include "herk.h"
#include "passes.h"
