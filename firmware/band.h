/* What the tests of the dark residue and of the question about it share: which pixels are counted, asked of each by itself,
 * and rows to try. A file that includes this has its own rows.
 */
#ifndef BAND_H
#define BAND_H

#include "guards.h"
#include "kelafshir.h"

enum { WIDEST = KELAFSHIR_WIDEST, MOST_ROWS = KELAFSHIR_MOST_ROWS };

static const size_t LARGEST = (size_t)-1;

/* The pixels of the next call. */
static uint8_t closed[ROOM], input[ROOM];

/* ---- counted pixels */

/* The extents of a closing, and a picture's size. */
struct band {
    long left, right, up, down, width, rows;
};

/* Whether no window of the closing leaves the picture, in one direction: the erosion looks from this place at those from
 * before to behind it, and the dilation, which is reflected, from each of these at those from behind to before it. */
static inline int stays(long at, long before, long behind, long count)
{
    for (long seen = at - before; seen <= at + behind; seen++)
        if (seen - behind < 0 || seen + before > count - 1) return 0;
    return 1;
}

static inline int is_counted(struct band b, long x, long y)
{
    return stays(y, b.up, b.down, b.rows) && stays(x, b.left, b.right, b.width);
}

/* Over all pixels of the picture. */
static inline int some_counted(struct band b)
{
    for (long y = 0; y < b.rows; y++)
        for (long x = 0; x < b.width; x++)
            if (is_counted(b, x, y)) return 1;
    return 0;
}

/* ---- numbers */

static inline size_t below(size_t count)
{
    size_t any = any_byte();
    any = any << 8 | any_byte();
    any = any << 8 | any_byte();
    return any % count;
}

/* A number that is not below the least, among them some that have the low bits of one that is. */
static inline size_t too_large(size_t least, size_t small)
{
    const size_t any[] = {least, LARGEST, ((size_t)1 << 16) + small, ((size_t)1 << 32) + small, ((size_t)1 << 63) + small};
    size_t number = any[below(5)];
    return number < least ? LARGEST : number;
}

/* ---- rows */

/* An input row, and a closed row that is nowhere below it and in some places equal. */
static inline void draw_rows(size_t length, unsigned picture)
{
    draw(input, length, picture);
    for (size_t x = 0; x < length; x++) {
        uint8_t added = any_byte();
        closed[x] = (added & 3) == 0 ? input[x] : added > 255 - input[x] ? 255 : (uint8_t)(input[x] + added);
    }
}

static inline void flat_rows(size_t length, uint8_t closed_value, uint8_t input_value)
{
    for (size_t x = 0; x < length; x++) {
        closed[x] = closed_value;
        input[x] = input_value;
    }
}

/* A pixel that would be negative, by 1 or by more. */
static inline void darken(size_t x)
{
    closed[x] = (uint8_t)below(255);
    input[x] = (uint8_t)(closed[x] + 1 + below(255u - closed[x]));
}

#endif
