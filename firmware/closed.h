/* A picture of grey bytes from standard input, and its closing: what the examples of the residue share. */
#ifndef CLOSED_H
#define CLOSED_H

#include "kelafshir.h"

#include <stdio.h>

enum { MOST = 1 << 20 };

static uint8_t picture[MOST + 1], closed[MOST + 1], row[KELAFSHIR_WIDEST];

/* Reads the picture, rows of this width to the end of the input, and closes it by a square of 2 half + 1 pixels a side.
 * KELAFSHIR_DONE and its row count; or the number of a refusal, which is KELAFSHIR_MEMORY where it is longer than the room
 * here. */
static inline int close_picture(size_t width, uint8_t half, size_t *rows)
{
    size_t got = fread(picture, 1, sizeof picture, stdin);
    if (got > MOST) return KELAFSHIR_MEMORY;

    uint8_t closing[] = {KELAFSHIR_DILATION, half, half, half, half, KELAFSHIR_EROSION, half, half, half, half};
    *rows = width == 0 ? 0 : got / width;
    for (size_t at = 0; at < got; at++) closed[at] = picture[at];
    return kelafshir_filter_picture(closing, 2, width, *rows, closed, got, row, sizeof row).number;
}

#endif
