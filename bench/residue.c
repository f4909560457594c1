/* A row's dark residue in C: what the proved call judges, and its two loops, the sum in 32 bits. It
 * is compiled by the kit's clang. A refusal's number comes above every sum. */
#include "dark.h"

static size_t refused(size_t number) { return REFUSED + number; }

size_t row_in_c(uint8_t left, uint8_t right, uint8_t up, uint8_t down, size_t row, size_t rows,
                const uint8_t *closed, size_t width, const uint8_t *input, size_t input_length)
{
    size_t reach = (size_t)left + right, high = (size_t)up + down;
    if (left > 31 || right > 31 || up > 31 || down > 31) return refused(3);
    if (width == 0 || width > 4096 || rows == 0 || rows > 65535 || row >= rows) return refused(4);
    if (input_length != width) return refused(7);
    if (width <= 2 * reach || rows <= 2 * high) return refused(21);
    if (row < high || rows <= row + high) return 0;
    _Bool negative = 0;
    for (size_t x = reach; x < width - reach; x++) negative |= closed[x] < input[x];
    if (negative) return refused(16);
    uint32_t sum = 0;
    for (size_t x = reach; x < width - reach; x++) sum += (uint8_t)(closed[x] - input[x]);
    return sum;
}
