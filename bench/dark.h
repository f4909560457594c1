/* The ways to a row's dark residue that dark.c measures. dark.txt has the first two, residue.c the third. worn.txt has the
 * second too, which worn.c measures. */
#include <stddef.h>
#include <stdint.h>

enum { REFUSED = 1000000000 };

size_t rt_row_before(const uint8_t *closed, size_t closed_length, const uint8_t *input, size_t input_length);
size_t rt_row_now(uint8_t left, uint8_t right, uint8_t up, uint8_t down, size_t row, size_t rows, const uint8_t *closed,
                  size_t closed_length, const uint8_t *input, size_t input_length);
size_t row_in_c(uint8_t left, uint8_t right, uint8_t up, uint8_t down, size_t row, size_t rows, const uint8_t *closed,
                size_t closed_length, const uint8_t *input, size_t input_length);
