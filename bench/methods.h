/* The methods in C that the proved code is measured against, for both sample kinds: (a) the same queue method, a step and
 * a whole picture; (b) van Herk's; (w) the same passes over a whole picture, in place. methods.c holds them and is compiled
 * by the kit's clang. */
#include <stddef.h>
#include <stdint.h>

enum { EROSION = 0, DILATION = 1 };

#define METHODS(name, value)                                                                                                   \
    size_t name##_queue_row(int kind, size_t left, size_t right, size_t up, size_t down, size_t width, size_t rows, size_t step, \
                            const value *row, value *out, value *values, uint8_t *positions, uint8_t *starts, uint8_t *lengths);  \
    size_t name##_queue_stage(int kind, size_t left, size_t right, size_t up, size_t down, size_t width, size_t rows,          \
                              const value *picture, value *out, value *values, uint8_t *positions, uint8_t *starts,            \
                              uint8_t *lengths);                                                                               \
    void name##_herk_stage(int kind, size_t left, size_t right, size_t up, size_t down, size_t width, size_t rows,             \
                           const value *picture, value *out, value *forward, value *backward);                                 \
    int name##_passes_stage(int kind, size_t left, size_t right, size_t up, size_t down, size_t width, size_t rows,            \
                            value *picture, value *row);

METHODS(grey, uint8_t)
METHODS(rate, float)
