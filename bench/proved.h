/* The proved code as native.sh builds it: the functions that main.txt exports. A picture, a row or a block of memory is a
 * pointer and then its length in samples. All are weak: what is not there is null, and is not measured.
 *
 *     rt_grey_step    one step of a stage by a square window: the row that is due comes out in the row's place; answers the
 *                     comparisons made. The memory holds what the steps before it left, and zeros before the first
 *     rt_grey_taken   copies a row to where a step takes it; of floats it is judged too, and cleaned, and 0 is told where it
 *                     is refused
 *     rt_grey_whole   filters a whole picture in place by one stage, and answers 0 or a refusal's number
 *     rt_grey_plan    the same for a plan of so many stages by a square window, an erosion and a dilation in turn
 */
#include <stddef.h>
#include <stdint.h>

typedef size_t proved_step(uint8_t kind, uint8_t extent, size_t rows, size_t step, void *values, size_t cells,
                           uint8_t *positions, size_t places, uint8_t *starts, size_t columns, uint8_t *lengths,
                           size_t as_many_columns, void *row, size_t width);
typedef _Bool proved_taken(const void *row, size_t width, void *work, size_t as_wide);
typedef uint8_t proved_whole(uint8_t kind, uint8_t extent, size_t width, size_t rows, void *picture, size_t pixels, void *row,
                             size_t places);
typedef uint8_t proved_plan(size_t count, uint8_t extent, size_t width, size_t rows, void *picture, size_t pixels, void *row,
                            size_t places);

proved_step rt_grey_step __attribute__((weak)), rt_rate_step __attribute__((weak));
proved_taken rt_grey_taken __attribute__((weak)), rt_rate_taken __attribute__((weak));
proved_whole rt_grey_whole __attribute__((weak)), rt_rate_whole __attribute__((weak));
proved_plan rt_grey_plan __attribute__((weak)), rt_rate_plan __attribute__((weak));
