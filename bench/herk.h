/* Van Herk's method in C, for the sample type VALUE; NAME(x) makes its names, FIRST and LAST are the end values of the
 * order. Included once for each sample kind.
 *
 * A line is padded with the value that never wins and cut into blocks as long as the window. The best of each block is
 * carried forward from its front and backward from its end; a window's best is the better of two of these. Down, 64
 * columns are done side by side. It needs the whole picture, and working memory for a padded line of 64 columns, twice.
 */

ALWAYS VALUE NAME(better)(int kind, VALUE a, VALUE b)
{
    return kind == EROSION ? (a < b ? a : b) : (a > b ? a : b);
}

/* `side` lines of `length` pixels, side by side, a line's pixels `stride` apart, filtered in place. */
ALWAYS void NAME(herk_lines)(int kind, size_t behind, size_t ahead, VALUE *lines, size_t length, size_t stride, size_t side,
                                    VALUE *restrict forward, VALUE *restrict backward)
{
    size_t window = behind + ahead + 1, padded = (length + 2 * (window - 1)) / window * window;
    VALUE never = kind == EROSION ? LAST : FIRST;
    for (size_t i = 0; i < padded * side; i++) backward[i] = never;
    for (size_t i = 0; i < length; i++)
        for (size_t x = 0; x < side; x++) backward[(behind + i) * side + x] = lines[i * stride + x];
    for (size_t block = 0; block < padded; block += window) {
        for (size_t x = 0; x < side; x++) forward[block * side + x] = backward[block * side + x];
        for (size_t i = block + 1; i < block + window; i++)
            for (size_t x = 0; x < side; x++)
                forward[i * side + x] = NAME(better)(kind, forward[(i - 1) * side + x], backward[i * side + x]);
        for (size_t i = block + window - 1; i-- > block;)
            for (size_t x = 0; x < side; x++)
                backward[i * side + x] = NAME(better)(kind, backward[i * side + x], backward[(i + 1) * side + x]);
    }
    for (size_t i = 0; i < length; i++)
        for (size_t x = 0; x < side; x++)
            lines[i * stride + x] = NAME(better)(kind, backward[i * side + x], forward[(i + window - 1) * side + x]);
}

ALWAYS void NAME(herk_picture)(int kind, size_t left, size_t right, size_t up, size_t down, size_t width, size_t rows,
                                      VALUE *out, VALUE *forward, VALUE *backward)
{
    for (size_t y = 0; y < rows; y++) NAME(herk_lines)(kind, left, right, out + y * width, width, 1, 1, forward, backward);
    size_t x = 0;
    for (; x + 64 <= width; x += 64) NAME(herk_lines)(kind, up, down, out + x, rows, width, 64, forward, backward);
    for (; x < width; x++) NAME(herk_lines)(kind, up, down, out + x, rows, width, 1, forward, backward);
}

/* A stage over a whole picture. */
void NAME(herk_stage)(int kind, size_t left, size_t right, size_t up, size_t down, size_t width, size_t rows, const VALUE *picture,
                      VALUE *out, VALUE *forward, VALUE *backward)
{
    for (size_t i = 0; i < width * rows; i++) out[i] = picture[i];
    if (kind == EROSION)
        NAME(herk_picture)(EROSION, left, right, up, down, width, rows, out, forward, backward);
    else
        NAME(herk_picture)(DILATION, right, left, down, up, width, rows, out, forward, backward);
}
