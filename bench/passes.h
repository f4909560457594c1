/* The passes over a whole picture in C, for the sample type VALUE; NAME(x) makes its names. Included once for each sample
 * kind, after herk.h, whose `better` it takes.
 *
 * The same passes in the same order and the same memory as the proved code, which works in place and is lent one row:
 * across, each row by doubling between itself and the lent row; down, ahead by one sweep that makes every step some rows
 * behind the one before it, and then back from the bottom. Each kind has its own loops. Nothing is checked here but what
 * the proved code reads the picture for: floats that are not finite, and negative zeros.
 */

/* Each of n places takes the better of the row's value there and the one s places on. */
ALWAYS void NAME(pair)(int kind, size_t s, const VALUE *restrict row, VALUE *restrict out, size_t n)
{
    for (size_t i = 0; i < n; i++) out[i] = NAME(better)(kind, row[i], row[i + s]);
}

/* Each place takes the better of itself and the one s places on, where there is one. */
ALWAYS void NAME(ahead)(int kind, size_t s, const VALUE *row, VALUE *out, size_t n)
{
    size_t end = n < s ? 0 : n - s;
    NAME(pair)(kind, s, row, out, end);
    __builtin_memcpy(out + end, row + end, (n - end) * sizeof *out);
}

/* Along the front: each place takes the better of the place before it, as it has become, and of the row's value there. */
ALWAYS void NAME(running)(int kind, const VALUE *restrict row, VALUE *restrict out, size_t n)
{
    if (n == 0) return;
    out[0] = row[0];
    for (size_t i = 1; i < n; i++) out[i] = NAME(better)(kind, out[i - 1], row[i]);
}

/* Each place takes the better of the one s places back and of itself; the first s, which have none, go along the front. */
ALWAYS void NAME(back)(int kind, size_t s, const VALUE *row, VALUE *out, size_t n)
{
    size_t start = smaller(n, s);
    NAME(running)(kind, row, out, start);
    NAME(pair)(kind, s, row, out + start, n - start);
}

/* The line a reaches as far ahead as it is to; whether the other, t, holds it then. */
ALWAYS int NAME(line_ahead)(int kind, size_t far, VALUE *a, VALUE *t, size_t n)
{
    int flip = 0;
    for (size_t r = 0, s; r < far; r += s, flip = !flip) {
        s = smaller(r + 1, far - r);
        NAME(ahead)(kind, s, flip ? t : a, flip ? a : t, n);
    }
    return flip;
}

/* A line that reaches `ahead` ahead reaches back too. */
ALWAYS int NAME(line_back)(int kind, size_t ahead, size_t far, int flip, VALUE *a, VALUE *t, size_t n)
{
    for (size_t r = 0, s; r < far; r += s, flip = !flip) {
        s = smaller(ahead + r + 1, far - r);
        NAME(back)(kind, s, flip ? t : a, flip ? a : t, n);
    }
    return flip;
}

/* Each row filtered in place. */
ALWAYS void NAME(lines)(int kind, size_t behind, size_t before, size_t width, size_t rows, VALUE *picture, VALUE *row)
{
    for (size_t y = 0; y < rows; y++) {
        VALUE *line = picture + y * width;
        int there = NAME(line_ahead)(kind, before, line, row, width);
        if (NAME(line_back)(kind, before, behind, there, line, row, width)) __builtin_memcpy(line, row, width * sizeof *row);
    }
}

/* n pixels take the better of themselves and of n others, apart from them. */
ALWAYS void NAME(over)(int kind, size_t n, VALUE *restrict at, const VALUE *restrict from)
{
    for (size_t i = 0; i < n; i++) at[i] = NAME(better)(kind, at[i], from[i]);
}

/* The step from reach r to r + s at tick t, where both rows are there. */
ALWAYS void NAME(climb)(int kind, size_t r, size_t s, size_t width, size_t rows, size_t t, VALUE *picture)
{
    if (t < r + s || rows <= t - r) return;
    NAME(over)(kind, width, picture + (t - r - s) * width, picture + (t - r) * width);
}

/* The sweep: each place has the best of itself and of those below it. */
ALWAYS void NAME(down_ahead)(int kind, size_t far, size_t width, size_t rows, VALUE *picture)
{
    for (size_t t = 0; t < rows + far; t++)
        for (size_t r = 0, s; r < far; r += s) {
            s = smaller(r + 1, far - r);
            NAME(climb)(kind, r, s, width, rows, t, picture);
        }
}

/* Each row from row s on takes the better of itself and of the row s above it: from the bottom, up to s of them at a time. */
ALWAYS void NAME(lower)(int kind, size_t s, size_t width, size_t rows, VALUE *picture)
{
    for (size_t z = rows; s < z;) {
        size_t k = smaller(z - s, s);
        z -= k;
        NAME(over)(kind, k * width, picture + z * width, picture + (z - s) * width);
    }
}

/* Each row before row s, but for the first, takes the better of itself and of the row above it, as that has become. */
ALWAYS void NAME(front)(int kind, size_t s, size_t width, size_t rows, VALUE *picture)
{
    size_t end = smaller(s, rows);
    for (size_t z = 1; z < end; z++) NAME(over)(kind, width, picture + z * width, picture + (z - 1) * width);
}

/* Columns that reach `ahead` ahead reach back too. */
ALWAYS void NAME(down_back)(int kind, size_t ahead, size_t far, size_t width, size_t rows, VALUE *picture)
{
    for (size_t r = 0, s; r < far; r += s) {
        s = smaller(ahead + r + 1, far - r);
        NAME(lower)(kind, s, width, rows, picture);
        NAME(front)(kind, s, width, rows, picture);
    }
}

ALWAYS void NAME(passes)(int kind, size_t behind, size_t before, size_t above, size_t below, size_t width, size_t rows,
                         VALUE *picture, VALUE *row)
{
    NAME(lines)(kind, behind, before, width, rows, picture, row);
    NAME(down_ahead)(kind, below, width, rows, picture);
    NAME(down_back)(kind, below, above, width, rows, picture);
}

/* A stage over a whole picture, in place; whether all pixels are finite, else the picture stays. */
int NAME(passes_stage)(int kind, size_t left, size_t right, size_t up, size_t down, size_t width, size_t rows, VALUE *picture,
                       VALUE *row)
{
    if (!NAME(read)(picture, width * rows)) return 0;
    if (kind == EROSION)
        NAME(passes)(EROSION, left, right, up, down, width, rows, picture, row);
    else
        NAME(passes)(DILATION, right, left, down, up, width, rows, picture, row);
    return 1;
}
