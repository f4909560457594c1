/* The queue method in C, for the sample type VALUE; NAME(x) makes its names. Included once for each sample kind.
 *
 * The same method and the same memory as the proved code: across first with a queue of 63 places, then down with a queue
 * in each column, whose cells lie together; a step pops, ages and pushes, in that order, and counts its comparisons. A
 * column's cell keeps the remainder of its row's number by 128 in a byte; a place of the row's queue a 16-bit position.
 * Nothing is checked here but what a step must look at anyway: pixels that are not finite.
 */

/* The newest places of a queue that the new value equals or passes are dropped: how many stay. */
ALWAYS size_t NAME(popped)(int kind, const VALUE *values, size_t places, size_t length, size_t *back, VALUE value)
{
    size_t at = *back;
    while (length > 0 && (kind == EROSION ? value <= values[at] : value >= values[at])) {
        length--;
        at = at == 0 ? places - 1 : at - 1;
    }
    *back = at;
    return length;
}

/* The row filtered in place; answers the comparisons made. */
ALWAYS size_t NAME(across)(int kind, size_t behind, size_t ahead, VALUE *row, size_t width)
{
    VALUE values[63];
    uint16_t positions[63];
    size_t window = behind + ahead + 1, start = 0, length = 0, back = 62, comparisons = 0;
    for (size_t step = 0; step < width; step++) {
        size_t stay = NAME(popped)(kind, values, 63, length, &back, row[step]);
        comparisons += length - stay + (stay > 0);
        length = stay;
        if (length > 0 && positions[start] + window <= step) {
            start = start == 62 ? 0 : start + 1;
            length--;
        }
        back = back == 62 ? 0 : back + 1;
        values[back] = row[step];
        positions[back] = (uint16_t)step;
        length++;
        if (ahead <= step) row[step - ahead] = values[start];
    }
    for (size_t step = width; step < width + ahead; step++) {
        if (positions[start] + window <= step) start = start == 62 ? 0 : start + 1;
        if (ahead <= step) row[step - ahead] = values[start];
    }
    return comparisons;
}

/* Each column reads its value of the row; answers the comparisons made. */
ALWAYS size_t NAME(columns)(int kind, size_t places, const VALUE *row, size_t width, size_t step, VALUE *values,
                                   uint8_t *positions, uint8_t *starts, uint8_t *lengths)
{
    size_t comparisons = 0;
    uint8_t kept = remainder_of(step), leaves = remainder_of(step + 128 - places);
    for (size_t x = 0; x < width; x++, values += places, positions += places) {
        size_t start = starts[x], length = lengths[x], back = start + length;
        back = back == 0 ? places - 1 : back > places ? back - places - 1 : back - 1;
        size_t stay = NAME(popped)(kind, values, places, length, &back, row[x]);
        comparisons += length - stay + (stay > 0);
        length = stay;
        if (length > 0 && positions[start] == leaves) {
            start = start + 1 == places ? 0 : start + 1;
            length--;
        }
        back = back + 1 == places ? 0 : back + 1;
        values[back] = row[x];
        positions[back] = kept;
        starts[x] = (uint8_t)start;
        lengths[x] = (uint8_t)(length + 1);
    }
    return comparisons;
}

/* A step of the columns that reads nothing. */
ALWAYS void NAME(drained)(size_t places, size_t width, size_t step, const uint8_t *positions, uint8_t *starts, uint8_t *lengths)
{
    uint8_t leaves = remainder_of(step + 128 - places);
    for (size_t x = 0; x < width; x++, positions += places)
        if (lengths[x] > 0 && positions[starts[x]] == leaves) {
            starts[x] = (uint8_t)(starts[x] + 1u == places ? 0 : starts[x] + 1u);
            lengths[x]--;
        }
}

/* One step of a stage: its comparisons. The output row is written where one is due. */
size_t NAME(queue_row)(int kind, size_t left, size_t right, size_t up, size_t down, size_t width, size_t rows, size_t step,
                       const VALUE *row, VALUE *out, VALUE *values, uint8_t *positions, uint8_t *starts, uint8_t *lengths)
{
    size_t places = up + down + 1, ahead = kind == EROSION ? down : up, comparisons = 0;
    VALUE work[4096];
    if (step >= rows) {
        NAME(drained)(places, width, step, positions, starts, lengths);
    } else if (!NAME(taken)(row, work, width)) {
        return 0;
    } else if (kind == EROSION) {
        comparisons = NAME(across)(EROSION, left, right, work, width);
        comparisons += NAME(columns)(EROSION, places, work, width, step, values, positions, starts, lengths);
    } else {
        comparisons = NAME(across)(DILATION, right, left, work, width);
        comparisons += NAME(columns)(DILATION, places, work, width, step, values, positions, starts, lengths);
    }
    if (ahead <= step)
        for (size_t x = 0; x < width; x++) out[x] = values[x * places + starts[x]];
    return comparisons;
}

/* A stage over a whole picture, row by row: its comparisons. */
size_t NAME(queue_stage)(int kind, size_t left, size_t right, size_t up, size_t down, size_t width, size_t rows,
                         const VALUE *picture, VALUE *out, VALUE *values, uint8_t *positions, uint8_t *starts, uint8_t *lengths)
{
    size_t ahead = kind == EROSION ? down : up, comparisons = 0;
    for (size_t x = 0; x < width; x++) starts[x] = lengths[x] = 0;
    for (size_t step = 0; step < rows + ahead; step++)
        comparisons += NAME(queue_row)(kind, left, right, up, down, width, rows, step, picture + step * width,
                                       out + (step < ahead ? 0 : step - ahead) * width, values, positions, starts, lengths);
    return comparisons;
}
