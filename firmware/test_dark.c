/* Tests the dark residue of the archive that `sh firmware/archive.sh` makes, through kelafshir.h, against a plain loop.
 *
 * Every call is made eight times: the closed row, the input row and the place of the sum each lie once with the first byte
 * and once with the last against a page that nobody may touch, so a byte read or written outside on that side stops the run.
 * The bytes beside the sum on its open side and both rows are compared afterwards.
 * With a word on the command line, closed, input or sum, that one reaches past the back of its room on purpose, with another
 * word behind it past the front, and the run must die of it.
 */
#include "band.h"

/* A call: the closing's extents, the row's number and the row count, and how long the two rows are. */
struct call {
    uint8_t left, right, up, down;
    size_t row, rows, closed, input;
};

/* What a call has to come to. The sum is told only where the number is 0. */
struct due {
    uint8_t number;
    uint64_t sum;
};

static void check(int is_right, const char *what, struct call c)
{
    if (is_counted_right(is_right, what)) return;
    printf("left %u, right %u, up %u, down %u, row %zu of %zu, lengths %zu and %zu\n", c.left, c.right, c.up, c.down, c.row,
           c.rows, c.closed, c.input);
}

/* ---- the plain loop */

static struct band band_of(struct call c)
{
    return (struct band){c.left, c.right, c.up, c.down, (long)c.closed, (long)c.rows};
}

/* The first rule that is broken, in the order 3, 4, 7, 21, 16; where none is, the sum. */
static struct due plainly(struct call c)
{
    if (c.left > 31 || c.right > 31 || c.up > 31 || c.down > 31) return (struct due){KELAFSHIR_EXTENT, 0};
    if (c.closed == 0 || c.closed > 4096) return (struct due){KELAFSHIR_SIZE, 0};
    if (c.rows == 0 || c.rows > 65535 || c.row >= c.rows) return (struct due){KELAFSHIR_SIZE, 0};
    if (c.input != c.closed) return (struct due){KELAFSHIR_ROW_LENGTH, 0};
    if (!some_counted(band_of(c))) return (struct due){KELAFSHIR_EMPTY_BAND, 0};
    long sum = 0;
    for (long x = 0; x < (long)c.closed; x++) {
        if (!is_counted(band_of(c), x, (long)c.row)) continue;
        if (closed[x] < input[x]) return (struct due){KELAFSHIR_NEGATIVE, 0};
        sum += (long)closed[x] - (long)input[x];
    }
    return (struct due){KELAFSHIR_DONE, (uint64_t)sum};
}

/* ---- one call */

static uint8_t *closed_room, *input_room, *sum_room;
static struct output sum;

static uint8_t ask(struct call c, const uint8_t *closed_row, const uint8_t *input_row)
{
    return kelafshir_dark(c.left, c.right, c.up, c.down, c.row, c.rows, closed_row, c.closed, input_row, c.input,
                          (uint64_t *)(void *)sum.at);
}

/* In all places, against what is due. */
static void try_due(const char *what, struct call c, struct due due)
{
    for (int place = 0; place < 8; place++) {
        uint8_t *closed_row = placed(closed_room, c.closed, place & 1), *input_row = placed(input_room, c.input, place & 2);
        copy(closed_row, closed, c.closed);
        copy(input_row, input, c.input);
        lay(&sum, sum_room, sizeof due.sum, place & 4);
        uint8_t number = ask(c, closed_row, input_row);
        int is_right = number == due.number && same(closed_row, closed, c.closed) && same(input_row, input, c.input);
        check(is_right && holds(&sum, due.number == KELAFSHIR_DONE ? &due.sum : NULL), what, c);
    }
}

static void try_plainly(const char *what, struct call c)
{
    try_due(what, c, plainly(c));
}

/* Against an answer that is known, which the plain loop has to give too. */
static void try_known(const char *what, struct call c, uint8_t number, uint64_t known)
{
    struct due plain = plainly(c);
    check(plain.number == number && plain.sum == known, what, c);
    try_due(what, c, (struct due){number, known});
}

/* ---- rows */

/* The rows as they are; then with one or two negative pixels, of a counted column or not. */
static void try_rows(const char *what, struct call c)
{
    size_t reach = (size_t)c.left + c.right;
    size_t edges[] = {0, reach - 1, reach, c.closed / 2, c.closed - 1 - reach, c.closed - reach, c.closed - 1};
    draw_rows(c.closed, (unsigned)below(6));
    try_plainly(what, c);
    size_t x = edges[below(7)];
    if (x < c.closed) darken(x);
    try_plainly(what, c);
    if (c.closed != 0) darken(below(c.closed));
    try_plainly(what, c);
}

/* ---- known answers */

/* left 1, right 1, up 1, down 0; the closed row is all 9, the input row 1, 2, 3 and so on. */
static void ramp(size_t length)
{
    for (size_t x = 0; x < length; x++) {
        closed[x] = 9;
        input[x] = (uint8_t)(x + 1);
    }
}

static void test_rows_known(void)
{
    ramp(7);
    for (size_t row = 0; row < 5; row++)
        try_known("rows 1 to 3 are counted", (struct call){1, 1, 1, 0, row, 5, 7, 7}, 0, row == 0 || row == 4 ? 0 : 15);
    try_known("all extents 0", (struct call){0, 0, 0, 0, 2, 5, 7, 7}, 0, 35);
    try_known("row 5 of 5", (struct call){1, 1, 1, 0, 5, 5, 7, 7}, 4, 0);
    try_known("row 0 of none", (struct call){1, 1, 1, 0, 0, 0, 7, 7}, 4, 0);
    try_known("row 0 of 65,536", (struct call){1, 1, 1, 0, 0, 65536, 7, 7}, 4, 0);
    try_known("row 0 of 65,535", (struct call){1, 1, 1, 0, 0, 65535, 7, 7}, 0, 0);
    try_known("two rows", (struct call){1, 1, 1, 0, 0, 2, 7, 7}, 21, 0);
    try_known("two rows", (struct call){1, 1, 1, 0, 1, 2, 7, 7}, 21, 0);
    try_known("three rows", (struct call){1, 1, 1, 0, 1, 3, 7, 7}, 0, 15);
    try_known("four columns", (struct call){1, 1, 1, 0, 2, 5, 4, 4}, 21, 0);
    try_known("five columns", (struct call){1, 1, 1, 0, 2, 5, 5, 5}, 0, 6);
    input[0] = 10;
    try_known("a negative pixel that is not counted", (struct call){1, 1, 1, 0, 2, 5, 7, 7}, 0, 15);
    ramp(7);
    input[3] = 10;
    try_known("a negative pixel that is counted", (struct call){1, 1, 1, 0, 2, 5, 7, 7}, 16, 0);
    try_known("a negative pixel outside the band", (struct call){1, 1, 1, 0, 0, 5, 7, 7}, 0, 0);
}

static void test_two_known(void)
{
    ramp(7);
    try_known("an extent of 32 and no rows", (struct call){32, 1, 1, 0, 0, 0, 7, 7}, 3, 0);
    try_known("row 5 of 5 and an input row of 6", (struct call){1, 1, 1, 0, 5, 5, 7, 6}, 4, 0);
    try_known("an input row of 3 and four columns", (struct call){1, 1, 1, 0, 2, 5, 4, 3}, 7, 0);
    input[2] = 10;
    try_known("four columns and a negative pixel", (struct call){1, 1, 1, 0, 2, 5, 4, 4}, 21, 0);
    flat_rows(125, 0, 200);
    closed[62] = 201;
    try_known("124 columns", (struct call){31, 31, 0, 0, 0, 1, 124, 124}, 21, 0);
    try_known("125 columns", (struct call){31, 31, 0, 0, 0, 1, 125, 125}, 0, 1);
    closed[62] = 199;
    try_known("125 columns, 62 negative", (struct call){31, 31, 0, 0, 0, 1, 125, 125}, 16, 0);
}

/* The largest sums, and the first width that is refused. */
static void test_largest(void)
{
    flat_rows(WIDEST + 1, 255, 0);
    try_known("the largest sum", (struct call){0, 0, 0, 0, 0, 1, WIDEST, WIDEST}, 0, 1044480);
    try_known("the widest band", (struct call){31, 31, 31, 31, 32767, MOST_ROWS, WIDEST, WIDEST}, 0, 1012860);
    try_known("4,097 columns", (struct call){0, 0, 0, 0, 0, 1, WIDEST + 1, WIDEST + 1}, 4, 0);
}

/* ---- bands */

/* Every rectangle of extents up to 2, with bands of 0 to 3 columns and rows, and every row of the picture. */
static void test_narrow(void)
{
    for (unsigned turn = 0; turn < 81 * 16; turn++) {
        struct call c = {turn % 3, turn / 3 % 3, turn / 9 % 3, turn / 27 % 3, 0, 0, 0, 0};
        c.rows = 2 * ((size_t)c.up + c.down) + turn / 81 % 4;
        c.closed = c.input = 2 * ((size_t)c.left + c.right) + turn / 324;
        for (c.row = 0; c.row <= c.rows; c.row++) try_rows("a narrow band", c);
    }
}

/* Any rectangle, with bands of 0 to 3 columns and rows or larger ones. The band's first and last row, those before and
 * behind, the picture's first and last, and any. */
static void test_any(void)
{
    for (unsigned turn = 0; turn < 1000; turn++) {
        struct call c = {below(32), below(32), below(32), below(32), 0, 0, 0, 0};
        size_t reach = (size_t)c.up + c.down;
        c.rows = 2 * reach + (turn % 5 != 0 ? below(4) : 1 + below(300));
        c.closed = c.input = 2 * ((size_t)c.left + c.right) + (turn % 3 != 0 ? below(4) : 1 + below(300));
        size_t rows[] = {reach - 1, reach, c.rows - 1 - reach, c.rows - reach, 0, c.rows - 1, below(c.rows + 1)};
        for (unsigned at = 0; at < 7; at++) {
            c.row = rows[at];
            try_rows("any band", c);
        }
    }
}

/* Rows about as wide as they can be. */
static void test_wide(void)
{
    for (unsigned turn = 0; turn < 60; turn++) {
        size_t width = WIDEST - 2 + turn % 4, rows = turn % 2 == 0 ? MOST_ROWS : 125;
        struct call c = {below(32), below(32), below(32), below(32), rows / 2, rows, width, width};
        try_rows("a wide row", c);
    }
}

/* ---- refusals */

/* The edges of all the rules, in every order of wrong things. */
static void test_limits(void)
{
    static const uint8_t extents[][4] = {{0, 0, 0, 0}, {31, 31, 31, 31}, {32, 0, 0, 0}, {0, 32, 0, 0}, {0, 0, 32, 0},
                                         {0, 0, 0, 32}, {255, 31, 31, 31}, {31, 255, 31, 31}, {31, 31, 255, 31},
                                         {31, 31, 31, 255}};
    static const size_t lengths[] = {0, 1, 2, WIDEST, WIDEST + 1};
    const size_t counts[] = {0, 1, 125, MOST_ROWS, MOST_ROWS + 1, LARGEST};
    draw_rows(WIDEST + 1, 0);
    for (unsigned turn = 0; turn < 10 * 5 * 5 * 6 * 4; turn++) {
        const uint8_t *e = extents[turn % 10];
        size_t rows = counts[turn / 250 % 6], numbers[] = {0, rows - 1, rows, LARGEST};
        try_plainly("limits", (struct call){e[0], e[1], e[2], e[3], numbers[turn / 1500], rows, lengths[turn / 10 % 5],
                                            lengths[turn / 50 % 5]});
    }
}

/* The things that can be wrong, in the order in which they are looked at. */
enum wrong { WRONG_EXTENT, WRONG_WIDTH, WRONG_ROWS, WRONG_ROW, WRONG_LENGTH, EMPTY_ACROSS, EMPTY_DOWN, NEGATIVE, WRONGS };

static const uint8_t refused_with[WRONGS] = {3, 4, 4, 4, 7, 21, 21, 16};

static int has(unsigned set, enum wrong wrong)
{
    return set >> wrong & 1;
}

/* A width over 4,096 leaves columns in the band, so with both wrong there are no columns at all, and no pixel that is
 * negative. Likewise down there are no rows, and no row number is below 0. */
static int can_be(unsigned set)
{
    if (has(set, WRONG_WIDTH) && has(set, EMPTY_ACROSS) && has(set, NEGATIVE)) return 0;
    return !has(set, WRONG_ROWS) || !has(set, EMPTY_DOWN) || has(set, WRONG_ROW);
}

/* A call that has these things wrong and no others: a band that is not to be empty is not, however large the extents are. */
static struct call wrong_call(unsigned set)
{
    uint8_t extents[4] = {1 + below(31), 1 + below(31), 1 + below(31), 1 + below(31)};
    if (has(set, WRONG_EXTENT)) extents[below(4)] = below(2) ? 32 : 255;
    size_t across = 2 * ((size_t)extents[0] + extents[1]), down = 2 * ((size_t)extents[2] + extents[3]);
    size_t width = across + 1 + below(600), rows = down + 1 + below(600);
    if (has(set, WRONG_WIDTH)) width = below(8) ? WIDEST + 1 + below(2) : 65536 + width;
    if (has(set, EMPTY_ACROSS)) width = has(set, WRONG_WIDTH) ? 0 : below(2) ? across : 1 + below(across);
    if (has(set, WRONG_ROWS)) rows = too_large(MOST_ROWS + 1, rows);
    if (has(set, EMPTY_DOWN)) rows = has(set, WRONG_ROWS) ? 0 : below(2) ? down : 1 + below(down);
    size_t row = down / 2 < rows ? down / 2 : rows - 1;
    if (has(set, WRONG_ROW)) row = too_large(rows, row);
    size_t length = width;
    if (has(set, WRONG_LENGTH)) length = below(8) == 0 ? width + 65536 : width == 0 || below(2) ? width + 1 : width - 1;
    return (struct call){extents[0], extents[1], extents[2], extents[3], row, rows, width, length};
}

/* Every choice of wrong things that can be wrong at once: the answer is the number of the first. */
static void test_order(void)
{
    for (unsigned turn = 0; turn < 20 * (1u << WRONGS); turn++) {
        unsigned set = turn % (1u << WRONGS), first = 0;
        if (!can_be(set)) continue;
        while (first < WRONGS && !has(set, first)) first++;
        struct call c = wrong_call(set);
        draw_rows(WIDEST + 3, 0);
        if (has(set, NEGATIVE)) flat_rows(WIDEST + 3, (uint8_t)below(255), 255);
        struct due due = plainly(c);
        check(due.number == (first < WRONGS ? refused_with[first] : 0), "the order of refusals", c);
        try_due("the order of refusals", c, due);
    }
}

/* A row of no pixels may be null. */
static void test_no_rows(void)
{
    struct call both = {0, 0, 0, 0, 0, 1, 0, 0}, extent = {0, 0, 32, 0, 0, 1, 0, 0}, one = {0, 0, 0, 0, 0, 1, 7, 0};
    lay(&sum, sum_room, sizeof(uint64_t), 1);
    check(ask(both, NULL, NULL) == KELAFSHIR_SIZE && holds(&sum, NULL), "no rows", both);
    check(ask(extent, NULL, NULL) == KELAFSHIR_EXTENT && holds(&sum, NULL), "no rows and an extent", extent);
    check(ask(one, closed_room, NULL) == KELAFSHIR_ROW_LENGTH && holds(&sum, NULL), "no input row", one);
}

/* ---- the run */

/* A call that is done, but for the place of one of the three: a byte of a row, or the sum, lies in the guard. */
static int reach_past(char which, int at_front)
{
    uint8_t *closed_row = closed_room, *input_row = input_room;
    lay(&sum, sum_room, sizeof(uint64_t), 1);
    if (which == 'c') closed_row = at_front ? closed_room - 1 : closed_room + ROOM - 6;
    if (which == 'i') input_row = at_front ? input_room - 1 : input_room + ROOM - 6;
    if (which == 's') sum.at = at_front ? sum_room - sizeof(uint64_t) : sum_room + ROOM;
    return ask((struct call){0, 0, 0, 0, 0, 1, 7, 7}, closed_row, input_row);
}

int main(int count, char **words)
{
    closed_room = guarded_room(ROOM);
    input_room = guarded_room(ROOM);
    sum_room = guarded_room(ROOM);
    if (count > 1) return reach_past(words[1][0], count > 2);
    test_rows_known();
    test_two_known();
    test_largest();
    test_narrow();
    test_any();
    test_wide();
    test_limits();
    test_order();
    test_no_rows();
    return counts_told();
}
