/* Tests the question of the archive that `sh firmware/archive.sh` makes, through kelafshir.h, against a plain reading. Of
 * whole pictures the rows are added up from the first one again for every answer.
 *
 * Every pair is asked four times: the closed row and the input row each lie once with the first byte and once with the last
 * against a page that nobody may touch, so a byte read or written outside on that side stops the run. The rows, the bytes on
 * their open sides and the question that was handed in are compared afterwards. Where rows must not be looked at, all is
 * asked again with rows of other lengths that lie in such pages whole. Of questions the fields are compared.
 * With a word on the command line, closed or input, that row reaches past the back of its room on purpose, with another word
 * behind it past the front, and the run must die of it.
 */
#include "band.h"

/* A call: the question that is handed in, and how long the two rows are. */
struct call {
    struct kelafshir_question question;
    size_t closed, input;
};

static void check(int is_right, const char *what, struct call c)
{
    if (is_counted_right(is_right, what)) return;
    struct kelafshir_question q = c.question;
    printf("left %u, right %u, up %u, down %u, width %zu, row %zu of %zu, ", q.left, q.right, q.up, q.down, q.width, q.row,
           q.rows);
    printf("sum %zu, limit %zu, lengths %zu and %zu\n", (size_t)q.sum, (size_t)q.limit, c.closed, c.input);
}

static int is_same(struct kelafshir_question a, struct kelafshir_question b)
{
    return a.left == b.left && a.right == b.right && a.up == b.up && a.down == b.down && a.width == b.width
        && a.rows == b.rows && a.limit == b.limit && a.row == b.row && a.sum == b.sum;
}

static int is_told(struct kelafshir_worn_told told, struct kelafshir_worn_told due)
{
    return told.number == due.number && told.answer == due.answer && is_same(told.question, due.question);
}

/* ---- the plain reading of a call */

static struct band band_of(struct kelafshir_question q)
{
    return (struct band){q.left, q.right, q.up, q.down, (long)q.width, (long)q.rows};
}

/* The most that the rows read can come to. */
static uint64_t most_of(struct kelafshir_question q)
{
    return (uint64_t)255 * q.width * q.row;
}

/* What a start has to be refused with: the first rule that is broken, in the order 3, 4, 21. */
static uint8_t start_number(struct kelafshir_question q)
{
    if (q.left > 31 || q.right > 31 || q.up > 31 || q.down > 31) return KELAFSHIR_EXTENT;
    if (q.width == 0 || q.width > 4096 || q.rows == 0 || q.rows > 65535) return KELAFSHIR_SIZE;
    return some_counted(band_of(q)) ? KELAFSHIR_DONE : KELAFSHIR_EMPTY_BAND;
}

/* The counted pixels of a row together; below 0 where one of them is. */
static long residue_of_row(struct band b, long y, const uint8_t *closed_row, const uint8_t *input_row)
{
    long sum = 0;
    for (long x = 0; x < b.width; x++) {
        if (!is_counted(b, x, y)) continue;
        if (closed_row[x] < input_row[x]) return -1;
        sum += (long)closed_row[x] - (long)input_row[x];
    }
    return sum;
}

/* What a pair has to be refused with: 12; and where the sum is not over the limit 9, 7, 16. */
static uint8_t pair_number(struct call c)
{
    struct kelafshir_question q = c.question;
    if (start_number(q) != KELAFSHIR_DONE || q.row > q.rows || q.sum > most_of(q)) return KELAFSHIR_STATE;
    if (q.sum > q.limit) return KELAFSHIR_DONE;
    if (q.row == q.rows) return KELAFSHIR_ALL_READ;
    if (c.closed != q.width || c.input != q.width) return KELAFSHIR_ROW_LENGTH;
    return residue_of_row(band_of(q), (long)q.row, closed, input) < 0 ? KELAFSHIR_NEGATIVE : KELAFSHIR_DONE;
}

static struct kelafshir_worn_told plainly(struct call c)
{
    struct kelafshir_question q = c.question;
    uint8_t number = pair_number(c);
    if (number != KELAFSHIR_DONE) return (struct kelafshir_worn_told){number, KELAFSHIR_NOT_YET, q};
    if (q.sum <= q.limit) q.sum += (uint64_t)residue_of_row(band_of(q), (long)q.row++, closed, input);
    uint8_t answer = q.sum > q.limit ? KELAFSHIR_YES : q.row == q.rows ? KELAFSHIR_NO : KELAFSHIR_NOT_YET;
    return (struct kelafshir_worn_told){KELAFSHIR_DONE, answer, q};
}

/* ---- one call */

/* A start with the size, the extents and the limit of a question with no row read. */
static void try_start(const char *what, struct kelafshir_question q)
{
    struct kelafshir_worn_begun begun = kelafshir_worn_start(q.left, q.right, q.up, q.down, q.width, q.rows, q.limit);
    uint8_t number = start_number(q);
    struct kelafshir_question due = {0};
    if (number == KELAFSHIR_DONE) due = q;
    check(begun.number == number && is_same(begun.question, due), what, (struct call){q, 0, 0});
}

static uint8_t *closed_room, *input_room;
static struct output closed_lent, input_lent;
static struct kelafshir_question *handed;

static struct kelafshir_worn_told ask(struct call c, const uint8_t *closed_row, const uint8_t *input_row)
{
    *handed = c.question;
    return kelafshir_worn_pair(*handed, closed_row, c.closed, input_row, c.input);
}

static void try_seen(const char *what, struct call c, struct kelafshir_worn_told due, int place)
{
    lay(&closed_lent, closed_room, c.closed, place & 1);
    lay(&input_lent, input_room, c.input, place & 2);
    copy(closed_lent.at, closed, c.closed);
    copy(input_lent.at, input, c.input);
    struct kelafshir_worn_told told = ask(c, closed_lent.at, input_lent.at);
    int is_kept = is_same(*handed, c.question) && holds(&closed_lent, closed) && holds(&input_lent, input);
    check(is_told(told, due) && is_kept, what, c);
}

/* So many bytes of a guard, before a room or behind it. None are null. */
static const uint8_t *unseen(const uint8_t *room, size_t length, int at_back)
{
    return length == 0 ? NULL : at_back ? room + ROOM : room - length;
}

static void try_unseen(const char *what, struct call c, struct kelafshir_worn_told due, int place)
{
    const uint8_t *closed_row = unseen(closed_room, c.closed, place & 1);
    struct kelafshir_worn_told told = ask(c, closed_row, unseen(input_room, c.input, place & 2));
    check(is_told(told, due) && is_same(*handed, c.question), what, c);
}

static size_t any_length(size_t width)
{
    const size_t lengths[] = {0, 1, width - 1, width, width + 1, GUARD - 1};
    return lengths[below(6)] % GUARD;
}

/* In all places, against what is due. The rows do not matter where the question breaks its rules, nor after a yes. */
static void try_due(const char *what, struct call c, struct kelafshir_worn_told due)
{
    struct kelafshir_question q = c.question;
    for (int place = 0; place < 4; place++) {
        try_seen(what, c, due, place);
        if (due.number == KELAFSHIR_STATE || q.limit < q.sum)
            try_unseen(what, (struct call){q, any_length(q.width), any_length(q.width)}, due, place);
    }
}

static void try_plainly(const char *what, struct call c)
{
    try_due(what, c, plainly(c));
}

/* Against what is known, which the plain reading has to give too. */
static void try_known(const char *what, struct call c, struct kelafshir_worn_told known)
{
    check(is_told(plainly(c), known), what, c);
    try_due(what, c, known);
}

/* ---- known answers */

/* The pixels of a pair as digits, the closed row's before a stroke and the input row's behind it, and what it comes to: the
 * number, the answer, and the question's row and sum. */
struct step {
    const char *pixels;
    uint8_t number, answer;
    size_t row;
    uint64_t sum;
};

static size_t digits_laid(const char *pixels, uint8_t *row)
{
    size_t length = 0;
    for (; pixels[length] >= '0' && pixels[length] <= '9'; length++) row[length] = (uint8_t)(pixels[length] - '0');
    return length;
}

/* Three rows of two pixels with all extents 0: so many pairs after a start with this limit. */
static void run_steps(const char *what, uint64_t limit, const struct step *steps, unsigned count)
{
    struct kelafshir_question q = {0, 0, 0, 0, 2, 3, limit, 0, 0};
    try_start(what, q);
    for (unsigned i = 0; i < count; i++) {
        struct call c = {q, digits_laid(steps[i].pixels, closed), 0};
        c.input = digits_laid(steps[i].pixels + c.closed + 1, input);
        q.row = steps[i].row;
        q.sum = steps[i].sum;
        try_known(what, c, (struct kelafshir_worn_told){steps[i].number, steps[i].answer, q});
    }
}

static void test_runs_known(void)
{
    static const struct step early[] = {{"55|12", 0, KELAFSHIR_NOT_YET, 1, 7}, {"44|11", 0, KELAFSHIR_YES, 2, 13},
                                        {"|", 0, KELAFSHIR_YES, 2, 13}, {"33|33", 0, KELAFSHIR_YES, 2, 13},
                                        {"00|99", 0, KELAFSHIR_YES, 2, 13}};
    static const struct step equal[] = {{"55|12", 0, KELAFSHIR_NOT_YET, 1, 7}, {"44|11", 0, KELAFSHIR_NOT_YET, 2, 13},
                                        {"33|33", 0, KELAFSHIR_NO, 3, 13}, {"33|33", 9, KELAFSHIR_NOT_YET, 3, 13},
                                        {"|3", 9, KELAFSHIR_NOT_YET, 3, 13}};
    static const struct step at_once[] = {{"55|12", 0, KELAFSHIR_YES, 1, 7}, {"44|11", 0, KELAFSHIR_YES, 1, 7}};
    static const struct step nothing[] = {{"55|55", 0, KELAFSHIR_NOT_YET, 1, 0}, {"44|44", 0, KELAFSHIR_NOT_YET, 2, 0},
                                          {"33|33", 0, KELAFSHIR_NO, 3, 0}, {"94|33", 9, KELAFSHIR_NOT_YET, 3, 0}};
    static const struct step refused[] = {{"55|12", 0, KELAFSHIR_NOT_YET, 1, 7}, {"44|51", 16, KELAFSHIR_NOT_YET, 1, 7},
                                          {"444|11", 7, KELAFSHIR_NOT_YET, 1, 7}, {"44|1", 7, KELAFSHIR_NOT_YET, 1, 7},
                                          {"44|11", 0, KELAFSHIR_NOT_YET, 2, 13}, {"33|34", 16, KELAFSHIR_NOT_YET, 2, 13},
                                          {"43|33", 0, KELAFSHIR_YES, 3, 14}, {"3|", 0, KELAFSHIR_YES, 3, 14}};
    run_steps("limit 10", 10, early, 5);
    run_steps("limit 13", 13, equal, 5);
    run_steps("limit 6", 6, at_once, 2);
    run_steps("limit 0", 0, nothing, 4);
    run_steps("limit 13 and refusals", 13, refused, 8);
}

/* What a call has to come to where both rows are equal: this refusal, or none where it is 0. A sum over the limit is a yes,
 * unless the question breaks its rules. */
static struct kelafshir_worn_told told_of(struct call c, uint8_t number)
{
    struct kelafshir_question q = c.question;
    if (number != KELAFSHIR_STATE && q.limit < q.sum) return (struct kelafshir_worn_told){KELAFSHIR_DONE, KELAFSHIR_YES, q};
    if (number != KELAFSHIR_DONE) return (struct kelafshir_worn_told){number, KELAFSHIR_NOT_YET, q};
    q.row++;
    return (struct kelafshir_worn_told){KELAFSHIR_DONE, q.row == q.rows ? KELAFSHIR_NO : KELAFSHIR_NOT_YET, q};
}

/* A question with every limit that makes a difference, and the largest. */
static void try_state(const char *what, struct kelafshir_question q, uint8_t number)
{
    const uint64_t limits[] = {LARGEST, q.sum, q.sum - 1, 0};
    size_t length = q.width <= WIDEST + 1 ? q.width : 7;
    flat_rows(length, 9, 9);
    for (unsigned i = 0; i < 4; i++) {
        q.limit = limits[i];
        struct call c = {q, length, length};
        try_known(what, c, told_of(c, number));
    }
}

/* A question but for its limit, and what it is refused with. */
struct state {
    uint8_t left, right, up, down;
    size_t width, rows, row;
    uint64_t sum;
    uint8_t number;
};

static void try_states(const char *what, const struct state *states, unsigned count)
{
    for (unsigned i = 0; i < count; i++) {
        struct state s = states[i];
        try_state(what, (struct kelafshir_question){s.left, s.right, s.up, s.down, s.width, s.rows, 0, s.row, s.sum}, s.number);
    }
}

/* With bands of one column or row, so that nothing but the extent is wrong; then with bands that are empty. */
static void test_extents_known(void)
{
    static const struct state extents[] = {
        {31, 2, 3, 4, 67, 15, 3, 9, 0}, {32, 2, 3, 4, 69, 15, 3, 9, 12}, {255, 2, 3, 4, 515, 15, 3, 9, 12},
        {1, 31, 3, 4, 65, 15, 3, 9, 0}, {1, 32, 3, 4, 67, 15, 3, 9, 12}, {1, 255, 3, 4, 513, 15, 3, 9, 12},
        {1, 2, 31, 4, 7, 71, 3, 9, 0}, {1, 2, 32, 4, 7, 73, 3, 9, 12}, {1, 2, 255, 4, 7, 519, 3, 9, 12},
        {1, 2, 3, 31, 7, 69, 3, 9, 0}, {1, 2, 3, 32, 7, 71, 3, 9, 12}, {1, 2, 3, 255, 7, 517, 3, 9, 12},
    };
    static const struct state bands[] = {
        {1, 0, 0, 0, 2, 3, 1, 5, 12}, {1, 0, 0, 0, 3, 3, 1, 5, 0}, {0, 0, 0, 1, 2, 2, 1, 5, 12}, {0, 0, 0, 1, 2, 3, 1, 5, 0},
        {1, 2, 3, 4, 6, 15, 3, 9, 12}, {1, 2, 3, 4, 7, 15, 3, 9, 0}, {1, 2, 3, 4, 7, 14, 3, 9, 12},
        {31, 31, 31, 31, 124, 125, 3, 9, 12}, {31, 31, 31, 31, 125, 125, 3, 9, 0}, {31, 31, 31, 31, 125, 124, 3, 9, 12},
    };
    try_states("an extent", extents, sizeof extents / sizeof *extents);
    try_states("a narrow band", bands, sizeof bands / sizeof *bands);
}

static void test_sizes_known(void)
{
    const struct state widths[] = {
        {0, 0, 0, 0, 0, 0, 0, 0, 12}, {0, 0, 0, 0, 0, 3, 1, 0, 12}, {0, 0, 0, 0, 1, 3, 1, 9, 0},
        {1, 2, 3, 4, 4096, 15, 3, 9, 0}, {1, 2, 3, 4, 4097, 15, 3, 9, 12}, {1, 2, 3, 4, 65536 + 7, 15, 3, 9, 12},
        {1, 2, 3, 4, LARGEST, 15, 3, 9, 12}, {1, 2, 3, 4, ((size_t)1 << 32) + 7, 15, 3, 9, 12},
        {1, 2, 3, 4, ((size_t)1 << 63) + 7, 15, 3, 9, 12},
    };
    const struct state rows[] = {
        {0, 0, 0, 0, 7, 0, 0, 0, 12}, {0, 0, 0, 0, 7, 1, 0, 0, 0}, {0, 0, 0, 0, 7, 1, 1, 9, 9}, {1, 2, 3, 4, 7, 65535, 3, 9, 0},
        {1, 2, 3, 4, 7, 65536, 3, 9, 12}, {1, 2, 3, 4, 7, 65536 + 15, 3, 9, 12}, {1, 2, 3, 4, 7, LARGEST, 3, 9, 12},
        {1, 2, 3, 4, 7, ((size_t)1 << 32) + 15, 3, 9, 12}, {1, 2, 3, 4, 7, ((size_t)1 << 63) + 15, 3, 9, 12},
    };
    try_states("a width", widths, sizeof widths / sizeof *widths);
    try_states("a row count", rows, sizeof rows / sizeof *rows);
}

static void test_rows_read_known(void)
{
    const struct state rows[] = {
        {0, 0, 0, 0, 2, 3, 3, 9, 9}, {0, 0, 0, 0, 2, 3, 4, 9, 12}, {1, 2, 3, 4, 7, 15, 14, 9, 0}, {1, 2, 3, 4, 7, 15, 15, 9, 9},
        {1, 2, 3, 4, 7, 15, 16, 9, 12}, {1, 2, 3, 4, 7, 15, 65536 + 3, 9, 12}, {1, 2, 3, 4, 7, 15, LARGEST, 9, 12},
        {1, 2, 3, 4, 7, 15, ((size_t)1 << 32) + 3, 9, 12}, {1, 2, 3, 4, 7, 15, ((size_t)1 << 63) + 3, 9, 12},
        {1, 2, 3, 4, 7, 65535, 65535, 9, 9}, {1, 2, 3, 4, 7, 65535, 65536, 9, 12},
    };
    const struct state sums[] = {
        {0, 0, 0, 0, 2, 3, 1, 510, 0}, {0, 0, 0, 0, 2, 3, 1, 511, 12}, {0, 0, 0, 0, 2, 3, 0, 0, 0},
        {0, 0, 0, 0, 2, 3, 0, 1, 12}, {1, 2, 3, 4, 7, 15, 3, 5355, 0}, {1, 2, 3, 4, 7, 15, 3, 5356, 12},
        {1, 2, 3, 4, 7, 15, 15, 26775, 9}, {1, 2, 3, 4, 7, 15, 15, 26776, 12}, {1, 2, 3, 4, 7, 15, 3, LARGEST, 12},
        {1, 2, 3, 4, 7, 15, 3, ((uint64_t)1 << 32) + 9, 12}, {1, 2, 3, 4, 7, 15, 3, ((uint64_t)1 << 63) + 9, 12},
    };
    try_states("rows read", rows, sizeof rows / sizeof *rows);
    try_states("a sum", sums, sizeof sums / sizeof *sums);
}

/* The last row of the largest picture, where every pixel adds the most; the limits about the sums before it and after it. */
static void test_largest(void)
{
    const uint64_t before = 68448952320, after = 68449996800;    /* 255 x 4,096 x 65,534, and x 65,535 */
    const uint64_t limits[] = {before - 1, before, after - 1, after, after + 1, LARGEST, after & 0xffffffff};
    struct kelafshir_question q = {0, 0, 0, 0, WIDEST, MOST_ROWS, 0, MOST_ROWS - 1, before};
    flat_rows(WIDEST, 255, 0);
    for (unsigned i = 0; i < 7; i++) {
        q.limit = limits[i];
        struct kelafshir_worn_told due = {KELAFSHIR_DONE, KELAFSHIR_YES, q};
        if (before <= q.limit) {
            due.answer = after <= q.limit ? KELAFSHIR_NO : KELAFSHIR_YES;
            due.question.row = MOST_ROWS;
            due.question.sum = after;
        }
        try_known("the largest sum", (struct call){q, WIDEST, WIDEST}, due);
    }
    try_state("the most before the last row", q, KELAFSHIR_DONE);
    q.sum++;
    try_state("one more", q, KELAFSHIR_STATE);
}

/* ---- pictures */

static uint8_t closed_picture[ROOM], input_picture[ROOM];

/* A picture and another that is nowhere below it, but for some pixels that are not counted. */
static void draw_picture(struct band b)
{
    size_t pixels = (size_t)(b.width * b.rows);
    draw_rows(pixels, (unsigned)below(6));
    for (size_t i = 0; i < pixels; i++)
        if (below(4) == 0 && !is_counted(b, (long)i % b.width, (long)i / b.width)) darken(i);
    copy(closed_picture, closed, pixels);
    copy(input_picture, input, pixels);
}

static void take_row(struct kelafshir_question q, size_t row)
{
    copy(closed, closed_picture + row * q.width, q.width);
    copy(input, input_picture + row * q.width, q.width);
}

/* The residue of its first rows. */
static uint64_t residue_of(struct band b, long rows)
{
    uint64_t sum = 0;
    for (long y = 0; y < rows; y++)
        sum += (uint64_t)residue_of_row(b, y, closed_picture + y * b.width, input_picture + y * b.width);
    return sum;
}

/* What the last of so many pairs has to come to: rows are read until those read are over the limit, or all are. */
static struct kelafshir_worn_told due_after(struct kelafshir_question q, size_t pairs)
{
    struct band b = band_of(q);
    for (q.row = 0; q.row < pairs && q.row < q.rows; q.row++)
        if (q.limit < residue_of(b, (long)q.row)) break;
    q.sum = residue_of(b, (long)q.row);
    if (q.limit < q.sum) return (struct kelafshir_worn_told){KELAFSHIR_DONE, KELAFSHIR_YES, q};
    if (q.rows < pairs) return (struct kelafshir_worn_told){KELAFSHIR_ALL_READ, KELAFSHIR_NOT_YET, q};
    return (struct kelafshir_worn_told){KELAFSHIR_DONE, q.row == q.rows ? KELAFSHIR_NO : KELAFSHIR_NOT_YET, q};
}

static size_t other_length(size_t length)
{
    const size_t lengths[] = {0, length - 1, length + 1, 2 * length};
    size_t other = below(64) == 0 ? 65536 + length : lengths[below(4)];
    return length == 0 || other == length ? length + 1 : other;
}

/* A question that breaks a rule. */
static struct kelafshir_question broken(struct kelafshir_question q)
{
    switch (below(7)) {
    case 0: q.right = below(2) ? 32 : 255; break;
    case 1: q.width = below(2) ? 0 : too_large(WIDEST + 1, q.width); break;
    case 2: q.rows = below(2) ? 0 : too_large(MOST_ROWS + 1, q.rows); break;
    case 3: q.width = 2 * ((size_t)q.left + q.right); break;
    case 4: q.rows = 2 * ((size_t)q.up + q.down); break;
    case 5: q.row = too_large(q.rows + 1, q.row); break;
    default: q.sum = too_large(most_of(q) + 1, q.sum);
    }
    return q;
}

/* In place of the pair of this row one that is refused, or as little looked at as any after a yes. */
static void try_between(const char *what, struct kelafshir_question q, size_t row)
{
    struct call c = {q, q.width, q.width};
    size_t kind = below(4), x = below(q.width);
    take_row(q, row);
    int is_negative = kind == 0 && is_counted(band_of(q), (long)x, (long)q.row);
    if (is_negative) darken(x);
    if (kind == 1) c.question = broken(q);
    if (kind == 2 || (kind == 0 && !is_negative)) c.closed = other_length(q.width);
    if (kind == 3 || (kind == 0 && !is_negative)) c.input = other_length(q.width);
    uint8_t number = is_negative ? KELAFSHIR_NEGATIVE : KELAFSHIR_ROW_LENGTH;
    if (q.row == q.rows) number = KELAFSHIR_ALL_READ;
    try_known(what, c, told_of(c, kind == 1 ? KELAFSHIR_STATE : number));
}

/* The rows of a picture and two pairs more, with any number of other pairs between. */
static void run_picture(const char *what, struct kelafshir_question first)
{
    struct kelafshir_question q = first;
    try_start(what, first);
    for (size_t pairs = 1; pairs <= first.rows + 2; pairs++) {
        struct kelafshir_worn_told due = due_after(first, pairs);
        while (below(2) == 0) try_between(what, q, (pairs - 1) % q.rows);
        take_row(q, (pairs - 1) % q.rows);
        try_known(what, (struct call){q, first.width, first.width}, due);
        q = due.question;
    }
}

/* As a caller does: on with what comes back, until it is a yes or a no. */
static void run_called(const char *what, struct kelafshir_question q)
{
    struct kelafshir_worn_begun begun = kelafshir_worn_start(q.left, q.right, q.up, q.down, q.width, q.rows, q.limit);
    struct kelafshir_worn_told told = {begun.number, KELAFSHIR_NOT_YET, begun.question};
    for (size_t y = 0; y < q.rows && told.number == KELAFSHIR_DONE && told.answer == KELAFSHIR_NOT_YET; y++) {
        take_row(q, y);
        told = kelafshir_worn_pair(told.question, closed, q.width, input, q.width);
    }
    check(is_told(told, due_after(q, q.rows)), what, (struct call){q, q.width, q.width});
}

/* With limits one below, at and one above each sum of first rows: that of no rows makes them the largest limit, 0 and 1. */
static void run_limits(const char *what, struct kelafshir_question q)
{
    draw_picture(band_of(q));
    for (size_t i = 0; i < 3 * (q.rows + 1); i++) {
        q.limit = residue_of(band_of(q), (long)(i / 3)) + i % 3 - 1;
        run_picture(what, q);
        run_called(what, q);
    }
}

static void test_pictures(void)
{
    for (unsigned turn = 0; turn < 160; turn++) {
        struct kelafshir_question q = {0, 0, 0, 0, 1 + below(5), 1 + below(5), 0, 0, 0};
        if (turn % 4 != 0) q.left = below(3), q.right = below(3), q.up = below(3), q.down = below(3);
        q.width += 2 * ((size_t)q.left + q.right);
        q.rows += 2 * ((size_t)q.up + q.down);
        run_limits("a picture", q);
    }
    run_limits("a wide picture", (struct kelafshir_question){31, 30, 1, 0, WIDEST, 4, 0, 0, 0});
}

/* ---- questions that no start gave */

static uint64_t any_up_to(uint64_t most)
{
    uint64_t any = (uint64_t)below(1 << 24) << 24 | below(1 << 24);
    return any % (most + 1);
}

/* With limits about the sum before the pair and the sum after it. */
static void try_limits(const char *what, struct kelafshir_question q)
{
    uint64_t after = q.sum;
    if (start_number(q) == KELAFSHIR_DONE) after += (uint64_t)residue_of_row(band_of(q), (long)q.row, closed, input);
    const uint64_t limits[] = {q.sum - 1, q.sum, after - 1, after, after + 1, 0, LARGEST, after & 0xffffffff};
    for (unsigned i = 0; i < 8; i++) {
        q.limit = limits[i];
        try_plainly(what, (struct call){q, q.width, q.width});
    }
}

/* With rows of which a third have a negative pixel, in a counted column or not. */
static void try_drawn(const char *what, struct kelafshir_question q)
{
    size_t reach = (size_t)q.left + q.right, edges[] = {0, reach - 1, reach, q.width - 1 - reach, q.width - reach, q.width / 2};
    size_t x = edges[below(6)];
    draw_rows(q.width, (unsigned)below(6));
    if (below(3) == 0 && x < q.width) darken(x);
    try_limits(what, q);
}

/* Any rectangle, with bands of 0 to 3 columns and rows or larger ones. The band's first and last row, those before and
 * behind, the picture's first and last, none left to read, and any. */
static void test_any(void)
{
    for (unsigned turn = 0; turn < 1000; turn++) {
        struct kelafshir_question q = {below(32), below(32), below(32), below(32), 0, 0, 0, 0, 0};
        size_t reach = (size_t)q.up + q.down;
        q.rows = 2 * reach + (turn % 5 != 0 ? below(4) : 1 + below(300));
        q.width = 2 * ((size_t)q.left + q.right) + (turn % 3 != 0 ? below(4) : 1 + below(300));
        size_t rows[] = {reach - 1, reach, q.rows - 1 - reach, q.rows - reach, 0, q.rows - 1, q.rows, below(q.rows + 1)};
        q.row = rows[below(8)];
        uint64_t most = most_of(q), sums[] = {0, most, most + 1, any_up_to(most), any_up_to(most)};
        q.sum = sums[below(5)];
        try_drawn("any question", q);
    }
}

/* About as wide as can be, with many rows read: sums of more than 32 bits. */
static void test_wide(void)
{
    for (unsigned turn = 0; turn < 60; turn++) {
        struct kelafshir_question q = {below(32), below(32), below(32), below(32), WIDEST - 2 + turn % 4, MOST_ROWS, 0, 0, 0};
        q.row = 40000 + below(20000);
        uint64_t most = most_of(q), sums[] = {most, any_up_to(most), (uint64_t)1 << 32, ((uint64_t)1 << 32) - 1};
        q.sum = sums[below(4)];
        try_drawn("a wide question", q);
    }
}

/* The edges of all the rules together. */
static void test_edges(void)
{
    static const uint8_t extents[][4] = {{0, 0, 0, 0}, {31, 31, 31, 31}, {32, 0, 0, 0}, {0, 0, 0, 255}, {1, 0, 0, 0},
                                         {0, 0, 1, 0}};
    const size_t widths[] = {0, 1, 2, 3, WIDEST, WIDEST + 1}, counts[] = {0, 1, 2, 3, 125, MOST_ROWS, MOST_ROWS + 1, LARGEST};
    draw_rows(WIDEST + 1, 0);
    for (unsigned turn = 0; turn < 6 * 6 * 8 * 20; turn++) {
        const uint8_t *e = extents[turn % 6];
        struct kelafshir_question q = {e[0], e[1], e[2], e[3], widths[turn / 6 % 6], counts[turn / 36 % 8], 0, 0, 0};
        const size_t rows[] = {0, 1, q.rows - 1, q.rows, q.rows + 1};
        q.row = rows[below(5)];
        const uint64_t sums[] = {0, 1, most_of(q), most_of(q) + 1, LARGEST};
        q.sum = sums[below(5)];
        const uint64_t limits[] = {0, q.sum - 1, q.sum, LARGEST};
        q.limit = limits[below(4)];
        try_plainly("edges", (struct call){q, widths[below(6)], widths[below(2) ? below(6) : turn / 6 % 6]});
    }
}

/* ---- the order of refusals */

/* The things that can be wrong, in the order in which they are looked at; OVER is the yes among them, which is not wrong. */
enum wrong {
    WRONG_EXTENT,
    WRONG_WIDTH,
    WRONG_ROWS,
    EMPTY_ACROSS,
    EMPTY_DOWN,
    WRONG_ROW,
    WRONG_SUM,
    OVER,
    ALL_READ,
    WRONG_CLOSED,
    WRONG_INPUT,
    NEGATIVE,
    WRONGS
};

static const uint8_t start_refused_with[] = {3, 4, 4, 21, 21};
static const uint8_t refused_with[WRONGS] = {12, 12, 12, 12, 12, 12, 12, 0, 9, 7, 7, 16};

static int has(unsigned set, enum wrong wrong)
{
    return set >> wrong & 1;
}

static uint8_t first_number(unsigned set, const uint8_t *numbers)
{
    for (unsigned wrong = 0; wrong < WRONGS; wrong++)
        if (has(set, wrong)) return numbers[wrong];
    return KELAFSHIR_DONE;
}

/* A question of extents and a size that have these things wrong and no others. No width over 4,096 leaves the band empty, so
 * with both wrong it is 0; likewise down. */
static struct kelafshir_question wrong_start(unsigned set)
{
    uint8_t extents[4] = {1 + below(31), 1 + below(31), 1 + below(31), 1 + below(31)};
    if (has(set, WRONG_EXTENT)) extents[below(4)] = below(2) ? 32 : 255;
    size_t across = 2 * ((size_t)extents[0] + extents[1]), down = 2 * ((size_t)extents[2] + extents[3]);
    size_t width = across + 1 + below(600), rows = down + 1 + below(600);
    if (has(set, WRONG_WIDTH)) width = too_large(WIDEST + 1, width);
    if (has(set, EMPTY_ACROSS)) width = has(set, WRONG_WIDTH) ? 0 : below(2) ? across : 1 + below(across);
    if (has(set, WRONG_ROWS)) rows = too_large(MOST_ROWS + 1, rows);
    if (has(set, EMPTY_DOWN)) rows = has(set, WRONG_ROWS) ? 0 : below(2) ? down : 2 + below(down - 1);
    return (struct kelafshir_question){extents[0], extents[1], extents[2], extents[3], width, rows, 1 + below(1000), 0, 0};
}

/* A pair that has these things wrong: the row is one of the band where it can be. */
static struct call wrong_call(unsigned set)
{
    struct kelafshir_question q = wrong_start(set);
    q.row = (size_t)q.up + q.down;
    if (q.row >= q.rows) q.row = q.rows == 0 ? 0 : q.rows - 1;
    if (has(set, ALL_READ)) q.row = q.rows;
    if (has(set, WRONG_ROW)) q.row = too_large(q.rows + 1, q.row);
    q.sum = 1 + below(255);
    if (has(set, WRONG_SUM)) q.sum = too_large(most_of(q) + 1, q.sum);
    q.limit = has(set, OVER) ? below(q.sum) : q.sum + below(300);
    struct call c = {q, q.width <= WIDEST + 1 ? q.width : q.width % WIDEST, 0};
    c.input = c.closed;
    if (has(set, WRONG_CLOSED)) c.closed = other_length(c.closed);
    if (has(set, WRONG_INPUT)) c.input = has(set, WRONG_CLOSED) && below(2) ? c.closed : other_length(c.input);
    return c;
}

/* Every choice of wrong things at once, and as often those among them of a question that breaks no rule: the answer is that
 * of the first. */
static void test_order(void)
{
    for (unsigned turn = 0; turn < 4 * (1u << WRONGS); turn++) {
        unsigned set = turn % 2 == 0 ? turn / 2 % (1u << WRONGS) : turn / 2 % (1u << (WRONGS - OVER)) << OVER;
        struct call c = wrong_call(set);
        flat_rows(2 * WIDEST + 2, has(set, NEGATIVE) ? (uint8_t)below(255) : 255, 255);
        try_known("the order of refusals", c, told_of(c, first_number(set, refused_with)));
    }
}

/* The same of a start. */
static void test_starts(void)
{
    for (unsigned turn = 0; turn < 20 * 32; turn++) {
        struct kelafshir_question q = wrong_start(turn % 32);
        uint8_t number = first_number(turn % 32, start_refused_with);
        check(start_number(q) == number, "the order at the start", (struct call){q, 0, 0});
        try_start("the order at the start", q);
    }
}

/* Starts at the edges of all the rules, with limits of every size. */
static void test_start_edges(void)
{
    static const uint8_t extents[][4] = {{0, 0, 0, 0}, {31, 31, 31, 31}, {32, 0, 0, 0}, {0, 32, 0, 0}, {0, 0, 32, 0},
                                         {0, 0, 0, 32}, {255, 31, 31, 31}, {31, 31, 31, 255}};
    const size_t sizes[] = {0, 1, 124, 125, WIDEST, WIDEST + 1, MOST_ROWS, MOST_ROWS + 1, ((size_t)1 << 32) + 125, LARGEST};
    const uint64_t limits[] = {0, 1, (uint64_t)1 << 32, LARGEST};
    for (unsigned turn = 0; turn < 8 * 10 * 10; turn++) {
        const uint8_t *e = extents[turn % 8];
        try_start("edges of a start", (struct kelafshir_question){e[0], e[1], e[2], e[3], sizes[turn / 8 % 10],
                                                                  sizes[turn / 80], limits[below(4)], 0, 0});
    }
}

static void test_starts_known(void)
{
    static const struct state starts[] = {
        {0, 0, 0, 0, 2, 3, 0, 0, 0}, {1, 0, 0, 0, 2, 3, 0, 0, 21}, {0, 1, 0, 0, 3, 3, 0, 0, 0}, {0, 0, 1, 0, 2, 2, 0, 0, 21},
        {0, 0, 0, 1, 2, 3, 0, 0, 0}, {31, 31, 31, 31, 125, 125, 0, 0, 0}, {31, 31, 31, 31, 124, 124, 0, 0, 21},
        {32, 0, 0, 0, 0, 0, 0, 0, 3}, {31, 0, 0, 0, 0, 1, 0, 0, 4}, {0, 0, 31, 0, 1, 65536, 0, 0, 4},
    };
    for (unsigned i = 0; i < sizeof starts / sizeof *starts; i++) {
        struct state s = starts[i];
        struct kelafshir_question q = {s.left, s.right, s.up, s.down, s.width, s.rows, 1000, 0, 0};
        check(start_number(q) == s.number, "a known start", (struct call){q, 0, 0});
        try_start("a known start", q);
    }
}

/* ---- rows that are not there */

/* Before a yes a row of no pixels may be null too. */
static void test_no_rows(void)
{
    struct kelafshir_question q = {0, 0, 0, 0, 7, 3, 100, 1, 9};
    struct call both = {q, 0, 0}, one = {q, 7, 0}, other = {q, 0, 7};
    struct kelafshir_worn_told due = {KELAFSHIR_ROW_LENGTH, KELAFSHIR_NOT_YET, q};
    check(is_told(ask(both, NULL, NULL), due), "no rows", both);
    check(is_told(ask(one, closed_room, NULL), due), "no input row", one);
    check(is_told(ask(other, NULL, input_room), due), "no closed row", other);
    both.question.row = 3;
    due = (struct kelafshir_worn_told){KELAFSHIR_ALL_READ, KELAFSHIR_NOT_YET, both.question};
    check(is_told(ask(both, NULL, NULL), due), "no rows when all are read", both);
}

/* ---- the run */

/* A pair that is taken, but for the place of one of the rows: a byte of it lies in the guard. */
static int reach_past(char which, int at_front)
{
    uint8_t *closed_row = closed_room, *input_row = input_room;
    if (which == 'c') closed_row = at_front ? closed_room - 1 : closed_room + ROOM - 6;
    if (which == 'i') input_row = at_front ? input_room - 1 : input_room + ROOM - 6;
    return ask((struct call){{0, 0, 0, 0, 7, 1, 0, 0, 0}, 7, 7}, closed_row, input_row).number;
}

int main(int count, char **words)
{
    closed_room = guarded_room(ROOM);
    input_room = guarded_room(ROOM);
    handed = (void *)placed(guarded_room(ROOM), sizeof *handed, 1);
    if (count > 1) return reach_past(words[1][0], count > 2);
    test_runs_known();
    test_extents_known();
    test_sizes_known();
    test_rows_read_known();
    test_largest();
    test_pictures();
    test_any();
    test_wide();
    test_edges();
    test_order();
    test_starts();
    test_start_edges();
    test_starts_known();
    test_no_rows();
    return counts_told();
}
