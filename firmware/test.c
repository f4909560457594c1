/* Tests the one-row filters of the archive that `sh firmware/archive.sh` makes, through kelafshir.h, against a plain loop.
 *
 * Each row lies against a page that nobody may touch, once with its first byte and once with its last, so a byte read
 * or written outside a row stops the run. The bytes beside an output row on its open side are compared afterwards.
 * With a word on the command line it reads one byte too far on purpose, with two it writes one position too far, and must
 * die of it.
 */
#include "guards.h"
#include "kelafshir.h"

enum { LONGEST = KELAFSHIR_LONGEST_ROW };

/* A call: the kind and the extents, and how long its rows are, the row of positions NONE where it asks for none. */
struct call {
    uint8_t kind, left, right;
    size_t row, out, positions;
};

static const size_t NONE = (size_t)-1;

static void check(int is_right, const char *what, struct call c)
{
    if (is_counted_right(is_right, what)) return;
    printf("kind %u, left %u, right %u, lengths %zu and %zu", c.kind, c.left, c.right, c.row, c.out);
    if (c.positions != NONE) printf(", %zu positions", c.positions);
    printf("\n");
}

/* ---- the plain loop */

static uint8_t expected[ROOM];
static uint16_t expected_positions[ROOM];

/* The best value under each cut window, and the last position there that has it. */
static void filter_plainly(uint8_t kind, size_t left, size_t right, const uint8_t *row, size_t length)
{
    size_t back = kind == KELAFSHIR_EROSION ? left : right, ahead = kind == KELAFSHIR_EROSION ? right : left;
    for (size_t x = 0; x < length; x++) {
        size_t first = x < back ? 0 : x - back;
        uint8_t best = row[x];
        for (size_t at = first; at <= x + ahead && at < length; at++)
            if (kind == KELAFSHIR_EROSION ? row[at] < best : row[at] > best) best = row[at];
        expected[x] = best;
        for (size_t at = first; at <= x + ahead && at < length; at++)
            if (row[at] == best) expected_positions[x] = (uint16_t)at;
    }
}

/* The first of document 01's rules that is broken, in its order: 2, 3, 4, 7. */
static uint8_t judge(struct call c)
{
    if (c.kind > 1) return KELAFSHIR_STAGE_KIND;
    if (c.left > 31 || c.right > 31) return KELAFSHIR_EXTENT;
    if (c.row == 0 || c.row > 65535) return KELAFSHIR_SIZE;
    if (c.row != c.out) return KELAFSHIR_ROW_LENGTH;
    return c.positions == NONE || c.row == c.positions ? KELAFSHIR_DONE : KELAFSHIR_ROW_LENGTH;
}

/* ---- one call */

static uint8_t *row_room, *out_room, *positions_room, row_before[ROOM];
static struct output out, positions;

static uint8_t ask(struct call c, const uint8_t *row)
{
    if (c.positions == NONE) return kelafshir_filter_row(c.kind, c.left, c.right, row, c.row, out.at, c.out);
    return kelafshir_filter_row_positions(c.kind, c.left, c.right, row, c.row, out.at, c.out,
                                          (uint16_t *)(void *)positions.at, c.positions);
}

static void try_once(struct call c, unsigned picture, int at_back)
{
    uint8_t *row = placed(row_room, c.row, at_back);
    draw(row, c.row, picture);
    copy(row_before, row, c.row);
    lay(&out, out_room, c.out, at_back);
    lay(&positions, positions_room, c.positions == NONE ? 0 : 2 * c.positions, at_back);

    uint8_t number = ask(c, row);
    int is_done = number == KELAFSHIR_DONE, is_right = number == judge(c) && same(row, row_before, c.row);
    if (is_done && is_right) filter_plainly(c.kind, c.left, c.right, row, c.row);
    is_right = is_right && holds(&out, is_done ? expected : NULL) && holds(&positions, is_done ? expected_positions : NULL);
    check(is_right, at_back ? "at the back" : "at the front", c);
}

static void try_both(struct call c, unsigned picture)
{
    try_once(c, picture, 0);
    try_once(c, picture, 1);
}

/* A call whose rows are all of one length, without positions and with them. */
static void try_even(uint8_t kind, uint8_t left, uint8_t right, size_t length, unsigned picture)
{
    try_both((struct call){kind, left, right, length, length, NONE}, picture);
    try_both((struct call){kind, left, right, length, length, length}, picture);
}

/* ---- the tests */

/* Lengths 1 to 200 with each pair of these extents, both kinds. */
static void test_lengths(void)
{
    static const uint8_t extents[] = {0, 1, 2, 7, 30, 31};
    unsigned turn = 0;
    for (unsigned pair = 0; pair < 36; pair++)
        for (size_t length = 1; length <= 200; length++)
            for (uint8_t kind = 0; kind < 2; kind++)
                try_even(kind, extents[pair / 6], extents[pair % 6], length, turn++ % 6);
}

/* Every pair of extents on every picture. */
static void test_extents(void)
{
    for (uint8_t left = 0; left < 32; left++)
        for (uint8_t right = 0; right < 32; right++)
            for (unsigned turn = 0; turn < 12; turn++) try_even(turn % 2, left, right, 90, turn / 2);
}

/* Every order of wrong things, and the edges of every rule. */
static void test_refusals(void)
{
    static const uint8_t kinds[] = {0, 1, 2, 255}, extents[] = {0, 31, 32, 255};
    static const size_t lengths[] = {0, 1, 2, LONGEST, LONGEST + 1};
    for (unsigned turn = 0; turn < 4 * 4 * 4 * 5 * 5; turn++)
        try_both((struct call){kinds[turn % 4], extents[turn / 4 % 4], extents[turn / 16 % 4], lengths[turn / 64 % 5],
                               lengths[turn / 320], NONE}, 0);
    struct call none = {0, 0, 0, 0, 0, NONE}, no_positions = {0, 0, 0, 0, 0, 0};
    check(kelafshir_filter_row(0, 0, 0, NULL, 0, NULL, 0) == KELAFSHIR_SIZE, "no rows", none);
    check(kelafshir_filter_row_positions(0, 0, 0, NULL, 0, NULL, 0, NULL, 0) == KELAFSHIR_SIZE, "no rows", no_positions);
}

/* The same with positions: each rule kept and broken, and three rows of every length. */
static void test_position_refusals(void)
{
    static const uint8_t kinds[] = {1, 2}, extents[] = {31, 32};
    static const size_t lengths[] = {0, 1, 2, LONGEST, LONGEST + 1};
    for (unsigned turn = 0; turn < 2 * 2 * 2 * 5 * 5 * 5; turn++)
        try_both((struct call){kinds[turn % 2], extents[turn / 2 % 2], extents[turn / 4 % 2], lengths[turn / 8 % 5],
                               lengths[turn / 40 % 5], lengths[turn / 200]}, 0);
}

/* A row, left 1 and this right, whose answers and positions are worked out by hand. */
static void try_known(const char *what, uint8_t kind, uint8_t right, const uint8_t *row, size_t length,
                      const uint8_t *values, const uint16_t *places)
{
    uint8_t plain[8], result[8];
    uint16_t found[8];
    struct call without = {kind, 1, right, length, length, NONE}, with = {kind, 1, right, length, length, length};
    uint8_t number = kelafshir_filter_row(kind, 1, right, row, length, plain, length);
    check(number == KELAFSHIR_DONE && same(plain, values, length), what, without);
    number = kelafshir_filter_row_positions(kind, 1, right, row, length, result, length, found, length);
    check(number == KELAFSHIR_DONE && same(result, values, length) && same(found, places, 2 * length), what, with);
}

/* Line P of document 01, left 1, right 2, eroded and dilated; and three equal pixels: the latest position is told. */
static void test_known(void)
{
    static const uint8_t p[8] = {3, 1, 4, 1, 5, 9, 2, 6}, sevens[3] = {7, 7, 7};
    static const uint8_t values[2][8] = {{1, 1, 1, 1, 1, 2, 2, 2}, {3, 4, 4, 5, 9, 9, 9, 9}};
    static const uint16_t places[2][8] = {{1, 3, 3, 3, 3, 6, 6, 6}, {0, 2, 2, 4, 5, 5, 5, 5}}, last[3] = {1, 2, 2};
    for (uint8_t kind = 0; kind < 2; kind++) {
        try_known("line P", kind, 2, p, 8, values[kind], places[kind]);
        try_known("7 7 7", kind, 1, sevens, 3, sevens, last);
    }
}

/* The longest row, all pixels equal: each position is the last of its window, the last of all 65,534. */
static void test_longest(void)
{
    for (uint8_t kind = 0; kind < 2; kind++) {
        struct call c = {kind, 31, 31, LONGEST, LONGEST, LONGEST};
        try_both(c, 5);
        const uint16_t *found = (const uint16_t *)(void *)positions.at;
        check(found[0] == 31 && found[LONGEST - 32] == 65534 && found[LONGEST - 1] == 65534, "the longest row", c);
    }
}

int main(int count, char **words)
{
    (void)words;
    row_room = guarded_room(ROOM);
    out_room = guarded_room(ROOM);
    positions_room = guarded_room(ROOM);
    if (count == 2) return kelafshir_filter_row(1, 1, 0, row_room + ROOM - 2, 3, out_room, 3);
    if (count == 3)
        return kelafshir_filter_row_positions(1, 1, 0, row_room, 3, out_room, 3,
                                              (uint16_t *)(void *)(positions_room + ROOM - 4), 3);
    test_known();
    test_lengths();
    test_extents();
    test_refusals();
    test_position_refusals();
    test_longest();
    return counts_told();
}
