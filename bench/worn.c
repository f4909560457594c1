/* What a pair of rows costs a question, and that a yes ends the reading. All extents are 0, so that every pixel is counted.
 *
 *     worn [ROUNDS]
 *
 * A line "row" for each width: the width, nanoseconds of a row's residue alone, of a pair of a question that never says yes,
 * and of a pair after a yes; and the ratio of the second to the first. A line "picture" for each width, of TALL rows: the
 * width, nanoseconds of adding up all residues, of a question that never says yes, of one that says yes at row EARLY and is
 * asked with all rows, and of one whose caller stops at that yes; and the ratio of the second to the first. All in turns.
 *
 * The rows handed in after a yes lie in memory that this process may not read. Every answer is compared with a plain loop's.
 * Compiled with FROM_C it makes the calls that C programs link, which hand the question in and out by value; else those of
 * worn.txt, which leave it where it is kept.
 */
#define _DEFAULT_SOURCE
#include <signal.h>
#include <stdio.h>
#include <stdlib.h>
#include <string.h>
#include <sys/mman.h>
#include <sys/wait.h>
#include <unistd.h>

#include "../firmware/kelafshir.h"
#include "dark.h"
#include "turns.h"

/* A turn of rows is CALLS calls: over and over rows of PIXELS pixels together, but at most MOST rows, which fit the nearest
 * cache; after a yes, with a locked row of its own each. */
enum { PIXELS = 8192, MOST = 128, CALLS = 8192, MOST_ROWS = 65535 };
/* A picture has TALL rows, and its yes comes with row EARLY, counted from 1. A turn is OFTEN pictures, or where the caller
 * stops as many as have the same rows. */
enum { TALL = 1000, WIDEST = 4096, EARLY = 10, OFTEN = 10 };
enum { ALONE, PAIR, AFTER, ROW_WAYS };
enum { SUM, NEVER, ASKED_ON, STOPPED, PICTURE_WAYS };

/* Rows of two pictures, the closed one and the input. */
struct rows {
    const uint8_t *closed, *input;
    size_t width, count;
};

/* What is measured: rows to read; rows to hand in after a yes; the limit of the question that says it, and the sum of all
 * rows that are read where none does. */
struct subject {
    struct rows open, shut;
    uint64_t limit, sum;
};

static uint8_t closed[TALL * WIDEST], input[TALL * WIDEST];
static double *times[PICTURE_WAYS], *ratios;

static void stop(const char *what, size_t width) {
    fprintf(stderr, "%s at width %zu\n", what, width);
    exit(1);
}

/* ---- the calls: the residue of a row alone, a start, and a pair; a refusal's number comes above every sum and answer */

#ifdef FROM_C

static size_t alone(const struct rows *p, size_t i, size_t row, size_t rows) {
    const uint8_t *a = p->closed + i * p->width, *b = p->input + i * p->width;
    uint64_t sum = 0;
    uint8_t number = kelafshir_dark(0, 0, 0, 0, row, rows, a, p->width, b, p->width, &sum);
    return number == 0 ? (size_t)sum : (size_t)REFUSED + number;
}

static struct kelafshir_question first(size_t width, size_t rows, uint64_t limit) {
    struct kelafshir_worn_begun begun = kelafshir_worn_start(0, 0, 0, 0, width, rows, limit);
    if (begun.number != 0) stop("a refused start", width);
    return begun.question;
}

static size_t pair(struct kelafshir_question *question, const struct rows *p, size_t i) {
    const uint8_t *a = p->closed + i * p->width, *b = p->input + i * p->width;
    struct kelafshir_worn_told told = kelafshir_worn_pair(*question, a, p->width, b, p->width);
    *question = told.question;
    return told.number == 0 ? told.answer : (size_t)REFUSED + told.number;
}

#else

uint8_t rt_row_first(uint8_t left, uint8_t right, uint8_t up, uint8_t down, size_t width, size_t rows, uint64_t limit,
                     struct kelafshir_question *question);
size_t rt_row_asked(struct kelafshir_question *question, const uint8_t *closed, size_t closed_length, const uint8_t *input,
                    size_t input_length);

static size_t alone(const struct rows *p, size_t i, size_t row, size_t rows) {
    return rt_row_now(0, 0, 0, 0, row, rows, p->closed + i * p->width, p->width, p->input + i * p->width, p->width);
}

static struct kelafshir_question first(size_t width, size_t rows, uint64_t limit) {
    struct kelafshir_question question;
    if (rt_row_first(0, 0, 0, 0, width, rows, limit, &question) != 0) stop("a refused start", width);
    return question;
}

static size_t pair(struct kelafshir_question *question, const struct rows *p, size_t i) {
    return rt_row_asked(question, p->closed + i * p->width, p->width, p->input + i * p->width, p->width);
}

#endif

/* ---- memory that may not be read */

/* Room for so many bytes, copied from there, and right behind them for so many that may not be read. */
static uint8_t *locked(const uint8_t *from, size_t open, size_t shut) {
    size_t page = (size_t)sysconf(_SC_PAGESIZE), front = (open + page - 1) / page * page;
    uint8_t *block = mmap(NULL, front + shut, PROT_READ | PROT_WRITE, MAP_PRIVATE | MAP_ANONYMOUS, -1, 0);
    if (block == MAP_FAILED || mprotect(block + front, shut, PROT_NONE) != 0) stop("no locked memory", shut);
    memcpy(block + front - open, from, open);
    return block + front - open;
}

/* The first rows of both pictures, and behind them rows that may not be read. */
static struct rows locked_after(size_t open, size_t width, size_t count) {
    size_t front = open * width, back = (count - open) * width;
    struct rows rows = {locked(closed, front, back), locked(input, front, back), width, count};
    return rows;
}

static void leave(int number) { _exit(number == SIGSEGV ? 0 : 1); }

/* The lock locks: in a process of its own the residue of the last row is the end of it. */
static void check_lock(const struct rows *p) {
    int status;
    pid_t child = fork();
    if (child == 0) {
        signal(SIGSEGV, leave);
        alone(p, p->count - 1, 0, 1);
        _exit(1);
    }
    if (child < 0 || waitpid(child, &status, 0) != child || status != 0) stop("a locked row can be read", p->width);
}

/* ---- the answers, by plain loops */

static uint64_t plain_sum(const struct rows *p, size_t from, size_t to) {
    uint64_t sum = 0;
    for (size_t i = from * p->width; i < to * p->width; i++) sum += (uint64_t)(p->closed[i] - p->input[i]);
    return sum;
}

/* The answer to a pair, and the question after it. */
static size_t plain_pair(struct kelafshir_question *q, const uint8_t *a, const uint8_t *b) {
    uint64_t sum = q->sum;
    if (q->limit < sum) return KELAFSHIR_YES;
    if (q->row == q->rows) return REFUSED + 9;
    for (size_t x = 0; x < q->width; x++) {
        if (a[x] < b[x]) return REFUSED + 16;
        sum += (uint64_t)(a[x] - b[x]);
    }
    q->sum = sum;
    q->row++;
    return q->limit < sum ? KELAFSHIR_YES : q->row < q->rows ? KELAFSHIR_NOT_YET : KELAFSHIR_NO;
}

static int same(const struct kelafshir_question *a, const struct kelafshir_question *b) {
    return a->left == b->left && a->right == b->right && a->up == b->up && a->down == b->down && a->width == b->width &&
           a->rows == b->rows && a->limit == b->limit && a->row == b->row && a->sum == b->sum;
}

/* A question over all rows, and one pair more. */
static void check_question(const struct rows *p, uint64_t limit) {
    struct kelafshir_question proved = first(p->width, p->count, limit), plain = proved;
    for (size_t i = 0; i <= p->count; i++) {
        size_t y = i % p->count, said = pair(&proved, p, y);
        if (said != plain_pair(&plain, p->closed + y * p->width, p->input + y * p->width)) stop("a wrong answer", p->width);
        if (!same(&proved, &plain)) stop("a wrong question", p->width);
    }
}

/* The residue of each row; and questions whose yes comes just with it, or just not. */
static void check_rows(const struct rows *p) {
    for (size_t i = 0; i < p->count; i++) {
        uint64_t sum = plain_sum(p, 0, i + 1);
        if (alone(p, i, i, p->count) != plain_sum(p, i, i + 1)) stop("a wrong residue", p->width);
        check_question(p, sum - 1);
        check_question(p, sum);
    }
}

/* A question where a closed value is below the input's in one row, each in its turn. */
static void check_refused(const struct rows *p) {
    for (size_t i = 0; i < p->count; i++) {
        size_t x = i * p->width + next() % p->width;
        uint8_t above = closed[x], below = input[x];
        closed[x] = 0, input[x] = 1;
        check_question(p, UINT64_MAX);
        closed[x] = above, input[x] = below;
    }
}

/* ---- rows */

static double row_turn(int way, const struct rows *p, struct kelafshir_question *question, uint64_t *total) {
    double begun = now();
    for (size_t call = 0, i = 0; call < CALLS; call++, i = i + 1 < p->count ? i + 1 : 0)
        *total += way == ALONE ? alone(p, i, call, MOST_ROWS) : pair(question, p, i);
    return (now() - begun) / CALLS;
}

/* Nanoseconds a row. The answers add up to the sum, to not yet each time, or to yes each time. */
static double row_way(int way, const struct subject *s) {
    uint64_t total = 0, due = way == ALONE ? s->sum : way == PAIR ? CALLS * KELAFSHIR_NOT_YET : CALLS * KELAFSHIR_YES;
    struct kelafshir_question question = first(s->open.width, MOST_ROWS, way == AFTER ? s->limit : UINT64_MAX);
    if (way == AFTER && pair(&question, &s->open, 0) != KELAFSHIR_YES) stop("no yes", s->open.width);
    struct kelafshir_question after = question;
    if (way == PAIR) after.row = CALLS, after.sum = s->sum;
    double spent = row_turn(way, way == AFTER ? &s->shut : &s->open, &question, &total);
    if (total != due || !same(&question, &after)) stop("a wrong turn", s->open.width);
    return spent;
}

/* ---- pictures */

static uint64_t add_rows(const struct rows *p) {
    uint64_t sum = 0;
    for (size_t y = 0; y < p->count; y++) sum += alone(p, y, y, p->count);
    return sum;
}

/* The answers added up: to one no, or to one for each yes. */
static uint64_t ask_rows(struct kelafshir_question *question, const struct rows *p, int stops) {
    uint64_t total = 0;
    for (size_t y = 0; y < p->count && !(stops && total == KELAFSHIR_YES); y++) total += pair(question, p, y);
    return total;
}

/* Nanoseconds a picture, with the question's start. */
static double picture_way(int way, const struct subject *s) {
    const struct rows *p = way == SUM || way == NEVER ? &s->open : &s->shut;
    const uint64_t due[PICTURE_WAYS] = {s->sum, KELAFSHIR_NO, (TALL - EARLY + 1) * KELAFSHIR_YES, KELAFSHIR_YES};
    int often = way == STOPPED ? OFTEN * TALL / EARLY : OFTEN;
    uint64_t total = 0, limit = way == NEVER ? UINT64_MAX : s->limit;
    struct kelafshir_question question = first(p->width, TALL, limit), after = question;
    double begun = now();
    for (int i = 0; i < often; i++) {
        question = first(p->width, TALL, limit);
        total += way == SUM ? add_rows(p) : ask_rows(&question, p, way == STOPPED);
    }
    double spent = (now() - begun) / often;
    if (way == NEVER) after.row = TALL, after.sum = s->sum;
    if (way == ASKED_ON || way == STOPPED) after.row = EARLY, after.sum = s->limit + 1;
    if (total != due[way] * (uint64_t)often || !same(&question, &after)) stop("a wrong picture", p->width);
    return spent;
}

/* ---- in turns */

/* One round before those that count. The ratio is of the second way to the first. */
static void measure(const char *what, double (*spend)(int way, const struct subject *s), const struct subject *s, int ways,
                    int rounds) {
    for (int turn = 0; turn < (rounds + 1) * ways; turn++) {
        int round = turn / ways, way = (turn + round) % ways;
        double spent = spend(way, s);
        if (round > 0) times[way][round - 1] = spent;
    }
    for (int round = 0; round < rounds; round++) ratios[round] = times[1][round] / times[0][round];
    printf("%s %zu", what, s->open.width);
    for (int way = 0; way < ways; way++) printf(" %.4f", median(times[way], rounds));
    printf(" %.4f\n", median(ratios, rounds));
}

static void measure_rows(size_t width, int rounds) {
    size_t count = PIXELS / width < MOST ? PIXELS / width : MOST;
    struct subject s = {{closed, input, width, count}, locked_after(0, width, CALLS), 0, 0};
    s.sum = CALLS / count * plain_sum(&s.open, 0, count) + plain_sum(&s.open, 0, CALLS % count);
    check_lock(&s.shut);
    check_rows(&s.open);
    check_refused(&s.open);
    measure("row", row_way, &s, ROW_WAYS, rounds);
}

static void measure_pictures(size_t width, int rounds) {
    struct subject s = {{closed, input, width, TALL}, locked_after(EARLY, width, TALL), 0, 0};
    s.limit = plain_sum(&s.open, 0, EARLY) - 1;
    s.sum = plain_sum(&s.open, 0, TALL);
    check_lock(&s.shut);
    check_question(&s.open, s.limit);
    check_question(&s.open, UINT64_MAX);
    measure("picture", picture_way, &s, PICTURE_WAYS, rounds);
}

int main(int argc, char **argv) {
    int rounds = argc > 1 ? atoi(argv[1]) : 41;
    static const size_t widths[] = {7, 24, 64, 256, 1024, 4096}, wide[] = {64, 1024, 4096};
    for (int way = 0; way < PICTURE_WAYS; way++) times[way] = malloc(sizeof(double) * (size_t)rounds);
    ratios = malloc(sizeof(double) * (size_t)rounds);
    draw(closed, input, TALL * WIDEST);
    for (size_t i = 0; i < sizeof widths / sizeof *widths; i++) measure_rows(widths[i], rounds);
    for (size_t i = 0; i < sizeof wide / sizeof *wide; i++) measure_pictures(wide[i], rounds);
    return 0;
}
