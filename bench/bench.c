/* Times one dilation by a square window: (p) the proved code, row by row and on a whole picture in place, (a) the same queue
 * method in C, (b) van Herk's in C, (w) the same passes over a whole picture in C; and plans of MANY_STAGES stages and of one.
 *
 *     bench FOLDER [RUNS]
 *
 * Writes its pictures to FOLDER, for others.py to read, and results to standard output, a line each with tabs between:
 *     time     sample picture size window method nanoseconds-per-pixel
 *     sum      sample picture size window sum-of-the-answer
 *     plan     sample picture size window time-of-many-stages-over-one
 *     latency  sample picture width window method median-microseconds worst-microseconds
 *     memory   sample width window method bytes
 * All times are processor time of this one thread, medians over RUNS rounds; in a round each method has its turn.
 * The methods must give the same bytes, and the queues the same comparisons, or it stops.
 */
#define _POSIX_C_SOURCE 200809L
#include "methods.h"
#include "proved.h"

#include <math.h>
#include <stdio.h>
#include <stdlib.h>
#include <string.h>
#include <time.h>

enum { MOST_WIDTH = 4096, MOST_ROWS = 2048, MOST_RUNS = 99, LATENCY_ROWS = 504, MANY_STAGES = 8 };

static int runs = 5;
static const char *const samples[] = {"grey", "float"}, *const pictures[] = {"noise", "smooth", "stairs"};
static const size_t sizes[][2] = {{1024, 1024}, {4096, 2048}}, windows[] = {3, 7, 15, 31, 63};

/* What is filtered and with which window, and the memory that the methods work in. */
static struct task {
    int is_float;
    size_t width, rows, extent;
    void *picture, *out, *row, *values, *forward, *backward;
    uint8_t *positions, *starts, *lengths;
} task;

static size_t sample_size(void) { return task.is_float ? sizeof(float) : 1; }
static size_t pixels(void) { return task.width * task.rows; }
static size_t cells(void) { return task.width * (2 * task.extent + 1); }
static size_t padded(size_t length) { return length + 4 * task.extent + 1; }

/* ---- the methods: each filters the task's picture into its output, or the output in place, which is then a copy of the
 * picture, and answers the comparisons that it counts */

/* One step by the proved code: the row that is due comes out in the row's place. */
static size_t step_by_proved(size_t step, void *row)
{
    return (task.is_float ? rt_rate_step : rt_grey_step)(DILATION, (uint8_t)task.extent, task.rows, step, task.values, cells(),
                                                         task.positions, cells(), task.starts, task.width, task.lengths,
                                                         task.width, row, task.width);
}

static void take_by_proved(const void *row, void *work)
{
    if (!(task.is_float ? rt_rate_taken : rt_grey_taken)(row, task.width, work, task.width)) exit(1);
}

static size_t by_proved(void)
{
    static float room[MOST_WIDTH];
    size_t comparisons = 0, bytes = task.width * sample_size(), ahead = task.extent;
    memset(task.starts, 0, task.width);
    memset(task.lengths, 0, task.width);
    for (size_t t = 0; t < task.rows + ahead; t++) {
        if (t < task.rows) take_by_proved((const char *)task.picture + t * bytes, room);
        comparisons += step_by_proved(t, room);
        if (ahead <= t) memcpy((char *)task.out + (t - ahead) * bytes, room, bytes);
    }
    return comparisons;
}

static size_t by_queue(void)
{
    size_t extent = task.extent;
    if (task.is_float)
        return rate_queue_stage(DILATION, extent, extent, extent, extent, task.width, task.rows, task.picture, task.out,
                                task.values, task.positions, task.starts, task.lengths);
    return grey_queue_stage(DILATION, extent, extent, extent, extent, task.width, task.rows, task.picture, task.out, task.values,
                            task.positions, task.starts, task.lengths);
}

static size_t by_herk(void)
{
    size_t extent = task.extent;
    if (task.is_float)
        rate_herk_stage(DILATION, extent, extent, extent, extent, task.width, task.rows, task.picture, task.out, task.forward,
                        task.backward);
    else
        grey_herk_stage(DILATION, extent, extent, extent, extent, task.width, task.rows, task.picture, task.out, task.forward,
                        task.backward);
    return 0;
}

static size_t whole_by_proved(void)
{
    (task.is_float ? rt_rate_whole : rt_grey_whole)(DILATION, (uint8_t)task.extent, task.width, task.rows, task.out, pixels(),
                                                    task.row, task.width);
    return 0;
}

static size_t whole_by_passes(void)
{
    size_t extent = task.extent;
    if (task.is_float)
        rate_passes_stage(DILATION, extent, extent, extent, extent, task.width, task.rows, task.out, task.row);
    else
        grey_passes_stage(DILATION, extent, extent, extent, extent, task.width, task.rows, task.out, task.row);
    return 0;
}

/* The proved code comes last, for it may not be linked in yet; what is compared most closely has its turns one after another. */
enum { METHODS_IN_C = 3, MOST_METHODS = 5 };
static const struct method {
    const char *name;
    size_t (*filter)(void);
    int counts, in_place;
} methods[MOST_METHODS] = {{"van Herk in C", by_herk, 0, 0},
                           {"queue in C", by_queue, 1, 0},
                           {"whole in C", whole_by_passes, 0, 1},
                           {"whole, proved", whole_by_proved, 0, 1},
                           {"proved", by_proved, 1, 0}};

static int is_proved_there(void) { return rt_grey_step && rt_rate_step && rt_grey_whole && rt_rate_whole; }
static int method_count(void) { return is_proved_there() ? MOST_METHODS : METHODS_IN_C; }

/* A plan of equal stages, by the proved code, in place. */
static void plan_by_proved(size_t stages)
{
    uint8_t number = (task.is_float ? rt_rate_plan : rt_grey_plan)(stages, (uint8_t)task.extent, task.width, task.rows, task.out,
                                                                   pixels(), task.row, task.width);
    if (number != 0) exit(1);
}

/* ---- one step */

static void row_by_proved(size_t step, const uint8_t *row)
{
    take_by_proved(row, task.out);
    step_by_proved(step, task.out);
}

static void row_by_queue(size_t step, const uint8_t *row)
{
    size_t extent = task.extent;
    if (task.is_float)
        rate_queue_row(DILATION, extent, extent, extent, extent, task.width, task.rows, step, (const void *)row, task.out,
                       task.values, task.positions, task.starts, task.lengths);
    else
        grey_queue_row(DILATION, extent, extent, extent, extent, task.width, task.rows, step, row, task.out, task.values,
                       task.positions, task.starts, task.lengths);
}

/* ---- pictures */

static uint32_t any(void)
{
    static uint32_t state = 1;
    state ^= state << 13;
    state ^= state >> 17;
    state ^= state << 5;
    return state >> 8;
}

/* A value from 0 to under 256. Noise; slow waves; or rows that fall by one and then jump, which empties full queues. */
static double pixel(int picture, size_t x, size_t y)
{
    if (picture == 0) return any() / 65536.0;
    if (picture == 1) return 128 + 60 * sin(x / 97.0 + y / 301.0) + 60 * sin(y / 61.0 - x / 211.0);
    return y % 63 == 62 ? 255 : 200 - (double)(y % 63);
}

static void draw(int picture)
{
    for (size_t y = 0; y < task.rows; y++)
        for (size_t x = 0; x < task.width; x++) {
            double value = pixel(picture, x, y);
            if (task.is_float)
                ((float *)task.picture)[y * task.width + x] = (float)value;
            else
                ((uint8_t *)task.picture)[y * task.width + x] = (uint8_t)value;
        }
}

static void save(const char *folder, const char *name)
{
    char path[4096];
    snprintf(path, sizeof path, "%s/%s", folder, name);
    FILE *file = fopen(path, "wb");
    if (file == NULL || fwrite(task.picture, sample_size(), pixels(), file) != pixels() || fclose(file) != 0) exit(2);
}

/* ---- measuring */

static double now(void)
{
    struct timespec time;
    clock_gettime(CLOCK_PROCESS_CPUTIME_ID, &time);
    return (double)time.tv_sec * 1e9 + (double)time.tv_nsec;
}

static int ascending(const void *a, const void *b)
{
    double x = *(const double *)a, y = *(const double *)b;
    return (x > y) - (x < y);
}

static double median(double *times, int count)
{
    qsort(times, (size_t)count, sizeof *times, ascending);
    return times[count / 2];
}

/* Adler's sum, as Python's zlib has it. */
static unsigned long sum(const uint8_t *bytes, size_t count)
{
    unsigned long a = 1, b = 0;
    for (size_t i = 0; i < count; i++) {
        a = (a + bytes[i]) % 65521;
        b = (b + a) % 65521;
    }
    return b << 16 | a;
}

/* What the first of the methods answered, and the comparisons of the first that counts them. */
struct answer {
    unsigned long sum;
    size_t comparisons;
};

/* The others must answer the same, and those that count must count the same. */
static void compare(const char *name, int m, size_t count, struct answer *first)
{
    unsigned long given = sum(task.out, pixels() * sample_size());
    if (m == 0) first->sum = given;
    if (methods[m].counts && first->comparisons == 0) first->comparisons = count;
    if (given == first->sum && (!methods[m].counts || count == first->comparisons)) return;
    fprintf(stderr, "%s: %s differs at window %zu\n", name, methods[m].name, 2 * task.extent + 1);
    exit(1);
}

/* Fills the output outside the time taken: for a method in place with the picture, for the others, once, with what is no answer. */
static void lay_out(int m, int run)
{
    if (methods[m].in_place)
        memcpy(task.out, task.picture, pixels() * sample_size());
    else if (run == 0)
        memset(task.out, 0xEE, pixels() * sample_size());
}

static void time_methods(const char *name)
{
    static double times[MOST_METHODS][MOST_RUNS];
    struct answer first = {0, 0};
    for (int run = 0; run < runs; run++)
        for (int m = 0; m < method_count(); m++) {
            lay_out(m, run);
            double start = now();
            size_t count = methods[m].filter();
            times[m][run] = (now() - start) / (double)pixels();
            if (run == 0) compare(name, m, count, &first);
        }
    printf("sum\t%s\t%zu\t%lu\n", name, 2 * task.extent + 1, first.sum);
    printf("count\t%s\t%zu\t%.2f\n", name, 2 * task.extent + 1, (double)first.comparisons / (double)pixels());
    for (int m = method_count(); m-- > 0;)
        printf("time\t%s\t%zu\t%s\t%.3f\n", name, 2 * task.extent + 1, methods[m].name, median(times[m], runs));
    fflush(stdout);
}

static double time_plan(size_t stages)
{
    memcpy(task.out, task.picture, pixels() * sample_size());
    double start = now();
    plan_by_proved(stages);
    return now() - start;
}

/* Many stages over one, of the same window on the same picture. */
static void time_plans(const char *name)
{
    static double one[MOST_RUNS], many[MOST_RUNS];
    for (int run = 0; run < runs; run++) {
        one[run] = time_plan(1);
        many[run] = time_plan(MANY_STAGES);
    }
    printf("plan\t%s\t%zu\t%.3f\n", name, 2 * task.extent + 1, median(many, runs) / median(one, runs));
}

/* A row's time is the median over the rounds, so that what lasts is the row's own cost; then median and worst over rows. */
static void time_rows(const char *name, const char *method, void (*filter)(size_t, const uint8_t *))
{
    static double times[LATENCY_ROWS][MOST_RUNS], rows[LATENCY_ROWS];
    for (int run = 0; run < runs; run++) {
        memset(task.starts, 0, task.width);
        memset(task.lengths, 0, task.width);
        for (size_t step = 0; step < task.rows; step++) {
            double start = now();
            filter(step, (const uint8_t *)task.picture + step * task.width * sample_size());
            times[step][run] = now() - start;
        }
    }
    for (size_t step = 0; step < task.rows; step++) rows[step] = median(times[step], runs) / 1000;
    double middle = median(rows, (int)task.rows);
    printf("latency\t%s\t%zu\t%s\t%.1f\t%.1f\n", name, 2 * task.extent + 1, method, middle, rows[task.rows - 1]);
}

static void all_times(const char *folder)
{
    for (size_t size = 0; size < 2; size++)
        for (int picture = 0; picture < 2; picture++) {
            char file[64], name[64];
            task.width = sizes[size][0];
            task.rows = sizes[size][1];
            snprintf(name, sizeof name, "%s\t%s\t%zux%zu", samples[task.is_float], pictures[picture], task.width, task.rows);
            snprintf(file, sizeof file, "%s-%s-%zux%zu", samples[task.is_float], pictures[picture], task.width, task.rows);
            draw(picture);
            save(folder, file);
            for (size_t i = 0; i < 5; i++) {
                task.extent = windows[i] / 2;
                time_methods(name);
                if (rt_grey_plan && rt_rate_plan) time_plans(name);
            }
        }
}

static void all_latencies(void)
{
    task.width = MOST_WIDTH;
    task.rows = LATENCY_ROWS;
    for (int picture = 0; picture < 3; picture++) {
        char name[64];
        snprintf(name, sizeof name, "%s\t%s\t%zu", samples[task.is_float], pictures[picture], task.width);
        draw(picture);
        for (size_t i = 0; i < 5; i++) {
            task.extent = windows[i] / 2;
            if (is_proved_there()) time_rows(name, "proved", row_by_proved);
            time_rows(name, "queue in C", row_by_queue);
        }
    }
}

/* The working memory beside one row in and one row out; van Herk's and the passes need the whole picture as well. The row
 * queue counts twice, as it is filled and as it is handed to the drain, which the C spares. */
static void all_memory(void)
{
    task.width = MOST_WIDTH;
    for (size_t i = 0; i < 5; i++) {
        task.extent = windows[i] / 2;
        size_t cell = sample_size() + 1, place = sample_size() + sizeof(uint16_t), row = task.width * sample_size();
        size_t queues = cells() * cell + 2 * task.width + 2 * 63 * place + row;
        printf("memory\t%s\t%zu\t%zu\tqueue, proved or in C\t%zu\n", samples[task.is_float], task.width, windows[i], queues);
        size_t longest = padded(MOST_ROWS) * 64 > padded(task.width) ? padded(MOST_ROWS) * 64 : padded(task.width);
        size_t lines = 2 * longest * sample_size(), whole = row * MOST_ROWS;
        printf("memory\t%s\t%zu\t%zu\tvan Herk in C\t%zu\n", samples[task.is_float], task.width, windows[i], lines + whole);
        printf("memory\t%s\t%zu\t%zu\twhole, proved or in C\t%zu\n", samples[task.is_float], task.width, windows[i], row + whole);
    }
}

int main(int count, char **words)
{
    if (count < 2) return 64;
    if (count > 2) runs = atoi(words[2]);
    if (runs < 1 || runs > MOST_RUNS) return 64;
    task.extent = 31;
    size_t most_bytes = (size_t)MOST_WIDTH * MOST_ROWS * sizeof(float), most_cells = (size_t)MOST_WIDTH * 63;
    task.picture = malloc(most_bytes);
    task.out = malloc(most_bytes);
    task.row = malloc(MOST_WIDTH * sizeof(float));
    task.values = calloc(most_cells, sizeof(float));
    task.positions = calloc(most_cells, 1);
    task.starts = calloc(MOST_WIDTH, 1);
    task.lengths = calloc(MOST_WIDTH, 1);
    task.forward = malloc(padded(MOST_WIDTH) * 64 * sizeof(float));
    task.backward = malloc(padded(MOST_WIDTH) * 64 * sizeof(float));
    if (!task.picture || !task.out || !task.row || !task.values || !task.positions || !task.starts || !task.lengths ||
        !task.forward || !task.backward)
        return 2;
    for (task.is_float = 0; task.is_float < 2; task.is_float++) {
        all_times(words[1]);
        all_latencies();
        all_memory();
    }
    return 0;
}
