/* What the tests of the archive in C share: rooms between pages that nobody may touch, what lies in them, rows to try, and
 * the counting. A file that includes this has its own counts.
 */
#ifndef GUARDS_H
#define GUARDS_H

#include <stddef.h>
#include <stdint.h>

int printf(const char *, ...);
void *mmap(void *, size_t, int, int, int, long);
int mprotect(void *, size_t, int);

/* ROOM holds every row of the tests; BESIDE are the bytes that are watched on the open side of what lies in a room. */
enum { GUARD = 65536, ROOM = 3 * 65536, BESIDE = 64 };

/* ---- the counting */

static long passed, failed;

/* Counts a check; 0 where it failed, for the caller to say of which call. */
static inline int is_counted_right(int is_right, const char *what)
{
    if (is_right) {
        passed++;
        return 1;
    }
    failed++;
    printf("WRONG %s: ", what);
    return 0;
}

/* The last line; the status of the run. */
static inline int counts_told(void)
{
    printf("%ld passed, %ld failed\n", passed, failed);
    return failed != 0;
}

/* ---- bytes */

static inline int same(const void *these, const void *those, size_t bytes)
{
    const uint8_t *a = these, *b = those;
    for (size_t i = 0; i < bytes; i++)
        if (a[i] != b[i]) return 0;
    return 1;
}

static inline void copy(void *to, const void *from, size_t bytes)
{
    uint8_t *a = to;
    const uint8_t *b = from;
    for (size_t i = 0; i < bytes; i++) a[i] = b[i];
}

/* ---- pictures */

static uint32_t state = 1;

static inline uint8_t any_byte(void)
{
    state = (state ^ (state << 13)) & 0xffffffffu;
    state ^= state >> 17;
    state = (state ^ (state << 5)) & 0xffffffffu;
    return (uint8_t)(state >> 11);
}

/* Noise, rising, falling, plateaus, two values or flat. */
static inline void draw(uint8_t *row, size_t length, unsigned picture)
{
    uint8_t level = any_byte(), step = any_byte() & 3;
    for (size_t x = 0; x < length; x++) {
        uint8_t other = any_byte();
        if (picture == 0 || (picture == 3 && (other & 7) == 0)) level = other;
        if (picture == 1 && level <= 255 - step) level = (uint8_t)(level + step);
        if (picture == 2 && level >= step) level = (uint8_t)(level - step);
        if (picture == 4) level = other & 1 ? 200 : 100;
        row[x] = level;
    }
}

/* ---- rows against guards */

/* The first byte of so many between two guards. */
static inline uint8_t *guarded_room(size_t room)
{
    uint8_t *all = mmap(NULL, GUARD + room + GUARD, 3, 0x22, -1, 0);    /* read and write; private, no file */
    if (mprotect(all, GUARD, 0) != 0 || mprotect(all + GUARD + room, GUARD, 0) != 0) __builtin_trap();
    return all + GUARD;
}

/* Where a row begins that touches the front guard of a room, or the back one. */
static inline uint8_t *placed(uint8_t *room, size_t length, int at_back)
{
    return at_back ? room + ROOM - length : room;
}

/* What a call writes to: where it begins and its bytes; where these begin with those on its open side, and what all were
 * before. */
struct output {
    uint8_t *at, *span;
    size_t bytes;
    uint8_t before[ROOM];
};

static inline void lay(struct output *o, uint8_t *room, size_t bytes, int at_back)
{
    o->at = placed(room, bytes, at_back);
    o->span = at_back ? o->at - BESIDE : o->at;
    o->bytes = bytes;
    draw(o->span, bytes + BESIDE, 0);
    copy(o->before, o->span, bytes + BESIDE);
}

/* Whether it now holds this, or what it did where this is null; and the bytes beside it what they did. */
static inline int holds(struct output *o, const void *due)
{
    if (due != NULL) copy(o->before + (o->at - o->span), due, o->bytes);
    return same(o->span, o->before, o->bytes + BESIDE);
}

#endif
