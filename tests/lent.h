/* What whole.c, dark.c and worn.c share: the stream of calls and answers, and what is lent to a call, against a page that
 * nobody may touch.
 */
#ifndef LENT_H
#define LENT_H

#include "guards.h"

#include <stdio.h>

enum { MARK = 0xa5 };

/* The most bytes of one thing that is lent. */
static const size_t room = 16777216;

/* ---- the stream */

static inline int is_read(uint8_t *bytes, size_t length)
{
    return fread(bytes, 1, length, stdin) == length;
}

static inline size_t number_of(const uint8_t *bytes)
{
    size_t number = 0;
    for (int i = 7; i >= 0; i--) number = number << 8 | bytes[i];
    return number;
}

static inline void put_number(uint8_t *bytes, size_t number)
{
    for (int i = 0; i < 8; i++) bytes[i] = (uint8_t)(number >> 8 * i);
}

static inline int is_written(const uint8_t *bytes, size_t length)
{
    return fwrite(bytes, 1, length, stdout) == length;
}

/* The next so many numbers of standard input, of 8 bytes each. */
static inline int are_read(size_t *numbers, size_t count)
{
    uint8_t bytes[8];
    for (size_t i = 0; i < count; i++) {
        if (!is_read(bytes, sizeof bytes)) return 0;
        numbers[i] = number_of(bytes);
    }
    return 1;
}

/* ---- what is lent */

struct block {
    uint8_t *room, *at, *open;    /* open: the bytes on the side without a guard */
    size_t length;
};

/* Lends the next bytes of standard input. Those that are missing lie in the guard. No bytes at the front are NULL. */
static inline int is_lent(struct block *block, size_t length, int at_back, size_t missing)
{
    size_t there = length - missing;
    uint8_t *first = at_back ? block->room + room - there : block->room;
    block->length = length;
    block->at = at_back ? first : length == 0 ? NULL : first - missing;
    block->open = at_back ? first - BESIDE : first + there;
    for (size_t i = 0; i < BESIDE; i++) block->open[i] = MARK;
    return is_read(first, there);
}

static inline int is_intact(const struct block *block)
{
    for (size_t i = 0; i < BESIDE; i++)
        if (block->open[i] != MARK) return 0;
    return 1;
}

static inline int is_block_written(const struct block *block)
{
    return is_written(block->at, block->length);
}

#endif
