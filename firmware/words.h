/* Words of a command line that are numbers: what the examples share. */
#ifndef WORDS_H
#define WORDS_H

#include "kelafshir.h"

/* Digits and nothing else. */
static inline int is_number(const char *word)
{
    const char *at = word;
    while (*at >= '0' && *at <= '9') at++;
    return at != word && *at == '\0';
}

/* So many words behind the program's name, and each of them a number. */
static inline int are_numbers(int due, int count, char **words)
{
    for (int i = 1; i < count; i++)
        if (!is_number(words[i])) return 0;
    return count == 1 + due;
}

/* The number of a word of digits, and the most for every larger one. A caller takes for the most a number that is refused, or
 * that does what all larger ones do; ten times it has to fit. */
static inline size_t number_of(const char *word, size_t most)
{
    size_t number = 0;
    for (; *word != '\0' && number < most; word++) number = 10 * number + (size_t)(*word - '0');
    return number < most ? number : most;
}

static inline uint8_t byte_of(const char *word)
{
    return (uint8_t)number_of(word, 255);
}

#endif
