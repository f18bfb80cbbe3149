/* The words of a test's command: [SEED [ROUNDS]]. */
#ifndef ASKED_H
#define ASKED_H

#include <stdbool.h>
#include <stdlib.h>

struct asked {
    unsigned long seed;
    unsigned long rounds;
};

/* A word that is a number and no more. */
static inline bool read_number(const char *word, unsigned long *number)
{
    char *end;

    *number = strtoul(word, &end, 10);
    return word[0] >= '0' && word[0] <= '9' && *end == '\0';
}

/* Leaves what is not said as it is. */
static inline bool read_asked(int count, char **words, struct asked *asked)
{
    return count <= 3 && (count <= 1 || read_number(words[1], &asked->seed)) && (count <= 2 || read_number(words[2], &asked->rounds));
}

#endif
