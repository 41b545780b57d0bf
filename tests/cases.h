/* A file of cases and the output expected of them, read case by case. A case is a head, whose first two bytes are the
 * length of a vocabulary, or of what a buffer begins with, and these bytes, which are put at the end of a page whose
 * next page cannot be read, so that a read past their end stops the test. The test says its name as SUBJECT before it
 * includes this. */
#ifndef CASES_H
#define CASES_H

#include <stdint.h>
#include <stdio.h>
#include <string.h>

#include "guarded.h"

enum { MOST_HEAD = 19, MOST_LINE = 4096 };

/* Compares a case with its line of the expected output. Answers 0, or 1 where something is wrong, which it has said. */
typedef int check(const uint8_t *vocabulary, size_t length, const uint8_t *head, const char *line, size_t at);

static inline int fail(const char *what, size_t number)
{
    fprintf(stderr, SUBJECT ": case %zu: %s\n", number, what);
    return 1;
}

/* The number in so many bytes, low byte first. */
static inline uint32_t number_at(const uint8_t *bytes, size_t count)
{
    uint32_t number = 0;

    while (count-- > 0)
        number = number << 8 | bytes[count];
    return number;
}

/* Checks every case of the files that the command line names. Answers the exit status. */
static inline int check_cases(int count, char **arguments, size_t head_bytes, check *check_case)
{
    FILE *file = count == 3 ? fopen(arguments[1], "rb") : NULL;
    FILE *expected = count == 3 ? fopen(arguments[2], "r") : NULL;
    uint8_t *space = guarded_space();
    static uint8_t head[MOST_HEAD], copy[SPACE];
    static char line[MOST_LINE];
    size_t cases = 0, got;

    if (file == NULL || expected == NULL) {
        fprintf(stderr, "usage: " SUBJECT " CASES EXPECTED\n");
        return 2;
    }
    while ((got = fread(head, 1, head_bytes, file)) == head_bytes) {
        size_t length = number_at(head, 2);
        uint8_t *vocabulary = space + SPACE - length;

        if (fread(vocabulary, 1, length, file) != length || fgets(line, sizeof line, expected) == NULL)
            return fail("a file ends early", cases);
        memcpy(copy, vocabulary, length);
        if (check_case(vocabulary, length, head, line, cases) != 0)
            return 1;
        if (memcmp(copy, vocabulary, length) != 0)
            return fail("the vocabulary was written to", cases);
        cases++;
    }
    if (got != 0 || cases == 0 || fgets(line, sizeof line, expected) != NULL)
        return fail("there are more lines than cases, half a case, or no case", cases);
    printf(SUBJECT ": %zu cases agree\n", cases);
    return 0;
}

#endif
