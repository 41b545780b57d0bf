/* The additions that are measured, to small and to full vocabularies, whole vocabularies made by additions, and random
 * ones. */
#ifndef WRITER_ADDITIONS_H
#define WRITER_ADDITIONS_H

#include "support.h"

enum call { MAKE, ADD_TERM, ADD_STATEMENT };

struct addition {
    enum call call;
    uint8_t kind;   /* of a term */
    uint16_t a, b;  /* of a term or a statement */
    uint32_t roles; /* of an empty vocabulary */
};

/* Calls that follow one another. */
struct writing {
    struct input before; /* the bytes in use, and the answer expected of the last call */
    struct input after;  /* the bytes in use expected then */
    unsigned changed;    /* the one record in use that the first call may change */
    size_t buffer_len;
    unsigned additions;
    struct addition added[MAX_RECORDS];
};

enum { WRITINGS = 24 };

void make_writings(struct writing *writings);

/* Random calls in a random buffer, many of them refused; no answer is expected. */
void make_random_writing(struct writing *writing);

#endif
