/* The vocabularies whose classification is measured: those of the comparison, and some whose names
 * are worst for what comes after the elimination. */
#ifndef CLASSIFICATION_VOCABULARIES_H
#define CLASSIFICATION_VOCABULARIES_H

#include "classification_plain.h"
#include "comparison_questions.h"

struct vocabulary {
    struct input input; /* with the answer expected */
    unsigned nearest, same; /* how many entries of each sort are expected */
    bool slow; /* the literal algorithm takes many seconds */
};

enum { VOCABULARIES = QUESTIONS + 9 };

/* False, with a message, if a file of `directory` cannot be read. */
bool make_vocabularies(struct vocabulary *vocabularies, const char *directory);

/* A random one of at most 7 atoms; its question is not asked. */
void make_random_vocabulary(struct question *question);

#endif
