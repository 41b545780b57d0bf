/* The comparisons that are measured: the worst vocabularies known (bench/data), full ones, and
 * small usual ones. */
#ifndef COMPARISON_QUESTIONS_H
#define COMPARISON_QUESTIONS_H

#include "comparison_plain.h"
#include "support.h"

struct question {
    struct input input; /* with the answer expected */
    uint32_t a, b;
    bool walk; /* hundreds of rounds: more instructions are granted */
    bool slow; /* the literal algorithm takes many seconds, under callgrind many minutes */
};

enum {
    QUESTIONS = 17,
    /* Two more, to tell the elimination on walk10 from the rest of its comparison: walk10 with
     * three records more, and the same with no type to eliminate. */
    WITH_ELIMINATION = QUESTIONS, WITHOUT_ELIMINATION, ALL_QUESTIONS
};

/* False, with a message, if a file of `directory` cannot be read. */
bool make_questions(struct question *questions, const char *directory);

/* A random one of at most 7 atoms. */
void make_random_question(struct question *question);

/* Makes a random one such that some refusal applies to it, or nearly. `lent`: its buffer. */
void damage_question(struct question *question, size_t *lent);

#endif
