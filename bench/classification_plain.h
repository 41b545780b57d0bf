/* The classification (docs/FORMATS.md) in C, twice: what the library is measured against.
 *   classification_plain.c     the library's algorithm, after the elimination of comparison_fast.c
 *   classification_literal.c   by the words, after the elimination of comparison_literal.c
 *   classification_answer.c    what both share: the refusals, and where the names' bits are */
#ifndef CLASSIFICATION_PLAIN_H
#define CLASSIFICATION_PLAIN_H

#include "comparison_plain.h"

enum { TAXONOMY_BYTES = MAX_ATOMS * MAX_ATOMS };

/* Entries of the taxonomy; else 0. */
enum { NEAREST = 1, SAME = 2 };

typedef uint64_t classify_function(const uint8_t *vocabulary, size_t vocabulary_len,
                                   uint8_t *survivors, size_t survivors_len,
                                   uint8_t *taxonomy, size_t taxonomy_len);

/* The library's stands here too, so that a different prototype in judge.h does not compile. */
classify_function judge_classify, plain_classify, literal_classify;

/* The first refusal, packed; accepted: the number of atoms. */
uint64_t refuse_classification(const uint8_t *vocabulary, size_t vocabulary_len,
                               size_t survivors_len, size_t taxonomy_len);

/* The names in record order: for each, which bit of a type is its. */
struct names {
    unsigned count;
    uint8_t bit[MAX_ATOMS];
};

/* Those of a vocabulary of at most MAX_ATOMS atoms. */
struct names list_names(const uint8_t *vocabulary, size_t vocabulary_len);

#endif
