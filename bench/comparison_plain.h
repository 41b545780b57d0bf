/* The comparison (docs/FORMATS.md, section 3) in C, twice: what the library is measured against.
 *   comparison_fast.c      the library's algorithm, without its list of the types left
 *   comparison_literal.c   by the definitions' words: for each type and demand a scan of all types
 *   comparison_answer.c    what both share: the refusals, and the answer told from the survivors */
#ifndef COMPARISON_PLAIN_H
#define COMPARISON_PLAIN_H

#include "vocabulary_plain.h"

#include <stdbool.h>

enum { MAX_ATOMS = 12, MAX_TYPES = 1 << MAX_ATOMS, SURVIVOR_BYTES = MAX_TYPES / 8 };

typedef uint64_t compare_function(const uint8_t *vocabulary, size_t vocabulary_len,
                                  uint32_t a, uint32_t b, uint8_t *buffer, size_t buffer_len);

/* The library's stands here too, so that a different prototype in judge.h does not compile. */
compare_function judge_compare, fast_compare, literal_compare;

/* Bit 8: 0 Equal, 1 Different; then the element, the survivors and the rounds. */
static inline uint64_t pack_comparison(bool different, uint32_t element, uint32_t survivors,
                                       uint32_t rounds)
{
    return (uint64_t)different << 8 | (uint64_t)element << 9 | (uint64_t)survivors << 25
         | (uint64_t)rounds << 42;
}

/* The first refusal, packed; accepted: the number of atoms. */
uint64_t refuse_comparison(const uint8_t *vocabulary, size_t vocabulary_len,
                           uint32_t a, uint32_t b, size_t buffer_len);

/* Its rows 11 and 12, over a vocabulary that the check has accepted. */
uint64_t refuse_atoms(const uint8_t *vocabulary, size_t count, size_t buffer_len);

/* The comparison where nothing refuses it. With 0, the header, for a and b no two terms are compared:
 * the answer is the survivors and the rounds. */
typedef uint64_t settle_function(const uint8_t *vocabulary, size_t vocabulary_len, unsigned atoms,
                                 uint32_t a, uint32_t b, uint8_t *buffer);
settle_function fast_settle, literal_settle;

/* Writes the survivors and packs the answer. `differ`: do the two terms differ at the type? */
uint64_t answer_comparison(const bool *survives, const bool *differ, unsigned types,
                           uint32_t rounds, uint8_t *buffer);

#endif
