/* The script check (docs/FORMATS.md, section 5) in plain C, for comparison. The answer is packed as in judge.h. */
#ifndef SCRIPT_PLAIN_H
#define SCRIPT_PLAIN_H

#include "vocabulary_plain.h"

enum { WORDS = 8, SCRIPT_RECORD_BYTES = 2 * WORDS, MAX_SCRIPT_RECORDS = 2048, MAX_FRAMES = 64 };

enum script_kind {
    CONSTANT = 1, FUNCTION, START, EXTENSION, REDUCTION,
    SCRIPT_HEADER = 32
};

typedef uint64_t script_function(const uint8_t *vocabulary, size_t vocabulary_len,
                                 const uint8_t *script, size_t script_len);

/* The library's stands here too, so that a different prototype in judge.h does not compile. */
script_function judge_check_script, plain_check_script;

#endif
