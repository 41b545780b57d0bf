/* The writer's calls (docs/FORMATS.md) in plain C, for comparison. The answers are packed as in judge.h. */
#ifndef WRITER_PLAIN_H
#define WRITER_PLAIN_H

#include "vocabulary_plain.h"

uint64_t plain_make_vocabulary(uint8_t *buffer, size_t buffer_len, uint32_t roles);
uint64_t plain_add_term(uint8_t *buffer, size_t buffer_len, size_t used, uint8_t kind, uint16_t a, uint16_t b);
uint64_t plain_add_statement(uint8_t *buffer, size_t buffer_len, size_t used, uint16_t a, uint16_t b);

#endif
