/* The vocabulary check and the record call (docs/FORMATS.md, section 2) in plain C, for comparison.
 * The answers are packed as in judge.h. */
#ifndef VOCABULARY_PLAIN_H
#define VOCABULARY_PLAIN_H

#include <stdbool.h>
#include <stddef.h>
#include <stdint.h>

enum { RECORD_BYTES = 8, MAX_RECORDS = 512, MAX_ROLES = 64 };

enum kind {
    TOP = 1, BOTTOM, NAME, NOT, AND, OR, SOME, ALL, STATEMENT,
    HEADER = 16
};

static inline bool is_atom(uint8_t kind)
{
    return kind == NAME || kind == SOME || kind == ALL;
}

/* The header's second byte. In the second edition its next is k, the number of atoms. */
enum edition { EDITION_1 = 1, EDITION_2 };

/* Refusals by their numbers (docs/FORMATS.md, section 6). */
enum refusal {
    ACCEPTED = 0,
    BAD_LENGTH, BAD_HEADER, BAD_KIND, BAD_UNUSED, BAD_TERM, BAD_ROLE, BAD_LABEL, BAD_NEXT,
    PAST_END, NO_TERM, MANY_ATOMS, SHORT_BUFFER,
    BAD_SCRIPT_LENGTH, BAD_SCRIPT_HEADER,
    BAD_SCRIPT_KIND, BAD_SCRIPT_UNUSED, BAD_SCRIPT_TERM, BAD_STEP, BAD_STEP_NEXT,
    NO_START, NO_COMPLEMENT, BAD_REDUCTION, MANY_FRAMES, FRAME_LEFT, ALL_CLOSED,
    SHORT_TAXONOMY, NO_ROOM, BAD_ATOMS
};

/* Bits 0-7 the refusal, bits 8-39 the place or, where accepted, the value. */
static inline uint64_t pack_answer(enum refusal refusal, uint32_t value)
{
    return (uint64_t)refusal | (uint64_t)value << 8;
}

struct record {
    uint8_t kind, second;
    uint16_t a, b, next;
};

static inline uint16_t read_u16(const uint8_t *bytes)
{
    return (uint16_t)(bytes[0] | bytes[1] << 8);
}

static inline struct record read_record(const uint8_t *vocabulary, size_t number)
{
    const uint8_t *bytes = vocabulary + RECORD_BYTES * number;

    return (struct record){
        .kind = bytes[0],
        .second = bytes[1],
        .a = read_u16(bytes + 2),
        .b = read_u16(bytes + 4),
        .next = read_u16(bytes + 6),
    };
}

uint64_t plain_check_vocabulary(const uint8_t *vocabulary, size_t vocabulary_len);

/* Rows 3 to 7 at record `number` with these fields, which need not stand there yet; the records before it have passed. An
 * atom is added to `atoms`. */
enum refusal plain_check_fields(const uint8_t *vocabulary, struct record fields, size_t number, uint16_t roles,
                                unsigned *atoms);

uint64_t plain_record(const uint8_t *vocabulary, size_t vocabulary_len, uint32_t number);

/* Row 10, over a vocabulary that the check has accepted. Accepted: 0. */
uint64_t plain_check_query(const uint8_t *vocabulary, size_t count, uint32_t a, uint32_t b);

#endif
