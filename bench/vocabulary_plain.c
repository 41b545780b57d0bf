/* The vocabulary check in plain C: what the library is measured against. */
#include "vocabulary_plain.h"

static uint8_t kind_of(const uint8_t *vocabulary, size_t number)
{
    return vocabulary[RECORD_BYTES * number];
}

static bool length_fits(size_t len)
{
    return len >= RECORD_BYTES && len <= RECORD_BYTES * MAX_RECORDS && len % RECORD_BYTES == 0;
}

static bool header_fits(struct record header)
{
    if (header.kind != HEADER || header.b > MAX_ROLES)
        return false;
    return header.second == EDITION_2 || (header.second == EDITION_1 && header.next == 0);
}

/* Records before `number` have passed, so their kinds are 1 to 9. */
static bool is_earlier_term(const uint8_t *vocabulary, size_t term, size_t number)
{
    return term >= 1 && term < number && kind_of(vocabulary, term) != STATEMENT;
}

static bool is_earlier_label(const uint8_t *vocabulary, uint16_t label, size_t number)
{
    for (size_t i = 1; i < number; i++) {
        const uint8_t *bytes = vocabulary + RECORD_BYTES * i;

        if (bytes[0] == NAME && read_u16(bytes + 2) == label)
            return true;
    }
    return false;
}

/* Atoms are counted where their kind is told apart anyway. */
static inline enum refusal check_fields(const uint8_t *vocabulary, struct record r, size_t number, uint16_t roles,
                                        unsigned *atoms)
{
    if (r.second != 0)
        return BAD_KIND;
    switch (r.kind) {
    case TOP:
    case BOTTOM:
        return r.a != 0 || r.b != 0 || r.next != 0 ? BAD_UNUSED : ACCEPTED;
    case NAME:
        ++*atoms;
        if (r.b != 0 || r.next != 0)
            return BAD_UNUSED;
        return is_earlier_label(vocabulary, r.a, number) ? BAD_LABEL : ACCEPTED;
    case NOT:
        if (r.b != 0 || r.next != 0)
            return BAD_UNUSED;
        return is_earlier_term(vocabulary, r.a, number) ? ACCEPTED : BAD_TERM;
    case AND:
    case OR:
        if (r.next != 0)
            return BAD_UNUSED;
        break;
    case SOME:
    case ALL:
        ++*atoms;
        if (r.next != 0)
            return BAD_UNUSED;
        if (!is_earlier_term(vocabulary, r.b, number))
            return BAD_TERM;
        return r.a < roles ? ACCEPTED : BAD_ROLE;
    case STATEMENT:
        break;
    default:
        return BAD_KIND;
    }
    /* and, or, statement: A and B are terms */
    return is_earlier_term(vocabulary, r.a, number) && is_earlier_term(vocabulary, r.b, number)
               ? ACCEPTED
               : BAD_TERM;
}

/* May record `number` have `next` as the next statement? */
static bool next_fits(const uint8_t *vocabulary, size_t count, size_t number, uint16_t next)
{
    if (next == 0)
        return true;
    return next > number && next < count && kind_of(vocabulary, next) == STATEMENT;
}

/* The record whose next does not fit, or `count`. */
static size_t find_bad_next(const uint8_t *vocabulary, size_t count)
{
    if (!next_fits(vocabulary, count, 0, read_u16(vocabulary + 2)))
        return 0;
    for (size_t i = 1; i < count; i++) {
        const uint8_t *bytes = vocabulary + RECORD_BYTES * i;

        if (bytes[0] == STATEMENT && !next_fits(vocabulary, count, i, read_u16(bytes + 6)))
            return i;
    }
    return count;
}

uint64_t plain_check_vocabulary(const uint8_t *vocabulary, size_t vocabulary_len)
{
    if (!length_fits(vocabulary_len))
        return pack_answer(BAD_LENGTH, 0);

    size_t count = vocabulary_len / RECORD_BYTES;
    unsigned atoms = 0;
    struct record header = read_record(vocabulary, 0);
    if (!header_fits(header))
        return pack_answer(BAD_HEADER, 0);

    for (size_t i = 1; i < count; i++) {
        enum refusal refusal = check_fields(vocabulary, read_record(vocabulary, i), i, header.b, &atoms);

        if (refusal != ACCEPTED)
            return pack_answer(refusal, (uint32_t)i);
    }

    /* Only now are all the kinds known to be right, which refusal 8 comes after. */
    size_t bad = find_bad_next(vocabulary, count);
    if (bad < count)
        return pack_answer(BAD_NEXT, (uint32_t)bad);
    if (header.second == EDITION_2 && header.next != atoms)
        return pack_answer(BAD_ATOMS, atoms);
    return pack_answer(ACCEPTED, (uint32_t)count);
}

enum refusal plain_check_fields(const uint8_t *vocabulary, struct record fields, size_t number, uint16_t roles,
                                unsigned *atoms)
{
    return check_fields(vocabulary, fields, number, roles, atoms);
}

uint64_t plain_record(const uint8_t *vocabulary, size_t vocabulary_len, uint32_t number)
{
    (void)vocabulary; /* the answer is an offset */
    if (!length_fits(vocabulary_len))
        return pack_answer(BAD_LENGTH, 0);
    if (number >= vocabulary_len / RECORD_BYTES)
        return pack_answer(PAST_END, number);
    return pack_answer(ACCEPTED, RECORD_BYTES * number);
}

static bool is_term(const uint8_t *vocabulary, size_t count, uint32_t number)
{
    return number >= 1 && number < count && kind_of(vocabulary, number) != STATEMENT;
}

uint64_t plain_check_query(const uint8_t *vocabulary, size_t count, uint32_t a, uint32_t b)
{
    if (!is_term(vocabulary, count, a))
        return pack_answer(NO_TERM, a);
    if (!is_term(vocabulary, count, b))
        return pack_answer(NO_TERM, b);
    return pack_answer(ACCEPTED, 0);
}
