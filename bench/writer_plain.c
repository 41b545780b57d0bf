/* The writer in plain C: what the library is measured against. */
#include "writer_plain.h"

static void write_u16(uint8_t *bytes, uint16_t value)
{
    bytes[0] = (uint8_t)value;
    bytes[1] = (uint8_t)(value >> 8);
}

static void write_record(uint8_t *bytes, struct record r)
{
    bytes[0] = r.kind;
    bytes[1] = r.second;
    write_u16(bytes + 2, r.a);
    write_u16(bytes + 4, r.b);
    write_u16(bytes + 6, r.next);
}

uint64_t plain_make_vocabulary(uint8_t *buffer, size_t buffer_len, uint32_t roles)
{
    if (buffer_len < RECORD_BYTES)
        return pack_answer(NO_ROOM, 0);
    if (roles > MAX_ROLES)
        return pack_answer(BAD_HEADER, 0);
    write_record(buffer, (struct record){.kind = HEADER, .second = EDITION_2, .b = (uint16_t)roles});
    return pack_answer(ACCEPTED, RECORD_BYTES);
}

/* What an addition is refused for before its record is looked at. Accepted: the number of records. */
static uint64_t check_room(const uint8_t *buffer, size_t buffer_len, size_t used)
{
    if (used > buffer_len)
        return pack_answer(BAD_LENGTH, 0);

    uint64_t answer = plain_check_vocabulary(buffer, used);
    if ((answer & 0xff) != ACCEPTED)
        return answer;

    size_t count = used / RECORD_BYTES;
    if (count == MAX_RECORDS || buffer_len - used < RECORD_BYTES)
        return pack_answer(NO_ROOM, (uint32_t)count);
    return answer;
}

/* Where the link to a new statement stands: the next of the last one on the chain, or the header's A. */
static size_t link_place(const uint8_t *vocabulary)
{
    size_t place = 2;

    for (size_t at; (at = read_u16(vocabulary + place)) != 0;)
        place = RECORD_BYTES * at + 6;
    return place;
}

uint64_t plain_add_term(uint8_t *buffer, size_t buffer_len, size_t used, uint8_t kind, uint16_t a, uint16_t b)
{
    uint64_t answer = check_room(buffer, buffer_len, used);
    if ((answer & 0xff) != ACCEPTED)
        return answer;

    size_t count = used / RECORD_BYTES;
    if (kind == STATEMENT)
        return pack_answer(BAD_KIND, (uint32_t)count);

    struct record added = {.kind = kind, .a = a, .b = b};
    unsigned atoms = 0;
    enum refusal refusal = plain_check_fields(buffer, added, count, read_u16(buffer + 4), &atoms);
    if (refusal != ACCEPTED)
        return pack_answer(refusal, (uint32_t)count);

    if (buffer[1] == EDITION_2)
        write_u16(buffer + 6, (uint16_t)(read_u16(buffer + 6) + atoms));
    write_record(buffer + used, added);
    return pack_answer(ACCEPTED, (uint32_t)(used + RECORD_BYTES));
}

uint64_t plain_add_statement(uint8_t *buffer, size_t buffer_len, size_t used, uint16_t a, uint16_t b)
{
    uint64_t answer = check_room(buffer, buffer_len, used);
    if ((answer & 0xff) != ACCEPTED)
        return answer;

    size_t count = used / RECORD_BYTES;
    struct record added = {.kind = STATEMENT, .a = a, .b = b};
    unsigned atoms = 0; /* a statement is none */
    enum refusal refusal = plain_check_fields(buffer, added, count, read_u16(buffer + 4), &atoms);
    if (refusal != ACCEPTED)
        return pack_answer(refusal, (uint32_t)count);

    write_u16(buffer + link_place(buffer), (uint16_t)count);
    write_record(buffer + used, added);
    return pack_answer(ACCEPTED, (uint32_t)(used + RECORD_BYTES));
}
