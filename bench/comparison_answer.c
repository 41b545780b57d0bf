#include "comparison_plain.h"

#include <string.h>

static uint32_t count_atoms(const uint8_t *vocabulary, size_t count)
{
    uint32_t atoms = 0;

    for (size_t i = 1; i < count; i++)
        atoms += is_atom(read_record(vocabulary, i).kind);
    return atoms;
}

uint64_t refuse_atoms(const uint8_t *vocabulary, size_t count, size_t buffer_len)
{
    uint32_t atoms = count_atoms(vocabulary, count);

    if (atoms > MAX_ATOMS)
        return pack_answer(MANY_ATOMS, atoms);
    if (buffer_len < SURVIVOR_BYTES)
        return pack_answer(SHORT_BUFFER, 0);
    return pack_answer(ACCEPTED, atoms);
}

uint64_t refuse_comparison(const uint8_t *vocabulary, size_t vocabulary_len,
                           uint32_t a, uint32_t b, size_t buffer_len)
{
    uint64_t checked = plain_check_vocabulary(vocabulary, vocabulary_len);
    if ((checked & 0xff) != ACCEPTED)
        return checked;

    size_t count = vocabulary_len / RECORD_BYTES;
    uint64_t query = plain_check_query(vocabulary, count, a, b);
    if (query != ACCEPTED)
        return query;
    return refuse_atoms(vocabulary, count, buffer_len);
}

uint64_t answer_comparison(const bool *survives, const bool *differ, unsigned types,
                           uint32_t rounds, uint8_t *buffer)
{
    uint32_t survivors = 0, element = 0;
    bool different = false;

    memset(buffer, 0, SURVIVOR_BYTES);
    for (unsigned t = 0; t < types; t++) {
        if (!survives[t])
            continue;
        survivors++;
        buffer[t / 8] |= (uint8_t)(1 << t % 8);
        if (differ[t] && !different) {
            different = true;
            element = t;
        }
    }
    return pack_comparison(different, element, survivors, rounds);
}
