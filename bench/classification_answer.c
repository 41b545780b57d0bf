#include "classification_plain.h"

uint64_t refuse_classification(const uint8_t *vocabulary, size_t vocabulary_len,
                               size_t survivors_len, size_t taxonomy_len)
{
    uint64_t checked = plain_check_vocabulary(vocabulary, vocabulary_len);
    if ((checked & 0xff) != ACCEPTED)
        return checked;

    uint64_t counted = refuse_atoms(vocabulary, vocabulary_len / RECORD_BYTES, survivors_len);
    if ((counted & 0xff) == ACCEPTED && taxonomy_len < TAXONOMY_BYTES)
        return pack_answer(SHORT_TAXONOMY, 0);
    return counted;
}

struct names list_names(const uint8_t *vocabulary, size_t vocabulary_len)
{
    struct names names = {0};
    uint8_t atoms = 0;

    for (size_t i = 1; i < vocabulary_len / RECORD_BYTES; i++) {
        uint8_t kind = read_record(vocabulary, i).kind;

        if (kind == NAME)
            names.bit[names.count++] = atoms;
        atoms += is_atom(kind);
    }
    return names;
}
