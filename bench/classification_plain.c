/* The classification in C by the library's algorithm: one pass over the survivors, then a word for
 * each name. */
#include "classification_plain.h"

#include <string.h>

enum { HALF_BITS = MAX_ATOMS / 2, HALF = 1 << HALF_BITS };

/* For each value of the lower half of a type's bits, and of the upper half, the bits that all the
 * survivors with it have; all bits where there is none. */
struct shared {
    uint16_t lower[HALF], upper[HALF];
};

static void fill_shared(const uint8_t *survivors, struct shared *shared)
{
    memset(shared, 0xff, sizeof *shared);
    for (unsigned byte = 0; byte < SURVIVOR_BYTES; byte++) {
        for (unsigned left = survivors[byte]; left != 0; left &= left - 1) {
            unsigned type = 8 * byte + (unsigned)__builtin_ctz(left);

            shared->lower[type % HALF] &= (uint16_t)type;
            shared->upper[type / HALF] &= (uint16_t)type;
        }
    }
}

/* The bits that all the survivors with this bit have. */
static unsigned shared_with(const struct shared *shared, unsigned bit)
{
    const uint16_t *half = bit < HALF_BITS ? shared->lower : shared->upper;
    unsigned own = 1u << bit % HALF_BITS, bits = 0xffff;

    for (unsigned value = own; value < HALF; value = (value + 1) | own)
        bits &= half[value];
    return bits;
}

/* For each name, a bit for each name that is strictly broader, and for each that is strictly narrower. */
struct words {
    uint16_t above[MAX_ATOMS], below[MAX_ATOMS];
};

/* Fills the words, and the entries of names that are equal. */
static void compare_names(const struct names *names, const unsigned *broader, struct words *words,
                          uint8_t *taxonomy)
{
    memset(words, 0, sizeof *words);
    for (unsigned i = 0; i < names->count; i++) {
        for (unsigned j = 0; j < names->count; j++) {
            if (!(broader[i] >> names->bit[j] & 1))
                continue;
            if (broader[j] >> names->bit[i] & 1) {
                taxonomy[i * names->count + j] = SAME;
            } else {
                words->above[i] |= (uint16_t)(1 << j);
                words->below[j] |= (uint16_t)(1 << i);
            }
        }
    }
}

static void fill_taxonomy(const struct names *names, const uint8_t *survivors, uint8_t *taxonomy)
{
    struct shared shared;
    struct words words;
    unsigned broader[MAX_ATOMS];

    memset(taxonomy, 0, TAXONOMY_BYTES);
    fill_shared(survivors, &shared);
    for (unsigned i = 0; i < names->count; i++)
        broader[i] = shared_with(&shared, names->bit[i]);
    compare_names(names, broader, &words, taxonomy);
    for (unsigned i = 0; i < names->count; i++) {
        for (unsigned j = 0; j < names->count; j++) {
            if (words.above[i] >> j & 1 && (words.above[i] & words.below[j]) == 0)
                taxonomy[i * names->count + j] = NEAREST;
        }
    }
}

uint64_t plain_classify(const uint8_t *vocabulary, size_t vocabulary_len,
                        uint8_t *survivors, size_t survivors_len,
                        uint8_t *taxonomy, size_t taxonomy_len)
{
    uint64_t checked = refuse_classification(vocabulary, vocabulary_len, survivors_len, taxonomy_len);
    if ((checked & 0xff) != ACCEPTED)
        return checked;

    uint64_t answer =
        fast_settle(vocabulary, vocabulary_len, (unsigned)(checked >> 8), 0, 0, survivors);
    struct names names = list_names(vocabulary, vocabulary_len);

    fill_taxonomy(&names, survivors, taxonomy);
    return answer;
}
