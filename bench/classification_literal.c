/* The classification in C by the words of docs/FORMATS.md: each pair of names is looked at over all
 * types. */
#include "classification_plain.h"

#include <string.h>

static bool has(unsigned type, const struct names *names, unsigned name)
{
    return type >> names->bit[name] & 1;
}

/* Name j is broader than name i: every survivor in i is in j. */
static bool is_broader(const struct names *names, const uint8_t *survivors, unsigned i, unsigned j)
{
    for (unsigned t = 0; t < MAX_TYPES; t++) {
        bool survives = survivors[t / 8] >> t % 8 & 1;

        if (survives && has(t, names, i) && !has(t, names, j))
            return false;
    }
    return true;
}

static bool broader[MAX_ATOMS][MAX_ATOMS];

static bool is_strictly_broader(unsigned i, unsigned j)
{
    return broader[i][j] && !broader[j][i];
}

static bool is_nearest(unsigned names, unsigned i, unsigned j)
{
    for (unsigned between = 0; between < names; between++) {
        if (is_strictly_broader(i, between) && is_strictly_broader(between, j))
            return false;
    }
    return is_strictly_broader(i, j);
}

static uint8_t entry(unsigned names, unsigned i, unsigned j)
{
    if (broader[i][j] && broader[j][i])
        return SAME;
    return is_nearest(names, i, j) ? NEAREST : 0;
}

static void fill_taxonomy(const struct names *names, const uint8_t *survivors, uint8_t *taxonomy)
{
    for (unsigned i = 0; i < names->count; i++) {
        for (unsigned j = 0; j < names->count; j++)
            broader[i][j] = is_broader(names, survivors, i, j);
    }
    memset(taxonomy, 0, TAXONOMY_BYTES);
    for (unsigned i = 0; i < names->count; i++) {
        for (unsigned j = 0; j < names->count; j++)
            taxonomy[i * names->count + j] = entry(names->count, i, j);
    }
}

uint64_t literal_classify(const uint8_t *vocabulary, size_t vocabulary_len,
                          uint8_t *survivors, size_t survivors_len,
                          uint8_t *taxonomy, size_t taxonomy_len)
{
    uint64_t checked = refuse_classification(vocabulary, vocabulary_len, survivors_len, taxonomy_len);
    if ((checked & 0xff) != ACCEPTED)
        return checked;

    uint64_t answer =
        literal_settle(vocabulary, vocabulary_len, (unsigned)(checked >> 8), 0, 0, survivors);
    struct names names = list_names(vocabulary, vocabulary_len);

    fill_taxonomy(&names, survivors, taxonomy);
    return answer;
}
