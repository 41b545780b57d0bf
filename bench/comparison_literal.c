/* The comparison in C by the words of docs/FORMATS.md, section 3. The truth of every record at every type is kept; each
 * demand of each type scans all types. */
#include "comparison_plain.h"

#include <string.h>

struct modal {
    uint16_t record, role, filler;
    bool wanted; /* truth of a demand and of its witness' filler: true for some, false for all */
};

/* Too large for the stack. */
static bool truth[MAX_TYPES][MAX_RECORDS];
static bool set[MAX_TYPES], left[MAX_TYPES], differ[MAX_TYPES];
static struct modal modal[MAX_ATOMS];
static unsigned types, modals;

static void fill_truths(const uint8_t *vocabulary, size_t count, unsigned type)
{
    bool *at = truth[type];
    unsigned atom = 0;

    for (size_t i = 1; i < count; i++) {
        struct record r = read_record(vocabulary, i);

        switch (r.kind) {
        case TOP: at[i] = true; break;
        case BOTTOM: at[i] = false; break;
        case NOT: at[i] = !at[r.a]; break;
        case AND: at[i] = at[r.a] && at[r.b]; break;
        case OR: at[i] = at[r.a] || at[r.b]; break;
        case STATEMENT: at[i] = !at[r.a] || at[r.b]; break;
        default: at[i] = type >> atom++ & 1; /* an atom */
        }
    }
}

static bool statements_hold(const uint8_t *vocabulary, unsigned type)
{
    for (uint16_t s = read_record(vocabulary, 0).a; s != 0; s = read_record(vocabulary, s).next) {
        if (!truth[type][s])
            return false;
    }
    return true;
}

static void fill_modal(const uint8_t *vocabulary, size_t count)
{
    modals = 0;
    for (size_t i = 1; i < count; i++) {
        struct record r = read_record(vocabulary, i);

        if (r.kind == SOME || r.kind == ALL)
            modal[modals++] = (struct modal){
                .record = (uint16_t)i, .role = r.a, .filler = r.b, .wanted = r.kind == SOME
            };
    }
}

/* No demand of the role that t lacks is met at s. */
static bool is_allowed(unsigned t, unsigned s, uint16_t role)
{
    for (unsigned i = 0; i < modals; i++) {
        const struct modal *m = &modal[i];

        if (m->role == role && truth[t][m->record] != m->wanted
            && truth[s][m->filler] == m->wanted)
            return false;
    }
    return true;
}

static bool has_witness(unsigned t, const struct modal *m)
{
    for (unsigned s = 0; s < types; s++) {
        if (set[s] && truth[s][m->filler] == m->wanted && is_allowed(t, s, m->role))
            return true;
    }
    return false;
}

static bool is_served(unsigned t)
{
    for (unsigned i = 0; i < modals; i++) {
        if (truth[t][modal[i].record] == modal[i].wanted && !has_witness(t, &modal[i]))
            return false;
    }
    return true;
}

/* Out of line: inlined, the scan is short of registers, which would flatter the others. */
static __attribute__((noinline)) bool run_round(void)
{
    bool removed = false;

    for (unsigned t = 0; t < types; t++) {
        left[t] = set[t] && is_served(t);
        removed |= left[t] != set[t];
    }
    memcpy(set, left, types * sizeof *set);
    return removed;
}

uint64_t literal_settle(const uint8_t *vocabulary, size_t vocabulary_len, unsigned atoms,
                        uint32_t a, uint32_t b, uint8_t *buffer)
{
    size_t count = vocabulary_len / RECORD_BYTES;
    uint32_t rounds = 0;

    types = 1u << atoms;
    fill_modal(vocabulary, count);
    for (unsigned t = 0; t < types; t++) {
        fill_truths(vocabulary, count, t);
        set[t] = statements_hold(vocabulary, t);
        differ[t] = truth[t][a] != truth[t][b];
    }
    while (run_round())
        rounds++;
    return answer_comparison(set, differ, types, rounds, buffer);
}

uint64_t literal_compare(const uint8_t *vocabulary, size_t vocabulary_len,
                         uint32_t a, uint32_t b, uint8_t *buffer, size_t buffer_len)
{
    uint64_t checked = refuse_comparison(vocabulary, vocabulary_len, a, b, buffer_len);
    if ((checked & 0xff) != ACCEPTED)
        return checked;
    return literal_settle(vocabulary, vocabulary_len, (unsigned)(checked >> 8), a, b, buffer);
}
