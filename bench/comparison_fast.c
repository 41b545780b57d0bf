/* The comparison in C by the library's test: the truths of all records filled once for each type,
 * served or not by a table over sets of modal records. Without its list of the types that are left:
 * each role looks at all types, and the survivors are counted as they are written. */
#include "comparison_plain.h"

#include <string.h>

enum { ATOM = 0xf0 };

/* Bit x + 2y + 4z is the truth where A has truth x, B has y and the atom's own bit is z. */
static const uint8_t rules[] = {
    [TOP] = 0xff, [BOTTOM] = 0,  [NAME] = ATOM, [NOT] = 0x55,       [AND] = 0x88,
    [OR] = 0xee,  [SOME] = ATOM, [ALL] = ATOM,  [STATEMENT] = 0xdd,
};

struct modal {
    uint16_t record, filler;
    uint8_t role;
    bool all; /* of kind 8: both its bits are negated */
};

/* The vocabulary, read once. `others`: for each role, a bit for each modal record of another. */
struct decoded {
    unsigned count, statements, modals, roles;
    uint8_t rule[MAX_RECORDS];
    uint16_t first[MAX_RECORDS], second[MAX_RECORDS], chained[MAX_RECORDS];
    struct modal modal[MAX_ATOMS];
    uint16_t others[MAX_ROLES];
};

/* `demand`: a bit for each modal record that needs a witness at the type;
 * `offer`: a bit for each that the type can witness. */
struct types {
    unsigned count;
    bool alive[MAX_TYPES], differ[MAX_TYPES];
    uint16_t demand[MAX_TYPES], offer[MAX_TYPES];
};

static void decode_records(const uint8_t *vocabulary, struct decoded *d)
{
    d->modals = 0;
    for (unsigned i = 1; i < d->count; i++) {
        struct record r = read_record(vocabulary, i);

        d->rule[i] = rules[r.kind];
        d->first[i] = rules[r.kind] == ATOM ? 0 : r.a;
        d->second[i] = r.b;
        if (r.kind == SOME || r.kind == ALL)
            d->modal[d->modals++] = (struct modal){
                .record = (uint16_t)i, .filler = r.b, .role = (uint8_t)r.a, .all = r.kind == ALL
            };
    }
}

static void decode(const uint8_t *vocabulary, size_t vocabulary_len, struct decoded *d)
{
    struct record header = read_record(vocabulary, 0);

    d->count = (unsigned)(vocabulary_len / RECORD_BYTES);
    decode_records(vocabulary, d);
    d->statements = 0;
    for (uint16_t s = header.a; s != 0; s = read_record(vocabulary, s).next)
        d->chained[d->statements++] = s;
    d->roles = header.b;
    for (unsigned role = 0; role < d->roles; role++)
        d->others[role] = (uint16_t)((1 << d->modals) - 1);
    for (unsigned i = 0; i < d->modals; i++)
        d->others[d->modal[i].role] &= (uint16_t)~(1 << i);
}

static void fill_truths(const struct decoded *d, unsigned type, uint8_t *truths)
{
    unsigned rest = type; /* the lowest bit is the next atom's */

    truths[0] = false;
    for (unsigned i = 1; i < d->count; i++) {
        unsigned rule = d->rule[i];
        unsigned row = truths[d->first[i]] + 2 * truths[d->second[i]] + 4 * (rest & 1);

        truths[i] = rule >> row & 1;
        rest >>= rule == ATOM;
    }
}

static bool statements_hold(const struct decoded *d, const uint8_t *truths)
{
    for (unsigned i = 0; i < d->statements; i++) {
        if (!truths[d->chained[i]])
            return false;
    }
    return true;
}

static void fill_types(const struct decoded *d, uint32_t a, uint32_t b, struct types *types)
{
    uint8_t truths[MAX_RECORDS]; /* as bytes: gcc stores a bool in two steps */

    for (unsigned t = 0; t < types->count; t++) {
        unsigned demand = 0, offer = 0;

        fill_truths(d, t, truths);
        for (unsigned i = 0; i < d->modals; i++) {
            const struct modal *m = &d->modal[i];

            demand |= (unsigned)(truths[m->record] != m->all) << i;
            offer |= (unsigned)(truths[m->filler] != m->all) << i;
        }
        types->demand[t] = (uint16_t)demand;
        types->offer[t] = (uint16_t)offer;
        types->alive[t] = statements_hold(d, truths);
        types->differ[t] = truths[a] != truths[b];
    }
}

/* cover[x]: the union of the living types' offers that lie within x. */
static void fill_cover(const struct types *types, unsigned modals, uint16_t *cover)
{
    size_t size = (size_t)1 << modals;

    memset(cover, 0, size * sizeof *cover);
    for (unsigned t = 0; t < types->count; t++) {
        if (types->alive[t])
            cover[types->offer[t]] = types->offer[t];
    }
    for (size_t bit = 1; bit < size; bit *= 2) {
        for (size_t x = bit; x < size; x = (x + 1) | bit)
            cover[x] |= cover[x - bit];
    }
}

/* Removes the types that lack a witness for a demand of one role. */
static bool remove_unserved(struct types *types, const uint16_t *cover, unsigned others)
{
    bool removed = false;

    for (unsigned t = 0; t < types->count; t++) {
        unsigned seen = types->demand[t] | others;

        if (types->alive[t] && (cover[seen] | others) != seen) {
            types->alive[t] = false;
            removed = true;
        }
    }
    return removed;
}

/* One round. The table is made before any type goes, so that all go together. Out of line: inlined,
 * the loops are short of registers. */
static __attribute__((noinline)) bool run_round(const struct decoded *d, struct types *types)
{
    uint16_t cover[MAX_TYPES];
    unsigned all = (1u << d->modals) - 1;
    bool removed = false;

    fill_cover(types, d->modals, cover);
    for (unsigned role = 0; role < d->roles; role++) {
        if (d->others[role] != all)
            removed |= remove_unserved(types, cover, d->others[role]);
    }
    return removed;
}

uint64_t fast_settle(const uint8_t *vocabulary, size_t vocabulary_len, unsigned atoms,
                     uint32_t a, uint32_t b, uint8_t *buffer)
{
    struct decoded decoded;
    struct types types;
    uint32_t rounds = 0;

    types.count = 1u << atoms;
    decode(vocabulary, vocabulary_len, &decoded);
    fill_types(&decoded, a, b, &types);
    while (run_round(&decoded, &types))
        rounds++;
    return answer_comparison(types.alive, types.differ, types.count, rounds, buffer);
}

uint64_t fast_compare(const uint8_t *vocabulary, size_t vocabulary_len,
                      uint32_t a, uint32_t b, uint8_t *buffer, size_t buffer_len)
{
    uint64_t checked = refuse_comparison(vocabulary, vocabulary_len, a, b, buffer_len);
    if ((checked & 0xff) != ACCEPTED)
        return checked;
    return fast_settle(vocabulary, vocabulary_len, (unsigned)(checked >> 8), a, b, buffer);
}
