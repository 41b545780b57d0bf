#include "writer_additions.h"

/* --- vocabularies, record by record --- */

typedef struct record record_function(unsigned number);

static struct record header(uint16_t roles)
{
    return (struct record){.kind = HEADER, .b = roles}; /* the edition comes last, with k */
}

static struct record about(enum kind kind, unsigned a, unsigned b)
{
    return (struct record){.kind = (uint8_t)kind, .a = (uint16_t)a, .b = (uint16_t)b};
}

/* Row 7 looks at all names before each. An odd factor keeps the labels distinct and spreads them over both bytes. */
static struct record of_names(unsigned number)
{
    return number == 0 ? header(0) : about(NAME, number * 40503u & 0xffff, 0);
}

/* A term, and statements: the end of the chain is as far as it can be. */
static struct record of_statements(unsigned number)
{
    if (number == 0)
        return header(0);
    return number == 1 ? about(TOP, 0, 0) : about(STATEMENT, 1, 1);
}

/* Groups of seven records, as in vocabulary.c. */
static struct record of_mixed(unsigned number)
{
    if (number == 0)
        return header(MAX_ROLES);
    unsigned group = (number - 1) / 7, first = 7 * group + 1;

    switch (number - first) {
    case 0: return about(NAME, first, 0);
    case 1: return about(NOT, first, 0);
    case 2: return about(AND, first, first + 1);
    case 3: return about(OR, 7 * (group / 2) + 1, first + 2); /* a name halfway back */
    case 4: return about(SOME, first % MAX_ROLES, first + 3);
    case 5: return about(ALL, (first + 1) % MAX_ROLES, first + 4);
    default: return about(STATEMENT, first, first + 5);
    }
}

/* The 12 records of vocabulary.c. */
static struct record of_small(unsigned number)
{
    const struct record records[] = {
        header(2), about(TOP, 0, 0), about(BOTTOM, 0, 0), about(NAME, 100, 0), about(NAME, 200, 0),
        about(NOT, 3, 0), about(AND, 3, 4), about(OR, 5, 6), about(SOME, 0, 3), about(ALL, 1, 7),
        about(STATEMENT, 3, 8), about(STATEMENT, 9, 1),
    };

    return records[number];
}

/* --- the writings that are measured --- */

enum { FULL = MAX_RECORDS, NEARLY = MAX_RECORDS - 1 };

static const struct plan {
    const char *name;
    record_function *record;
    unsigned count;     /* so many records are in use */
    bool second;        /* these are of edition 2; a vocabulary that is made is so anyway */
    unsigned additions; /* so many follow of the same vocabulary; 0: this record */
    struct record added;
    enum refusal refusal; /* at the last call */
    size_t lent;          /* 0: room enough */
} plans[WRITINGS] = {
    {.name = "an empty vocabulary made", .record = of_mixed, .additions = 1},
    {.name = "to a header: a name", .record = of_names, .count = 1, .additions = 1},
    {.name = "to a header, edition 2: a name", .record = of_names, .count = 1, .second = true, .additions = 1},
    {.name = "to a header and top: the first statement", .record = of_statements, .count = 2, .additions = 1},
    {.name = "to 12 records: a name", .record = of_small, .count = 12, .added = {.kind = NAME, .a = 300}},
    {.name = "to 12 records, edition 2: a name", .record = of_small, .count = 12, .second = true,
     .added = {.kind = NAME, .a = 300}},
    {.name = "to 12 records: an and", .record = of_small, .count = 12, .added = {.kind = AND, .a = 8, .b = 9}},
    {.name = "to 12 records, edition 2: an and", .record = of_small, .count = 12, .second = true,
     .added = {.kind = AND, .a = 8, .b = 9}},
    {.name = "to 12 records: a statement", .record = of_small, .count = 12,
     .added = {.kind = STATEMENT, .a = 7, .b = 8}},

    {.name = "to 511, names: a name", .record = of_names, .count = NEARLY, .additions = 1},
    {.name = "to 511, names, edition 2: a name", .record = of_names, .count = NEARLY, .second = true, .additions = 1},
    {.name = "to 511, names: a statement", .record = of_names, .count = NEARLY,
     .added = {.kind = STATEMENT, .a = 1, .b = 510}},
    {.name = "to 511, statements: a not", .record = of_statements, .count = NEARLY, .added = {.kind = NOT, .a = 1}},
    {.name = "to 511, statements: a statement", .record = of_statements, .count = NEARLY, .additions = 1},
    {.name = "to 511, mixed: a name", .record = of_mixed, .count = NEARLY, .added = {.kind = NAME, .a = 9999}},
    {.name = "to 511, mixed: a some", .record = of_mixed, .count = NEARLY, .added = {.kind = SOME, .a = 63, .b = 510}},
    {.name = "to 511, mixed: a statement", .record = of_mixed, .count = NEARLY, .additions = 1},

    /* the last name's label, 510 * 40503 */
    {.name = "to 511, names: a name (7)", .record = of_names, .count = NEARLY,
     .added = {.kind = NAME, .a = 510 * 40503u & 0xffff}, .refusal = BAD_LABEL},
    {.name = "to 512, names: a name (27)", .record = of_names, .count = FULL, .added = {.kind = NAME},
     .refusal = NO_ROOM},
    {.name = "to 511, past the buffer (1)", .record = of_names, .count = NEARLY, .additions = 1,
     .refusal = BAD_LENGTH, .lent = RECORD_BYTES * NEARLY - 1},

    {.name = "whole: 12 records", .record = of_small, .additions = 12},
    {.name = "whole: 512, names", .record = of_names, .additions = FULL},
    {.name = "whole: 512, statements", .record = of_statements, .additions = FULL},
    {.name = "whole: 512, mixed", .record = of_mixed, .additions = FULL},
};

static void add_record(struct input *input, struct record record)
{
    put(input, (enum kind)record.kind, record.a, record.b);
}

static struct addition call_for(struct record record)
{
    switch (record.kind) {
    case HEADER: return (struct addition){.call = MAKE, .roles = record.b};
    case STATEMENT: return (struct addition){.call = ADD_STATEMENT, .a = record.a, .b = record.b};
    default: return (struct addition){.call = ADD_TERM, .kind = record.kind, .a = record.a, .b = record.b};
    }
}

static unsigned last_statement(const struct input *input)
{
    unsigned last = 0;

    for (unsigned i = 1; i < count_of(input); i++) {
        if (kind_of(input, i) == STATEMENT)
            last = i;
    }
    return last;
}

/* A statement changes the end of the chain, an atom the header's k, any other term nothing. */
static unsigned changed_by(const struct writing *w)
{
    return w->added[0].call == ADD_STATEMENT ? last_statement(&w->before) : 0;
}

static uint64_t answer_expected(const struct plan *plan, const struct input *after)
{
    switch (plan->refusal) {
    case ACCEPTED: return pack_answer(ACCEPTED, (uint32_t)after->len);
    case BAD_LENGTH: return pack_answer(BAD_LENGTH, 0);
    default: return pack_answer(plan->refusal, plan->count);
    }
}

static void make_writing(struct writing *w, const struct plan *plan)
{
    enum edition edition = plan->second || plan->count == 0 ? EDITION_2 : EDITION_1;

    w->before.name = plan->name;
    w->buffer_len = plan->lent ? plan->lent : ROOM;
    for (unsigned i = 0; i < plan->count; i++)
        add_record(&w->before, plan->record(i));
    w->after = w->before;
    for (unsigned i = 0; i == 0 || i < plan->additions; i++) {
        struct record added = plan->additions ? plan->record(plan->count + i) : plan->added;

        w->added[w->additions++] = call_for(added);
        if (plan->refusal == ACCEPTED)
            add_record(&w->after, added);
    }
    chain_statements(&w->before);
    chain_statements(&w->after);
    set_edition(&w->before, edition);
    set_edition(&w->after, edition);
    w->changed = changed_by(w);
    w->before.expected = answer_expected(plan, &w->after);
}

void make_writings(struct writing *writings)
{
    for (int i = 0; i < WRITINGS; i++)
        make_writing(&writings[i], &plans[i]);
}

/* --- random ones --- */

/* A label is the number of its record or, in additions, of any near it. */
static void put_random(struct input *input, unsigned roles)
{
    static const enum kind kinds[] = {NAME, NAME, NOT, AND, OR, SOME, ALL, STATEMENT, STATEMENT, STATEMENT};
    enum kind kind = kinds[below(sizeof kinds / sizeof *kinds)];

    if (input->len == RECORD_BYTES || below(16) == 0)
        put(input, below(2) ? TOP : BOTTOM, 0, 0);
    else if (kind == NAME)
        put(input, NAME, (unsigned)count_of(input), 0);
    else if (kind != SOME && kind != ALL)
        put_about_terms(input, kind);
    else if (roles > 0)
        put(input, kind, (unsigned)below(roles), some_term(input));
}

static void make_random_vocabulary(struct input *input)
{
    unsigned roles = (unsigned)below(4);
    size_t count = 1 + (below(8) ? below(40) : MAX_RECORDS - 1 - below(8));

    put(input, HEADER, 0, below(8) ? roles : MAX_ROLES);
    while (count_of(input) < count)
        put_random(input, roles);
    link_at_random(input);
    choose_edition(input);
}

/* A field of a new record behind so many: mostly a record's number, the first that is none included. */
static uint16_t some_field(size_t count)
{
    switch (below(8)) {
    case 0: return 0;
    case 1: return (uint16_t)random_u64();
    case 2: return (uint16_t)below(4); /* a role, or nearly */
    default: return (uint16_t)below(count + 2);
    }
}

static struct addition some_addition(size_t count)
{
    struct addition addition = {
        .call = below(16) == 0 ? MAKE : below(3) ? ADD_TERM : ADD_STATEMENT,
        .kind = (uint8_t)(below(16) ? TOP + below(ALL) : random_u64() % (HEADER + 2)),
        .a = some_field(count),
        .b = some_field(count),
        .roles = (uint32_t)(below(8) ? below(MAX_ROLES + 3) : random_u64()),
    };

    if (addition.kind <= BOTTOM && below(4))
        addition.a = 0;
    if (addition.call == ADD_TERM && addition.kind <= NOT && below(4))
        addition.b = 0;
    return addition;
}

/* Damages keep the length above 0. */
static void damage(struct writing *w)
{
    struct input *input = &w->before;

    switch (below(5)) {
    case 0: repeat_record(input); break;
    case 1: damage_edition(input); break;
    case 2:
        if (below(2))
            input->len = below(2) ? below(w->buffer_len + 20) : random_u64();
        break;
    default: damage_field(input);
    }
}

void make_random_writing(struct writing *w)
{
    *w = (struct writing){.before.name = "a random vocabulary", .additions = 1 + (unsigned)below(12)};
    make_random_vocabulary(&w->before);
    for (unsigned i = 0; i < w->additions; i++)
        w->added[i] = some_addition(count_of(&w->before) + i);
    w->buffer_len = ROOM;
    if (below(2)) /* room for a few of them, for none, or too little for the bytes in use */
        w->buffer_len = below(8) ? w->before.len + below(60) : below(w->before.len + 1);
    if (w->buffer_len > ROOM)
        w->buffer_len = ROOM;
    if (below(4) == 0)
        damage(w);
}
