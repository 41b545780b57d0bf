#include "comparison_questions.h"

#include <stdio.h>

/* --- full vocabularies of 12 atoms --- */

/* Fills the vocabulary up with terms that are no atoms: only the truths take longer. */
static void pad(struct question *question)
{
    static const enum kind kinds[] = {AND, OR, NOT};

    while (question->input.len < MAX_BYTES)
        put_about_terms(&question->input, kinds[below(3)]);
}

enum { LITERALS = 2 * MAX_ATOMS };

/* The atoms' numbers, then those of their negations, which are appended. */
static void put_literals(struct input *input, unsigned *literals)
{
    unsigned atoms = 0;

    for (unsigned i = 1; atoms < MAX_ATOMS; i++) {
        if (kind_of(input, i) == NAME || kind_of(input, i) == SOME || kind_of(input, i) == ALL)
            literals[atoms++] = i;
    }
    for (unsigned i = 0; i < MAX_ATOMS; i++)
        literals[MAX_ATOMS + i] = put(input, NOT, literals[i], 0);
}

static unsigned put_about_literals(struct input *input, enum kind kind, const unsigned *literals)
{
    unsigned a = literals[below(LITERALS)], b = literals[below(LITERALS)];

    return put(input, kind, a, b);
}

/* Over a hundred statements "all of these four lies within one of those three", so weak that
 * together they leave a good part of the types. */
static void put_statements(struct input *input)
{
    unsigned literals[LITERALS];

    put_literals(input, literals);
    unsigned pair = put_about_literals(input, AND, literals);
    unsigned either = put_about_literals(input, OR, literals);

    while (input->len + 5 * RECORD_BYTES <= MAX_BYTES) {
        unsigned other = put_about_literals(input, AND, literals);
        unsigned four = put(input, AND, pair, other);
        unsigned three = put(input, OR, literals[below(LITERALS)], either);

        put(input, STATEMENT, four, three);
        pair = other;
        if (below(2))
            either = put_about_literals(input, OR, literals);
    }
    chain_statements(input);
}

static void make_typical(struct question *question)
{
    struct input *input = &question->input;

    put(input, HEADER, 0, 3);
    for (unsigned i = 1; i <= 6; i++)
        put(input, NAME, i, 0);
    unsigned both = put(input, AND, 1, 2), either = put(input, OR, 3, 4);
    unsigned without = put(input, NOT, 1, 0);

    put(input, SOME, 0, both);
    put(input, ALL, 0, without); /* not together with the one before: a round */
    put(input, SOME, 1, 5);
    put(input, ALL, 1, either);
    put(input, SOME, 2, 6);
    put(input, ALL, 2, either);
    put_statements(input);
    pad(question);
}

/* Twelve roles; each demand can be met only at a type that has the demand before it, and the first
 * nowhere: so the demands fall one by one. Some and all by turns. */
static void put_demands(struct input *input)
{
    unsigned demand, opposite; /* of the record before */

    put(input, HEADER, 0, MAX_ROLES);
    demand = put(input, BOTTOM, 0, 0);
    opposite = put(input, TOP, 0, 0);
    for (unsigned i = 0; i < MAX_ATOMS; i++) {
        unsigned role = (5 * i + 63) % MAX_ROLES;

        if (i % 2 == 0) {
            demand = put(input, SOME, role, demand);
            opposite = put(input, NOT, demand, 0);
        } else {
            opposite = put(input, ALL, role, opposite);
            demand = put(input, NOT, opposite, 0);
        }
    }
}

static void make_many_roles(struct question *question)
{
    put_demands(&question->input);
    put_statements(&question->input);
    pad(question);
}

/* All that costs at once: twelve roles, a round for each, and as many statements as fit. They hold
 * everywhere, so that no type begins dead and each statement is looked at for each type. */
static void make_many_statements(struct question *question)
{
    struct input *input = &question->input;

    put_demands(input);
    question->b = last_number(input);
    while (input->len < MAX_BYTES) {
        unsigned term = some_term(input);

        put(input, STATEMENT, term, term);
    }
    chain_statements(input);
}

/* Two records of two other roles, free of the walk: four times the types, three roles a round. */
static void add_roles(struct question *question)
{
    write_u16(question->input.bytes + 4, 3);
    put(&question->input, SOME, 1, 1);
    put(&question->input, ALL, 2, 1);
    pad(question);
}

/* --- small usual vocabularies --- */

struct line {
    enum kind kind;
    unsigned a, b;
};

static void put_lines(struct question *question, unsigned roles, const struct line *lines,
                      size_t count)
{
    put(&question->input, HEADER, 0, roles);
    for (size_t i = 0; i < count; i++)
        put(&question->input, lines[i].kind, lines[i].a, lines[i].b);
    chain_statements(&question->input);
}

/* Role 0: has the ingredient. */
static const struct line customs_6[] = {
    {NAME, 101, 0},      /* 1 of animal origin */
    {NAME, 102, 0},      /* 2 of plant origin */
    {NAME, 103, 0},      /* 3 processed */
    {NOT, 3, 0},         /* 4 unprocessed */
    {AND, 1, 3},         /* 5 processed, of animal origin */
    {SOME, 0, 5},        /* 6 has such an ingredient */
    {SOME, 0, 2},        /* 7 has an ingredient of plant origin */
    {ALL, 0, 3},         /* 8 all ingredients are processed */
    {AND, 6, 7},         /* 9 composite */
    {AND, 8, 9},         /* 10 composite of processed ingredients */
    {AND, 1, 4},         /* 11 unprocessed, of animal origin */
    {AND, 1, 2},         /* 12 */
    {BOTTOM, 0, 0},      /* 13 */
    {STATEMENT, 12, 13}, /* 14 nothing is of both origins */
    {STATEMENT, 9, 3},   /* 15 what is composite is processed */
    {NOT, 6, 0},         /* 16 */
    {OR, 11, 6},         /* 17 to be inspected */
    {AND, 4, 16},        /* 18 */
    {STATEMENT, 4, 18},  /* 19 the unprocessed has no processed animal ingredient */
    {OR, 1, 2},          /* 20 */
    {STATEMENT, 9, 20},  /* 21 what is composite has an origin */
    {AND, 9, 17},        /* 22 composite to be inspected */
};

static void make_customs_6(struct question *question)
{
    put_lines(question, 1, customs_6, sizeof customs_6 / sizeof *customs_6);
    question->a = 10;
    question->b = 22;
}

/* Roles: 0 has the ingredient, 1 comes from, 2 has the consignee. */
static const struct line customs_9[] = {
    {NAME, 101, 0},      /* 1 of animal origin */
    {NAME, 102, 0},      /* 2 dairy */
    {NAME, 103, 0},      /* 3 treated */
    {NAME, 104, 0},      /* 4 approved */
    {NAME, 105, 0},      /* 5 a third country */
    {STATEMENT, 2, 1},   /* 6 dairy is of animal origin */
    {NOT, 4, 0},         /* 7 not approved */
    {AND, 5, 7},         /* 8 a third country not approved */
    {SOME, 0, 1},        /* 9 has an ingredient of animal origin */
    {SOME, 0, 2},        /* 10 has a dairy ingredient */
    {SOME, 1, 8},        /* 11 comes from such a country */
    {ALL, 2, 4},         /* 12 all consignees are approved */
    {NOT, 3, 0},         /* 13 untreated */
    {OR, 1, 9},          /* 14 animal product */
    {AND, 11, 14},       /* 15 animal product from such a country */
    {STATEMENT, 15, 3},  /* 16 must be treated */
    {STATEMENT, 15, 12}, /* 17 and go to approved consignees */
    {AND, 1, 5},         /* 18 */
    {BOTTOM, 0, 0},      /* 19 */
    {STATEMENT, 18, 19}, /* 20 goods are no countries */
    {OR, 14, 3},         /* 21 */
    {NOT, 21, 0},        /* 22 */
    {STATEMENT, 5, 22},  /* 23 nor are countries treated */
    {NOT, 9, 0},         /* 24 */
    {AND, 10, 24},       /* 25 */
    {OR, 2, 10},         /* 26 dairy product */
    {AND, 13, 26},       /* 27 untreated dairy product */
    {NOT, 11, 0},        /* 28 */
    {AND, 27, 28},       /* 29 untreated dairy product from elsewhere */
    {NOT, 12, 0},        /* 30 */
    {AND, 11, 30},       /* 31 */
    {AND, 14, 31},       /* 32 */
    {OR, 3, 12},         /* 33 */
    {AND, 14, 33},       /* 34 */
    {OR, 22, 34},        /* 35 */
    {NOT, 15, 0},        /* 36 */
    {AND, 14, 36},       /* 37 animal product free of the rule */
    {STATEMENT, 32, 19}, /* 38 nothing of the kind goes elsewhere */
    {AND, 26, 37},       /* 39 dairy product free of the rule */
    {AND, 26, 28},       /* 40 */
};

static void make_customs_9(struct question *question)
{
    put_lines(question, 3, customs_9, sizeof customs_9 / sizeof *customs_9);
    question->a = 27;
    question->b = 29;
}

/* --- the elimination on walk10 alone --- */

static void add_contradiction(struct question *question)
{
    unsigned top = put(&question->input, TOP, 0, 0), bottom = put(&question->input, BOTTOM, 0, 0);

    put(&question->input, STATEMENT, top, bottom);
}

static void chain_contradiction(struct question *question)
{
    add_contradiction(question);
    chain_statements(&question->input);
}

/* --- all of them --- */

static const struct plan {
    const char *name, *file;          /* the file to begin with, if any */
    void (*make)(struct question *);  /* what is added */
    bool walk, slow, different;
    uint32_t element, survivors, rounds;
} plans[] = {
    {"walk8", "walk8", NULL, true, false, true, 191, 8, 54},
    {"walk10", "walk10", NULL, true, false, true, 511, 10, 241},
    {"walk12", "walk12", NULL, true, true, true, 3071, 12, 1005},
    {"walk12, full", "walk12", pad, true, true, true, 3071, 12, 1005},
    {"walk10 and two roles, full", "walk10", add_roles, true, false, true, 511, 40, 241},
    {"counter2_8", "counter2_8", NULL, false, false, false, 0, 0, 15},
    {"counter2_12", "counter2_12", NULL, false, false, false, 0, 0, 63},
    {"counter2_12, full", "counter2_12", pad, false, false, false, 0, 0, 63},
    {"late12", "late12", NULL, false, false, true, 9, 3072, 0},
    {"late12, full", "late12", pad, false, false, true, 9, 3072, 0},
    {"never12", "never12", NULL, false, false, true, 1345, 128, 1},
    {"never12, full", "never12", pad, false, false, true, 1345, 128, 1},
    {"typical, full", NULL, make_typical, false, false, true, 0, 1250, 1},
    {"twelve roles, 103 statements", NULL, make_many_roles, false, false, true, 2730, 1, 10},
    {"twelve roles, 485 statements", NULL, make_many_statements, false, false, false, 0, 1, 12},
    {"customs, 6 atoms", NULL, make_customs_6, false, false, true, 29, 34, 0},
    {"customs, 9 atoms", NULL, make_customs_9, false, false, false, 0, 104, 1},
    [WITH_ELIMINATION] =
        {"walk10 and 3 records", "walk10", add_contradiction, true, false, true, 511, 10, 241},
    [WITHOUT_ELIMINATION] =
        {"walk10, no type", "walk10", chain_contradiction, true, false, false, 0, 0, 0},
};

static bool read_file(struct input *input, const char *directory, const char *name)
{
    char path[4096];
    FILE *file;

    snprintf(path, sizeof path, "%s/%s.bin", directory, name);
    file = fopen(path, "rb");
    if (file == NULL) {
        perror(path);
        return false;
    }
    input->len = fread(input->bytes, 1, MAX_BYTES, file);
    fclose(file);
    return true;
}

static bool make_question(struct question *question, const char *directory, const struct plan *plan)
{
    *question = (struct question){
        .input.name = plan->name,
        .input.expected =
            pack_comparison(plan->different, plan->element, plan->survivors, plan->rounds),
        .a = 1,
        .walk = plan->walk,
        .slow = plan->slow,
    };
    if (plan->file != NULL && !read_file(&question->input, directory, plan->file))
        return false;
    if (plan->make != NULL)
        plan->make(question);
    if (question->b == 0) { /* the last term */
        question->b = last_number(&question->input);
        while (kind_of(&question->input, question->b) == STATEMENT)
            question->b--;
    }
    return true;
}

bool make_questions(struct question *questions, const char *directory)
{
    for (int i = 0; i < ALL_QUESTIONS; i++) {
        if (!make_question(&questions[i], directory, &plans[i]))
            return false;
    }
    return true;
}

/* --- random ones --- */

static void put_random_atom(struct input *input, unsigned roles)
{
    unsigned role = (unsigned)below(roles);

    /* As the first record a name, since a modal one needs a term before it. */
    if (input->len == RECORD_BYTES || below(3) == 0)
        put(input, NAME, (unsigned)count_of(input), 0);
    else if (below(2))
        put(input, SOME, role, some_term(input));
    else
        put(input, ALL, role, some_term(input));
}

static void put_random_term(struct input *input)
{
    static const enum kind kinds[] = {NOT, NOT, AND, AND, AND, OR, OR, OR};

    if (input->len == RECORD_BYTES || below(12) == 0)
        put(input, below(2) ? TOP : BOTTOM, 0, 0);
    else
        put_about_terms(input, kinds[below(8)]);
}

void make_random_question(struct question *question)
{
    struct input *input = &question->input;
    unsigned roles = 1 + (unsigned)below(3);
    size_t atoms = below(8), others = 2 + below(16), statements = below(6);

    *question = (struct question){.input.name = "a random vocabulary"};
    put(input, HEADER, 0, below(8) ? roles : MAX_ROLES);
    while (atoms + others > 0) {
        if (below(atoms + others) < atoms) {
            put_random_atom(input, roles);
            atoms--;
        } else {
            put_random_term(input);
            others--;
        }
        if (statements > 0 && below(4) == 0) {
            put_about_terms(input, STATEMENT);
            statements--;
        }
    }
    link_at_random(input);
    choose_edition(input);
    question->a = some_term(input);
    question->b = some_term(input);
}

/* A number near the limits that record numbers have. */
static uint32_t some_number(const struct input *input)
{
    switch (below(4)) {
    case 0: return 0;
    case 1: return (uint32_t)random_u64();
    case 2: return 0x10000 + (uint32_t)below(count_of(input));
    default: return (uint32_t)below(count_of(input) + 2);
    }
}

void damage_question(struct question *question, size_t *lent)
{
    struct input *input = &question->input;

    /* Often several at once: the order of the refusals shows. */
    do {
        switch (below(8)) {
        case 0: question->a = some_number(input); break;
        case 1: question->b = some_number(input); break;
        case 2: *lent = SURVIVOR_BYTES - 1 - (below(2) ? 0 : below(SURVIVOR_BYTES)); break;
        case 3:
            for (size_t left = 5 + below(12); left > 0; left--)
                put(input, NAME, 1000 + last_number(input), 0);
            choose_edition(input);
            break;
        case 4:
            if (below(2))
                break;
            input->len = below(2) ? below(ROOM + 1) : RECORD_BYTES * below(MAX_RECORDS + 3);
            return; /* nothing else can be done to a vocabulary without records */
        case 5: damage_edition(input); break;
        default: damage_field(input);
        }
    } while (below(2));
}
