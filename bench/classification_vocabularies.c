#include "classification_vocabularies.h"

/* --- vocabularies of names alone, or nearly --- */

static void put_names(struct input *input, unsigned count)
{
    put(input, HEADER, 0, 0);
    for (unsigned i = 1; i <= count; i++)
        put(input, NAME, i, 0);
}

static void make_free(struct input *input)
{
    put_names(input, MAX_ATOMS);
}

static void make_within_one(struct input *input)
{
    put_names(input, MAX_ATOMS);
    for (unsigned i = 1; i < MAX_ATOMS; i++)
        put(input, STATEMENT, i, MAX_ATOMS);
}

static void make_layers(struct input *input)
{
    put_names(input, MAX_ATOMS);
    for (unsigned i = 1; i <= MAX_ATOMS / 2; i++) {
        for (unsigned j = MAX_ATOMS / 2 + 1; j <= MAX_ATOMS; j++)
            put(input, STATEMENT, i, j);
    }
}

/* The narrowest is neither first nor last, so that the order of records is not that of the names. */
static void make_chain(struct input *input)
{
    put_names(input, MAX_ATOMS);
    for (unsigned i = 0; i + 1 < MAX_ATOMS; i++)
        put(input, STATEMENT, 1 + (5 + 7 * i) % MAX_ATOMS, 1 + (5 + 7 * (i + 1)) % MAX_ATOMS);
}

static void make_same(struct input *input)
{
    put_names(input, MAX_ATOMS);
    for (unsigned i = 1; i <= MAX_ATOMS; i++)
        put(input, STATEMENT, i, 1 + i % MAX_ATOMS);
}

/* By turns, so that the names' bits do not lie side by side. Each restriction is of its own role: all types survive. */
static void make_restricted(struct input *input)
{
    put(input, HEADER, 0, MAX_ATOMS / 2);
    for (unsigned role = 0; role < MAX_ATOMS / 2; role++)
        put(input, role % 2 ? ALL : SOME, role, put(input, NAME, 1 + role, 0));
}

static void make_contradiction(struct input *input)
{
    put_names(input, MAX_ATOMS);
    unsigned top = put(input, TOP, 0, 0), bottom = put(input, BOTTOM, 0, 0);

    put(input, STATEMENT, top, bottom);
}

static void make_one(struct input *input)
{
    put_names(input, 1);
}

static void make_six(struct input *input)
{
    put_names(input, 6);
}

/* --- all of them --- */

/* The entries expected of the comparison's vocabularies, in its order. */
static const struct {
    unsigned nearest, same;
} entries[QUESTIONS] = {
    {0, 1}, {0, 1}, {0, 1}, {0, 1}, {0, 1}, /* the walks have one name */
    {0, 16}, {0, 36}, {0, 36},              /* counters: no survivor */
    {0, 4}, {0, 4}, {0, 6}, {0, 6}, {0, 6},
    {0, 0}, {0, 0},                         /* twelve roles, and no name */
    {0, 3}, {1, 5},                         /* customs: dairy is of animal origin */
};

static const struct plan {
    const char *name;
    void (*make)(struct input *);
    uint32_t survivors, nearest, same;
} plans[VOCABULARIES - QUESTIONS] = {
    {"12 names, free", make_free, 4096, 0, 12},
    {"11 names within the twelfth", make_within_one, 2049, 11, 12},
    {"6 names within each of 6 others", make_layers, 127, 36, 12},
    {"12 names, a chain", make_chain, 13, 11, 12},
    {"12 names, all equal", make_same, 2, 0, 144},
    {"6 names and 6 restrictions, free", make_restricted, 4096, 0, 6},
    {"12 names, no survivor", make_contradiction, 0, 0, 144},
    {"1 name", make_one, 2, 0, 1},
    {"6 names, free", make_six, 64, 0, 6},
};

static void make_planned(struct vocabulary *vocabulary, const struct plan *plan)
{
    *vocabulary = (struct vocabulary){
        .input.name = plan->name,
        .input.expected = pack_comparison(false, 0, plan->survivors, 0),
        .nearest = plan->nearest,
        .same = plan->same,
    };
    plan->make(&vocabulary->input);
    chain_statements(&vocabulary->input);
}

bool make_vocabularies(struct vocabulary *vocabularies, const char *directory)
{
    static struct question questions[ALL_QUESTIONS];

    if (!make_questions(questions, directory))
        return false;
    for (int i = 0; i < QUESTIONS; i++) {
        vocabularies[i] = (struct vocabulary){
            .input = questions[i].input,
            .nearest = entries[i].nearest,
            .same = entries[i].same,
            .slow = questions[i].slow,
        };
        /* Survivors and rounds are the comparison's; nothing is said of two terms. */
        vocabularies[i].input.expected &= ~(uint64_t)0x1ffff00;
    }
    for (int i = QUESTIONS; i < VOCABULARIES; i++)
        make_planned(&vocabularies[i], &plans[i - QUESTIONS]);
    return true;
}

/* --- random ones --- */

static unsigned some_name(const struct input *input)
{
    unsigned number;

    do
        number = some_term(input);
    while (kind_of(input, number) != NAME);
    return number;
}

/* Mostly names, and statements about two of them: chains, forks, equal ones. */
static void make_random_names(struct input *input)
{
    size_t atoms = 1 + below(7);

    put(input, HEADER, 0, 1);
    put(input, NAME, 0, 0);
    for (size_t i = 1; i < atoms; i++) {
        if (below(5))
            put(input, NAME, (unsigned)i, 0);
        else
            put(input, below(2) ? SOME : ALL, 0, some_term(input));
    }
    for (size_t left = below(4); left > 0; left--)
        put_about_terms(input, below(2) ? AND : OR);
    for (size_t left = below(2 * atoms); left > 0; left--) {
        unsigned narrower = below(4) ? some_name(input) : some_term(input);

        put(input, STATEMENT, narrower, below(4) ? some_name(input) : some_term(input));
    }
    link_at_random(input);
    choose_edition(input);
}

void make_random_vocabulary(struct question *question)
{
    if (below(2)) {
        make_random_question(question);
        return;
    }
    *question = (struct question){.input.name = "random names", .a = 1, .b = 1};
    make_random_names(&question->input);
}
