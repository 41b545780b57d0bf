#include "script_shapes.h"

#include <string.h>

const uint64_t UNKNOWN = UINT64_MAX;

/* --- what the shapes share --- */

static enum value value_of(const struct maker *maker, unsigned number)
{
    return maker->facts[number].value;
}

/* The kind of a pair both of whose terms have to be proved. */
static enum kind both_kind(enum value value)
{
    return value == FULL ? AND : OR;
}

/* The kind of a pair one of whose terms is enough. */
static enum kind one_kind(enum value value)
{
    return value == FULL ? OR : AND;
}

static unsigned put_constant(struct maker *maker, enum value value)
{
    return put_term(maker, value == FULL ? TOP : BOTTOM, 0, 0);
}

static unsigned put_name(struct maker *maker)
{
    return put_term(maker, NAME, (unsigned)count_of(&maker->proof->input), 0);
}

/* A term whose proof takes that many steps, and few frames. */
static unsigned put_steps(struct maker *maker, unsigned steps, enum value value)
{
    if (steps == 1)
        return put_constant(maker, value);
    if (steps % 2 == 0)
        return put_term(maker, NOT, put_steps(maker, steps - 1, opposite(value)), 0);
    unsigned half = put_steps(maker, steps / 2, value);

    return put_term(maker, both_kind(value), half, half);
}

/* A leaf of a tree, whose goal will stand in that frame. */
typedef unsigned leaf_function(struct maker *maker, void *parts, unsigned frame, enum value value);

struct tree {
    leaf_function *leaf;
    void *parts;
    unsigned turned; /* the frame where the second half of a tree stands below a not */
};

static unsigned put_tree(struct maker *maker, const struct tree *tree, unsigned leaves,
                         unsigned frame, enum value value)
{
    unsigned first, second, half = leaves / 2;

    if (leaves == 1)
        return tree->leaf(maker, tree->parts, frame, value);
    first = put_tree(maker, tree, half, frame + 1, value);
    if (frame == tree->turned) {
        second = put_tree(maker, tree, leaves - half, frame + 2, opposite(value));
        second = put_term(maker, NOT, second, 0);
    } else {
        second = put_tree(maker, tree, leaves - half, frame + 1, value);
    }
    return put_term(maker, both_kind(value), first, second);
}

/* The full term, and as much beside it as makes the script full but for the reserved steps. */
static unsigned fill_script(struct maker *maker, unsigned full, unsigned reserved)
{
    begin_script(maker, full, full);
    prove_query(maker, 1);
    unsigned used = (unsigned)script_count(maker->proof) + 1 + reserved;

    return put_term(maker, AND, full, put_steps(maker, MAX_SCRIPT_RECORDS - used, FULL));
}

/* Fills the vocabulary up with terms that no step speaks of, of all kinds but names: those
 * would make the check of labels longer. */
static void fill_vocabulary(struct maker *maker)
{
    struct input *input = &maker->proof->input;

    while (input->len < MAX_BYTES) {
        static const enum kind kinds[] = {NOT, AND, OR, SOME, ALL};
        enum kind kind = kinds[below(5)];

        if (kind == SOME || kind == ALL)
            put(input, kind, (unsigned)below(MAX_ROLES), some_term(input));
        else
            put_about_terms(input, kind);
    }
    chain_statements(input);
}

static void prove_full(struct maker *maker, unsigned root)
{
    fill_vocabulary(maker);
    begin_script(maker, 1, root);
    prove_query(maker, 1);
}

/* --- deep: saw teeth from few frames to all --- */

enum { VARIANTS = 3, LONGEST = 60 };

/* For each step more a term with the same beginning; by turns by a statement, not, one of two. */
struct teeth {
    unsigned next, chains[2 * VARIANTS][LONGEST + 1];
};

static unsigned put_longer(struct maker *maker, unsigned term, unsigned name, unsigned turn)
{
    enum kind kind = one_kind(value_of(maker, term));

    switch (turn % 4) {
    case 0: return put_term(maker, NOT, term, 0);
    case 1: return put_term(maker, kind, term, name);
    case 2: return put_term(maker, kind, name, term);
    default: return put_named(maker, term);
    }
}

/* Two chains of a variant begin with top and with bottom, so that one has either value. */
static void put_teeth(struct maker *maker, struct teeth *teeth)
{
    unsigned name = put_name(maker);

    for (unsigned i = 0; i < 2 * VARIANTS; i++) {
        unsigned *chain = teeth->chains[i];

        chain[1] = put_constant(maker, i % 2 ? FULL : EMPTY);
        for (unsigned steps = 2; steps < LONGEST; steps++)
            chain[steps] = put_longer(maker, chain[steps - 1], name, steps + i / 2);
    }
}

static unsigned tooth(struct maker *maker, void *parts, unsigned frame, enum value value)
{
    struct teeth *teeth = parts;
    unsigned steps = MAX_FRAMES - frame, pair = 2 * (teeth->next++ % VARIANTS);
    unsigned number = teeth->chains[pair][steps];

    return value_of(maker, number) == value ? number : teeth->chains[pair + 1][steps];
}

static void make_deep(struct maker *maker)
{
    static struct teeth teeth;
    struct tree tree = {tooth, &teeth, 1};

    teeth.next = 0;
    put_teeth(maker, &teeth);
    prove_full(maker, fill_script(maker, put_tree(maker, &tree, 34, 1, FULL), 0));
}

/* --- flat: a long conjunction or disjunction, then columns of one literal all the way --- */

struct combs {
    unsigned next, combs[4][LONGEST + 1];
};

/* The last pair of a comb is proved last, so all of them are open before the first is closed. */
static void put_comb(struct maker *maker, unsigned *comb, enum value value)
{
    comb[0] = put_constant(maker, value);
    for (unsigned i = 1; i <= LONGEST; i++)
        comb[i] = put_term(maker, both_kind(value), comb[i - 1], put_constant(maker, value));
}

static unsigned comb(struct maker *maker, void *parts, unsigned frame, enum value value)
{
    struct combs *combs = parts;
    unsigned *one = combs->combs[2 * (combs->next++ % 2) + (value == EMPTY)];

    (void)maker;
    return one[MAX_FRAMES - 1 - frame];
}

static void make_flat(struct maker *maker)
{
    static struct combs combs;
    struct tree tree = {comb, &combs, 1};

    combs.next = 0;
    for (unsigned i = 0; i < 4; i++)
        put_comb(maker, combs.combs[i], i % 2 ? EMPTY : FULL);
    prove_full(maker, fill_script(maker, put_tree(maker, &tree, 17, 1, FULL), 0));
}

/* --- reductions --- */

enum { PATH = 24 }; /* names whose goals stand in the lowest frames */

struct path {
    unsigned next, names[PATH];
};

/* A pair of which each is closed by a reduction; every eighth has a term and its negation. */
static unsigned put_reduced(struct maker *maker, struct path *path)
{
    unsigned first = path->names[path->next++ % PATH];
    unsigned second = path->names[5 * path->next % PATH];

    if (path->next % 8 == 0) {
        unsigned name = put_name(maker);

        second = put_term(maker, OR, name, put_term(maker, NOT, name, 0));
    }
    return put_term(maker, AND, first, second);
}

static unsigned reduced(struct maker *maker, void *parts, unsigned frame, enum value value)
{
    unsigned number = put_reduced(maker, parts);

    (void)frame;
    return value == FULL ? number : put_term(maker, NOT, number, 0);
}

/* Each name lies within the next, and the last within `empty`: the path's goals. */
static void put_path(struct maker *maker, struct path *path, unsigned empty)
{
    for (unsigned i = 0; i < PATH; i++) {
        unsigned next = i + 1 < PATH ? path->names[i + 1] : empty;

        maker->facts[path->names[i]].statement = put_statement(maker, path->names[i], next);
    }
}

/* The goals of the path deny the names, so that wherever a name is to be proved, a frame below
 * has the complement. */
static void make_reductions(struct maker *maker)
{
    static struct path path;
    struct tree tree = {reduced, &path, PATH + 2};
    unsigned full;

    path.next = 0;
    for (unsigned i = 0; i < PATH; i++) {
        path.names[i] = put_name(maker);
        maker->facts[path.names[i]] =
            (struct fact){.value = FULL, .given = i == 0 ? BY_QUERY : BY_FRAME, .frame = i};
    }
    full = put_tree(maker, &tree, 78, PATH + 2, FULL);
    full = put_term(maker, AND, full, full);
    full = put_term(maker, AND, full, full);
    full = fill_script(maker, full, PATH + 1);
    put_path(maker, &path, put_term(maker, NOT, full, 0));
    fill_vocabulary(maker);
    begin_script(maker, path.names[0], full);
    prove_query(maker, 0);
}

/* --- terms and roles --- */

enum { PLAIN, SERIAL, BARE, ROLES = 40 }; /* of no record, leading somewhere, nowhere; then plain */

/* A leaf has its own functions, so that its terms are its own. */
static unsigned put_modal(struct maker *maker, unsigned term, unsigned turn)
{
    bool full = value_of(maker, term) == FULL;

    switch (turn % 8) {
    case 0: return put_term(maker, NOT, term, 0);
    case 3: return put_term(maker, full ? SOME : ALL, SERIAL, term);
    default: return put_term(maker, full ? ALL : SOME, BARE + 1 + turn % (ROLES - BARE - 1), term);
    }
}

struct leaves {
    unsigned name;
    bool clashes;              /* among the terms, so that reductions compare terms too */
    unsigned clash[EMPTY + 1]; /* of each value */
};

static unsigned put_leaf_term(struct maker *maker, const struct leaves *leaves, unsigned term,
                              unsigned turn)
{
    enum value value = value_of(maker, term);

    if (leaves->clashes && turn % 8 == 5)
        return put_term(maker, both_kind(value), leaves->clash[value], term);
    return put_modal(maker, term, turn);
}

static unsigned modal_leaf(struct maker *maker, void *parts, unsigned frame, enum value value)
{
    const struct leaves *leaves = parts;
    unsigned term = put_term(maker, frame % 2 ? SOME : ALL, BARE, leaves->name);

    /* below the last: two frames for the pair of the bare role, three for its record */
    for (unsigned turn = frame; turn + 5 < MAX_FRAMES; turn++)
        term = put_leaf_term(maker, leaves, term, turn);
    return value_of(maker, term) == value ? term : put_term(maker, NOT, term, 0);
}

static void put_clashes(struct maker *maker, struct leaves *leaves)
{
    unsigned negation = put_term(maker, NOT, leaves->name, 0);

    leaves->clashes = true;
    leaves->clash[FULL] = put_term(maker, OR, leaves->name, negation);
    leaves->clash[EMPTY] = put_term(maker, AND, leaves->name, negation);
}

static void prove_modal_tree(struct maker *maker, unsigned count, bool clashes)
{
    struct leaves leaves = {.name = put_name(maker)};
    struct tree tree = {modal_leaf, &leaves, 0};
    unsigned top = put_constant(maker, FULL), bottom = put_constant(maker, EMPTY);
    unsigned tree_term, one, other;

    put_role_record(maker, SERIAL, top, top);
    put_role_record(maker, BARE, bottom, top);
    if (clashes)
        put_clashes(maker, &leaves);
    tree_term = put_tree(maker, &tree, count, 4, FULL);
    /* Below another function all the terms are others. */
    one = put_term(maker, ALL, PLAIN, tree_term);
    other = put_term(maker, ALL, BARE + 1, tree_term);
    prove_full(maker, fill_script(maker, put_term(maker, AND, one, other), 0));
}

static void make_modal(struct maker *maker)
{
    prove_modal_tree(maker, 8, false);
}

/* Every second time that a step names a function term, it has a new record, so that most
 * comparisons are of different records. */
static void make_renewed(struct maker *maker)
{
    maker->renewed = 2;
    prove_modal_tree(maker, 5, true);
}

/* --- terms: the index of terms, with the shortest chain; with no step there is none --- */

static unsigned put_functions(struct maker *maker)
{
    unsigned top = put_constant(maker, FULL), bottom = put_constant(maker, EMPTY);
    unsigned name = put_name(maker);

    put_statement(maker, name, put_term(maker, NOT, bottom, 0));
    put_term(maker, AND, name, put_term(maker, OR, top, name));
    while (maker->proof->input.len < MAX_BYTES)
        put_term(maker, below(2) ? SOME : ALL, (unsigned)below(MAX_ROLES), name);
    chain_statements(&maker->proof->input);
    begin_script(maker, bottom, top);
    return 8; /* the first function */
}

/* Each term of the one before, by one function: each tree has one record. */
static void make_nested(struct maker *maker)
{
    unsigned function = put_functions(maker), term = 1;

    while (script_count(maker->proof) < MAX_SCRIPT_RECORDS - 2)
        term = term_record(maker, function, term);
    prove_query(maker, 1);
}

/* All functions of few terms: few trees, with a record for each function. */
static void put_wide(struct maker *maker, size_t count)
{
    unsigned first = put_functions(maker), function = first, inner = 1;

    while (script_count(maker->proof) < count) {
        term_record(maker, function, inner);
        if (++function == MAX_RECORDS) {
            function = first;
            inner++;
        }
    }
}

static void make_wide(struct maker *maker)
{
    put_wide(maker, MAX_SCRIPT_RECORDS - 2);
    prove_query(maker, 1);
}

/* Refused before there is an index: the form alone. */
static void make_no_step(struct maker *maker)
{
    put_wide(maker, MAX_SCRIPT_RECORDS);
}

/* The worst known of the search for the first record of a term: each search meets as many records
 * as it can, that is all before it, or 10. The first 9 functions have the lowest 0 to 8 bits of
 * another and not the bit after these, so that each stands on the way to all that come later. The
 * tenth is repeated: a new term would meet 9 at most. */
static void make_long_search(struct maker *maker)
{
    const unsigned function = 0x155;

    put_functions(maker);
    for (unsigned bit = 1; bit < MAX_RECORDS; bit *= 2)
        append_term(maker, function ^ bit, 1);
    while (script_count(maker->proof) < MAX_SCRIPT_RECORDS - 2)
        append_term(maker, function, 1);
    prove_query(maker, 1);
}

/* --- small: tables that every call zeroes show here --- */

/* Case 7 of paper 01. */
static void make_sample(struct maker *maker)
{
    unsigned one = put_name(maker), two = put_name(maker), three = put_name(maker);
    unsigned both = put_term(maker, AND, one, two);

    maker->facts[both] = (struct fact){.value = FULL, .given = BY_QUERY};
    maker->facts[three] =
        (struct fact){.value = FULL, .statement = put_statement(maker, both, three)};
    chain_statements(&maker->proof->input);
    begin_script(maker, both, three);
    prove_query(maker, 1);
}

/* Case 9. */
static void make_sample_function(struct maker *maker)
{
    unsigned bottom = put_constant(maker, EMPTY);

    begin_script(maker, put_term(maker, SOME, 0, bottom), bottom);
    prove_query(maker, 0);
}

/* --- middle: the most records for which the library has small tables, and one more --- */

enum { FEW = 64 };

/* Conjunctions of terms below roles; some terms are repeated. */
static void make_few(struct maker *maker)
{
    unsigned term = put_constant(maker, FULL);

    maker->renewed = 2;
    for (int level = 0; level < 3; level++) {
        unsigned one = put_term(maker, ALL, 0, term), other = put_term(maker, ALL, 1, term);

        term = put_term(maker, AND, one, other);
    }
    term = fill_script(maker, term, MAX_SCRIPT_RECORDS - FEW);
    begin_script(maker, 1, term);
    prove_query(maker, 1);
}

/* The same, and a term that no step speaks of. */
static void make_one_more(struct maker *maker)
{
    const unsigned function = 2;

    make_few(maker);
    append_term(maker, function, 1);
}

/* --- all of them --- */

static const struct plan {
    const char *name;
    void (*make)(struct maker *);
    double reach;
    unsigned steps;
} plans[SHAPES] = {
    {"deep", make_deep, 1, 2046},
    {"flat", make_flat, 1, 2046},
    {"reductions", make_reductions, 1, 2046},
    {"terms and roles", make_modal, 1, 1308},
    {"terms and roles, repeats", make_renewed, 1, 1128},
    {"2,044 terms, nested", make_nested, 1, 2},
    {"2,044 terms, 504 functions", make_wide, 1, 2},
    {"2,044 terms, longest search", make_long_search, 1, 2},
    {"2,046 terms, no step (20)", make_no_step, 1, 0},
    {"small: 5 records", make_sample, 0.0015, 3},
    {"small: 6 records, a function", make_sample_function, 0.0015, 3},
    {"middle: 64 records", make_few, 0.018, 35},
    {"middle: 65 records", make_one_more, 0.02, 35},
};

static void begin_maker(struct maker *maker, struct proof *proof, const char *name)
{
    *maker = (struct maker){.proof = proof};
    proof->input = (struct input){.name = name};
    put(&proof->input, HEADER, 0, MAX_ROLES);
}

void make_shapes(struct proof *shapes)
{
    static struct maker maker;

    for (int i = 0; i < SHAPES; i++) {
        begin_maker(&maker, &shapes[i], plans[i].name);
        plans[i].make(&maker);
        shapes[i].reach = plans[i].reach;
        shapes[i].input.expected = plans[i].steps == 0 ? pack_answer(NO_START, 0)
                                                       : pack_answer(ACCEPTED, plans[i].steps);
    }
}

/* --- random ones --- */

static void put_random_record(struct maker *maker)
{
    static const enum kind kinds[] = {TOP, BOTTOM, NAME, NOT, AND, AND, OR, OR, SOME, SOME, ALL,
                                      ALL};
    const struct input *input = &maker->proof->input;
    unsigned a = some_term(input), b = some_term(input);

    if (below(8) == 0) /* so that a pair has a term and its negation */
        b = put_term(maker, NOT, a, 0);
    switch (kinds[below(sizeof kinds / sizeof *kinds)]) {
    case TOP: put_constant(maker, FULL); break;
    case BOTTOM: put_constant(maker, EMPTY); break;
    case NAME:
        if (value_of(maker, a) == OPEN || below(4) == 0)
            put_name(maker);
        else
            put_named(maker, a);
        break;
    case NOT: put_term(maker, NOT, a, 0); break;
    case AND: put_term(maker, AND, a, b); break;
    case OR: put_term(maker, OR, a, b); break;
    case SOME: put_term(maker, SOME, (unsigned)below(4), b); break;
    default: put_term(maker, ALL, (unsigned)below(4), b);
    }
}

/* Below some roles and in pairs, so that many steps speak of the same nested terms. */
static unsigned put_below_roles(struct maker *maker, unsigned term)
{
    for (size_t left = below(8); left > 0 && !maker->facts[term].local; left--) {
        if (below(3) == 0)
            term = put_term(maker, both_kind(value_of(maker, term)), term, term);
        else
            term = put_modal(maker, term, (unsigned)below(ROLES));
    }
    return term;
}

/* A term with that value, if need be by a not. */
static unsigned some_proved(struct maker *maker, enum value value)
{
    unsigned number;

    do
        number = some_term(&maker->proof->input);
    while (value_of(maker, number) == OPEN);
    number = put_below_roles(maker, number);
    return value_of(maker, number) == value ? number : put_term(maker, NOT, number, 0);
}

/* Around it as many records as lead to about the most frames. */
static unsigned put_high(struct maker *maker, unsigned term)
{
    unsigned count = 58 + 2 * (unsigned)below(4);

    for (unsigned i = 0; i < count; i++)
        term = put_term(maker, NOT, term, 0);
    return term;
}

static void put_random_vocabulary(struct maker *maker, enum value given)
{
    unsigned name = put_name(maker), top = put_constant(maker, FULL);

    maker->facts[name] = (struct fact){.value = given, .local = true, .given = BY_QUERY};
    put_role_record(maker, SERIAL, top, top);
    put_role_record(maker, BARE, put_constant(maker, EMPTY), top);
    for (size_t left = below(30); left > 0; left--)
        put_random_record(maker);
}

static unsigned put_random_root(struct maker *maker, enum value value)
{
    unsigned root = some_proved(maker, value);

    return below(8) == 0 ? put_high(maker, root) : root;
}

/* As many functions as there can be; the root is one of those that are applied to the constant. */
static unsigned put_crowd(struct maker *maker, enum value value)
{
    unsigned term = put_constant(maker, value), first;
    enum kind kind = value == FULL ? ALL : SOME;

    for (size_t left = 1 + below(4); left > 0; left--)
        term = put_term(maker, kind, PLAIN, term);
    first = (unsigned)count_of(&maker->proof->input);
    while (maker->proof->input.len < MAX_BYTES)
        put_term(maker, kind, (unsigned)below(4), term);
    return first + (unsigned)below(MAX_RECORDS - first);
}

/* A function with the same lowest bits, so that the search for one may pass the other. */
static unsigned near(unsigned function, unsigned bits)
{
    return (function ^ (unsigned)below(MAX_RECORDS) << bits) % MAX_RECORDS;
}

/* Terms that nothing speaks of, in such an order that the search for the root's is long. */
static void crowd_script(struct maker *maker, unsigned root)
{
    for (unsigned bits = 0; bits < 9; bits++) {
        for (size_t left = below(6); left > 0; left--) {
            unsigned function = near(root, bits);

            if (has_function(&maker->proof->input, function))
                append_term(maker, function, 1);
        }
    }
}

void make_random_proof(struct proof *proof)
{
    static struct maker maker;
    unsigned column = (unsigned)below(2);
    enum value value = column == 0 ? EMPTY : FULL;
    bool crowded = below(8) == 0;

    do {
        begin_maker(&maker, proof, "a random script");
        maker.idle = below(2);
        maker.renewed = (unsigned)below(4);
        put_random_vocabulary(&maker, value);
        unsigned root = crowded ? put_crowd(&maker, value) : put_random_root(&maker, value);

        chain_statements(&proof->input);
        choose_edition(&proof->input);
        if (column == 0)
            begin_script(&maker, root, 1);
        else
            begin_script(&maker, 1, root);
        if (crowded)
            crowd_script(&maker, root);
        prove_query(&maker, column);
    } while (maker.overflowed);
    proof->input.expected =
        proof->frames <= MAX_FRAMES ? pack_answer(ACCEPTED, proof->steps) : UNKNOWN;
}

/* --- damages --- */

static uint8_t *some_script_record(struct proof *proof)
{
    return script_record(proof, below(script_count(proof)));
}

/* Near to what stood there, or to the limits. */
static void damage_word(struct proof *proof)
{
    uint8_t *bytes = some_script_record(proof) + 2 * below(WORDS);
    unsigned old = read_u16(bytes);

    switch (below(6)) {
    case 0: write_u16(bytes, old + 1); break;
    case 1: write_u16(bytes, old - 1); break;
    case 2: write_u16(bytes, 0); break;
    case 3: write_u16(bytes, (unsigned)below(script_count(proof) + 2)); break;
    case 4: write_u16(bytes, (unsigned)random_u64()); break;
    default: write_u16(bytes, (unsigned)below(6));
    }
}

/* In place of the next step one that closes "record 1 has the constant", where the goal is "the
 * constant and itself are a pair of role 1". */
static void confuse_role(struct proof *proof, uint8_t *bytes)
{
    uint8_t *next = script_record(proof, read_u16(bytes + 14) % script_count(proof));

    write_u16(bytes + 8, 1);
    memset(next, 0, SCRIPT_RECORD_BYTES - 2); /* all but next */
    write_u16(next, EXTENSION);
    write_u16(next + 6, 1);
}

/* Another record by the same function; if there is none, the constant. */
static unsigned sibling(struct proof *proof, unsigned term)
{
    for (unsigned i = 2; i < script_count(proof) && term < script_count(proof); i++) {
        const uint8_t *bytes = script_record(proof, i);

        if (i != term && read_u16(bytes) == FUNCTION
            && read_u16(bytes + 2) == read_u16(script_record(proof, term) + 2))
            return i;
    }
    return 1;
}

static void damage_extension(struct proof *proof, uint8_t *bytes)
{
    bool has_y = read_u16(bytes + 8) != 0;

    switch (below(has_y ? 5 : 3)) {
    case 0:
        memset(bytes, 0, SCRIPT_RECORD_BYTES - 2);
        write_u16(bytes, REDUCTION);
        write_u16(bytes + 2, (unsigned)below(proof->frames + 1));
        break;
    case 1: write_u16(bytes + 10, read_u16(bytes + 10) ^ 1); break;
    case 2: write_u16(bytes + 6, sibling(proof, read_u16(bytes + 6))); break;
    case 3: write_u16(bytes + 8, (unsigned)below(script_count(proof))); break;
    default: confuse_role(proof, bytes);
    }
}

/* A step that has the form, so that the chain decides. */
static void damage_step(struct proof *proof)
{
    uint8_t *bytes = some_script_record(proof);

    if (script_count(proof) > MAX_FRAMES + 8 && below(4) == 0) /* about where all are open */
        bytes = script_record(proof, MAX_FRAMES + below(8));
    switch (read_u16(bytes)) {
    case START: write_u16(bytes + 2, read_u16(bytes + 2) ^ 1); break;
    case EXTENSION: damage_extension(proof, bytes); break;
    case REDUCTION: write_u16(bytes + 2, (unsigned)below(proof->frames + 1)); break;
    case SCRIPT_HEADER: write_u16(bytes + 2 + 2 * below(2), some_term(&proof->input)); break;
    }
}

/* One more step at the end of the chain. */
static void append_step(struct proof *proof)
{
    size_t last = script_count(proof) - 1;
    uint8_t *bytes = script_record(proof, last), *next = bytes + SCRIPT_RECORD_BYTES;

    if (proof->len == MAX_SCRIPT_BYTES || read_u16(bytes) < START)
        return;
    memcpy(next, below(2) ? bytes : script_record(proof, 2), SCRIPT_RECORD_BYTES);
    write_u16(bytes + 14, (unsigned)last + 1);
    write_u16(next + 14, 0);
    proof->len += SCRIPT_RECORD_BYTES;
}

/* The number of a function term's record, or 0. */
static unsigned some_function(struct proof *proof)
{
    unsigned count = (unsigned)script_count(proof), first = (unsigned)below(count);

    for (unsigned i = first; i < first + count; i++) {
        if (read_u16(script_record(proof, i % count)) == FUNCTION)
            return i % count;
    }
    return 0;
}

/* Another function or inner term, for a term whose other records and steps may speak of the old. */
static void damage_term(struct proof *proof)
{
    unsigned number = some_function(proof), other = some_function(proof);
    uint8_t *bytes = script_record(proof, number);

    if (number == 0)
        return;
    if (below(2))
        write_u16(bytes + 2, near(read_u16(bytes + 2), (unsigned)below(9)));
    else
        write_u16(bytes + 4, other < number ? other : 1);
}

static void repeat_script_record(struct proof *proof)
{
    uint8_t *from = some_script_record(proof), *to = some_script_record(proof);

    memmove(to, from, SCRIPT_RECORD_BYTES);
}

/* Takes the first statement off the chain. */
static void skip_statement(struct input *input)
{
    unsigned first = read_record(input->bytes, 0).a;

    if (first < count_of(input))
        write_u16(input->bytes + 2, read_record(input->bytes, first).next);
}

static void damage_length(struct proof *proof)
{
    switch (below(6)) {
    case 0: proof->input.len = below(ROOM + 1); break;
    case 1: proof->input.len = RECORD_BYTES * below(count_of(&proof->input) + 2); break;
    case 2: proof->len = below(SCRIPT_ROOM + 1); break;
    case 3: proof->len = SCRIPT_RECORD_BYTES * (MAX_SCRIPT_RECORDS + below(3)); break;
    default: proof->len = SCRIPT_RECORD_BYTES * below(script_count(proof) + 1);
    }
}

static void damage_once(struct proof *proof)
{
    switch (below(13)) {
    case 0: damage_field(&proof->input); break;
    case 1: skip_statement(&proof->input); break;
    case 2: append_step(proof); break;
    case 3: repeat_script_record(proof); break;
    case 4: repeat_record(&proof->input); break;
    case 5: damage_term(proof); break;
    case 6: case 7: case 8: damage_step(proof); break;
    case 9: damage_edition(&proof->input); break;
    default: damage_word(proof);
    }
}

void damage_proof(struct proof *proof)
{
    /* Often several at once: the order of the refusals shows. */
    do
        damage_once(proof);
    while (below(3) == 0);
    if (below(12) == 0) /* last, since nothing else can be done to a script without records */
        damage_length(proof);
}
