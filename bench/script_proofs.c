#include "script_proofs.h"

#include <string.h>

/* --- facts --- */

enum value opposite(enum value value)
{
    switch (value) {
    case FULL: return EMPTY;
    case EMPTY: return FULL;
    default: return OPEN;
    }
}

static struct record record_at(const struct maker *maker, unsigned number)
{
    return read_record(maker->proof->input.bytes, number);
}

/* The value that one operand alone decides. */
static enum value strong_value(enum kind kind)
{
    return kind == AND ? EMPTY : FULL;
}

/* The value that a modal term has by its own function, whatever the role's pairs. */
static enum value easy_value(enum kind kind)
{
    return kind == ALL ? FULL : EMPTY;
}

static struct fact pair_fact(const struct maker *maker, enum kind kind, unsigned a, unsigned b)
{
    struct fact left = maker->facts[a], right = maker->facts[b];
    enum value strong = strong_value(kind);
    struct record second = record_at(maker, b);

    if (left.value == strong)
        return (struct fact){.value = strong, .local = left.local};
    if (right.value == strong)
        return (struct fact){.value = strong, .local = right.local};
    if (left.value != OPEN && right.value != OPEN)
        return (struct fact){.value = opposite(strong), .local = left.local || right.local};
    /* a term and its negation */
    return (struct fact){.value = second.kind == NOT && second.a == a ? strong : OPEN};
}

/* Can the term be used below the role? */
static enum value value_anywhere(const struct maker *maker, unsigned number)
{
    return maker->facts[number].local ? OPEN : maker->facts[number].value;
}

static struct fact modal_fact(const struct maker *maker, enum kind kind, unsigned role, unsigned b)
{
    enum value easy = easy_value(kind), value = value_anywhere(maker, b);
    unsigned leads = maker->role_record[role];
    enum kind leads_kind = leads == 0 ? HEADER : record_at(maker, leads).kind;

    if (value == easy || leads_kind == ALL)
        return (struct fact){.value = easy};
    return (struct fact){.value = leads_kind == SOME ? value : OPEN};
}

static struct fact fact_of(const struct maker *maker, enum kind kind, unsigned a, unsigned b)
{
    switch (kind) {
    case TOP: return (struct fact){.value = FULL};
    case BOTTOM: return (struct fact){.value = EMPTY};
    case NOT: return (struct fact){.value = opposite(maker->facts[a].value),
                                   .local = maker->facts[a].local};
    case AND: case OR: return pair_fact(maker, kind, a, b);
    case SOME: case ALL: return modal_fact(maker, kind, a, b);
    default: return (struct fact){.value = OPEN};
    }
}

unsigned put_term(struct maker *maker, enum kind kind, unsigned a, unsigned b)
{
    struct fact fact = fact_of(maker, kind, a, b);
    unsigned number = put(&maker->proof->input, kind, a, b);

    maker->facts[number] = fact;
    return number;
}

unsigned put_statement(struct maker *maker, unsigned a, unsigned b)
{
    return put(&maker->proof->input, STATEMENT, a, b);
}

unsigned put_named(struct maker *maker, unsigned term)
{
    struct fact fact = maker->facts[term];
    unsigned name = put_term(maker, NAME, (unsigned)count_of(&maker->proof->input), 0);

    fact.given = NOT_GIVEN;
    fact.statement = fact.value == FULL ? put_statement(maker, term, name)
                                        : put_statement(maker, name, term);
    maker->facts[name] = fact;
    return name;
}

void put_role_record(struct maker *maker, unsigned role, unsigned term, unsigned top)
{
    bool leads = maker->facts[term].value == FULL;
    unsigned number = put_term(maker, leads ? SOME : ALL, role, term);

    maker->facts[number] =
        (struct fact){.value = FULL, .statement = put_statement(maker, top, number)};
    maker->role_record[role] = number;
}

/* --- records of the script --- */

bool has_function(const struct input *input, unsigned number)
{
    return number < count_of(input)
        && (kind_of(input, number) == SOME || kind_of(input, number) == ALL);
}

uint8_t *script_record(struct proof *proof, size_t number)
{
    return proof->bytes + SCRIPT_RECORD_BYTES * number;
}

size_t script_count(const struct proof *proof)
{
    return proof->len / SCRIPT_RECORD_BYTES;
}

/* Appends a record with the words w0 to w5; answers its number, 0 if it does not fit. */
static unsigned append(struct maker *maker, const unsigned *words)
{
    struct proof *proof = maker->proof;
    unsigned number = (unsigned)script_count(proof);

    if (proof->len == MAX_SCRIPT_BYTES) {
        maker->overflowed = true;
        return 0;
    }
    memset(script_record(proof, number), 0, SCRIPT_RECORD_BYTES);
    for (size_t i = 0; i < 6; i++)
        write_u16(script_record(proof, number) + 2 * i, words[i]);
    proof->len += SCRIPT_RECORD_BYTES;
    return number;
}

/* The first record of the function term, or 0. */
static unsigned find_term(const struct maker *maker, unsigned function, unsigned inner)
{
    for (unsigned i = 2; i < script_count(maker->proof); i++) {
        const uint8_t *record = script_record(maker->proof, i);

        if (read_u16(record) == FUNCTION && read_u16(record + 2) == function
            && maker->origin[read_u16(record + 4)] == maker->origin[inner])
            return i;
    }
    return 0;
}

unsigned append_term(struct maker *maker, unsigned function, unsigned inner)
{
    unsigned first = find_term(maker, function, inner);
    unsigned number = append(maker, (unsigned[]){FUNCTION, function, inner, 0, 0, 0});

    maker->origin[number] = first == 0 ? number : first;
    maker->latest[maker->origin[number]] = number;
    maker->proof->repeats += first != 0;
    return number;
}

unsigned term_record(struct maker *maker, unsigned function, unsigned inner)
{
    unsigned first = find_term(maker, function, inner);

    return first == 0 ? append_term(maker, function, inner) : first;
}

/* A record of the same term, now and then a new one: by the last record of its inner term, so that
 * it differs from the others where that is new too. The constant has only one. */
static unsigned rename_term(struct maker *maker, unsigned term)
{
    const uint8_t *record = script_record(maker->proof, term);

    if (term <= 1 || maker->renewed == 0 || ++maker->named % maker->renewed != 0)
        return term;
    unsigned inner = maker->origin[read_u16(record + 4)];

    return append_term(maker, read_u16(record + 2), maker->latest[inner]);
}

/* Steps off the chain, and terms, new or not, that nothing speaks of. */
static void put_idle(struct maker *maker)
{
    const struct input *input = &maker->proof->input;
    unsigned number = some_term(input), inner = (unsigned)below(script_count(maker->proof));

    switch (below(4)) {
    case 0:
        append(maker, (unsigned[]){START, (unsigned)below(2), 0, 0, 0, 0});
        break;
    case 1:
        append(maker, (unsigned[]){REDUCTION, (unsigned)below(70), 0, 0, 0, 0});
        break;
    default:
        if (read_u16(script_record(maker->proof, inner)) > FUNCTION)
            inner = 1;
        if (has_function(input, number))
            append_term(maker, number, inner);
    }
}

static void put_step(struct maker *maker, const unsigned *words)
{
    struct proof *proof = maker->proof;

    if (maker->idle && below(8) == 0)
        put_idle(maker);
    unsigned number = append(maker, words);

    /* The header's w3 leads to the first step, as w7 does to the others. */
    write_u16(script_record(proof, maker->last) + (maker->last == 0 ? 6 : 14), number);
    maker->last = number;
    proof->steps++;
}

static void extend(struct maker *maker, unsigned owner, unsigned column, unsigned x, unsigned y,
                   unsigned position)
{
    x = rename_term(maker, x);
    y = rename_term(maker, y);
    put_step(maker, (unsigned[]){EXTENSION, owner, column, x, y, position});
}

static void reduce(struct maker *maker, unsigned frame)
{
    put_step(maker, (unsigned[]){REDUCTION, frame, 0, 0, 0, 0});
}

/* --- proofs --- */

static void prove(struct maker *maker, unsigned number, enum value want, unsigned x,
                  unsigned frame);

static void note_frame(struct maker *maker, unsigned frame)
{
    if (maker->proof->frames < frame + 1)
        maker->proof->frames = frame + 1;
}

static void prove_given(struct maker *maker, const struct fact *fact)
{
    if (fact->given == BY_QUERY)
        extend(maker, 0, fact->value == FULL ? 0 : 1, 1, 0, 0);
    else
        reduce(maker, fact->frame);
}

static void prove_by_statement(struct maker *maker, unsigned statement, enum value want, unsigned x,
                               unsigned frame)
{
    struct record record = record_at(maker, statement);

    extend(maker, statement, 0, x, 0, want == FULL);
    prove(maker, want == FULL ? record.a : record.b, want, x, frame + 1);
}

/* One of two is a term, the other its negation: from one to the other and back to the pair. */
static void prove_clash(struct maker *maker, unsigned number, enum value want, unsigned x,
                        unsigned frame)
{
    unsigned negation = record_at(maker, number).b;

    extend(maker, number, 0, x, 0, 0);
    extend(maker, negation, want == FULL, x, 0, 1);
    extend(maker, number, 1, x, 0, 1);
    note_frame(maker, frame + 3);
    reduce(maker, frame);
}

static void prove_pair(struct maker *maker, unsigned number, enum value want, unsigned x,
                       unsigned frame)
{
    struct record record = record_at(maker, number);

    if (want != strong_value(record.kind)) {
        extend(maker, number, 2, x, 0, 0);
        prove(maker, record.a, want, x, frame + 1);
        prove(maker, record.b, want, x, frame + 1);
    } else if (maker->facts[record.a].value == want) {
        extend(maker, number, 0, x, 0, 0);
        prove(maker, record.a, want, x, frame + 1);
    } else if (maker->facts[record.b].value == want) {
        extend(maker, number, 1, x, 0, 0);
        prove(maker, record.b, want, x, frame + 1);
    } else {
        prove_clash(maker, number, want, x, frame);
    }
}

static void prove_modal(struct maker *maker, unsigned number, enum value want, unsigned x,
                        unsigned frame)
{
    struct record record = record_at(maker, number);
    unsigned leads = maker->role_record[record.a], y;

    if (want != easy_value(record.kind)) { /* by the pair that the role has everywhere */
        y = term_record(maker, leads, x);
        extend(maker, number, 2, x, y, 0);
        extend(maker, leads, 0, x, 0, 1);
        prove(maker, leads, FULL, x, frame + 2);
        prove(maker, record.b, want, y, frame + 1);
        return;
    }
    bool easy = value_anywhere(maker, record.b) == want;

    extend(maker, number, easy, x, 0, 0);
    /* Only here, as late as can be: the column spoke of it before it had a record. */
    y = term_record(maker, number, x);
    if (easy) {
        prove(maker, record.b, want, y, frame + 1);
    } else { /* by the pairs that the role has nowhere */
        note_frame(maker, frame + 1);
        extend(maker, leads, 2, x, y, 1);
        prove(maker, leads, FULL, x, frame + 2);
        prove(maker, record_at(maker, leads).b, EMPTY, y, frame + 2);
    }
}

/* Appends the steps that close the goal "x is in the term" (full) or "is not" (empty). `frame`:
 * the last one, which has the goal. */
static void prove(struct maker *maker, unsigned number, enum value want, unsigned x, unsigned frame)
{
    struct record record = record_at(maker, number);
    const struct fact *fact = &maker->facts[number];

    note_frame(maker, frame);
    if (maker->overflowed)
        return;
    if (fact->given != NOT_GIVEN && fact->value == want) {
        prove_given(maker, fact);
    } else if (fact->statement != 0) {
        prove_by_statement(maker, fact->statement, want, x, frame);
    } else if (record.kind == NOT) {
        extend(maker, number, want == FULL, x, 0, 0);
        prove(maker, record.a, opposite(want), x, frame + 1);
    } else if (record.kind == AND || record.kind == OR) {
        prove_pair(maker, number, want, x, frame);
    } else if (record.kind == SOME || record.kind == ALL) {
        prove_modal(maker, number, want, x, frame);
    } else { /* top or bottom */
        extend(maker, number, 0, x, 0, 0);
    }
}

void begin_script(struct maker *maker, unsigned a, unsigned b)
{
    maker->proof->len = 0;
    maker->proof->steps = maker->proof->frames = maker->proof->repeats = 0;
    maker->last = 0;
    maker->overflowed = false;
    maker->named = 0;
    append(maker, (unsigned[]){SCRIPT_HEADER, a, b, 0, 0, 0});
    append(maker, (unsigned[]){CONSTANT, 0, 0, 0, 0, 0});
    maker->origin[1] = maker->latest[1] = 1;
}

void prove_query(struct maker *maker, unsigned column)
{
    unsigned term = read_u16(maker->proof->bytes + (column == 0 ? 2 : 4));

    put_step(maker, (unsigned[]){START, column, 0, 0, 0, 0});
    prove(maker, term, column == 0 ? EMPTY : FULL, 1, 0);
}
