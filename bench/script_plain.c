/* The script check in plain C: what the library is measured against. */
#include "script_plain.h"

#include <stdbool.h>

struct script {
    const uint8_t *vocabulary, *bytes;
    size_t vocabulary_count, count; /* records */
    bool chained[MAX_RECORDS];      /* the statements on the chain */
    const uint16_t *origins;        /* of the term records; check_chain sets them */
};

static uint16_t word(const struct script *script, size_t number, size_t index)
{
    return read_u16(script->bytes + SCRIPT_RECORD_BYTES * number + 2 * index);
}

static bool words_are_zero(const struct script *script, size_t number, size_t first, size_t last)
{
    for (size_t i = first; i <= last; i++) {
        if (word(script, number, i) != 0)
            return false;
    }
    return true;
}

static bool is_step(const struct script *script, size_t number)
{
    return word(script, number, 0) >= START;
}

/* --- columns --- */

enum { QUERY = 0, COLUMNS = 3, LITERALS = 3 }; /* the query's columns stand beside those of kinds */

enum predicate { OWN, OF_A, OF_B, ROLE };  /* the owner's, that of its A or B, the role A */
enum arguments { X, Y, FX, X_Y, X_FX };    /* F: the owner's function */

struct pattern {
    bool negated;
    uint8_t predicate, arguments;
};

struct column {
    uint8_t count; /* 0: there is no such column */
    bool has_y;
    struct pattern literals[LITERALS];
};

#define P(predicate, arguments) {false, predicate, arguments}
#define N(predicate, arguments) {true, predicate, arguments}

static const struct column columns[STATEMENT + 1][COLUMNS] = {
    [QUERY] = {{1, false, {N(OF_A, X)}}, {1, false, {P(OF_B, X)}}},
    [TOP] = {{1, false, {N(OWN, X)}}},
    [BOTTOM] = {{1, false, {P(OWN, X)}}},
    [NOT] = {{2, false, {P(OWN, X), P(OF_A, X)}}, {2, false, {N(OWN, X), N(OF_A, X)}}},
    [AND] = {{2, false, {P(OWN, X), N(OF_A, X)}},
             {2, false, {P(OWN, X), N(OF_B, X)}},
             {3, false, {N(OWN, X), P(OF_A, X), P(OF_B, X)}}},
    [OR] = {{2, false, {N(OWN, X), P(OF_A, X)}},
            {2, false, {N(OWN, X), P(OF_B, X)}},
            {3, false, {P(OWN, X), N(OF_A, X), N(OF_B, X)}}},
    [SOME] = {{2, false, {P(OWN, X), N(ROLE, X_FX)}},
              {2, false, {P(OWN, X), N(OF_B, FX)}},
              {3, true, {N(OWN, X), P(ROLE, X_Y), P(OF_B, Y)}}},
    [ALL] = {{2, false, {N(OWN, X), N(ROLE, X_FX)}},
             {2, false, {N(OWN, X), P(OF_B, FX)}},
             {3, true, {P(OWN, X), P(ROLE, X_Y), N(OF_B, Y)}}},
    [STATEMENT] = {{2, false, {P(OF_A, X), N(OF_B, X)}}},
};

/* The record that owns the columns; for owner 0 the query, in the form of one. */
static struct record owner_of(const struct script *script, uint16_t owner)
{
    if (owner == 0)
        return (struct record){.kind = QUERY, .a = word(script, 0, 1), .b = word(script, 0, 2)};
    return read_record(script->vocabulary, owner);
}

/* --- form --- */

static bool is_earlier_term(const struct script *script, size_t term, size_t number)
{
    return term >= 1 && term < number && !is_step(script, term);
}

static bool function_fits(const struct script *script, size_t number)
{
    uint16_t function = word(script, number, 1);

    if (function == 0 || function >= script->vocabulary_count)
        return false;
    uint8_t kind = read_record(script->vocabulary, function).kind;
    return (kind == SOME || kind == ALL)
        && is_earlier_term(script, word(script, number, 2), number);
}

static bool extension_fits(const struct script *script, size_t number)
{
    uint16_t owner = word(script, number, 1), index = word(script, number, 2);
    uint16_t x = word(script, number, 3), y = word(script, number, 4);

    if (owner >= script->vocabulary_count || index >= COLUMNS)
        return false;
    uint8_t kind = owner_of(script, owner).kind;
    const struct column *column = &columns[kind][index];

    if (word(script, number, 5) >= column->count || !is_earlier_term(script, x, number))
        return false;
    if (owner == 0 && x != 1)
        return false;
    if (kind == STATEMENT && !script->chained[owner])
        return false;
    return column->has_y ? is_earlier_term(script, y, number) : y == 0;
}

static enum refusal check_record(const struct script *script, size_t number)
{
    static const struct { uint8_t first, last; } unused[] = {
        [CONSTANT] = {1, 7}, [FUNCTION] = {3, 7},
        [START] = {2, 6}, [EXTENSION] = {6, 6}, [REDUCTION] = {2, 6},
    };
    uint16_t kind = word(script, number, 0);

    if (kind < CONSTANT || kind > REDUCTION)
        return BAD_SCRIPT_KIND;
    if (!words_are_zero(script, number, unused[kind].first, unused[kind].last))
        return BAD_SCRIPT_UNUSED;
    if ((kind == CONSTANT) != (number == 1))
        return BAD_SCRIPT_TERM;
    switch (kind) {
    case FUNCTION:
        return function_fits(script, number) ? ACCEPTED : BAD_SCRIPT_TERM;
    case START:
        return word(script, number, 1) <= 1 ? ACCEPTED : BAD_STEP;
    case EXTENSION:
        return extension_fits(script, number) ? ACCEPTED : BAD_STEP;
    default:
        return ACCEPTED;
    }
}

/* May record `number` have `next` as the next step? */
static bool next_fits(const struct script *script, size_t number, uint16_t next)
{
    return next == 0 || (next > number && next < script->count && is_step(script, next));
}

static uint64_t check_form(const struct script *script)
{
    if (script->count < 2)
        return pack_answer(BAD_SCRIPT_TERM, 1);
    for (size_t i = 1; i < script->count; i++) {
        enum refusal refusal = check_record(script, i);

        if (refusal != ACCEPTED)
            return pack_answer(refusal, (uint32_t)i);
    }

    /* Only now are all the kinds known to be right, which refusal 19 comes after. */
    if (!next_fits(script, 0, word(script, 0, 3)))
        return pack_answer(BAD_STEP_NEXT, 0);
    for (size_t i = 1; i < script->count; i++) {
        if (is_step(script, i) && !next_fits(script, i, word(script, i, 7)))
            return pack_answer(BAD_STEP_NEXT, (uint32_t)i);
    }
    return pack_answer(ACCEPTED, 0);
}

/* --- terms --- */

/* A term may have several records; its origin is the first of them. The origins that apply
 * functions to one inner term are a digital search tree: the next bit of the function, from the
 * lowest on, tells which child of a node comes next. Functions have 9 bits, so that no way is
 * longer than 10 nodes. */
struct node {
    uint16_t function;
    uint16_t root;     /* of the tree for this record as inner term; 0: none */
    uint16_t child[2];
};

/* The link that leads to the term's origin, or would: then it is 0. */
static uint16_t *find_link(struct node *nodes, uint16_t function, uint16_t inner)
{
    uint16_t *link = &nodes[inner].root;

    for (unsigned rest = function; *link != 0; rest >>= 1) {
        struct node *node = &nodes[*link];

        if (node->function == function)
            break;
        link = &node->child[rest & 1];
    }
    return link;
}

/* A node is set up as its record becomes an origin: a short script pays for no long table. */
static void find_origins(const struct script *script, uint16_t *origins)
{
    struct node nodes[MAX_SCRIPT_RECORDS];

    origins[0] = 0; /* what stands for the inner term of the constant */
    origins[1] = 1;
    nodes[1] = (struct node){0};
    for (size_t i = 2; i < script->count; i++) {
        if (is_step(script, i))
            continue;
        uint16_t function = word(script, i, 1);
        uint16_t *link = find_link(nodes, function, origins[word(script, i, 2)]);

        if (*link == 0) {
            *link = (uint16_t)i;
            nodes[i] = (struct node){.function = function};
        }
        origins[i] = *link;
    }
}

/* A number for the term, which need not have a record: the same for the same term only. */
static uint32_t term_code(const struct script *script, uint16_t function, uint16_t inner)
{
    return function + (uint32_t)MAX_RECORDS * script->origins[inner];
}

/* The constant's words are zero, and so is its code. */
static uint32_t term_at(const struct script *script, uint16_t number)
{
    return term_code(script, word(script, number, 1), word(script, number, 2));
}

/* --- literals --- */

struct literal {
    bool negated, is_role;
    uint16_t predicate;
    uint32_t first, second; /* codes of terms; no second: 0 */
};

static uint16_t predicate_of(enum predicate predicate, uint16_t number, struct record owner)
{
    switch (predicate) {
    case OWN: return number;
    case OF_B: return owner.b;
    default: return owner.a;
    }
}

/* The literal of an extension's column that the pattern stands for. */
static struct literal make_literal(const struct script *script, size_t step, struct record owner,
                                   struct pattern pattern)
{
    uint16_t number = word(script, step, 1), x = word(script, step, 3), y = word(script, step, 4);
    struct literal literal = {
        .negated = pattern.negated,
        .is_role = pattern.predicate == ROLE,
        .predicate = predicate_of(pattern.predicate, number, owner),
    };

    switch (pattern.arguments) {
    case X: literal.first = term_at(script, x); break;
    case Y: literal.first = term_at(script, y); break;
    case FX: literal.first = term_code(script, number, x); break;
    case X_Y:
        literal.first = term_at(script, x);
        literal.second = term_at(script, y);
        break;
    case X_FX:
        literal.first = term_at(script, x);
        literal.second = term_code(script, number, x);
        break;
    }
    return literal;
}

static bool are_complements(const struct literal *a, const struct literal *b)
{
    return a->negated != b->negated && a->is_role == b->is_role && a->predicate == b->predicate
        && a->first == b->first && a->second == b->second;
}

/* --- chain --- */

struct frame {
    uint8_t count, closed;
    struct literal literals[LITERALS - 1]; /* the one at the position is left out */
};

struct machine {
    size_t open; /* frames */
    struct frame frames[MAX_FRAMES];
};

static const struct literal *goal_of(const struct frame *frame)
{
    return &frame->literals[frame->closed];
}

static const struct literal *goal(const struct machine *machine)
{
    return goal_of(&machine->frames[machine->open - 1]);
}

/* A frame whose literals are all closed goes, and closes the goal under it. */
static void close_goal(struct machine *machine)
{
    while (machine->open > 0) {
        struct frame *last = &machine->frames[machine->open - 1];

        if (++last->closed < last->count)
            return;
        machine->open--;
    }
}

static void start(struct machine *machine, const struct script *script, size_t step)
{
    bool second = word(script, step, 1) == 1;

    machine->open = 1;
    machine->frames[0] = (struct frame){
        .count = 1,
        .literals[0] = {
            .negated = !second,
            .predicate = word(script, 0, second ? 2 : 1),
        },
    };
}

static enum refusal extend(struct machine *machine, const struct script *script, size_t step)
{
    struct record owner = owner_of(script, word(script, step, 1));
    const struct column *column = &columns[owner.kind][word(script, step, 2)];
    uint16_t position = word(script, step, 5);
    struct literal literal = make_literal(script, step, owner, column->literals[position]);

    if (!are_complements(&literal, goal(machine)))
        return NO_COMPLEMENT;
    if (column->count == 1) {
        close_goal(machine);
        return ACCEPTED;
    }
    if (machine->open == MAX_FRAMES)
        return MANY_FRAMES;
    struct frame *next = &machine->frames[machine->open++];

    next->count = next->closed = 0;
    for (uint16_t i = 0; i < column->count; i++) {
        if (i != position)
            next->literals[next->count++] = make_literal(script, step, owner, column->literals[i]);
    }
    return ACCEPTED;
}

static enum refusal reduce(struct machine *machine, const struct script *script, size_t step)
{
    uint16_t frame = word(script, step, 1);

    if (frame >= machine->open - 1
        || !are_complements(goal(machine), goal_of(&machine->frames[frame])))
        return BAD_REDUCTION;
    close_goal(machine);
    return ACCEPTED;
}

/* Any step but the first. */
static enum refusal run_step(struct machine *machine, const struct script *script, size_t step)
{
    if (machine->open == 0)
        return ALL_CLOSED;
    switch (word(script, step, 0)) {
    case START:
        return NO_START;
    case EXTENSION:
        return extend(machine, script, step);
    default:
        return reduce(machine, script, step);
    }
}

static uint64_t run_steps(const struct script *script, uint16_t first)
{
    struct machine machine;
    uint32_t steps = 1, last = first;

    start(&machine, script, first);
    for (uint16_t step = word(script, first, 7); step != 0; step = word(script, step, 7)) {
        enum refusal refusal = run_step(&machine, script, step);

        if (refusal != ACCEPTED)
            return pack_answer(refusal, step);
        steps++;
        last = step;
    }
    return machine.open > 0 ? pack_answer(FRAME_LEFT, last) : pack_answer(ACCEPTED, steps);
}

/* As in the library, a chain that begins with no start is refused before there is an index. */
static uint64_t check_chain(struct script *script)
{
    uint16_t first = word(script, 0, 3), origins[MAX_SCRIPT_RECORDS];

    if (first == 0 || word(script, first, 0) != START)
        return pack_answer(NO_START, first);
    find_origins(script, origins);
    script->origins = origins;
    return run_steps(script, first);
}

/* --- the whole --- */

static bool length_fits(size_t len)
{
    return len >= SCRIPT_RECORD_BYTES && len <= SCRIPT_RECORD_BYTES * MAX_SCRIPT_RECORDS
        && len % SCRIPT_RECORD_BYTES == 0;
}

static void mark_chain(struct script *script)
{
    uint16_t number = read_record(script->vocabulary, 0).a;

    while (number != 0) {
        script->chained[number] = true;
        number = read_record(script->vocabulary, number).next;
    }
}

uint64_t plain_check_script(const uint8_t *vocabulary, size_t vocabulary_len,
                            const uint8_t *bytes, size_t len)
{
    uint64_t checked = plain_check_vocabulary(vocabulary, vocabulary_len);
    if ((checked & 0xff) != ACCEPTED)
        return checked;
    if (!length_fits(len))
        return pack_answer(BAD_SCRIPT_LENGTH, 0);

    struct script script = {
        .vocabulary = vocabulary,
        .bytes = bytes,
        .vocabulary_count = vocabulary_len / RECORD_BYTES,
        .count = len / SCRIPT_RECORD_BYTES,
    };
    if (word(&script, 0, 0) != SCRIPT_HEADER || !words_are_zero(&script, 0, 4, 7))
        return pack_answer(BAD_SCRIPT_HEADER, 0);
    uint64_t query = plain_check_query(vocabulary, script.vocabulary_count, word(&script, 0, 1),
                                       word(&script, 0, 2));
    if (query != ACCEPTED)
        return query;

    mark_chain(&script);
    uint64_t form = check_form(&script);
    if (form != ACCEPTED)
        return form;
    return check_chain(&script);
}
