/* Vocabularies made together with what can be proved of their terms, and scripts that prove it. */
#ifndef SCRIPT_PROOFS_H
#define SCRIPT_PROOFS_H

#include "script_plain.h"
#include "support.h"

#include <stdbool.h>

enum {
    MAX_SCRIPT_BYTES = SCRIPT_RECORD_BYTES * MAX_SCRIPT_RECORDS,
    /* so that a script can be made too long */
    SCRIPT_ROOM = MAX_SCRIPT_BYTES + 2 * SCRIPT_RECORD_BYTES
};

/* A script with its vocabulary. */
struct proof {
    struct input input; /* the vocabulary, and the answer expected */
    size_t len;
    uint8_t bytes[SCRIPT_ROOM];
    unsigned steps, frames; /* on the chain; most open at once, were there no limit */
    unsigned repeats;       /* records of terms that had one, as the script was made */
    double reach;           /* millions of instructions */
};

/* A full term lies at every element, an empty one at none: by what the vocabulary says. */
enum value { OPEN, FULL, EMPTY };

/* What a name may be besides: as the query or a frame below says, so at the constant only. */
enum given { NOT_GIVEN, BY_QUERY, BY_FRAME };

struct fact {
    enum value value;
    bool local;         /* at the constant only */
    unsigned statement; /* by which the record has its value; 0: by its kind */
    enum given given;
    unsigned frame;
};

struct maker {
    struct proof *proof;
    struct fact facts[MAX_RECORDS];
    /* A record that is full by a statement: some role to a full term, so that the role leads
     * somewhere everywhere; or all role to an empty one, so that it leads nowhere. */
    unsigned role_record[MAX_ROLES];
    unsigned last;    /* step */
    bool idle;        /* put idle records between the steps */
    bool overflowed;  /* the script does not fit */
    unsigned named;   /* times that steps have named function terms */
    unsigned renewed; /* every how many such times the term gets a new record; 0: never */
    unsigned origin[MAX_SCRIPT_RECORDS]; /* the first record of the same term */
    unsigned latest[MAX_SCRIPT_RECORDS]; /* for a first record, the last of the same term */
};

enum value opposite(enum value value);

/* Appends a term and its fact; answers its number. */
unsigned put_term(struct maker *maker, enum kind kind, unsigned a, unsigned b);

/* Appends a name that is full or empty as the term is, by a statement. */
unsigned put_named(struct maker *maker, unsigned term);

/* Says by a statement where the role leads: with a full term, somewhere; with an empty one,
 * nowhere. `top`: a full term. */
void put_role_record(struct maker *maker, unsigned role, unsigned term, unsigned top);

/* Appends a statement "a within b"; answers its number. */
unsigned put_statement(struct maker *maker, unsigned a, unsigned b);

/* A script with nothing but header and constant. */
void begin_script(struct maker *maker, unsigned a, unsigned b);

/* Has the vocabulary a function of that number? */
bool has_function(const struct input *input, unsigned number);

/* The first record of the function term, appended if there is none. */
unsigned term_record(struct maker *maker, unsigned function, unsigned inner);

/* Appends a record of the function term, be there one or not. */
unsigned append_term(struct maker *maker, unsigned function, unsigned inner);

/* Appends the start by a query column and the proof of its term, which is empty (column 0) or
 * full (column 1). */
void prove_query(struct maker *maker, unsigned column);

uint8_t *script_record(struct proof *proof, size_t number);
size_t script_count(const struct proof *proof);

#endif
