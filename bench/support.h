/* What the benchmarks share: vocabularies made in memory, random numbers, processor time. */
#ifndef SUPPORT_H
#define SUPPORT_H

#include "vocabulary_plain.h"

#include <stdbool.h>

enum {
    MAX_BYTES = RECORD_BYTES * MAX_RECORDS,
    ROOM = MAX_BYTES + 2 * RECORD_BYTES /* so that a vocabulary can be made too long */
};

struct input {
    const char *name;
    uint64_t expected;
    size_t len;
    uint8_t bytes[ROOM];
};

void write_u16(uint8_t *bytes, unsigned value);
size_t count_of(const struct input *input);
enum kind kind_of(const struct input *input, size_t number);
unsigned last_number(const struct input *input);
uint8_t *some_record(struct input *input);

/* Appends a record. */
void add(struct input *input, enum kind kind, unsigned a, unsigned b, unsigned next);

/* Appends a record and answers its number. */
unsigned put(struct input *input, enum kind kind, unsigned a, unsigned b);

/* Appends a record about random terms. */
void put_about_terms(struct input *input, enum kind kind);
unsigned some_term(const struct input *input);

/* Puts all the statements on the chain; at random: most, and one off it may lead to any later. */
void chain_statements(struct input *input);
void link_at_random(struct input *input);

/* The number of atoms, k. */
unsigned count_atoms(const struct input *input);

/* Gives the header this edition; in the second it holds the k that the records have now. `choose_edition`: either. */
void set_edition(struct input *input, enum edition edition);
void choose_edition(struct input *input);

/* Changes the header's second byte or next: often to a wrong k, or to a next in edition 1. */
void damage_edition(struct input *input);

/* Changes a field of some record, or puts one in the place of another. */
void damage_field(struct input *input);
void repeat_record(struct input *input);

/* The same numbers in every run. */
uint64_t random_u64(void);
size_t below(size_t bound);

/* Calls a version `calls` times on the subject. */
typedef void run_function(const void *subject, int version, uint64_t calls);

enum { MAX_VERSIONS = 3, ROUNDS = 11 };

/* Medians of processor time, ns a call, the versions by turns. `rounds`: at most ROUNDS for each
 * version; 1: a single call. */
void measure(run_function *run, const void *subject, const int *rounds, int versions, double *ns);

/* Guards the inputs themselves: all versions may agree on one that was made wrongly. */
bool is_expected(const char *program, const struct input *input, uint64_t answer);

/* How many vocabularies of each edition were accepted, and of how many a next in edition 1 was the fault. */
struct editions {
    unsigned first, second, linked;
};

void note_edition(struct editions *editions, const uint8_t *header, uint64_t answer);

/* Prints them. Agreement says little about what did not come up: false. */
bool print_editions(const char *program, const struct editions *editions);

/* Prints how often each refusal came up. Agreement says little about one that did not: false. */
bool print_refusals(const char *program, const unsigned *seen, const int *refusals, size_t count);

#endif
