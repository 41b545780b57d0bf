#include "support.h"

#include <inttypes.h>
#include <stdio.h>
#include <stdlib.h>
#include <string.h>
#include <time.h>

static const double MEASUREMENT_NS = 50e6;

void write_u16(uint8_t *bytes, unsigned value)
{
    bytes[0] = (uint8_t)value;
    bytes[1] = (uint8_t)(value >> 8);
}

size_t count_of(const struct input *input)
{
    return input->len / RECORD_BYTES;
}

uint8_t *some_record(struct input *input)
{
    return input->bytes + RECORD_BYTES * below(count_of(input));
}

void add(struct input *input, enum kind kind, unsigned a, unsigned b, unsigned next)
{
    uint8_t *bytes = input->bytes + input->len;

    bytes[0] = (uint8_t)kind;
    bytes[1] = kind == HEADER ? EDITION_1 : 0;
    write_u16(bytes + 2, a);
    write_u16(bytes + 4, b);
    write_u16(bytes + 6, next);
    input->len += RECORD_BYTES;
}

enum kind kind_of(const struct input *input, size_t number)
{
    return (enum kind)input->bytes[RECORD_BYTES * number];
}

unsigned last_number(const struct input *input)
{
    return (unsigned)count_of(input) - 1;
}

unsigned put(struct input *input, enum kind kind, unsigned a, unsigned b)
{
    add(input, kind, a, b, 0);
    return last_number(input);
}

static void set_next(struct input *input, size_t number, unsigned next)
{
    /* The header's A leads to the first statement, as next does to the others. */
    write_u16(input->bytes + RECORD_BYTES * number + (number == 0 ? 2 : 6), next);
}

void chain_statements(struct input *input)
{
    unsigned last = 0;

    for (unsigned i = 1; i < count_of(input); i++) {
        if (kind_of(input, i) == STATEMENT) {
            set_next(input, last, i);
            last = i;
        }
    }
}

unsigned some_term(const struct input *input)
{
    size_t number;

    do
        number = 1 + below(count_of(input) - 1);
    while (kind_of(input, number) == STATEMENT);
    return (unsigned)number;
}

void put_about_terms(struct input *input, enum kind kind)
{
    unsigned a = some_term(input), b = some_term(input);

    put(input, kind, a, kind == NOT ? 0 : b);
}

void link_at_random(struct input *input)
{
    unsigned next = 0, later = 0;

    for (unsigned i = last_number(input); i > 0; i--) {
        if (kind_of(input, i) != STATEMENT)
            continue;
        bool chained = below(4) != 0;

        set_next(input, i, chained || below(2) ? next : later);
        later = i;
        if (chained)
            next = i;
    }
    set_next(input, 0, next);
}

unsigned count_atoms(const struct input *input)
{
    unsigned atoms = 0;

    for (size_t i = 1; i < count_of(input); i++)
        atoms += is_atom((uint8_t)kind_of(input, i));
    return atoms;
}

void set_edition(struct input *input, enum edition edition)
{
    input->bytes[1] = (uint8_t)edition;
    write_u16(input->bytes + 6, edition == EDITION_2 ? count_atoms(input) : 0);
}

void choose_edition(struct input *input)
{
    set_edition(input, below(2) ? EDITION_1 : EDITION_2);
}

void damage_edition(struct input *input)
{
    unsigned atoms = count_atoms(input);

    switch (below(6)) {
    case 0: input->bytes[1] = (uint8_t)below(4); break;
    case 1: write_u16(input->bytes + 6, atoms + 1); break;
    case 2: write_u16(input->bytes + 6, atoms - 1); break;
    case 3: write_u16(input->bytes + 6, atoms ^ 0x100); break; /* its low byte is right */
    case 4: write_u16(input->bytes + 6, (unsigned)random_u64()); break;
    default: write_u16(input->bytes + 6, 0);
    }
}

void repeat_record(struct input *input)
{
    uint8_t *from = some_record(input), *to = some_record(input);

    memmove(to, from, RECORD_BYTES);
}

/* Small values, since these are near to what the fields hold. */
void damage_field(struct input *input)
{
    uint8_t *record = some_record(input);
    size_t value = below(count_of(input) + 2);

    switch (below(4)) {
    case 0:
        record[below(RECORD_BYTES)] = (uint8_t)value;
        break;
    case 1:
        record[0] = (uint8_t)below(HEADER + 2);
        break;
    default:
        write_u16(record + 2 + 2 * below(3), (unsigned)value);
    }
}

/* splitmix64 */
uint64_t random_u64(void)
{
    static uint64_t state = 1;
    uint64_t z = state += 0x9e3779b97f4a7c15;

    z = (z ^ z >> 30) * 0xbf58476d1ce4e5b9;
    z = (z ^ z >> 27) * 0x94d049bb133111eb;
    return z ^ z >> 31;
}

size_t below(size_t bound)
{
    return random_u64() % bound;
}

/* Processor time, so that other processes on the machine count as little as possible. */
static double now_ns(void)
{
    struct timespec t;

    clock_gettime(CLOCK_PROCESS_CPUTIME_ID, &t);
    return 1e9 * (double)t.tv_sec + (double)t.tv_nsec;
}

static int compare_doubles(const void *left, const void *right)
{
    double a = *(const double *)left, b = *(const double *)right;

    return (a > b) - (a < b);
}

static double median(double *values, size_t count)
{
    qsort(values, count, sizeof *values, compare_doubles);
    return values[count / 2];
}

static double time_calls(run_function *run, const void *subject, int version, uint64_t calls)
{
    double start = now_ns();

    run(subject, version, calls);
    return now_ns() - start;
}

/* The number of calls that take about one measurement. */
static uint64_t calibrate(run_function *run, const void *subject, int version)
{
    uint64_t calls = 1;
    double ns;

    while ((ns = time_calls(run, subject, version, calls)) < MEASUREMENT_NS / 8)
        calls *= 2;
    return 1 + (uint64_t)((double)calls * MEASUREMENT_NS / ns);
}

void measure(run_function *run, const void *subject, const int *rounds, int versions, double *ns)
{
    double values[MAX_VERSIONS][ROUNDS];
    uint64_t calls[MAX_VERSIONS];

    for (int v = 0; v < versions; v++)
        calls[v] = rounds[v] == 1 ? 1 : calibrate(run, subject, v);
    for (int i = 0; i < ROUNDS; i++) {
        for (int v = 0; v < versions; v++) {
            if (i < rounds[v])
                values[v][i] = time_calls(run, subject, v, calls[v]) / (double)calls[v];
        }
    }
    for (int v = 0; v < versions; v++)
        ns[v] = median(values[v], (size_t)rounds[v]);
}

bool is_expected(const char *program, const struct input *input, uint64_t answer)
{
    if (answer == input->expected)
        return true;
    fprintf(stderr, "%s: on %s: %#" PRIx64 ", expected %#" PRIx64 "\n",
            program, input->name, answer, input->expected);
    return false;
}

void note_edition(struct editions *editions, const uint8_t *header, uint64_t answer)
{
    unsigned refusal = answer & 0xff;

    if (refusal == ACCEPTED)
        ++*(header[1] == EDITION_2 ? &editions->second : &editions->first);
    else if (refusal == BAD_HEADER && header[0] == HEADER && header[1] == EDITION_1)
        editions->linked += read_u16(header + 4) <= MAX_ROLES;
}

bool print_editions(const char *program, const struct editions *editions)
{
    printf("Accepted of edition 1: %u, of edition 2: %u; refused for a next in edition 1: %u.\n",
           editions->first, editions->second, editions->linked);
    if (editions->first && editions->second && editions->linked)
        return true;
    fprintf(stderr, "%s: some of these did not come up\n", program);
    return false;
}

bool print_refusals(const char *program, const unsigned *seen, const int *refusals, size_t count)
{
    bool all = true;

    printf(" refused with");
    for (size_t i = 0; i < count; i++) {
        printf("%s %d: %u", i ? "," : "", refusals[i], seen[refusals[i]]);
        all = all && seen[refusals[i]] > 0;
    }
    printf(".\n\n");
    if (!all)
        fprintf(stderr, "%s: some refusals did not come up\n", program);
    return all;
}
