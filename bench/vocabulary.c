/* Benchmark of the vocabulary check: the library beside plain C.
 *
 *   vocabulary                            compare the answers, then print a table of times
 *   vocabulary --agree                    compare them only
 *   vocabulary --calls VERSION N INPUT    only call this version N times on the input of this number, for counting
 *                                         instructions: library, plain; header, pass: k of the vocabulary too
 *
 * Exit status: 0 done, 1 the answers differ, 2 bad usage. */
#include "judge.h"
#include "support.h"

#include <inttypes.h>
#include <stdio.h>
#include <stdlib.h>
#include <string.h>

enum { DAMAGES = 5000 }; /* for each input */
static const char PROGRAM[] = "vocabulary";

/* k of a filed vocabulary, as a catalogue shows it, or what the library refuses it for. Edition 2 has k in its header; in
 * edition 1 it takes a pass over the records. */
static uint64_t k_of_header(const uint8_t *vocabulary, size_t vocabulary_len)
{
    uint64_t answer = judge_check_vocabulary(vocabulary, vocabulary_len);

    return (answer & 0xff) == ACCEPTED ? pack_answer(ACCEPTED, read_u16(vocabulary + 6)) : answer;
}

static uint64_t k_by_pass(const uint8_t *vocabulary, size_t vocabulary_len)
{
    const unsigned atom_kinds = 1u << NAME | 1u << SOME | 1u << ALL; /* no kind that passed is over 9 */
    uint64_t answer = judge_check_vocabulary(vocabulary, vocabulary_len);
    uint32_t atoms = 0;

    if ((answer & 0xff) != ACCEPTED)
        return answer;
    for (size_t i = RECORD_BYTES; i < vocabulary_len; i += RECORD_BYTES)
        atoms += atom_kinds >> vocabulary[i] & 1;
    return pack_answer(ACCEPTED, atoms);
}

static const struct version {
    const char *name;
    uint64_t (*check)(const uint8_t *vocabulary, size_t vocabulary_len);
} versions[] = {
    {"library", judge_check_vocabulary},
    {"plain", plain_check_vocabulary},
    {"header", k_of_header},
    {"pass", k_by_pass},
};
enum { LIBRARY, PLAIN, VERSIONS, OF_HEADER = VERSIONS, BY_PASS, ALL_VERSIONS };

/* --- inputs --- */

static uint8_t *last_record(struct input *input)
{
    return input->bytes + input->len - RECORD_BYTES;
}

static void make_names(struct input *input)
{
    input->name = "511 names";
    input->expected = pack_answer(ACCEPTED, MAX_RECORDS);
    add(input, HEADER, 0, 0, 0);
    /* An odd factor keeps the labels distinct and spreads them over both bytes. */
    while (input->len < MAX_BYTES)
        add(input, NAME, (unsigned)count_of(input) * 40503u & 0xffff, 0, 0);
}

/* 73 groups of seven records; the statements of all groups form the chain. */
static void make_mixed(struct input *input)
{
    input->name = "mixed kinds, full";
    input->expected = pack_answer(ACCEPTED, MAX_RECORDS);
    add(input, HEADER, 7, MAX_ROLES, 0);
    for (unsigned group = 0; group < 73; group++) {
        unsigned first = 7 * group + 1;
        unsigned older = 7 * (group / 2) + 1; /* a name halfway back */
        unsigned next = group < 72 ? first + 13 : 0;

        add(input, NAME, first, 0, 0);
        add(input, NOT, first, 0, 0);
        add(input, AND, first, first + 1, 0);
        add(input, OR, older, first + 2, 0);
        add(input, SOME, first % MAX_ROLES, first + 3, 0);
        add(input, ALL, (first + 1) % MAX_ROLES, first + 4, 0);
        add(input, STATEMENT, first, first + 5, next);
    }
}

static void make_small(struct input *input)
{
    input->name = "12 records";
    input->expected = pack_answer(ACCEPTED, 12);
    add(input, HEADER, 10, 2, 0);
    add(input, TOP, 0, 0, 0);
    add(input, BOTTOM, 0, 0, 0);
    add(input, NAME, 100, 0, 0);
    add(input, NAME, 200, 0, 0);
    add(input, NOT, 3, 0, 0);
    add(input, AND, 3, 4, 0);
    add(input, OR, 5, 6, 0);
    add(input, SOME, 0, 3, 0);
    add(input, ALL, 1, 7, 0);
    add(input, STATEMENT, 3, 8, 11);
    add(input, STATEMENT, 9, 1, 0);
}

static void make_header(struct input *input)
{
    input->name = "header alone";
    input->expected = pack_answer(ACCEPTED, 1);
    add(input, HEADER, 0, 0, 0);
}

static void make_same_label(struct input *input)
{
    make_names(input);
    input->name = "511 names, the last refused (7)";
    input->expected = pack_answer(BAD_LABEL, MAX_RECORDS - 1);
    memcpy(last_record(input), input->bytes + RECORD_BYTES, RECORD_BYTES);
}

static void make_bad_kind(struct input *input)
{
    make_names(input);
    input->name = "511 names, the last refused (3)";
    input->expected = pack_answer(BAD_KIND, MAX_RECORDS - 1);
    last_record(input)[0] = 0;
}

/* --- the same under a header of edition 2 --- */

static void make_names_2(struct input *input)
{
    make_names(input);
    input->name = "511 names, edition 2";
    set_edition(input, EDITION_2);
}

static void make_mixed_2(struct input *input)
{
    make_mixed(input);
    input->name = "mixed kinds, full, edition 2";
    set_edition(input, EDITION_2);
}

static void make_small_2(struct input *input)
{
    make_small(input);
    input->name = "12 records, edition 2";
    set_edition(input, EDITION_2);
}

static void make_header_2(struct input *input)
{
    make_header(input);
    input->name = "header alone, edition 2";
    set_edition(input, EDITION_2);
}

static void make_wrong_k(struct input *input)
{
    make_names_2(input);
    input->name = "511 names, edition 2, k refused (28)";
    input->expected = pack_answer(BAD_ATOMS, MAX_RECORDS - 1);
    write_u16(input->bytes + 6, MAX_RECORDS - 2);
}

/* vocabulary.sh counts the instructions of the first eight, by these numbers. */
static void (*const makers[])(struct input *) = {
    make_names, make_names_2, make_mixed, make_mixed_2, make_small, make_small_2, make_header, make_header_2,
    make_same_label, make_bad_kind, make_wrong_k,
};
enum { INPUTS = sizeof makers / sizeof *makers };

/* --- agreement --- */

static void damage_bytes(struct input *input)
{
    switch (below(5)) {
    case 0: /* any byte */
        input->bytes[below(input->len)] = (uint8_t)random_u64();
        break;
    case 1: /* another kind */
        *some_record(input) = (uint8_t)below(HEADER + 2);
        break;
    case 2: /* a field that names a record, or just misses */
        write_u16(some_record(input) + 2 + 2 * below(3), (unsigned)below(count_of(input) + 2));
        break;
    case 3: /* a field emptied */
        write_u16(some_record(input) + 2 + 2 * below(3), 0);
        break;
    default:
        repeat_record(input);
    }
}

static void damage_length(struct input *input)
{
    switch (below(8)) {
    case 0:
        input->len = below(ROOM + 1);
        break;
    case 1: /* whole records, none and one too many included */
        input->len = RECORD_BYTES * below(MAX_RECORDS + 2);
        break;
    }
}

static void damage(struct input *input)
{
    for (size_t left = 1 + below(3); left > 0; left--)
        damage_bytes(input);
    damage_length(input);
    if (below(2)) /* last, so that k is that of the records as they are now */
        choose_edition(input);
    if (below(4) == 0)
        damage_edition(input);
}

static bool same_answer(const char *call, const char *name, uint64_t library, uint64_t plain)
{
    if (library == plain)
        return true;
    fprintf(stderr, "vocabulary: %s on %s: library %#" PRIx64 ", plain C %#" PRIx64 "\n",
            call, name, library, plain);
    return false;
}

static bool agree_on(const struct input *input, uint32_t number, uint64_t *answer)
{
    const uint8_t *bytes = input->bytes;
    size_t len = input->len;

    *answer = judge_check_vocabulary(bytes, len);
    return same_answer("check", input->name, *answer, plain_check_vocabulary(bytes, len))
        && same_answer("record call", input->name, judge_record(bytes, len, number),
                       plain_record(bytes, len, number));
}

/* What came up among the damages. */
struct seen {
    unsigned refused[256];
    struct editions editions;
};

static bool agree_on_damages(const struct input *input, struct seen *seen)
{
    for (int i = 0; i < DAMAGES; i++) {
        struct input damaged = *input;
        uint64_t answer;

        damage(&damaged);
        /* Half of the numbers lie near the end of the vocabulary, half anywhere in 32 bits. */
        size_t number = below(2) ? below(count_of(&damaged) + 2) : random_u64();
        if (!agree_on(&damaged, (uint32_t)number, &answer)) {
            fprintf(stderr, "vocabulary: this was damage %d\n", i);
            return false;
        }
        seen->refused[answer & 0xff]++;
        note_edition(&seen->editions, damaged.bytes, answer);
    }
    return true;
}

static bool print_seen(const struct seen *seen)
{
    static const int refusals[] = {1, 2, 3, 4, 5, 6, 7, 8, BAD_ATOMS};
    bool editions = print_editions(PROGRAM, &seen->editions);

    printf("Damages accepted: %u;", seen->refused[ACCEPTED]);
    return print_refusals(PROGRAM, seen->refused, refusals, sizeof refusals / sizeof *refusals) && editions;
}

static bool agree(const struct input *inputs)
{
    struct seen seen = {0};

    for (int i = 0; i < INPUTS; i++) {
        uint64_t answer;

        if (!agree_on(&inputs[i], (uint32_t)count_of(&inputs[i]) - 1, &answer)
            || !is_expected(PROGRAM, &inputs[i], answer)
            || !agree_on_damages(&inputs[i], &seen))
            return false;
    }
    printf("The answers agree on %d inputs and %d damages of them.\n", INPUTS, INPUTS * DAMAGES);
    return print_seen(&seen);
}

/* --- time --- */

static volatile uint64_t sink;

static void run(const void *subject, int version, uint64_t calls)
{
    const struct input *input = subject;

    for (uint64_t i = 0; i < calls; i++) {
        /* The bytes may have changed, for all the compiler knows, so that it hoists no call. */
        __asm__ volatile("" : : "r"(input) : "memory");
        sink = versions[version].check(input->bytes, input->len);
    }
}

static void print_times(const struct input *input)
{
    static const int rounds[VERSIONS] = {ROUNDS, ROUNDS};
    double ns[VERSIONS];

    measure(run, input, rounds, VERSIONS, ns);
    printf("| %s | %zu | %.1f | %.1f | %.2f |\n", input->name, input->len, ns[LIBRARY], ns[PLAIN],
           ns[LIBRARY] / ns[PLAIN]);
    fflush(stdout);
}

static int benchmark(const struct input *inputs)
{
    if (!agree(inputs))
        return 1;
    printf("| input | bytes | library, ns a call | plain C, ns a call | ratio |\n");
    printf("|---|---:|---:|---:|---:|\n");
    for (int i = 0; i < INPUTS; i++)
        print_times(&inputs[i]);
    return 0;
}

/* --- instructions --- */

static int call_only(const struct input *input, int version, const char *calls)
{
    struct input asked = *input;

    if (version >= OF_HEADER)
        asked.expected = pack_answer(ACCEPTED, count_atoms(input));
    run(&asked, version, strtoull(calls, NULL, 10));
    return is_expected(PROGRAM, &asked, sink) ? 0 : 1;
}

int main(int argc, char **argv)
{
    static struct input inputs[INPUTS];

    for (int i = 0; i < INPUTS; i++)
        makers[i](&inputs[i]);
    if (argc == 1)
        return benchmark(inputs);
    if (argc == 2 && strcmp(argv[1], "--agree") == 0)
        return agree(inputs) ? 0 : 1;
    if (argc == 5 && strcmp(argv[1], "--calls") == 0) {
        unsigned long at = strtoul(argv[4], NULL, 10);

        for (int v = 0; v < ALL_VERSIONS && at < INPUTS; v++) {
            if (strcmp(argv[2], versions[v].name) == 0)
                return call_only(&inputs[at], v, argv[3]);
        }
    }
    fprintf(stderr, "usage: vocabulary [--agree | --calls library|plain|header|pass N INPUT]\n");
    return 2;
}
