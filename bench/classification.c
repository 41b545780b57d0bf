/* Benchmark of the classification: the library beside C by the same algorithm (classification_plain.c);
 * C by the words (classification_literal.c) has to agree with both.
 *
 *   classification DATA            compare the answers and bytes, then print a table of times
 *   classification DATA --agree    compare them only, without the slowest calls of classification_literal.c
 *   classification DATA --count    make each call once, in `counted`, for counting instructions;
 *                                  a line for each call tells which it was
 *
 * DATA: the directory with the stored vocabularies.
 * Exit status: 0 done, 1 the answers differ, 2 bad usage or a file is missing. */
#include "classification_vocabularies.h"
#include "judge.h"

#include <inttypes.h>
#include <stdio.h>
#include <string.h>

enum {
    LENT_SURVIVORS = 600, LENT_TAXONOMY = 200, /* so that a write past the 512 and the 144 bytes shows */
    RANDOM = 20000
};

static const char PROGRAM[] = "classification";

static const struct version {
    const char *name;
    classify_function *classify;
    compare_function *compare; /* by the same elimination */
} versions[] = {
    {"library", judge_classify, judge_compare},
    {"plain C", plain_classify, fast_compare},
    {"literal C", literal_classify, literal_compare},
};
enum { LIBRARY, PLAIN, LITERAL };

/* --- agreement --- */

struct lengths {
    size_t survivors, taxonomy;
};

static const struct lengths whole = {LENT_SURVIVORS, LENT_TAXONOMY};

struct result {
    uint64_t answer;
    uint8_t survivors[LENT_SURVIVORS], taxonomy[LENT_TAXONOMY];
};

/* No two neighbours alike, and few 0. */
static void prefill(uint8_t *bytes, size_t len)
{
    for (size_t i = 0; i < len; i++)
        bytes[i] = (uint8_t)(37 * i + 11);
}

static void classify(const struct input *input, int version, struct lengths lent, struct result *result)
{
    prefill(result->survivors, LENT_SURVIVORS);
    prefill(result->taxonomy, LENT_TAXONOMY);
    result->answer = versions[version].classify(input->bytes, input->len, result->survivors,
                                                lent.survivors, result->taxonomy, lent.taxonomy);
}

/* The version, and the first byte that is not the library's. */
static bool same_bytes(const char *what, int version, const uint8_t *library, const uint8_t *other,
                       size_t len)
{
    size_t byte = 0;

    while (byte < len && library[byte] == other[byte])
        byte++;
    if (byte == len)
        return true;
    fprintf(stderr, "classification: %s, byte %zu: library %d, %s %d\n", what, byte, library[byte],
            versions[version].name, other[byte]);
    return false;
}

static bool same_results(int version, const struct result *library, const struct result *other)
{
    if (library->answer != other->answer) {
        fprintf(stderr, "classification: library %#" PRIx64 ", %s %#" PRIx64 "\n",
                library->answer, versions[version].name, other->answer);
        return false;
    }
    return same_bytes("survivors", version, library->survivors, other->survivors, LENT_SURVIVORS)
        && same_bytes("taxonomy", version, library->taxonomy, other->taxonomy, LENT_TAXONOMY);
}

/* All versions up to the last; what the library's answer is. */
static bool agree_on(const struct input *input, int last, struct lengths lent, struct result *library)
{
    struct result other;

    classify(input, LIBRARY, lent, library);
    for (int version = PLAIN; version <= last; version++) {
        classify(input, version, lent, &other);
        if (!same_results(version, library, &other)) {
            fprintf(stderr, "classification: this was on %s\n", input->name);
            return false;
        }
    }
    return true;
}

/* How many of the taxonomy's first bytes are this entry. */
static unsigned count_entries(const struct result *result, int entry)
{
    unsigned found = 0;

    for (size_t i = 0; i < TAXONOMY_BYTES; i++)
        found += result->taxonomy[i] == entry;
    return found;
}

static bool has_entries(const struct vocabulary *vocabulary, const struct result *result)
{
    unsigned nearest = count_entries(result, NEAREST), same = count_entries(result, SAME);

    if (nearest == vocabulary->nearest && same == vocabulary->same)
        return true;
    fprintf(stderr, "classification: on %s: %u nearest, %u equal, expected %u and %u\n",
            vocabulary->input.name, nearest, same, vocabulary->nearest, vocabulary->same);
    return false;
}

static bool agree_on_vocabularies(const struct vocabulary *vocabularies, bool quick)
{
    struct result result;

    for (int i = 0; i < VOCABULARIES; i++) {
        const struct vocabulary *v = &vocabularies[i];

        if (!agree_on(&v->input, quick && v->slow ? PLAIN : LITERAL, whole, &result)
            || !is_expected(PROGRAM, &v->input, result.answer) || !has_entries(v, &result))
            return false;
    }
    return true;
}

/* What came up among the random ones. `farther`: some name is broader than another and not nearest. */
struct seen {
    unsigned refused[256], nearest, same, farther, empty, rounds, nameless;
    struct editions editions;
};

/* Whether j is nearest to i, and k to j. */
static bool is_path(const uint8_t *taxonomy, unsigned names, unsigned i, unsigned j, unsigned k)
{
    return taxonomy[i * names + j] == NEAREST && taxonomy[j * names + k] == NEAREST;
}

static bool has_farther(const uint8_t *taxonomy, unsigned names)
{
    for (unsigned i = 0; i < names; i++) {
        for (unsigned j = 0; j < names; j++) {
            for (unsigned k = 0; k < names; k++) {
                if (is_path(taxonomy, names, i, j, k))
                    return true;
            }
        }
    }
    return false;
}

static void note(struct seen *seen, const struct input *input, const struct result *result)
{
    seen->refused[result->answer & 0xff]++;
    note_edition(&seen->editions, input->bytes, result->answer);
    if ((result->answer & 0xff) != ACCEPTED)
        return;
    unsigned names = list_names(input->bytes, input->len).count;

    seen->nearest += count_entries(result, NEAREST) > 0;
    seen->same += count_entries(result, SAME) > names;
    seen->farther += has_farther(result->taxonomy, names);
    seen->empty += (result->answer >> 25 & 0x1ffff) == 0;
    seen->rounds += result->answer >> 42 > 1;
    seen->nameless += names == 0;
}

static void make_random(struct question *question, struct lengths *lent)
{
    make_random_vocabulary(question);
    lent->survivors = SURVIVOR_BYTES + below(LENT_SURVIVORS - SURVIVOR_BYTES + 1);
    lent->taxonomy = TAXONOMY_BYTES + below(LENT_TAXONOMY - TAXONOMY_BYTES + 1);
    if (below(4) == 0)
        damage_question(question, &lent->survivors);
    if (below(8) == 0)
        lent->taxonomy = TAXONOMY_BYTES - 1 - (below(2) ? 0 : below(TAXONOMY_BYTES));
}

static bool agree_on_random(struct seen *seen)
{
    static struct question question;

    for (int i = 0; i < RANDOM; i++) {
        struct lengths lent;
        struct result result;

        make_random(&question, &lent);
        if (!agree_on(&question.input, LITERAL, lent, &result)) {
            fprintf(stderr, "classification: random vocabulary %d\n", i);
            return false;
        }
        note(seen, &question.input, &result);
    }
    return true;
}

static bool print_seen(const struct seen *seen)
{
    static const int refusals[] = {1, 2, 3, 4, 5, 6, 7, 8, BAD_ATOMS, MANY_ATOMS, SHORT_BUFFER, SHORT_TAXONOMY};
    bool editions = print_editions(PROGRAM, &seen->editions);

    printf("Random ones: nearest broader names %u, farther ones %u, equal names %u, no survivor %u, "
           "several rounds %u, no name %u;",
           seen->nearest, seen->farther, seen->same, seen->empty, seen->rounds, seen->nameless);
    if (!print_refusals(PROGRAM, seen->refused, refusals, sizeof refusals / sizeof *refusals))
        return false;
    if (seen->nearest && seen->farther && seen->same && seen->empty && seen->rounds && seen->nameless)
        return editions;
    fprintf(stderr, "classification: some of these answers did not come up\n");
    return false;
}

static bool agree(const struct vocabulary *vocabularies, bool quick)
{
    struct seen seen = {0};

    if (!agree_on_vocabularies(vocabularies, quick) || !agree_on_random(&seen))
        return false;
    printf("Answers and all lent bytes agree on %d vocabularies%s and on %d random ones.\n",
           VOCABULARIES, quick ? " (walk12 without the literal C)" : "", RANDOM);
    return print_seen(&seen);
}

/* --- the comparison that the classification is set beside --- */

struct pair {
    uint32_t a, b;
};

/* The smallest survivor; without one, MAX_TYPES. */
static unsigned first_survivor(const uint8_t *survivors)
{
    unsigned type = 0;

    while (type < MAX_TYPES && !(survivors[type / 8] >> type % 8 & 1))
        type++;
    return type;
}

/* The first term, and another that differs from it at the smallest survivor or soon after, so that the
 * comparison's search ends there: the elimination, and as little beside it as can be. Where no term
 * differs from the first, that term twice. */
static struct pair choose_pair(const struct input *input)
{
    uint8_t survivors[SURVIVOR_BYTES];
    struct pair pair = {1, 1};
    unsigned soonest = MAX_TYPES;

    judge_compare(input->bytes, input->len, pair.a, pair.a, survivors, sizeof survivors);
    unsigned first = first_survivor(survivors);

    for (uint32_t b = last_number(input); soonest > first && b > pair.a; b--) {
        uint64_t answer =
            judge_compare(input->bytes, input->len, pair.a, b, survivors, sizeof survivors);

        if (judge_refusal(answer) == ACCEPTED && judge_different(answer)
            && judge_element(answer) < soonest) {
            soonest = judge_element(answer);
            pair.b = b;
        }
    }
    return pair;
}

/* --- time --- */

enum { COMPARISON = PLAIN + 1, TIMED };

struct timed {
    const struct input *input;
    struct pair pair;
};

static volatile uint64_t sink;

static void run(const void *subject, int version, uint64_t calls)
{
    const struct timed *timed = subject;
    const struct input *input = timed->input;
    uint8_t survivors[SURVIVOR_BYTES], taxonomy[TAXONOMY_BYTES];

    for (uint64_t i = 0; i < calls; i++) {
        /* The bytes may have changed, for all the compiler knows, so that it hoists no call. */
        __asm__ volatile("" : : "r"(input), "r"(survivors), "r"(taxonomy) : "memory");
        sink = version == COMPARISON
                   ? judge_compare(input->bytes, input->len, timed->pair.a, timed->pair.b,
                                   survivors, sizeof survivors)
                   : versions[version].classify(input->bytes, input->len, survivors,
                                                sizeof survivors, taxonomy, sizeof taxonomy);
    }
}

static void print_times(const struct vocabulary *vocabulary)
{
    static const int rounds[TIMED] = {ROUNDS, ROUNDS, ROUNDS};
    const struct input *input = &vocabulary->input;
    struct timed timed = {input, choose_pair(input)};
    double ns[TIMED];

    measure(run, &timed, rounds, TIMED, ns);
    printf("| %s | %u | %u | %.4f | %.4f | %.2f | %.4f |\n", input->name,
           list_names(input->bytes, input->len).count, judge_survivors(input->expected),
           ns[LIBRARY] / 1e6, ns[PLAIN] / 1e6, ns[LIBRARY] / ns[PLAIN], ns[COMPARISON] / 1e6);
    fflush(stdout);
}

static int benchmark(const struct vocabulary *vocabularies)
{
    if (!agree(vocabularies, false))
        return 1;
    printf("| input | names | survivors | library, ms a call | plain C, ms a call | ratio "
           "| the library's comparison, ms a call |\n");
    printf("|---|---:|---:|---:|---:|---:|---:|\n");
    for (int i = 0; i < VOCABULARIES; i++)
        print_times(&vocabularies[i]);
    return 0;
}

/* --- instructions --- */

/* bench/classification.sh counts what happens in here, call by call. With a pair it is compared. */
static __attribute__((noinline)) uint64_t counted(const struct input *input, int version,
                                                  const struct pair *pair, struct result *result)
{
    if (pair != NULL)
        return versions[version].compare(input->bytes, input->len, pair->a, pair->b,
                                         result->survivors, SURVIVOR_BYTES);
    return versions[version].classify(input->bytes, input->len, result->survivors, SURVIVOR_BYTES,
                                      result->taxonomy, TAXONOMY_BYTES);
}

/* The figure to reach is that of what is beyond the elimination, in millions. */
static bool count_version(const struct vocabulary *vocabulary, int version, struct pair pair)
{
    const struct input *input = &vocabulary->input;
    struct result result;
    uint64_t compared;

    if (!is_expected(PROGRAM, input, counted(input, version, NULL, &result))
        || !has_entries(vocabulary, &result))
        return false;
    printf("%s|0.1|%s\n", input->name, versions[version].name);
    compared = counted(input, version, &pair, &result);
    printf("%s|0.1|%s, comparison\n", input->name, versions[version].name);
    return judge_survivors(compared) == judge_survivors(input->expected);
}

static int count(const struct vocabulary *vocabularies)
{
    for (int i = 0; i < VOCABULARIES; i++) {
        struct pair pair = choose_pair(&vocabularies[i].input);

        if (!count_version(&vocabularies[i], LIBRARY, pair)
            || !count_version(&vocabularies[i], PLAIN, pair))
            return 1;
    }
    return 0;
}

int main(int argc, char **argv)
{
    static struct vocabulary vocabularies[VOCABULARIES];

    if (argc < 2 || argc > 3) {
        fprintf(stderr, "usage: classification DATA [--agree | --count]\n");
        return 2;
    }
    if (!make_vocabularies(vocabularies, argv[1]))
        return 2;
    if (argc == 2)
        return benchmark(vocabularies);
    if (strcmp(argv[2], "--agree") == 0)
        return agree(vocabularies, true) ? 0 : 1;
    if (strcmp(argv[2], "--count") == 0)
        return count(vocabularies);
    fprintf(stderr, "classification: unknown option %s\n", argv[2]);
    return 2;
}
