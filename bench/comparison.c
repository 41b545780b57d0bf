/* Benchmark of the comparison: the library beside C by the same algorithm (comparison_fast.c) and by
 * the definitions' words (comparison_literal.c).
 *
 *   comparison DATA            compare the answers and bytes, then print a table of times
 *   comparison DATA --agree    compare them only, without the slowest calls of comparison_literal.c
 *   comparison DATA --count    make each call once, in `counted`, for counting instructions;
 *                              a line for each call tells which it was
 *
 * DATA: the directory with the stored vocabularies.
 * Exit status: 0 done, 1 the answers differ, 2 bad usage or a file is missing. */
#include "comparison_questions.h"
#include "judge.h"

#include <inttypes.h>
#include <stdio.h>
#include <string.h>

enum {
    LENT = 600, /* so that a write past the 512 bytes shows */
    RANDOM = 20000,
    LITERAL_ROUNDS = 3 /* the literal algorithm is slow, and nothing hangs on its time */
};

static const char PROGRAM[] = "comparison";

static const struct version {
    const char *name;
    compare_function *compare;
} versions[] = {
    {"library", judge_compare},
    {"fast C", fast_compare},
    {"literal C", literal_compare},
};
enum { LIBRARY, FAST, LITERAL, VERSIONS };

/* --- agreement --- */

struct result {
    uint64_t answer;
    uint8_t bytes[LENT];
};

static void ask(const struct question *question, int version, size_t lent, struct result *result)
{
    /* No two neighbours alike, and few 0. */
    for (size_t i = 0; i < LENT; i++)
        result->bytes[i] = (uint8_t)(37 * i + 11);
    result->answer = versions[version].compare(question->input.bytes, question->input.len,
                                               question->a, question->b, result->bytes, lent);
}

static bool same_results(const char *name, int version, const struct result *library,
                         const struct result *other)
{
    size_t byte = 0;

    if (library->answer != other->answer) {
        fprintf(stderr, "comparison: on %s: library %#" PRIx64 ", %s %#" PRIx64 "\n",
                name, library->answer, versions[version].name, other->answer);
        return false;
    }
    while (byte < LENT && library->bytes[byte] == other->bytes[byte])
        byte++;
    if (byte == LENT)
        return true;
    fprintf(stderr, "comparison: on %s: byte %zu: library %d, %s %d\n",
            name, byte, library->bytes[byte], versions[version].name, other->bytes[byte]);
    return false;
}

static bool agree_on(const struct question *question, int last, size_t lent, uint64_t *answer)
{
    struct result library, other;

    ask(question, LIBRARY, lent, &library);
    *answer = library.answer;
    for (int version = FAST; version <= last; version++) {
        ask(question, version, lent, &other);
        if (!same_results(question->input.name, version, &library, &other))
            return false;
    }
    return true;
}

/* Of an accepted vocabulary: the library's answer and bytes are the same in either edition. */
static bool agree_in_editions(const struct question *question, size_t lent)
{
    static struct question other;
    struct result result, other_result;

    other = *question;
    set_edition(&other.input, question->input.bytes[1] == EDITION_1 ? EDITION_2 : EDITION_1);
    ask(question, LIBRARY, lent, &result);
    ask(&other, LIBRARY, lent, &other_result);
    return same_results("the other edition", LIBRARY, &result, &other_result);
}

/* What came up among the random questions. */
struct seen {
    unsigned refused[256], different, equal, empty, rounds, most_rounds;
    struct editions editions;
};

static void note(struct seen *seen, const uint8_t *header, uint64_t answer)
{
    unsigned rounds = (unsigned)(answer >> 42);

    seen->refused[answer & 0xff]++;
    note_edition(&seen->editions, header, answer);
    if ((answer & 0xff) != ACCEPTED)
        return;
    seen->different += answer >> 8 & 1;
    seen->equal += !(answer >> 8 & 1);
    seen->empty += (answer >> 25 & 0x1ffff) == 0;
    seen->rounds += rounds > 1;
    if (rounds > seen->most_rounds)
        seen->most_rounds = rounds;
}

static bool agree_on_random(struct seen *seen)
{
    static struct question question;

    for (int i = 0; i < RANDOM; i++) {
        size_t lent = SURVIVOR_BYTES + below(LENT - SURVIVOR_BYTES + 1);
        uint64_t answer;

        make_random_question(&question);
        if (below(4) == 0)
            damage_question(&question, &lent);
        if (!agree_on(&question, LITERAL, lent, &answer)
            || ((answer & 0xff) == ACCEPTED && !agree_in_editions(&question, lent))) {
            fprintf(stderr, "comparison: this was random question %d\n", i);
            return false;
        }
        note(seen, question.input.bytes, answer);
    }
    return true;
}

static bool print_seen(const struct seen *seen)
{
    static const int refusals[] = {1, 2, 3, 4, 5, 6, 7, 8, BAD_ATOMS, NO_TERM, MANY_ATOMS, SHORT_BUFFER};
    bool editions = print_editions(PROGRAM, &seen->editions);

    printf("Random ones: Different %u, Equal %u, no survivor %u, several rounds %u (at most %u);",
           seen->different, seen->equal, seen->empty, seen->rounds, seen->most_rounds);
    if (!print_refusals(PROGRAM, seen->refused, refusals, sizeof refusals / sizeof *refusals))
        return false;
    if (seen->different && seen->equal && seen->empty && seen->rounds)
        return editions;
    fprintf(stderr, "comparison: some of these answers did not come up\n");
    return false;
}

static bool agree(const struct question *questions, bool quick)
{
    struct seen seen = {0};

    for (int i = 0; i < ALL_QUESTIONS; i++) {
        int last = quick && questions[i].slow ? FAST : LITERAL;
        uint64_t answer;

        if (!agree_on(&questions[i], last, LENT, &answer)
            || !is_expected(PROGRAM, &questions[i].input, answer))
            return false;
    }
    if (!agree_on_random(&seen))
        return false;
    printf("Answers and bytes agree on %d vocabularies%s and on %d random ones.\n",
           ALL_QUESTIONS, quick ? " (walk12 without the literal C)" : "", RANDOM);
    return print_seen(&seen);
}

/* --- time --- */

static volatile uint64_t sink;

static void run(const void *subject, int version, uint64_t calls)
{
    const struct question *question = subject;
    uint8_t buffer[SURVIVOR_BYTES];

    for (uint64_t i = 0; i < calls; i++) {
        /* The bytes may have changed, for all the compiler knows, so that it hoists no call. */
        __asm__ volatile("" : : "r"(question), "r"(buffer) : "memory");
        sink = versions[version].compare(question->input.bytes, question->input.len, question->a,
                                         question->b, buffer, sizeof buffer);
    }
}

static void print_times(const struct question *question)
{
    uint64_t answer = question->input.expected;
    int rounds[VERSIONS] = {
        [LIBRARY] = ROUNDS, [FAST] = ROUNDS, [LITERAL] = question->slow ? 1 : LITERAL_ROUNDS,
    };
    double ns[VERSIONS];

    measure(run, question, rounds, VERSIONS, ns);
    printf("| %s | %zu | %" PRIu64 " | %.4f | %.4f | %.2f | %.3f%s |\n",
           question->input.name, count_of(&question->input), answer >> 42, ns[LIBRARY] / 1e6,
           ns[FAST] / 1e6, ns[LIBRARY] / ns[FAST], ns[LITERAL] / 1e6,
           question->slow ? " (one call)" : "");
    fflush(stdout);
}

static int benchmark(const struct question *questions)
{
    if (!agree(questions, false))
        return 1;
    printf("| input | records | rounds | library, ms a call | fast C, ms a call "
           "| ratio (to reach: 1.50) | literal C, ms a call |\n");
    printf("|---|---:|---:|---:|---:|---:|---:|\n");
    for (int i = 0; i < QUESTIONS; i++)
        print_times(&questions[i]);
    return 0;
}

/* --- instructions --- */

/* bench/comparison.sh counts what happens in here, call by call. */
static __attribute__((noinline)) uint64_t counted(const struct question *question, int version,
                                                  uint8_t *buffer)
{
    return versions[version].compare(question->input.bytes, question->input.len, question->a,
                                     question->b, buffer, SURVIVOR_BYTES);
}

static int count(const struct question *questions)
{
    uint8_t buffer[SURVIVOR_BYTES];

    for (int i = 0; i < ALL_QUESTIONS; i++) {
        const struct question *q = &questions[i];

        for (int v = 0; v < VERSIONS; v++) {
            if (v == LITERAL && q->slow)
                continue;
            if (!is_expected(PROGRAM, &q->input, counted(q, v, buffer)))
                return 1;
            printf("%s|%d|%s\n", q->input.name, q->walk ? 300 : 60, versions[v].name);
        }
    }
    return 0;
}

int main(int argc, char **argv)
{
    static struct question questions[ALL_QUESTIONS];

    if (argc < 2 || argc > 3) {
        fprintf(stderr, "usage: comparison DATA [--agree | --count]\n");
        return 2;
    }
    if (!make_questions(questions, argv[1]))
        return 2;
    if (argc == 2)
        return benchmark(questions);
    if (strcmp(argv[2], "--agree") == 0)
        return agree(questions, true) ? 0 : 1;
    if (strcmp(argv[2], "--count") == 0)
        return count(questions);
    fprintf(stderr, "comparison: unknown option %s\n", argv[2]);
    return 2;
}
