/* Benchmark of the script check: the library beside plain C.
 *
 *   script            compare the answers, then print a table of times
 *   script --agree    compare them only
 *   script --count    make each call once, in `counted`, for counting instructions;
 *                     a line for each call tells which it was
 *
 * Exit status: 0 done, 1 the answers differ, 2 bad usage. */
#include "judge.h"
#include "script_shapes.h"

#include <inttypes.h>
#include <stdio.h>
#include <string.h>

enum {
    RANDOM = 60000, /* half of them damaged */
    DAMAGES = 300   /* of each shape */
};
static const char PROGRAM[] = "script";

static const struct version {
    const char *name;
    script_function *check;
} versions[] = {
    {"library", judge_check_script},
    {"plain C", plain_check_script},
};
enum { LIBRARY, PLAIN, VERSIONS };

static uint64_t ask(const struct proof *proof, int version)
{
    return versions[version].check(proof->input.bytes, proof->input.len, proof->bytes, proof->len);
}

/* --- agreement --- */

/* What came up. */
struct seen {
    unsigned refused[256], repeats;
    struct editions editions;
};

static bool agree_on(const struct proof *proof, struct seen *seen)
{
    uint64_t library = ask(proof, LIBRARY), plain = ask(proof, PLAIN);

    seen->refused[library & 0xff]++;
    note_edition(&seen->editions, proof->input.bytes, library);
    if (library != plain) {
        fprintf(stderr, "scripts: on %s: library %#" PRIx64 ", plain C %#" PRIx64 "\n",
                proof->input.name, library, plain);
        return false;
    }
    return proof->input.expected == UNKNOWN || is_expected(PROGRAM, &proof->input, library);
}

static void damage(struct proof *proof)
{
    damage_proof(proof);
    proof->input.expected = UNKNOWN;
}

static bool agree_on_shapes(const struct proof *shapes, struct seen *seen)
{
    static struct proof damaged;

    for (int i = 0; i < SHAPES; i++) {
        if (!agree_on(&shapes[i], seen))
            return false;
        for (int j = 0; j < DAMAGES; j++) {
            damaged = shapes[i];
            damage(&damaged);
            if (!agree_on(&damaged, seen)) {
                fprintf(stderr, "scripts: this was damage %d\n", j);
                return false;
            }
        }
    }
    return true;
}

static bool agree_on_random(struct seen *seen)
{
    static struct proof proof;

    for (int i = 0; i < RANDOM; i++) {
        make_random_proof(&proof);
        seen->repeats += proof.repeats > 0;
        if (i % 2 == 1)
            damage(&proof);
        if (!agree_on(&proof, seen)) {
            fprintf(stderr, "scripts: this was random script %d\n", i);
            return false;
        }
    }
    return true;
}

static bool agree(const struct proof *shapes)
{
    static const int refusals[] = {1, 2, 3, 4, 5, 6, 7, 8, BAD_ATOMS, NO_TERM, 13, 14, 15, 16, 17, 18, 19,
                                   20, 21, 22, 23, 24, ALL_CLOSED};
    struct seen seen = {0};

    if (!agree_on_shapes(shapes, &seen) || !agree_on_random(&seen))
        return false;
    printf("The answers agree on %d scripts, %d damages of them and %d random ones, "
           "%u of these with repeated terms.\n",
           SHAPES, SHAPES * DAMAGES, RANDOM, seen.repeats);
    bool editions = print_editions(PROGRAM, &seen.editions);

    printf("Accepted: %u;", seen.refused[ACCEPTED]);
    return print_refusals(PROGRAM, seen.refused, refusals, sizeof refusals / sizeof *refusals) && editions;
}

/* --- time --- */

static volatile uint64_t sink;

static void run(const void *subject, int version, uint64_t calls)
{
    const struct proof *proof = subject;

    for (uint64_t i = 0; i < calls; i++) {
        /* The bytes may have changed, for all the compiler knows, so that it hoists no call. */
        __asm__ volatile("" : : "r"(proof) : "memory");
        sink = ask(proof, version);
    }
}

static void print_times(const struct proof *proof)
{
    static const int rounds[VERSIONS] = {ROUNDS, ROUNDS};
    double ns[VERSIONS], bytes = (double)(proof->input.len + proof->len);

    measure(run, proof, rounds, VERSIONS, ns);
    printf("| %s | %u | %u | %.0f | %.0f | %.2f | %.1f | %.2f |\n", proof->input.name, proof->steps,
           proof->frames, ns[LIBRARY], ns[PLAIN], ns[LIBRARY] / ns[PLAIN],
           1e3 * bytes / ns[LIBRARY], 1e3 * proof->steps / ns[LIBRARY]);
    fflush(stdout);
}

static int benchmark(const struct proof *shapes)
{
    if (!agree(shapes))
        return 1;
    printf("| script | steps | frames | library, ns a call | plain C, ns a call "
           "| ratio (to reach: 2.00) | library, MB/s | library, million steps/s |\n");
    printf("|---|---:|---:|---:|---:|---:|---:|---:|\n");
    for (int i = 0; i < SHAPES; i++)
        print_times(&shapes[i]);
    return 0;
}

/* --- instructions --- */

/* bench/script.sh counts what happens in here, call by call. */
static __attribute__((noinline)) uint64_t counted(const struct proof *proof, int version)
{
    return ask(proof, version);
}

static int count(const struct proof *shapes)
{
    for (int i = 0; i < SHAPES; i++) {
        for (int v = 0; v < VERSIONS; v++) {
            if (!is_expected(PROGRAM, &shapes[i].input, counted(&shapes[i], v)))
                return 1;
            printf("%s|%g|%s\n", shapes[i].input.name, shapes[i].reach, versions[v].name);
        }
    }
    return 0;
}

int main(int argc, char **argv)
{
    static struct proof shapes[SHAPES];

    make_shapes(shapes);
    if (argc == 1)
        return benchmark(shapes);
    if (argc == 2 && strcmp(argv[1], "--agree") == 0)
        return agree(shapes) ? 0 : 1;
    if (argc == 2 && strcmp(argv[1], "--count") == 0)
        return count(shapes);
    fprintf(stderr, "usage: scripts [--agree | --count]\n");
    return 2;
}
