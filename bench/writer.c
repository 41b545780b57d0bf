/* Benchmark of the writer: the library beside plain C, and beside the library's vocabulary check alone.
 *
 *   writer            compare the answers and bytes, then print a table of times
 *   writer --agree    compare them only
 *   writer --count    make each call once, in `counted`, for counting instructions;
 *                     a line for each call tells which it was
 *
 * Exit status: 0 done, 1 the answers differ, 2 bad usage. */
#include "judge.h"
#include "writer_additions.h"
#include "writer_plain.h"

#include <inttypes.h>
#include <stdio.h>
#include <string.h>

enum { RANDOM = 40000 };
static const char PROGRAM[] = "writer";

/* The check of the bytes in use that an addition begins with, and nothing else. */
static uint64_t check_for_making(uint8_t *buffer, size_t buffer_len, uint32_t roles)
{
    (void)buffer, (void)buffer_len, (void)roles; /* there are no bytes in use */
    return 0;
}

static uint64_t check_for_term(uint8_t *buffer, size_t buffer_len, size_t used, uint8_t kind, uint16_t a, uint16_t b)
{
    (void)kind, (void)a, (void)b;
    return used > buffer_len ? pack_answer(BAD_LENGTH, 0) : judge_check_vocabulary(buffer, used);
}

static uint64_t check_for_statement(uint8_t *buffer, size_t buffer_len, size_t used, uint16_t a, uint16_t b)
{
    return check_for_term(buffer, buffer_len, used, STATEMENT, a, b);
}

static const struct version {
    const char *name;
    uint64_t (*make)(uint8_t *buffer, size_t buffer_len, uint32_t roles);
    uint64_t (*add_term)(uint8_t *buffer, size_t buffer_len, size_t used, uint8_t kind, uint16_t a, uint16_t b);
    uint64_t (*add_statement)(uint8_t *buffer, size_t buffer_len, size_t used, uint16_t a, uint16_t b);
} versions[] = {
    {"library", judge_make_vocabulary, judge_add_term, judge_add_statement},
    {"plain C", plain_make_vocabulary, plain_add_term, plain_add_statement},
    {"check alone", check_for_making, check_for_term, check_for_statement},
};
enum { LIBRARY, PLAIN, CHECK, VERSIONS };

static inline uint64_t write_one(const struct version *v, uint8_t *buffer, size_t buffer_len, size_t used,
                          const struct addition *added)
{
    switch (added->call) {
    case MAKE: return v->make(buffer, buffer_len, added->roles);
    case ADD_TERM: return v->add_term(buffer, buffer_len, used, added->kind, added->a, added->b);
    default: return v->add_statement(buffer, buffer_len, used, added->a, added->b);
    }
}

static size_t used_after(uint64_t answer, size_t used)
{
    return (answer & 0xff) == ACCEPTED ? (size_t)(answer >> 8) : used;
}

/* --- agreement --- */

/* Bytes as they were before the calls, all others so that no two neighbours are alike. */
static void prefill(uint8_t *buffer, const struct input *before)
{
    for (size_t i = 0; i < ROOM; i++)
        buffer[i] = i < before->len ? before->bytes[i] : (uint8_t)(37 * i + 11);
}

static bool same_bytes(const uint8_t *library, const uint8_t *other, const char *name, size_t len)
{
    size_t byte = 0;

    while (byte < len && library[byte] == other[byte])
        byte++;
    if (byte == len)
        return true;
    fprintf(stderr, "writer: byte %zu: library %d, %s %d\n", byte, library[byte], name, other[byte]);
    return false;
}

/* What came up. A new record is refused at its own number, which no record in use has. */
struct seen {
    unsigned calls, statements, made, raised, in_use[256], added[256];
    struct editions editions;
};

/* `header`: an addition leaves all of it but A and k. */
static void note(struct seen *seen, const struct addition *added, const uint8_t *header, size_t used, uint64_t answer)
{
    unsigned refusal = answer & 0xff;
    bool is_new = refusal >= BAD_KIND && refusal <= BAD_LABEL && answer >> 8 == used / RECORD_BYTES;
    bool is_term = refusal == ACCEPTED && added->call == ADD_TERM;

    seen->calls++;
    seen->statements += refusal == ACCEPTED && added->call == ADD_STATEMENT;
    seen->made += refusal == ACCEPTED && added->call == MAKE;
    seen->raised += is_term && is_atom(added->kind) && header[1] == EDITION_2;
    if (added->call != MAKE)
        note_edition(&seen->editions, header, answer);
    (is_new ? seen->added : seen->in_use)[refusal]++;
}

static bool agree_on(const struct writing *w, struct seen *seen, uint64_t *answer, uint8_t *library)
{
    uint8_t plain[ROOM];
    size_t used = w->before.len;

    prefill(library, &w->before);
    prefill(plain, &w->before);
    for (unsigned i = 0; i < w->additions; i++) {
        uint64_t other = write_one(&versions[PLAIN], plain, w->buffer_len, used, &w->added[i]);

        *answer = write_one(&versions[LIBRARY], library, w->buffer_len, used, &w->added[i]);
        if (*answer != other) {
            fprintf(stderr, "writer: library %#" PRIx64 ", plain C %#" PRIx64 "\n", *answer, other);
            return false;
        }
        if (!same_bytes(library, plain, "plain C", ROOM))
            return false;
        note(seen, &w->added[i], library, used, *answer);
        used = used_after(*answer, used);
    }
    return true;
}

static bool agree_on_writings(const struct writing *writings, struct seen *seen)
{
    for (int i = 0; i < WRITINGS; i++) {
        const struct writing *w = &writings[i];
        uint8_t buffer[ROOM];
        uint64_t answer;

        if (!agree_on(w, seen, &answer, buffer) || !same_bytes(buffer, w->after.bytes, "expected", w->after.len)) {
            fprintf(stderr, "writer: this was %s\n", w->before.name);
            return false;
        }
        if (!is_expected(PROGRAM, &w->before, answer))
            return false;
    }
    return true;
}

static bool agree_on_random(struct seen *seen)
{
    static struct writing w;
    uint8_t buffer[ROOM];
    uint64_t answer;

    for (int i = 0; i < RANDOM; i++) {
        make_random_writing(&w);
        if (!agree_on(&w, seen, &answer, buffer)) {
            fprintf(stderr, "writer: this was random buffer %d\n", i);
            return false;
        }
    }
    return true;
}

static bool print_seen(const struct seen *seen)
{
    static const int of_use[] = {1, 2, 3, 4, 5, 6, 7, 8, NO_ROOM, BAD_ATOMS}, of_new[] = {3, 4, 5, 6, 7};
    bool editions = print_editions(PROGRAM, &seen->editions);

    printf("Accepted: %u calls, %u of them statements, %u empty vocabularies and %u atoms of edition 2;",
           seen->in_use[ACCEPTED], seen->statements, seen->made, seen->raised);
    bool all = print_refusals(PROGRAM, seen->in_use, of_use, sizeof of_use / sizeof *of_use);

    printf("New records");
    return print_refusals(PROGRAM, seen->added, of_new, sizeof of_new / sizeof *of_new) && all && editions && seen->raised;
}

static bool agree(const struct writing *writings)
{
    struct seen seen = {0}, random = {0};

    if (!agree_on_writings(writings, &seen) || !agree_on_random(&random))
        return false;
    printf("The answers and all bytes agree on %u calls of %d inputs, and on %u calls in %d random buffers.\n",
           seen.calls, WRITINGS, random.calls, RANDOM);
    return print_seen(&random);
}

/* --- the calls, as they are measured --- */

/* Puts the next record of a vocabulary that is made from nothing behind the bytes in use, checking nothing. */
static void copy_record(const struct writing *w, uint8_t *buffer, size_t used, size_t *link)
{
    memcpy(buffer + used, w->after.bytes + used, RECORD_BYTES);
    if (buffer[used] == HEADER) {
        *link = 2;
        write_u16(buffer + 6, 0);
    } else if (buffer[used] == STATEMENT) {
        write_u16(buffer + *link, (unsigned)(used / RECORD_BYTES));
        *link = used + 6;
    } else {
        write_u16(buffer + 6, read_u16(buffer + 6) + is_atom(buffer[used]));
        return;
    }
    write_u16(buffer + *link, 0);
}

static __attribute__((noinline)) uint64_t write_whole(const struct writing *w, int version, uint8_t *buffer)
{
    size_t link = 0;
    uint64_t answer = 0;

    for (unsigned i = 0; i < w->additions; i++) {
        size_t used = RECORD_BYTES * i;

        answer = write_one(&versions[version], buffer, w->buffer_len, used, &w->added[i]);
        if (version == CHECK)
            copy_record(w, buffer, used, &link);
    }
    return answer;
}

/* One call, or those that make a whole vocabulary. */
static inline uint64_t write_all(const struct writing *w, int version, uint8_t *buffer)
{
    if (w->additions > 1)
        return write_whole(w, version, buffer);
    return write_one(&versions[version], buffer, w->buffer_len, w->before.len, w->added);
}

/* --- time --- */

static volatile uint64_t sink;
static uint8_t shared[ROOM];

static void run(const void *subject, int version, uint64_t calls)
{
    const struct writing *w = subject;
    size_t changed = RECORD_BYTES * w->changed;

    for (uint64_t i = 0; i < calls; i++) {
        /* The one record in use that a call may have changed; behind them all is written again. */
        memcpy(shared + changed, w->before.bytes + changed, RECORD_BYTES);
        __asm__ volatile("" : : "r"(shared) : "memory");
        sink = write_all(w, version, shared);
    }
}

static void print_times(const struct writing *w)
{
    static const int rounds[VERSIONS] = {ROUNDS, ROUNDS, ROUNDS};
    double ns[VERSIONS];

    memcpy(shared, w->before.bytes, ROOM);
    measure(run, w, rounds, VERSIONS, ns);
    printf("| %s | %u | %.1f | %.1f | %.2f | %.1f |\n", w->before.name, w->additions, ns[LIBRARY], ns[PLAIN],
           ns[LIBRARY] / ns[PLAIN], ns[CHECK]);
    fflush(stdout);
}

static int benchmark(const struct writing *writings)
{
    if (!agree(writings))
        return 1;
    printf("| input | calls | library, ns | plain C, ns | ratio | the library's checks alone, ns |\n");
    printf("|---|---:|---:|---:|---:|---:|\n");
    for (int i = 0; i < WRITINGS; i++)
        print_times(&writings[i]);
    return 0;
}

/* --- instructions --- */

/* bench/writer.sh counts what happens in here. */
static __attribute__((noinline)) uint64_t counted(const struct writing *w, int version)
{
    return write_all(w, version, shared);
}

static int count(const struct writing *writings)
{
    for (int i = 0; i < WRITINGS; i++) {
        for (int v = 0; v < VERSIONS; v++) {
            memcpy(shared, writings[i].before.bytes, ROOM);
            uint64_t answer = counted(&writings[i], v);

            if (v != CHECK && !is_expected(PROGRAM, &writings[i].before, answer))
                return 1;
            printf("%s|0|%s\n", writings[i].before.name, versions[v].name);
        }
    }
    return 0;
}

int main(int argc, char **argv)
{
    static struct writing writings[WRITINGS];

    make_writings(writings);
    if (argc == 1)
        return benchmark(writings);
    if (argc == 2 && strcmp(argv[1], "--agree") == 0)
        return agree(writings) ? 0 : 1;
    if (argc == 2 && strcmp(argv[1], "--count") == 0)
        return count(writings);
    fprintf(stderr, "usage: writer [--agree | --count]\n");
    return 2;
}
